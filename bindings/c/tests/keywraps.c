/* Key wraps: keys of each length, under protection keys of both, and what is refused: other lengths, small buffers, those that overlap,
   each changed bit and another protection key. Nothing after a result is written, and zeros stand where a refused key would. Known calls
   are in known.c. */
#include "check.h"

enum { MOST = 44, BUFFER_SIZE = 80, CAPACITY = 40, PAINT = 0x77 };

typedef int unwrap(const uint8_t *protection, size_t protection_length, const uint8_t *wrapped, size_t wrapped_length, uint8_t *key,
                   size_t capacity, size_t *key_length);

static const uint8_t iv[8] = {1, 2, 3, 4, 5, 6, 7, 8};

static int cms_wrap(const uint8_t *protection, size_t protection_length, const uint8_t *key, size_t key_length, uint8_t *wrapped,
                    size_t capacity, size_t *wrapped_length) {
  return cukvashe_cms_wrap_key(protection, protection_length, iv, key, key_length, wrapped, capacity, wrapped_length);
}

/* A key wrap: how many bytes longer what it makes is, of which number the lengths are multiples, and what it returns of other keys. */
static const struct wrap {
  unwrap *wrap, *unwrap;
  size_t more, unit;
  int other_length;
} wraps[] = {{cms_wrap, cukvashe_cms_unwrap_key, 16, 8, CUKVASHE_ERR_BLOCKS},
             {cukvashe_tkw_wrap_key, cukvashe_tkw_unwrap_key, 4, 4, CUKVASHE_ERR_KEY_LENGTH}};

static bool is_filled(const uint8_t *bytes, size_t count, uint8_t byte) {
  for (size_t i = 0; i < count; i++)
    if (bytes[i] != byte) return false;
  return true;
}

static bool has_length(const struct wrap *by, size_t length) { return length >= 8 && length % by->unit == 0; }

/* Nothing is changed. */
static void refused(unwrap *call, const uint8_t *protection, size_t protection_length, const uint8_t *given, size_t length, size_t capacity,
                    int wanted) {
  uint8_t made[BUFFER_SIZE];
  size_t made_length = PAINT;
  memset(made, PAINT, sizeof made);
  CHECK(call(protection, protection_length, given, length, made, capacity, &made_length) == wanted);
  CHECK(made_length == PAINT && is_filled(made, sizeof made, PAINT));
}

/* Zeros stand where the key would, and the length stays. */
static void is_no_key(const struct wrap *by, const uint8_t *protection, size_t protection_length, const uint8_t *wrapped, size_t length) {
  uint8_t key[BUFFER_SIZE];
  size_t key_length = PAINT;
  memset(key, PAINT, sizeof key);
  CHECK(by->unwrap(protection, protection_length, wrapped, length, key, sizeof key, &key_length) == CUKVASHE_ERR_WRAPPED_KEY);
  CHECK(key_length == PAINT && is_filled(key, length - by->more, 0));
  CHECK(is_filled(key + length - by->more, sizeof key - length + by->more, PAINT));
}

/* Every capacity that is large enough, and every one that is not. */
static void takes_capacity(unwrap *call, const uint8_t *protection, size_t protection_length, const uint8_t *given, size_t length,
                           const uint8_t *wanted, size_t size) {
  for (size_t capacity = 0; capacity <= BUFFER_SIZE; capacity++) {
    uint8_t made[BUFFER_SIZE];
    size_t made_length = PAINT;
    if (capacity < size) {
      refused(call, protection, protection_length, given, length, capacity, CUKVASHE_ERR_CAPACITY);
      continue;
    }
    memset(made, PAINT, sizeof made);
    CHECK(call(protection, protection_length, given, length, made, capacity, &made_length) == CUKVASHE_OK);
    CHECK(made_length == size && memcmp(made, wanted, size) == 0 && is_filled(made + size, sizeof made - size, PAINT));
  }
}

static void wraps_key(const struct wrap *by, size_t protection_length, size_t length) {
  uint8_t protection[24], other[24], key[BUFFER_SIZE], wrapped[BUFFER_SIZE];
  const size_t size = length + by->more;
  size_t made = 0;
  random_bytes(protection, sizeof protection);
  random_bytes(key, sizeof key);
  CHECK(by->wrap(protection, protection_length, key, length, wrapped, sizeof wrapped, &made) == CUKVASHE_OK && made == size);
  takes_capacity(by->wrap, protection, protection_length, key, length, wrapped, size);
  takes_capacity(by->unwrap, protection, protection_length, wrapped, size, key, length);
  for (size_t bit = 0; bit < 8 * size; bit++) {
    wrapped[bit / 8] ^= (uint8_t)(1 << bit % 8);
    is_no_key(by, protection, protection_length, wrapped, size);
    wrapped[bit / 8] ^= (uint8_t)(1 << bit % 8);
  }
  memcpy(other, protection, sizeof other);
  other[0] ^= 2;
  is_no_key(by, other, protection_length, wrapped, size);
}

static void takes_lengths(const struct wrap *by) {
  uint8_t protection[MOST], given[MOST + 16];
  random_bytes(protection, sizeof protection);
  random_bytes(given, sizeof given);
  for (size_t length = 0; length <= MOST; length++)
    if (length != 16 && length != 24) {
      refused(by->wrap, protection, length, given, 24, BUFFER_SIZE, CUKVASHE_ERR_PROTECTION_KEY_LENGTH);
      refused(by->unwrap, protection, length, given, 24, BUFFER_SIZE, CUKVASHE_ERR_PROTECTION_KEY_LENGTH);
    }
  for (size_t protection_length = 16; protection_length <= 24; protection_length += 8)
    for (size_t length = 0; length <= MOST; length++) {
      if (has_length(by, length)) {
        wraps_key(by, protection_length, length);
        continue;
      }
      refused(by->wrap, protection, protection_length, given, length, BUFFER_SIZE, by->other_length);
      refused(by->unwrap, protection, protection_length, given, length + by->more, BUFFER_SIZE, CUKVASHE_ERR_WRAPPED_LENGTH);
    }
  for (size_t length = 0; length < 8 + by->more; length++)
    refused(by->unwrap, protection, 24, given, length, BUFFER_SIZE, CUKVASHE_ERR_WRAPPED_LENGTH);
  refused(by->wrap, NULL, 0, NULL, 0, 0, CUKVASHE_ERR_PROTECTION_KEY_LENGTH);
  refused(by->wrap, protection, 16, NULL, 0, 0, by->other_length);
  refused(by->unwrap, protection, 16, NULL, 0, 0, CUKVASHE_ERR_WRAPPED_LENGTH);
}

/* TKW takes fewer than 2^28 semiblocks. Nothing is read of more. */
static void refuses_long_keys(void) {
  const uint8_t protection[16] = {0}, given[1] = {0};
  refused(cukvashe_tkw_wrap_key, protection, 16, given, (size_t)1 << 30, 0, CUKVASHE_ERR_KEY_LENGTH);
  refused(cukvashe_tkw_wrap_key, protection, 16, given, ((size_t)1 << 30) - 4, 0, CUKVASHE_ERR_CAPACITY);
  refused(cukvashe_tkw_unwrap_key, protection, 16, given, ((size_t)1 << 30) + 4, 0, CUKVASHE_ERR_WRAPPED_LENGTH);
  refused(cukvashe_tkw_unwrap_key, protection, 16, given, (size_t)1 << 30, 0, CUKVASHE_ERR_CAPACITY);
}

/* What is written lies before what is read, or after it. If they share a byte, nothing is changed. */
static void takes_buffers_apart(unwrap *call, const uint8_t *protection, const uint8_t *given, size_t length) {
  for (size_t at = 0; at <= CAPACITY + length; at++) {
    const bool are_apart = at == 0 || at == CAPACITY + length;
    uint8_t buffer[3 * CAPACITY] = {0}, before[3 * CAPACITY];
    size_t made_length = PAINT;
    memcpy(buffer + CAPACITY, given, length);
    memcpy(before, buffer, sizeof buffer);
    CHECK(call(protection, 24, buffer + CAPACITY, length, buffer + at, CAPACITY, &made_length) ==
          (are_apart ? CUKVASHE_OK : CUKVASHE_ERR_OVERLAP));
    CHECK(are_apart || (made_length == PAINT && memcmp(buffer, before, sizeof buffer) == 0));
  }
}

static void refuses_overlap(const struct wrap *by) {
  uint8_t protection[24], key[24], wrapped[CAPACITY];
  size_t length;
  random_bytes(protection, sizeof protection);
  random_bytes(key, sizeof key);
  CHECK(by->wrap(protection, sizeof protection, key, sizeof key, wrapped, sizeof wrapped, &length) == CUKVASHE_OK);
  takes_buffers_apart(by->wrap, protection, key, sizeof key);
  takes_buffers_apart(by->unwrap, protection, wrapped, length);
}

int main(void) {
  for (size_t i = 0; i < sizeof wraps / sizeof *wraps; i++) {
    takes_lengths(&wraps[i]);
    refuses_overlap(&wraps[i]);
  }
  refuses_long_keys();
  printf("keywraps: both key wraps, lengths up to %d, capacities up to %d, every changed bit\n", MOST, BUFFER_SIZE);
  return 0;
}
