/* The weak key test, odd parity, and keys that are equal but for parity. */
#include "check.h"

/* NIST Special Publication 800-67, appendix B: the parts of a key. */
static const uint64_t published[3] = {0x0123456789abcdef, 0x23456789abcdef01, 0x456789abcdef0123};

/* The weak and the semi-weak keys of NBS Special Publication 500-20. */
static const uint64_t weak_keys[16] = {
    0x0101010101010101, 0xfefefefefefefefe, 0xe0e0e0e0f1f1f1f1, 0x1f1f1f1f0e0e0e0e,
    0x011f011f010e010e, 0x1f011f010e010e01, 0x01e001e001f101f1, 0xe001e001f101f101,
    0x01fe01fe01fe01fe, 0xfe01fe01fe01fe01, 0x1fe01fe00ef10ef1, 0xe01fe01ff10ef10e,
    0x1ffe1ffe0efe0efe, 0xfe1ffe1ffe0efe0e, 0xe0fee0fef1fef1fe, 0xfee0fee0fef1fef1,
};

static int refuses(const uint64_t *key, size_t parts) {
  uint8_t bytes[24];
  put_words(bytes, key, parts);
  int status = cukvashe_weak_key_test(bytes, 8 * parts);
  CHECK(status == CUKVASHE_OK || status == CUKVASHE_ERR_WEAK_KEY);
  return status == CUKVASHE_ERR_WEAK_KEY;
}

static int refuses_one(uint64_t key) { return refuses(&key, 1); }

static int refuses_two(uint64_t first, uint64_t second) {
  const uint64_t key[2] = {first, second};
  return refuses(key, 2);
}

static int refuses_three(uint64_t first, uint64_t second, uint64_t third) {
  const uint64_t key[3] = {first, second, third};
  return refuses(key, 3);
}

/* Keys that are not listed, and one that differs from the first in its eight parity bits alone. */
static const uint64_t A = 0x0102030405060708, B = 0x1112131415161718, C = 0x2122232425262728, TWIN_OF_A = 0x0003020504070609;

/* The weak key test: published keys, keys of no parity, other keys, equal parts, and lengths. */
static void tests_keys(void) {
  uint8_t key[34];
  for (int i = 0; i < 16; i++) CHECK(refuses_one(weak_keys[i]));
  CHECK(refuses_one(0) && !refuses_one(0x133457799bbcdff1) && !refuses_one(0x0101011f0101010e));
  CHECK(refuses_two(weak_keys[0], 0) && refuses_two(0, weak_keys[1]) && refuses_two(0, weak_keys[2]));
  CHECK(refuses_three(weak_keys[0], 0, 0) && refuses_three(0, weak_keys[1], 0) && refuses_three(0, 0, weak_keys[2]));
  CHECK(!refuses_two(A, B) && !refuses_three(A, B, C) && !refuses(published, 3));
  CHECK(refuses_two(0x0202020202020202, 0x0303030303030303));
  CHECK(refuses_two(0x133457799bbcdff1, 0x123556789abddef0) && !refuses_two(0x123556789abddef0, 0x0123456789abcdef));
  CHECK(refuses_two(A, A) && refuses_two(A, TWIN_OF_A));
  CHECK(refuses_three(A, A, B) && refuses_three(A, B, A) && refuses_three(B, A, A) && refuses_three(A, A, A));
  CHECK(refuses_three(A, TWIN_OF_A, B) && refuses_three(A, B, TWIN_OF_A) && refuses_three(B, A, TWIN_OF_A));
  CHECK(refuses_three(TWIN_OF_A, A, B) && refuses_three(TWIN_OF_A, B, A) && refuses_three(B, TWIN_OF_A, A));
  CHECK(cukvashe_weak_key_test(NULL, 0) == CUKVASHE_ERR_KEY_LENGTH);
  random_bytes(key, sizeof key);
  for (size_t length = 0; length <= 33; length++)
    if (length != 8 && length != 16 && length != 24) CHECK(cukvashe_weak_key_test(key, length) == CUKVASHE_ERR_KEY_LENGTH);
}

/* The key of odd parity whose halves C and D repeat these four bits each, by permuted choice 1 of FIPS 46-3. */
static uint64_t repeating_key(int c, int d) {
  uint8_t key[8];
  uint64_t word = 0;
  for (int i = 0; i < 8; i++) {
    int c_bit = c >> (3 - i % 4) & 1, d_bit = d >> (3 - i % 4) & 1;
    key[7 - i] = (uint8_t)(i < 4 ? c_bit * 0xf0 + d_bit * 0x0e : c_bit * 0xe0 + d_bit * 0x1e);
  }
  cukvashe_set_odd_parity(key, sizeof key);
  for (int i = 0; i < 8; i++) word = word << 8 | key[i];
  return word;
}

/* Whether four bits, rotated left by two, are themselves or their complement: so repeat the halves of listed keys. */
static int is_listed_half(int bits) {
  int rotated = (bits << 2 | bits >> 2) & 15;
  return rotated == bits || rotated == (bits ^ 15);
}

/* Whether two keys agree but for parity, in either order. */
static int are_equal(uint64_t first, uint64_t second) {
  uint8_t one[8], other[8];
  put_word(one, first);
  put_word(other, second);
  CHECK(cukvashe_equal_but_parity(one, other, 8) == cukvashe_equal_but_parity(other, one, 8));
  return cukvashe_equal_but_parity(one, other, 8);
}

/* A listed key in each place, and with each bit flipped: it is refused still where that is a parity bit, and else not. */
static void refuses_listed(uint64_t key) {
  CHECK(refuses_one(key) && refuses_two(key, A) && refuses_two(B, key));
  CHECK(refuses_three(key, A, B) && refuses_three(A, key, B) && refuses_three(A, B, key));
  for (int bit = 0; bit < 64; bit++) CHECK(refuses_one(key ^ (uint64_t)1 << bit) == (bit % 8 == 0));
}

/* Of the 256 keys whose halves repeat every four bits the 64 listed ones are refused. Bits count, but for those of parity. */
static void tests_listed_keys(void) {
  int listed = 0;
  for (int c = 0; c < 16; c++)
    for (int d = 0; d < 16; d++)
      if (is_listed_half(c) && is_listed_half(d)) {
        refuses_listed(repeating_key(c, d));
        listed++;
      } else {
        CHECK(!refuses_one(repeating_key(c, d)));
      }
  CHECK(listed == 64);
  CHECK(are_equal(A, TWIN_OF_A) && are_equal(0x133457799bbcdff1, 0x123556789abddef0) && !are_equal(A, B));
  for (int bit = 0; bit < 64; bit++) {
    CHECK(are_equal(0, (uint64_t)1 << bit) == (bit % 8 == 0));
    CHECK(refuses_two(A, A ^ (uint64_t)1 << bit) == (bit % 8 == 0));
  }
}

/* Keys and the same with odd parity: the worked example's, as it is and with each lowest bit turned, and of no bit and all. */
static void sets_odd_parity(uint64_t key, uint64_t odd) {
  uint8_t bytes[8], wanted[8];
  put_word(bytes, key);
  put_word(wanted, odd);
  cukvashe_set_odd_parity(bytes, sizeof bytes);
  CHECK(memcmp(bytes, wanted, sizeof bytes) == 0);
}

static void sets_parity(void) {
  sets_odd_parity(0x0001feff02038081, 0x0101fefe02028080);
  sets_odd_parity(0x0000000000000000, 0x0101010101010101);
  sets_odd_parity(0xffffffffffffffff, 0xfefefefefefefefe);
  sets_odd_parity(0x133457799bbcdff1, 0x133457799bbcdff1);
  sets_odd_parity(0x123556789abddef0, 0x133457799bbcdff1);
}

static int ones_of(uint8_t byte) {
  int ones = 0;
  for (; byte; byte = (uint8_t)(byte >> 1)) ones += byte & 1;
  return ones;
}

/* Bytes of every length, and those after them, which stay. In whole parts of 8 bytes, one bit at any place but the lowest of a byte
   makes a difference; other bytes are no keys, and so equal to none. */
static void takes_every_length(void) {
  uint8_t old[40], key[40];
  for (size_t length = 0; length <= 33; length++) {
    random_bytes(old, sizeof old);
    memcpy(key, old, sizeof key);
    cukvashe_set_odd_parity(key, length);
    for (size_t i = 0; i < length; i++) CHECK(ones_of(key[i]) % 2 == 1 && (key[i] | 1) == (old[i] | 1));
    CHECK(memcmp(key + length, old + length, sizeof key - length) == 0);
    CHECK(cukvashe_equal_but_parity(key, old, length) == (length % 8 == 0));
    for (size_t bit = 0; bit < 8 * sizeof key; bit++) {
      key[bit / 8] ^= (uint8_t)(1 << bit % 8);
      CHECK(cukvashe_equal_but_parity(key, old, length) == (length % 8 == 0 && (bit >= 8 * length || bit % 8 == 0)));
      key[bit / 8] ^= (uint8_t)(1 << bit % 8);
    }
  }
  cukvashe_set_odd_parity(NULL, 0);
  CHECK(cukvashe_equal_but_parity(NULL, NULL, 0));
}

int main(void) {
  tests_keys();
  tests_listed_keys();
  sets_parity();
  takes_every_length();
  printf("keys: weak keys, parity\n");
  return 0;
}
