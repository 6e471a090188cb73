/* Known answers of a file, which is its argument, in lists, also by CBC, of many lengths; CBC of a text; and a long list of different
   blocks. It compiles as C and as C++. */
#include "cases.h"

/* A buffer, with bytes before and after its own that must stay. */
struct buffer {
  uint8_t before[16], bytes[8 * LONGEST + 16];
};

enum { PAINT = 0xa5 };

static struct buffer here, there;

static void put(struct buffer *buffer, const uint8_t *bytes, size_t length) {
  memset(buffer, PAINT, sizeof *buffer);
  memcpy(buffer->bytes, bytes, length);
}

static int is_painted(const uint8_t *bytes, size_t count) {
  for (size_t i = 0; i < count; i++)
    if (bytes[i] != PAINT) return 0;
  return 1;
}

static int is(const struct buffer *buffer, const uint8_t *wanted, size_t length) {
  return memcmp(buffer->bytes, wanted, length) == 0 && is_painted(buffer->before, sizeof buffer->before) &&
         is_painted(buffer->bytes + length, sizeof buffer->bytes - length);
}

/* In place and from buffer to buffer, whose input stays. */
static void is_ecb(in_place *in, to_other *to, const union context *context, const uint8_t *from, const uint8_t *answer,
                   size_t length) {
  put(&here, from, length);
  CHECK(in(context, here.bytes, length) == CUKVASHE_OK && is(&here, answer, length));
  put(&here, from, length);
  memset(&there, PAINT, sizeof there);
  CHECK(to(context, here.bytes, there.bytes, length) == CUKVASHE_OK);
  CHECK(is(&here, from, length) && is(&there, answer, length));
}

static void is_cbc(in_place_cbc *in, to_other_cbc *to, const union context *context, const uint8_t first[8],
                   const uint8_t next[8], const uint8_t *from, const uint8_t *answer, size_t length) {
  uint8_t iv[8];
  put(&here, from, length);
  memcpy(iv, first, 8);
  CHECK(in(context, iv, here.bytes, length) == CUKVASHE_OK);
  CHECK(is(&here, answer, length) && memcmp(iv, next, 8) == 0);
  put(&here, from, length);
  memset(&there, PAINT, sizeof there);
  memcpy(iv, first, 8);
  CHECK(to(context, iv, here.bytes, there.bytes, length) == CUKVASHE_OK);
  CHECK(is(&here, from, length) && is(&there, answer, length) && memcmp(iv, next, 8) == 0);
}

static void is_list(const struct path *path, const union context *context, const uint8_t *plain, const uint8_t *answer,
                    size_t length) {
  is_ecb(path->encrypt_ecb, path->encrypt_ecb_to, context, plain, answer, length);
  is_ecb(path->decrypt_ecb, path->decrypt_ecb_to, context, answer, plain, length);
}

static void is_cbc_there_and_back(const struct path *path, const union context *context, const uint8_t iv[8], const uint8_t *plain,
                     const uint8_t *answer, size_t length) {
  const uint8_t *next = length > 0 ? answer + length - 8 : iv;
  is_cbc(path->encrypt_cbc, path->encrypt_cbc_to, context, iv, next, plain, answer, length);
  is_cbc(path->decrypt_cbc, path->decrypt_cbc_to, context, iv, next, answer, plain, length);
}

/* The blocks of a case over and over, `count` in all. By CBC they are what those plaintexts have for answers that are the case's
   plaintexts, each xor the answer before it. */
static void lists_of(const struct known_case *known, const struct path *path, const union context *context, size_t count) {
  static uint8_t plain[8 * LONGEST], answer[8 * LONGEST], by_cbc[8 * LONGEST];
  uint8_t iv[8];
  random_bytes(iv, sizeof iv);
  for (size_t i = 0; i < 8 * count; i++) {
    size_t at = i % (8 * known->count);
    plain[i] = known->plain[at];
    answer[i] = known->answer[at];
    by_cbc[i] = (uint8_t)(plain[i] ^ (i < 8 ? iv[i] : answer[i - 8]));
  }
  is_list(path, context, plain, answer, 8 * count);
  is_cbc_there_and_back(path, context, iv, by_cbc, answer, 8 * count);
}

/* The first block of a case among others, at four places. */
static void is_among_others(const struct known_case *known, const struct path *path, const union context *context) {
  static size_t place = 0;
  const size_t at = place++ % 64, places[4] = {at, 64 + at, 127 - at, 255 - at};
  uint8_t batch[8 * 256], old[8 * 256];
  random_bytes(batch, sizeof batch);
  for (int i = 0; i < 4; i++) memcpy(batch + 8 * places[i], known->plain, 8);
  memcpy(old, batch, sizeof old);
  CHECK(path->encrypt_ecb(context, batch, sizeof batch) == CUKVASHE_OK);
  for (int i = 0; i < 4; i++) CHECK(memcmp(batch + 8 * places[i], known->answer, 8) == 0);
  CHECK(path->decrypt_ecb(context, batch, sizeof batch) == CUKVASHE_OK && memcmp(batch, old, sizeof old) == 0);
}

/* A case by the header's calls from one buffer to another, where both are one. */
static void is_in_one_buffer(const struct known_case *known, const struct path *path, const union context *context) {
  const size_t length = 8 * known->count;
  uint8_t iv[8];
  put(&here, known->plain, length);
  memcpy(iv, known->vector, 8);
  if (known->is_cbc) {
    CHECK(path->encrypt_cbc_to(context, iv, here.bytes, here.bytes, length) == CUKVASHE_OK && is(&here, known->answer, length));
    memcpy(iv, known->vector, 8);
    CHECK(path->decrypt_cbc_to(context, iv, here.bytes, here.bytes, length) == CUKVASHE_OK && is(&here, known->plain, length));
  } else {
    CHECK(path->encrypt_ecb_to(context, here.bytes, here.bytes, length) == CUKVASHE_OK && is(&here, known->answer, length));
    CHECK(path->decrypt_ecb_to(context, here.bytes, here.bytes, length) == CUKVASHE_OK && is(&here, known->plain, length));
  }
}

/* A case by each code path, in lists of each length; those by CBC as they are. A context is its bytes. */
static void is_answered(const struct known_case *known) {
  const struct cipher *cipher = &ciphers[known->cipher];
  union context made, context;
  CHECK(cipher->init(&made, known->key, cipher->key_size) == CUKVASHE_OK);
  memcpy(&context, &made, cipher->context_size);
  memset(&made, PAINT, sizeof made);
  is_in_one_buffer(known, &cipher->paths[PUBLIC_PATH], &context);
  for (int n = 0; n < count_of_paths(); n++) {
    const struct path *path = &cipher->paths[n];
    if (known->is_cbc) {
      is_cbc_there_and_back(path, &context, known->vector, known->plain, known->answer, 8 * known->count);
      continue;
    }
    for (int i = 0; i < COUNTS; i++) lists_of(known, path, &context, counts[i]);
    is_among_others(known, path, &context);
  }
}

static void complement(uint8_t *bytes, size_t count) {
  for (size_t i = 0; i < count; i++) bytes[i] = (uint8_t)~bytes[i];
}

/* A case, and its complement under the complemented key. */
static void answers_case(const struct known_case *known) {
  struct known_case other = *known;
  is_answered(known);
  if (known->is_cbc) return;
  complement(other.key, sizeof other.key);
  complement(other.plain, sizeof other.plain);
  complement(other.answer, sizeof other.answer);
  is_answered(&other);
}

/* NIST Special Publication 800-67, appendix B: the parts of a key, and "The qufck brown fox jump". */
static const uint64_t parts[3] = {0x0123456789abcdef, 0x23456789abcdef01, 0x456789abcdef0123};
static const uint64_t text[3] = {0x5468652071756663, 0x6b2062726f776e20, 0x666f78206a756d70};

/* The text by CBC from the vector of FIPS 81: OpenSSL's answers, of `des-cbc`, `des-ede-cbc` and `des-ede3-cbc`. */
static const uint64_t by_cbc[CIPHERS][3] = {
    {0x6126136e77f27f53, 0xb132c523d7e8ea5f, 0x14b9dbb57f7788b3},
    {0xb0ed7d5e6849dc73, 0xcfb0c1915e64897f, 0x8182f143185f6cf1},
    {0x38413d4ba2325cf1, 0x141f707471ac2ced, 0x57db530f0123b5ac},
};

/* Each prefix of the text, the empty one first, and the whole in two pieces, the second from the vector that the first left. */
static void chains_text(int n) {
  const struct cipher *cipher = &ciphers[n];
  union context context;
  uint8_t key[24], iv[8], left[8], plain[24], answer[24];
  put_words(key, parts, 3);
  put_words(plain, text, 3);
  put_words(answer, by_cbc[n], 3);
  put_word(iv, 0x1234567890abcdef);
  CHECK(cipher->init(&context, key, cipher->key_size) == CUKVASHE_OK);
  for (int path = 0; path < count_of_paths(); path++)
    for (size_t count = 0; count <= 3; count++) {
      is_cbc_there_and_back(&cipher->paths[path], &context, iv, plain, answer, 8 * count);
      memcpy(left, count > 0 ? answer + 8 * count - 8 : iv, 8);
      is_cbc_there_and_back(&cipher->paths[path], &context, left, plain + 8 * count, answer + 8 * count, 24 - 8 * count);
    }
}

/* Blocks 0, 127, 128 and 129 of a list. */
static int are_at_places(const uint8_t *list, const uint64_t words[4]) {
  uint8_t wanted[32];
  put_words(wanted, words, 4);
  return memcmp(list, wanted, 8) == 0 && memcmp(list + 8 * 127, wanted + 8, 24) == 0;
}

/* A list of 130 blocks, of which block n, from 0, has eight times the byte n. With K the digits of the key, the answers are
   OpenSSL's: openssl enc -des-ede3-ecb -nopad -K K, and openssl enc -d -des-ede3-cbc -nopad -K K -iv 1234567890abcdef */
static void answers_different_blocks(void) {
  const uint64_t encrypted[4] = {0x4eba739c998bcb60, 0xfcb911fa2159ab0c, 0xddb2e8a38329dc6a, 0x5d95ee9f30751714};
  const uint64_t read[4] = {0x36878b269aebf11a, 0xf534a16e456e2cd1, 0xe414de591c59b241, 0x9d8ae2f3ff6cf7c5};
  const struct cipher *cipher = &ciphers[EDE3];
  union context context;
  uint8_t key[24], iv[8], list[8 * 130], blocks[8 * 130];
  for (size_t i = 0; i < sizeof list; i++) list[i] = (uint8_t)(i / 8);
  put_words(key, parts, 3);
  CHECK(cipher->init(&context, key, cipher->key_size) == CUKVASHE_OK);
  for (int n = 0; n < count_of_paths(); n++) {
    const struct path *path = &cipher->paths[n];
    CHECK(path->encrypt_ecb_to(&context, list, blocks, sizeof blocks) == CUKVASHE_OK && are_at_places(blocks, encrypted));
    CHECK(path->decrypt_ecb(&context, blocks, sizeof blocks) == CUKVASHE_OK && memcmp(blocks, list, sizeof list) == 0);
    put_word(iv, 0x1234567890abcdef);
    CHECK(path->decrypt_cbc(&context, iv, blocks, sizeof blocks) == CUKVASHE_OK && are_at_places(blocks, read));
    put_word(iv, 0x1234567890abcdef);
    CHECK(path->decrypt_cbc_to(&context, iv, list, blocks, sizeof blocks) == CUKVASHE_OK && are_at_places(blocks, read));
  }
}

int main(int count, char **words) {
  CHECK(count == 2);
  int cases = each_case(words[1], answers_case);
  answers_different_blocks();
  for (int cipher = 0; cipher < CIPHERS; cipher++) chains_text(cipher);
  printf("known answers: %d of the file, each in lists and by CBC of %d lengths, by %d of %d code paths\n", cases, (int)COUNTS,
         count_of_paths(), (int)MOST_PATHS);
  return 0;
}
