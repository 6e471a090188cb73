/* The modes without padding, by each cipher and code path: known answers in one call and in pieces, bits, parts of CTR, and what is
   refused. */
#include "check.h"

static const uint8_t text[] = "Now is the time for all ", iv[] = {0x12, 0x34, 0x56, 0x78, 0x90, 0xab, 0xcd, 0xef};
static const uint8_t key[] = {0x01, 0x23, 0x45, 0x67, 0x89, 0xab, 0xcd, 0xef, 0x23, 0x45, 0x67, 0x89,
                              0xab, 0xcd, 0xef, 0x01, 0x45, 0x67, 0x89, 0xab, 0xcd, 0xef, 0x01, 0x23};

enum { SIZE = sizeof text - 1 };

/* The text under the key. FIPS 81, appendices C and D, has the beginnings of those of DES, but for CTR. By OpenSSL's legacy provider are those
   of OFB, and of CFB of 1, 8 and 64 bits; by PyCryptodome those of other segments, and of CTR. */
static const struct answer {
  int cipher, mode;
  const char *digits;
} answers[] = {
    {DES, CUKVASHE_CFB1, "cd1ec959add480f11ee40c517f29fb52b282946f94765a13"},
    {DES, CUKVASHE_CFB8, "f31fda07011462ee187f43d80a7cd9b5b0d290da6e5b9a87"},
    {DES, CUKVASHE_CFB1 + 2, "f30987877f57f73c36b6db70d8d53419d386b223b7b2ad1b"},
    {DES, CUKVASHE_CFB1 + 3, "f30962ebbf1b67e2a4a1b13d89e344cc3a73594ca51cdbcc"},
    {DES, CUKVASHE_CFB1 + 4, "f3096249a4dfa49f33dc7bad4cc89f64e453e5ec6720dab6"},
    {DES, CUKVASHE_CFB1 + 5, "f3096249c700e660f119a5e3f1a0b9616d95caf6a63b3b91"},
    {DES, CUKVASHE_CFB1 + 6, "f3096249c7f430b515ecbb85975a138c6860e238343cdc1f"},
    {DES, CUKVASHE_CFB1 + 7, "f3096249c7f46e2ffbe95513a4c95aa7ac612162525a04b2"},
    {DES, CUKVASHE_CFB64, "f3096249c7f46e51a69e839b1a92f78403467133898ea622"},
    {DES, CUKVASHE_OFB, "f3096249c7f46e5135f24a242eeb3d3f3d6d5be3255af8c3"},
    {DES, CUKVASHE_CTR, "f3096249c7f46e51163a8ca0ffc94c27fa2f80f480b86f75"},
};

static uint8_t data[SIZE];

static void read_digits(uint8_t *bytes, const char *digits) {
  for (size_t i = 0; i < SIZE; i++) {
    unsigned byte;
    CHECK(sscanf(digits + 2 * i, "%2x", &byte) == 1);
    bytes[i] = (uint8_t)byte;
  }
}

/* By one call, and cut at each place into two pieces, encrypted and decrypted. A cut text is the beginning. */
static void is_known(const struct path *path, const union context *context, int mode, const uint8_t *wanted) {
  cukvashe_stream stream;
  for (size_t length = 0; length <= SIZE; length++) {
    memcpy(data, text, SIZE);
    CHECK(path->encrypt_mode(context, mode, iv, data, length) == CUKVASHE_OK);
    CHECK(memcmp(data, wanted, length) == 0 && memcmp(data + length, text + length, SIZE - length) == 0);
    CHECK(path->decrypt_mode(context, mode, iv, data, length) == CUKVASHE_OK && memcmp(data, text, SIZE) == 0);
    CHECK(cukvashe_stream_begin(&stream, mode, iv) == CUKVASHE_OK);
    CHECK(path->encrypt_stream(context, &stream, data, length) == CUKVASHE_OK);
    CHECK(path->encrypt_stream(context, &stream, data + length, SIZE - length) == CUKVASHE_OK);
    CHECK(memcmp(data, wanted, SIZE) == 0);
    CHECK(cukvashe_stream_begin(&stream, mode, iv) == CUKVASHE_OK);
    CHECK(path->decrypt_stream(context, &stream, data, length) == CUKVASHE_OK);
    CHECK(path->decrypt_stream(context, &stream, data + length, SIZE - length) == CUKVASHE_OK);
    CHECK(memcmp(data, text, SIZE) == 0);
  }
}

/* In CTR from each block on, without what stands before it. */
static void is_read_in_parts(const struct path *path, const union context *context, const uint8_t *wanted) {
  cukvashe_stream stream;
  for (size_t block = 0; 8 * block < SIZE; block++) {
    memcpy(data, wanted, SIZE);
    cukvashe_stream_begin_ctr_at(&stream, iv, block);
    CHECK(path->decrypt_stream(context, &stream, data + 8 * block, SIZE - 8 * block) == CUKVASHE_OK);
    CHECK(memcmp(data, wanted, 8 * block) == 0 && memcmp(data + 8 * block, text + 8 * block, SIZE - 8 * block) == 0);
  }
}

/* Whether the first bits are those of one, and the others those of the other. */
static int is_joined(const uint8_t *bytes, const uint8_t *first, const uint8_t *other, size_t bits) {
  for (size_t i = 0; i < 8 * SIZE; i++)
    if (((bytes[i / 8] ^ (i < bits ? first : other)[i / 8]) >> (7 - i % 8) & 1) != 0) return 0;
  return 1;
}

/* Some bits of CFB1, and the next bytes after whole ones. */
static void are_known_bits(const struct cipher *cipher, const union context *context, const uint8_t *wanted) {
  cukvashe_stream stream;
  for (size_t bits = 0; bits <= 8 * SIZE; bits++) {
    const size_t whole = bits / 8;
    memcpy(data, text, SIZE);
    CHECK(cukvashe_stream_begin(&stream, CUKVASHE_CFB1, iv) == CUKVASHE_OK);
    CHECK(cipher->encrypt_bits(context, &stream, data, bits) == CUKVASHE_OK && is_joined(data, wanted, text, bits));
    CHECK(cukvashe_stream_begin(&stream, CUKVASHE_CFB1, iv) == CUKVASHE_OK);
    CHECK(cipher->decrypt_bits(context, &stream, data, bits) == CUKVASHE_OK && memcmp(data, text, SIZE) == 0);
    if (bits % 8 != 0) continue;
    memcpy(data, wanted, SIZE);
    CHECK(cipher->paths[PUBLIC_PATH].decrypt_stream(context, &stream, data + whole, SIZE - whole) == CUKVASHE_OK);
    CHECK(is_joined(data, wanted, text, bits));
  }
}

/* Bit by bit, where a byte holds one. */
static void goes_bit_by_bit(const struct cipher *cipher, const union context *context, const uint8_t *wanted) {
  cukvashe_stream stream;
  CHECK(cukvashe_stream_begin(&stream, CUKVASHE_CFB1, iv) == CUKVASHE_OK);
  for (size_t i = 0; i < 8 * SIZE; i++) {
    uint8_t bit = (uint8_t)(text[i / 8] << i % 8 & 0x80);
    CHECK(cipher->encrypt_bits(context, &stream, &bit, 1) == CUKVASHE_OK && bit == (wanted[i / 8] << i % 8 & 0x80));
  }
}

static void is_answer(const struct answer *known) {
  const struct cipher *cipher = &ciphers[known->cipher];
  union context context[2];
  uint8_t wanted[SIZE];
  read_digits(wanted, known->digits);
  CHECK(cipher->init(&context[0], key, cipher->key_size) == CUKVASHE_OK);
  CHECK(cipher->init_no_tables(&context[1], key, cipher->key_size) == CUKVASHE_OK);
  for (int n = 0; n < 2; n++) {
    for (int path = 0; path < count_of_paths(); path++) {
      is_known(&cipher->paths[path], &context[n], known->mode, wanted);
      if (known->mode == CUKVASHE_CTR) is_read_in_parts(&cipher->paths[path], &context[n], wanted);
    }
    if (known->mode == CUKVASHE_CFB1) {
      are_known_bits(cipher, &context[n], wanted);
      goes_bit_by_bit(cipher, &context[n], wanted);
    }
  }
}

/* A counter that wraps: the block of zeros comes after that of ones. */
static void wraps(void) {
  static const uint8_t last[] = {0xff, 0xff, 0xff, 0xff, 0xff, 0xff, 0xff, 0xff};
  const struct cipher *cipher = &ciphers[EDE3];
  union context context;
  uint8_t blocks[16] = {0}, wanted[16] = {0};
  CHECK(cipher->init(&context, key, cipher->key_size) == CUKVASHE_OK);
  memcpy(wanted, last, sizeof last);
  CHECK(cipher->paths[PUBLIC_PATH].encrypt_ecb(&context, wanted, sizeof wanted) == CUKVASHE_OK);
  CHECK(cipher->paths[PUBLIC_PATH].encrypt_mode(&context, CUKVASHE_CTR, last, blocks, sizeof blocks) == CUKVASHE_OK);
  CHECK(memcmp(blocks, wanted, sizeof blocks) == 0);
  cukvashe_stream stream;
  cukvashe_stream_begin_ctr_at(&stream, last, UINT64_MAX);
  memset(blocks, 0, sizeof blocks);
  CHECK(cipher->paths[PUBLIC_PATH].encrypt_stream(&context, &stream, blocks + 8, 8) == CUKVASHE_OK);
  memcpy(wanted, last, sizeof last);
  wanted[7] = 0xfe;
  CHECK(cipher->paths[PUBLIC_PATH].encrypt_mode(&context, CUKVASHE_CTR, wanted, blocks, 8) == CUKVASHE_OK);
  CHECK(memcmp(blocks, blocks + 8, 8) == 0);
}

/* Where a stream stands: the bytes before the last segment and how many bytes of the block are used. */
static void stands(void) {
  static const int modes[] = {CUKVASHE_CTR, CUKVASHE_OFB, CUKVASHE_CFB8, CUKVASHE_CFB64};
  const struct path *path = &ciphers[DES].paths[PUBLIC_PATH];
  union context context;
  CHECK(ciphers[DES].init(&context, key, 8) == CUKVASHE_OK);
  for (size_t n = 0; n < sizeof modes / sizeof *modes; n++) {
    for (size_t length = 0; length <= SIZE; length++) {
      cukvashe_stream stream;
      uint8_t at[8], rest[SIZE];
      size_t used;
      CHECK(cukvashe_stream_begin(&stream, modes[n], iv) == CUKVASHE_OK);
      memcpy(data, text, SIZE);
      CHECK(path->encrypt_stream(&context, &stream, data, length) == CUKVASHE_OK);
      cukvashe_stream_position(&stream, at, &used);
      CHECK(used == (modes[n] == CUKVASHE_CFB8 ? 0 : length % 8));
      if (used != 0) continue;
      memcpy(rest, data, SIZE);
      CHECK(path->encrypt_stream(&context, &stream, data + length, SIZE - length) == CUKVASHE_OK);
      CHECK(path->encrypt_mode(&context, modes[n], at, rest + length, SIZE - length) == CUKVASHE_OK);
      CHECK(memcmp(data, rest, SIZE) == 0);
    }
  }
}

/* What is refused changes nothing: words that are no stream, other modes, and contexts that no init made. */
static void refuses(const struct cipher *cipher) {
  static const int others[] = {INT32_MIN, -1, 0, 1, 30, 33, 39, 49, 11, 21, INT32_MAX};
  const cukvashe_stream none = {{0, 0, 0, 0}};
  union context context, unmade;
  cukvashe_stream stream, before;
  memset(&unmade, 0, sizeof unmade);
  CHECK(cipher->init(&context, key, cipher->key_size) == CUKVASHE_OK);
  CHECK(cukvashe_stream_begin(&stream, CUKVASHE_OFB, iv) == CUKVASHE_OK);
  before = stream;
  memcpy(data, text, SIZE);
  for (size_t n = 0; n < sizeof others / sizeof *others; n++) {
    CHECK(cukvashe_stream_begin(&stream, others[n], iv) == CUKVASHE_ERR_MODE && memcmp(&stream, &before, sizeof stream) == 0);
    for (int path = 0; path < count_of_paths(); path++) {
      CHECK(cipher->paths[path].encrypt_mode(&context, others[n], iv, data, SIZE) == CUKVASHE_ERR_MODE);
      CHECK(cipher->paths[path].decrypt_mode(&context, others[n], iv, data, SIZE) == CUKVASHE_ERR_MODE);
      CHECK(cipher->paths[path].encrypt_mode(&unmade, others[n], iv, data, SIZE) == CUKVASHE_ERR_CONTEXT);
    }
  }
  CHECK(cipher->encrypt_bits(&context, &stream, data, 3) == CUKVASHE_ERR_MODE);
  CHECK(cipher->decrypt_bits(&context, &stream, data, 3) == CUKVASHE_ERR_MODE);
  CHECK(cipher->encrypt_bits(&unmade, &stream, data, 3) == CUKVASHE_ERR_CONTEXT);
  for (int path = 0; path < count_of_paths(); path++) {
    CHECK(cipher->paths[path].encrypt_stream(&unmade, &stream, data, SIZE) == CUKVASHE_ERR_CONTEXT);
    CHECK(cipher->paths[path].decrypt_mode(&unmade, CUKVASHE_CTR, iv, data, SIZE) == CUKVASHE_ERR_CONTEXT);
  }
  CHECK(memcmp(&stream, &before, sizeof stream) == 0);
  /* Any other word in the mark, the mode or the number of bytes. */
  for (int word = -1; word < 2; word++) {
    stream = word < 0 ? none : before;
    if (word >= 0) stream.words[2 + word] ^= (uint64_t)1 << 40;
    const cukvashe_stream changed = stream;
    CHECK(cipher->paths[PUBLIC_PATH].encrypt_stream(&context, &stream, data, SIZE) == CUKVASHE_ERR_STREAM);
    CHECK(cipher->paths[PUBLIC_PATH].decrypt_stream(&context, &stream, data, SIZE) == CUKVASHE_ERR_STREAM);
    CHECK(cipher->encrypt_bits(&context, &stream, data, 3) == CUKVASHE_ERR_STREAM);
    CHECK(cipher->decrypt_bits(&context, &stream, data, 3) == CUKVASHE_ERR_STREAM);
    CHECK(memcmp(&stream, &changed, sizeof stream) == 0);
  }
  CHECK(memcmp(data, text, SIZE) == 0);
}

int main(void) {
  for (size_t n = 0; n < sizeof answers / sizeof *answers; n++) is_answer(&answers[n]);
  wraps();
  stands();
  for (int n = 0; n < CIPHERS; n++) refuses(&ciphers[n]);
  printf("streams: %zu known answers in pieces, bits and parts, where streams stand, and what is refused, by %d of %d code paths\n",
         sizeof answers / sizeof *answers, count_of_paths(), (int)MOST_PATHS);
  return 0;
}
