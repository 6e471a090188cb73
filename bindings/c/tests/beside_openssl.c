/* Each call beside OpenSSL's libcrypto: beside_openssl KEYS KNOWN [LONGEST]. As many random keys with random lists; the keys of
   the file of known answers; and where LONGEST is given, lists of every length from 0 to 300 blocks, and one of LONGEST. */
#define OPENSSL_SUPPRESS_DEPRECATED
#include "cases.h"
#include <openssl/des.h>

enum { MOST = 600, BATCHES = 300, LONG = 65536, AFTER = 8 * MOST };

/* The parts of a key, as OpenSSL's schedules. */
struct schedules {
  DES_key_schedule part[3];
};

static struct schedules schedules_of(int cipher, const uint8_t *key) {
  struct schedules made;
  for (size_t i = 0; i < 3; i++)
    DES_set_key_unchecked((const_DES_cblock *)(key + 8 * i % ciphers[cipher].key_size), &made.part[i]);
  return made;
}

/* What OpenSSL makes of a block. */
static void answer(int cipher, struct schedules *by, uint8_t *block, int direction) {
  const_DES_cblock *from = (const_DES_cblock *)block;
  DES_cblock *to = (DES_cblock *)block;
  if (cipher == DES) DES_ecb_encrypt(from, to, &by->part[0], direction);
  else DES_ecb3_encrypt(from, to, &by->part[0], &by->part[1], &by->part[2], direction);
}

static void answer_list(int cipher, struct schedules *by, uint8_t *blocks, size_t count, int direction) {
  for (size_t n = 0; n < count; n++) answer(cipher, by, blocks + 8 * n, direction);
}

static void cbc(int cipher, struct schedules *by, const uint8_t *iv, uint8_t *blocks, size_t count) {
  DES_cblock vector;
  memcpy(vector, iv, 8);
  if (cipher == DES)
    DES_ncbc_encrypt(blocks, blocks, (long)(8 * count), &by->part[0], &vector, DES_ENCRYPT);
  else
    DES_ede3_cbc_encrypt(blocks, blocks, (long)(8 * count), &by->part[0], &by->part[1], &by->part[2], &vector, DES_ENCRYPT);
}

/* Bit `i` of bytes, and the same bit made another's. */
static uint8_t bit_at(const uint8_t *bytes, size_t i) { return (uint8_t)(bytes[i / 8] << i % 8 & 0x80); }

static void put_bit(uint8_t *bytes, size_t i, uint8_t bit) {
  bytes[i / 8] = (uint8_t)((bytes[i / 8] & ~(0x80 >> i % 8)) | bit >> i % 8);
}

/* What OpenSSL encrypts a segment of `bits` bits to, or as many segments as are in `size` bytes. */
static void feed_back(int cipher, struct schedules *by, DES_cblock *vector, int bits, const uint8_t *in, uint8_t *out, size_t size) {
  if (cipher == DES) DES_cfb_encrypt(in, out, bits, (long)size, &by->part[0], vector, DES_ENCRYPT);
  else DES_ede3_cfb_encrypt(in, out, bits, (long)size, &by->part[0], &by->part[1], &by->part[2], vector, DES_ENCRYPT);
}

/* What it encrypts bytes to in a mode. It has no CTR of DES: there each counter block is encrypted by itself. `out` has space for 8 more
   bytes. */
static void encrypt_in_mode(int cipher, struct schedules *by, int mode, const uint8_t *iv, const uint8_t *in, uint8_t *out, size_t length) {
  DES_cblock vector;
  int used = 0;
  memcpy(vector, iv, 8);
  if (mode == CUKVASHE_OFB && cipher == DES) {
    DES_ofb64_encrypt(in, out, (long)length, &by->part[0], &vector, &used);
  } else if (mode == CUKVASHE_OFB) {
    DES_ede3_ofb64_encrypt(in, out, (long)length, &by->part[0], &by->part[1], &by->part[2], &vector, &used);
  } else if (mode == CUKVASHE_CTR) {
    for (size_t i = 0; i < length; i++) {
      uint8_t block[8];
      memcpy(block, vector, 8);
      answer(cipher, by, block, DES_ENCRYPT);
      out[i] = in[i] ^ block[i % 8];
      for (int at = 7; i % 8 == 7 && at >= 0 && ++vector[at] == 0; at--) continue;
    }
  } else if (mode == CUKVASHE_CFB1) {
    for (size_t i = 0; i < 8 * length; i++) {
      uint8_t bit = bit_at(in, i), encrypted = 0;
      feed_back(cipher, by, &vector, 1, &bit, &encrypted, 1);
      put_bit(out, i, encrypted & 0x80);
    }
  } else {
    const size_t segment = (size_t)(mode - CUKVASHE_CFB1);
    feed_back(cipher, by, &vector, (int)(8 * segment), in, out, (length + segment - 1) / segment * segment);
  }
}

/* Lists of up to 40 blocks mostly, and sometimes of up to 600: no batch, a part of one, several. */
static size_t random_count(void) {
  uint64_t word = random_word();
  return (size_t)(word % 16 == 0 ? (word >> 8) % (MOST + 1) : (word >> 8) % 41);
}

/* A list at a random address, with bytes before it and AFTER of them after it that must stay. */
struct list {
  uint8_t buffer[8 * LONG + 8 + AFTER], *blocks, *end;
};

static void put(struct list *list, const uint8_t *blocks, size_t count) {
  list->blocks = list->buffer + 1 + random_word() % 8;
  list->end = list->blocks + 8 * count + AFTER;
  memset(list->buffer, 0xa5, (size_t)(list->end - list->buffer));
  memcpy(list->blocks, blocks, 8 * count);
}

static int is(const struct list *list, const uint8_t *wanted) {
  const uint8_t *after = list->end - AFTER;
  for (const uint8_t *at = list->buffer; at < list->blocks; at++)
    if (*at != 0xa5) return 0;
  for (const uint8_t *at = after; at < list->end; at++)
    if (*at != 0xa5) return 0;
  return memcmp(list->blocks, wanted, (size_t)(after - list->blocks)) == 0;
}

static struct list list, other;

/* A list in place, and from one list to another. */
static void is_list(const struct path *path, const union context *context, const uint8_t *plain, const uint8_t *wanted,
                    size_t count) {
  const size_t length = 8 * count;
  put(&list, plain, count);
  CHECK(path->encrypt_ecb(context, list.blocks, length) == CUKVASHE_OK && is(&list, wanted));
  CHECK(path->decrypt_ecb(context, list.blocks, length) == CUKVASHE_OK && is(&list, plain));
  put(&other, wanted, count);
  CHECK(path->decrypt_ecb_to(context, other.blocks, list.blocks, length) == CUKVASHE_OK);
  CHECK(is(&list, plain) && is(&other, wanted));
  memset(other.blocks, 0, length);
  CHECK(path->encrypt_ecb_to(context, list.blocks, other.blocks, length) == CUKVASHE_OK);
  CHECK(is(&list, plain) && is(&other, wanted));
}

/* CBC in two pieces, in place and from one list to another: the second piece begins with the vector that the first left. */
static void is_cbc_there_and_back(const struct path *path, const union context *context, const uint8_t *iv, const uint8_t *plain,
                     const uint8_t *wanted, size_t count) {
  const size_t length = 8 * count, cut = count ? 8 * (random_word() % (count + 1)) : 0, rest = length - cut;
  uint8_t vector[8];
  const uint8_t *last = count ? wanted + length - 8 : iv;
  put(&list, plain, count);
  memcpy(vector, iv, 8);
  CHECK(path->encrypt_cbc(context, vector, list.blocks, cut) == CUKVASHE_OK);
  CHECK(path->encrypt_cbc(context, vector, list.blocks + cut, rest) == CUKVASHE_OK);
  CHECK(is(&list, wanted) && memcmp(vector, last, 8) == 0);
  put(&other, plain, count);
  memcpy(vector, iv, 8);
  CHECK(path->decrypt_cbc_to(context, vector, list.blocks, other.blocks, cut) == CUKVASHE_OK);
  CHECK(path->decrypt_cbc_to(context, vector, list.blocks + cut, other.blocks + cut, rest) == CUKVASHE_OK);
  CHECK(is(&list, wanted) && is(&other, plain) && memcmp(vector, last, 8) == 0);
  memcpy(vector, iv, 8);
  CHECK(path->decrypt_cbc(context, vector, list.blocks, cut) == CUKVASHE_OK);
  CHECK(path->decrypt_cbc(context, vector, list.blocks + cut, rest) == CUKVASHE_OK);
  CHECK(is(&list, plain) && memcmp(vector, last, 8) == 0);
  memset(other.blocks, 0, length);
  memcpy(vector, iv, 8);
  CHECK(path->encrypt_cbc_to(context, vector, list.blocks, other.blocks, cut) == CUKVASHE_OK);
  CHECK(path->encrypt_cbc_to(context, vector, list.blocks + cut, other.blocks + cut, rest) == CUKVASHE_OK);
  CHECK(is(&list, plain) && is(&other, wanted) && memcmp(vector, last, 8) == 0);
}

/* A list under a key by all calls and code paths: each block by itself, and by CBC. */
static void list_under(int n, const uint8_t *key, const uint8_t *iv, const uint8_t *plain, size_t count) {
  static uint8_t wanted[8 * LONG], by_cbc[8 * LONG];
  const struct cipher *cipher = &ciphers[n];
  union context context;
  CHECK(cipher->init(&context, key, cipher->key_size) == CUKVASHE_OK);
  struct schedules by = schedules_of(n, key);
  memcpy(wanted, plain, 8 * count);
  answer_list(n, &by, wanted, count, DES_ENCRYPT);
  memcpy(by_cbc, plain, 8 * count);
  cbc(n, &by, iv, by_cbc, count);
  for (int path = 0; path < count_of_paths(); path++) {
    is_list(&cipher->paths[path], &context, plain, wanted, count);
    is_cbc_there_and_back(&cipher->paths[path], &context, iv, plain, by_cbc, count);
  }
}

/* Bytes in a mode, encrypted and decrypted, whole and in three pieces. */
static void is_in_mode(const struct path *path, const union context *context, int mode, const uint8_t *iv, const uint8_t *plain,
                       const uint8_t *wanted, size_t length) {
  static uint8_t bytes[8 * MOST];
  const size_t cut = (size_t)(random_word() % (length + 1)), next = cut + (size_t)(random_word() % (length - cut + 1));
  for (int n = 0; n < 2; n++) {
    next_bytes *const call = n == 0 ? path->encrypt_stream : path->decrypt_stream;
    const uint8_t *before = n == 0 ? plain : wanted, *after = n == 0 ? wanted : plain;
    cukvashe_stream stream;
    memcpy(bytes, before, length);
    CHECK((n == 0 ? path->encrypt_mode : path->decrypt_mode)(context, mode, iv, bytes, length) == CUKVASHE_OK);
    CHECK(memcmp(bytes, after, length) == 0);
    memcpy(bytes, before, length);
    CHECK(cukvashe_stream_begin(&stream, mode, iv) == CUKVASHE_OK);
    CHECK(call(context, &stream, bytes, cut) == CUKVASHE_OK);
    CHECK(call(context, &stream, bytes + cut, next - cut) == CUKVASHE_OK);
    CHECK(call(context, &stream, bytes + next, length - next) == CUKVASHE_OK);
    CHECK(memcmp(bytes, after, length) == 0);
  }
}

/* Random bytes in each mode under a random key. */
static void random_modes(int n) {
  static uint8_t plain[8 * MOST + 8], wanted[8 * MOST + 8];
  const struct cipher *cipher = &ciphers[n];
  uint8_t key[24], iv[8];
  union context context;
  random_bytes(key, sizeof key);
  random_bytes(iv, sizeof iv);
  CHECK(cipher->init(&context, key, cipher->key_size) == CUKVASHE_OK);
  struct schedules by = schedules_of(n, key);
  for (int mode = CUKVASHE_CTR; mode <= CUKVASHE_CFB64; mode++) {
    const size_t count = random_count(), length = count == 0 ? 0 : 8 * count - (size_t)(random_word() % 8);
    if (mode > CUKVASHE_OFB && mode < CUKVASHE_CFB1) continue;
    random_bytes(plain, sizeof plain);
    encrypt_in_mode(n, &by, mode, iv, plain, wanted, length);
    for (int path = 0; path < count_of_paths(); path++) is_in_mode(&cipher->paths[path], &context, mode, iv, plain, wanted, length);
  }
}

/* A random list of `count` blocks under a random key, and the key's check value. */
static void random_list(int cipher, size_t count) {
  static const uint8_t zeros[8] = {0};
  static uint8_t plain[8 * LONG];
  uint8_t key[24], iv[8], value[3], block[8];
  random_bytes(key, sizeof key);
  random_bytes(iv, sizeof iv);
  random_bytes(plain, 8 * count);
  list_under(cipher, key, iv, plain, count);
  struct schedules by = schedules_of(cipher, key);
  memcpy(block, zeros, 8);
  answer(cipher, &by, block, DES_ENCRYPT);
  CHECK(ciphers[cipher].check_value(key, ciphers[cipher].key_size, value) == CUKVASHE_OK && memcmp(value, block, 3) == 0);
}

/* Under the key of a known answer, 32 blocks, each of them the answer to the one before it, and the block before the first. */
static void blocks_in_turn(const struct known_case *known) {
  uint8_t blocks[8 * 33];
  struct schedules by = schedules_of(known->cipher, known->key);
  memcpy(blocks, "Cukvashe", 8);
  answer(known->cipher, &by, blocks, DES_DECRYPT);
  for (int n = 1; n < 33; n++) {
    memcpy(blocks + 8 * n, blocks + 8 * n - 8, 8);
    answer(known->cipher, &by, blocks + 8 * n, DES_ENCRYPT);
  }
  list_under(known->cipher, known->key, blocks, blocks, 33);
}

int main(int count, char **words) {
  CHECK(count == 3 || count == 4);
  int keys = atoi(words[1]);
  for (int n = 0; n < keys; n++)
    for (int cipher = 0; cipher < CIPHERS; cipher++) random_list(cipher, random_count());
  for (int n = 0; n < keys / 10; n++)
    for (int cipher = 0; cipher < CIPHERS; cipher++) random_modes(cipher);
  int cases = each_case(words[2], blocks_in_turn);
  size_t longest = count > 3 ? (size_t)atoi(words[3]) : 0;
  CHECK(longest <= LONG);
  for (int cipher = 0; cipher < CIPHERS; cipher++) {
    for (int i = 0; i < COUNTS; i++) random_list(cipher, counts[i]);
    for (size_t length = 0; longest > 0 && length <= BATCHES; length++) random_list(cipher, length);
    if (longest > 0) random_list(cipher, longest);
  }
  printf("beside OpenSSL: %d keys for each of %d ciphers, %d of them in each mode without padding, %d keys of known answers, lists of up to "
         "%zu blocks, by %d of %d code paths\n",
         keys, (int)CIPHERS, keys / 10, cases, longest > MOST ? longest : (size_t)MOST, count_of_paths(), (int)MOST_PATHS);
  return 0;
}
