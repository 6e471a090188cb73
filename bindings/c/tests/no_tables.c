/* Contexts without tables beside those with tables, which known answers test: each call answers alike, also in pieces, and init_no_tables
 * refuses what
   init refuses. */
#include "mac_calls.h"

enum { PAINT = 0xa5, PIECES = 8 * LONGEST };

static uint8_t plain[PIECES], with_tables_bytes[PIECES], no_tables_bytes[PIECES], with_tables_iv[8], no_tables_iv[8];

static int same(size_t length) {
  return memcmp(with_tables_bytes, no_tables_bytes, sizeof plain) == 0 && memcmp(with_tables_iv, no_tables_iv, 8) == 0 &&
         (length == 0 || memcmp(with_tables_bytes, plain, length) != 0);
}

static void put(void) {
  random_bytes(with_tables_iv, sizeof with_tables_iv);
  memcpy(no_tables_iv, with_tables_iv, sizeof no_tables_iv);
  memcpy(with_tables_bytes, plain, sizeof plain);
  memcpy(no_tables_bytes, plain, sizeof plain);
}

static const int modes[] = {CUKVASHE_CTR, CUKVASHE_OFB, CUKVASHE_CFB8, CUKVASHE_CFB64};

static void lists_alike(const struct path *path, const union context *with_tables, const union context *no_tables, size_t length) {
  in_place *const in[] = {path->encrypt_ecb, path->decrypt_ecb};
  to_other *const to[] = {path->encrypt_ecb_to, path->decrypt_ecb_to};
  in_place_cbc *const in_cbc[] = {path->encrypt_cbc, path->decrypt_cbc};
  to_other_cbc *const to_cbc[] = {path->encrypt_cbc_to, path->decrypt_cbc_to};
  for (int n = 0; n < 2; n++) {
    put();
    CHECK(in[n](with_tables, with_tables_bytes, length) == CUKVASHE_OK && in[n](no_tables, no_tables_bytes, length) == CUKVASHE_OK && same(length));
    put();
    CHECK(to[n](with_tables, plain, with_tables_bytes, length) == CUKVASHE_OK && to[n](no_tables, plain, no_tables_bytes, length) == CUKVASHE_OK);
    CHECK(same(length));
    put();
    CHECK(in_cbc[n](with_tables, with_tables_iv, with_tables_bytes, length) == CUKVASHE_OK);
    CHECK(in_cbc[n](no_tables, no_tables_iv, no_tables_bytes, length) == CUKVASHE_OK && same(length));
    put();
    CHECK(to_cbc[n](with_tables, with_tables_iv, plain, with_tables_bytes, length) == CUKVASHE_OK);
    CHECK(to_cbc[n](no_tables, no_tables_iv, plain, no_tables_bytes, length) == CUKVASHE_OK && same(length));
    put();
    CHECK(in[n](no_tables, no_tables_bytes, length + 1) == CUKVASHE_ERR_BLOCKS && same(0));
    CHECK(in_cbc[n](no_tables, no_tables_iv, no_tables_bytes, length + 1) == CUKVASHE_ERR_BLOCKS && same(0));
    for (int mode = 0; mode < 4; mode++) {
      whole_text *const in_mode = n == 0 ? path->encrypt_mode : path->decrypt_mode;
      const size_t bytes = modes[mode] == CUKVASHE_CFB8 ? 8 + length / 16 : length - length / 16;
      put();
      CHECK(in_mode(with_tables, modes[mode], with_tables_iv, with_tables_bytes, bytes) == CUKVASHE_OK);
      CHECK(in_mode(no_tables, modes[mode], no_tables_iv, no_tables_bytes, bytes) == CUKVASHE_OK && same(bytes));
    }
  }
}

static void ciphers_alike(const struct cipher *cipher) {
  static const size_t few[] = {1, 2, 3, 4, 5, 6, 7, 8, 9, 10, 11, 12, 20, 40};
  union context with_tables, no_tables;
  uint8_t key[24];
  random_bytes(key, sizeof key);
  memset(&with_tables, PAINT, sizeof with_tables);
  memset(&no_tables, PAINT, sizeof no_tables);
  CHECK(cipher->init_no_tables(&no_tables, key, cipher->key_size - 1) == CUKVASHE_ERR_KEY_LENGTH);
  CHECK(memcmp(&with_tables, &no_tables, sizeof no_tables) == 0);
  CHECK(cipher->init(&with_tables, key, cipher->key_size) == CUKVASHE_OK);
  CHECK(cipher->init_no_tables(&no_tables, key, cipher->key_size) == CUKVASHE_OK);
  CHECK(memcmp(&with_tables, &no_tables, sizeof no_tables) != 0);
  for (int n = 0; n < count_of_paths(); n++) {
    for (size_t i = 0; i < sizeof few / sizeof *few; i++) lists_alike(&cipher->paths[n], &with_tables, &no_tables, 8 * few[i]);
    for (int i = 0; i < COUNTS; i++)
      if (counts[i] < LONGEST) lists_alike(&cipher->paths[n], &with_tables, &no_tables, 8 * counts[i]);
  }
}

static void messages_alike(const struct mac *mac, int method, size_t length) {
  union mac_context with_tables, no_tables;
  uint8_t key[24], tag[8], other[8];
  random_bytes(key, sizeof key);
  memset(&with_tables, PAINT, sizeof with_tables);
  memset(&no_tables, PAINT, sizeof no_tables);
  CHECK(mac->init_no_tables(&no_tables, key, mac->key_size - 1, method) == CUKVASHE_ERR_KEY_LENGTH);
  CHECK(!mac->is_padded || mac->init_no_tables(&no_tables, key, mac->key_size, 3) == CUKVASHE_ERR_PADDING_METHOD);
  CHECK(memcmp(&with_tables, &no_tables, sizeof no_tables) == 0);
  CHECK(mac->init(&with_tables, key, mac->key_size, method) == CUKVASHE_OK);
  CHECK(mac->init_no_tables(&no_tables, key, mac->key_size, method) == CUKVASHE_OK);
  CHECK(mac->update(&with_tables, plain, length) == CUKVASHE_OK);
  CHECK(mac->update(&no_tables, plain, length / 3) == CUKVASHE_OK);
  CHECK(mac->update(&no_tables, plain + length / 3, length - length / 3) == CUKVASHE_OK);
  CHECK(mac->final(&with_tables, tag) == CUKVASHE_OK);
  CHECK(mac->final(&no_tables, other) == CUKVASHE_OK);
  CHECK(memcmp(tag, other, sizeof tag) == 0 && memcmp(&with_tables, &no_tables, sizeof no_tables) != 0);
  CHECK(mac->verify(&no_tables, tag, 8) == CUKVASHE_OK && mac->verify(&no_tables, tag, 4) == CUKVASHE_OK);
  tag[3] ^= 1;
  CHECK(mac->verify(&no_tables, tag, 8) == CUKVASHE_ERR_TAG && mac->verify(&no_tables, tag, 3) == CUKVASHE_ERR_TAG);
}

int main(void) {
  random_bytes(plain, sizeof plain);
  for (int n = 0; n < CIPHERS; n++) ciphers_alike(&ciphers[n]);
  for (int n = 0; n < MACS; n++)
    for (size_t length = 0; length < 100; length++)
      for (int method = 1; method <= 2; method++) messages_alike(&macs[n], method, length);
  printf("contexts without tables: each call as by those with tables, by %d of %d code paths\n", count_of_paths(), (int)MOST_PATHS);
  return 0;
}
