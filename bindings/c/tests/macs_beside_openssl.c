/* Each MAC beside OpenSSL under random keys, messages and cuts, and for messages of many lengths. */
#define OPENSSL_SUPPRESS_DEPRECATED
#include "mac_calls.h"
#include <openssl/cmac.h>
#include <openssl/des.h>
#include <openssl/evp.h>

/* What OpenSSL says of a message, by a cipher of its own. */
static void cmac_by_openssl(const EVP_CIPHER *cipher, const uint8_t *key, size_t key_length, const uint8_t *message,
                            size_t length, uint8_t tag[8]) {
  CMAC_CTX *context = CMAC_CTX_new();
  size_t written = 0;
  CHECK(context != NULL && CMAC_Init(context, key, key_length, cipher, NULL) == 1);
  CHECK(CMAC_Update(context, message, length) == 1 && CMAC_Final(context, tag, &written) == 1 && written == 8);
  CMAC_CTX_free(context);
}

/* The last block of CBC over DES, or over triple DES of two or three parts, from a block of zeros. */
static void last_of_cbc(const uint8_t *key, size_t key_size, const uint8_t *bytes, size_t length, uint8_t last[8]) {
  static uint8_t out[8 * LONGEST + 16];
  DES_key_schedule part[3];
  DES_cblock zeros = {0};
  for (size_t i = 0; i < 3; i++) DES_set_key_unchecked((const_DES_cblock *)(key + 8 * i % key_size), &part[i]);
  if (key_size == 8) DES_ncbc_encrypt(bytes, out, (long)length, &part[0], &zeros, DES_ENCRYPT);
  else DES_ede3_cbc_encrypt(bytes, out, (long)length, &part[0], &part[1], &part[2], &zeros, DES_ENCRYPT);
  memcpy(last, out + length - 8, 8);
}

/* A tag by OpenSSL's ciphers: CBC over the padded message; of the retail MAC, its last block decrypted and encrypted once more. */
static void tag_by_openssl(int n, const uint8_t *key, const uint8_t *message, size_t length, int method, uint8_t tag[8]) {
  static uint8_t padded[8 * LONGEST + 16];
  size_t end = method == CUKVASHE_MAC_PADDING_2 ? length / 8 * 8 + 8 : length ? (length + 7) / 8 * 8 : 8;
  if (n == CMAC_EDE2) cmac_by_openssl(EVP_des_ede_cbc(), key, 16, message, length, tag);
  if (n == CMAC_EDE3) cmac_by_openssl(EVP_des_ede3_cbc(), key, 24, message, length, tag);
  if (n == CMAC_EDE2 || n == CMAC_EDE3) return;
  memset(padded, 0, sizeof padded);
  memcpy(padded, message, length);
  if (method == CUKVASHE_MAC_PADDING_2) padded[length] = 0x80;
  last_of_cbc(key, n == RETAIL_MAC ? 8 : macs[n].key_size, padded, end, tag);
  if (n != RETAIL_MAC) return;
  DES_key_schedule first, second;
  DES_set_key_unchecked((const_DES_cblock *)key, &first);
  DES_set_key_unchecked((const_DES_cblock *)(key + 8), &second);
  DES_ecb_encrypt((const_DES_cblock *)tag, (DES_cblock *)tag, &second, DES_DECRYPT);
  DES_ecb_encrypt((const_DES_cblock *)tag, (DES_cblock *)tag, &first, DES_ENCRYPT);
}

/* A message of this length at a random address, under a random key, by each MAC and padding. */
static void random_message(size_t length) {
  static uint8_t place[8 * LONGEST + 16];
  uint8_t key[24], wanted[8];
  uint8_t *message = place + random_word() % 8;
  random_bytes(key, sizeof key);
  random_bytes(message, length);
  for (int n = 0; n < MACS; n++)
    for (int method = 1; method <= 2; method++) {
      tag_by_openssl(n, key, message, length, method, wanted);
      is_mac(&macs[n], macs[n].init, key, method, message, length, wanted);
    }
}

int main(int count, char **words) {
  int keys = count > 1 ? atoi(words[1]) : 10000;
  for (int n = 0; n < keys; n++) random_message(random_word() % 600);
  for (int i = 0; i < COUNTS; i++) {
    random_message(8 * counts[i]);
    random_message(8 * counts[i] + 1 + random_word() % 7);
  }
  printf("macs beside OpenSSL: %d keys, and messages of %d lengths\n", keys, 2 * (int)COUNTS);
  return 0;
}
