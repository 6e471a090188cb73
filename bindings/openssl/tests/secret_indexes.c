/*
 * Under valgrind, with keys, vectors and data marked undefined: memcheck reports where an index or a branch depends on
 * them. By a configuration with `no-tables = yes` there must be no report, and one without it.
 *
 *   secret_indexes FOLDER CONFIGURATION
 */
#include "common.h"
#include <valgrind/memcheck.h>

enum { LONGEST = 8 * 600 };

static const size_t lengths[] = {0, 1, 8, 13, 16, 24, 40, 8 * 17, 8 * 31, 8 * 128, 8 * 129, 8 * 257, LONGEST};
static uint8_t key[24], vector[8], data[LONGEST + 16], made[LONGEST + 16];

static void hide(void *bytes, size_t count) {
  random_bytes(bytes, count);
  (void)VALGRIND_MAKE_MEM_UNDEFINED(bytes, count);
}

/* Padding is written without a look at the text. When it is taken off, its bytes decide: not here. */
static void run_cipher(const EVP_CIPHER *cipher, int encrypts, size_t length) {
  EVP_CIPHER_CTX *context = EVP_CIPHER_CTX_new();
  int size;
  hide(key, sizeof key);
  hide(vector, sizeof vector);
  hide(data, sizeof data);
  CHECK(EVP_CipherInit_ex2(context, cipher, key, vector, encrypts, NULL) == 1);
  CHECK(EVP_CIPHER_CTX_set_padding(context, encrypts) == 1);
  CHECK(EVP_CipherUpdate(context, made, &size, data, 3) == 1 && EVP_CipherUpdate(context, made, &size, data, 5) == 1);
  CHECK(EVP_CipherUpdate(context, made, &size, data, (int)(encrypts ? length : length / 8 * 8)) == 1);
  CHECK(EVP_CipherFinal_ex(context, made, &size) == 1);
  EVP_CIPHER_CTX_free(context);
}

/* Whether a wrapped key is right decides, so that none is unwrapped here. */
static void run_wrap(const EVP_CIPHER *wrap, size_t length) {
  EVP_CIPHER_CTX *context = EVP_CIPHER_CTX_new();
  int size;
  hide(key, sizeof key);
  hide(data, sizeof data);
  CHECK(EVP_CipherInit_ex2(context, wrap, key, NULL, 1, NULL) == 1);
  CHECK(EVP_CipherUpdate(context, made, &size, data, (int)length) == 1);
  EVP_CIPHER_CTX_free(context);
}

static void run_mac(EVP_MAC *mac, unsigned method, size_t length) {
  const OSSL_PARAM params[] = {OSSL_PARAM_construct_uint("padding", &method), OSSL_PARAM_construct_end()};
  EVP_MAC_CTX *context = EVP_MAC_CTX_new(mac);
  size_t size;
  hide(key, sizeof key);
  hide(data, sizeof data);
  CHECK(EVP_MAC_init(context, key, 16, params) == 1 && EVP_MAC_update(context, data, length) == 1);
  CHECK(EVP_MAC_update(context, data, 5) == 1 && EVP_MAC_final(context, made, &size, 8) == 1);
  EVP_MAC_CTX_free(context);
}

int main(int count, char **words) {
  CHECK(count == 3);
  OSSL_LIB_CTX *library = ours_by(words[1], words[2]);
  EVP_MAC *mac = EVP_MAC_fetch(library, "RETAIL-MAC", NULL);
  EVP_CIPHER *wrap = EVP_CIPHER_fetch(library, wraps[0], NULL);
  for (size_t number = 0; number < CIPHERS; number++) {
    EVP_CIPHER *cipher = EVP_CIPHER_fetch(library, ciphers[number], NULL);
    const size_t part = blocks_of_eight(ciphers[number]);
    CHECK(cipher != NULL);
    for (size_t i = 0; i < 2 * COUNT(lengths); i++) run_cipher(cipher, (int)(i % 2), lengths[i / 2] / part);
    EVP_CIPHER_free(cipher);
  }
  for (size_t length = 8; length <= 32; length += 8) run_wrap(wrap, length);
  EVP_CIPHER_free(wrap);
  for (size_t i = 0; i < 2 * COUNT(lengths); i++) run_mac(mac, 1 + (unsigned)(i % 2), lengths[i / 2]);
  EVP_MAC_free(mac);
  OSSL_LIB_CTX_free(library);
  printf("secret indexes of the provider: run by valgrind: %s\n", RUNNING_ON_VALGRIND ? "yes" : "no");
  return 0;
}
