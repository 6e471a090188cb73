/*
 * How much of the stack a message takes, from its key on: each runs in a thread of its own, whose stack was written over
 * with one byte before, and the lowest place that has changed tells how far it came.
 *
 *   stack FOLDER CONFIGURATION LIMIT    no message may take more than LIMIT bytes, and one of 1 KiB no more than 16 KiB
 */
#define _POSIX_C_SOURCE 200809L
#include "common.h"
#include <pthread.h>

enum { STACK = 1 << 18, PAINT = 0xa5, LONGEST = 1 << 17 };

struct work {
  const EVP_CIPHER *cipher; /* or none */
  EVP_MAC *mac;             /* or none */
  int encrypts;
  size_t length;
};

static uint8_t *stack, input[LONGEST], output[LONGEST + 8];

static void run_cipher(const struct work *work) {
  static const uint8_t key[24] = "a key of 24 bytes, any", vector[8] = "vector";
  EVP_CIPHER_CTX *context = EVP_CIPHER_CTX_new();
  int made;
  CHECK(EVP_CipherInit_ex2(context, work->cipher, key, vector, work->encrypts, NULL) == 1);
  CHECK(EVP_CIPHER_CTX_set_padding(context, 0) == 1);
  CHECK(EVP_CipherUpdate(context, output, &made, input, (int)work->length) == 1);
  CHECK(EVP_CipherFinal_ex(context, output, &made) == 1);
  EVP_CIPHER_CTX_free(context);
}

static void run_mac(const struct work *work) {
  static const uint8_t key[16] = "a key, 16 bytes";
  unsigned method = 2;
  const OSSL_PARAM params[] = {OSSL_PARAM_construct_uint("padding", &method), OSSL_PARAM_construct_end()};
  EVP_MAC_CTX *context = EVP_MAC_CTX_new(work->mac);
  size_t made;
  CHECK(EVP_MAC_init(context, key, sizeof key, params) == 1 && EVP_MAC_update(context, input, work->length) == 1);
  CHECK(EVP_MAC_final(context, output, &made, 8) == 1);
  EVP_MAC_CTX_free(context);
}

static void *run(void *given) {
  const struct work *work = given;
  if (work->cipher != NULL) run_cipher(work);
  if (work->mac != NULL) run_mac(work);
  return NULL;
}

/* The bytes of the stack that a thread uses. */
static size_t used_by(struct work *work) {
  size_t low = 0;
  pthread_attr_t attributes;
  pthread_t thread;
  memset(stack, PAINT, STACK);
  CHECK(pthread_attr_init(&attributes) == 0 && pthread_attr_setstack(&attributes, stack, STACK) == 0);
  CHECK(pthread_create(&thread, &attributes, run, work) == 0 && pthread_join(thread, NULL) == 0);
  CHECK(pthread_attr_destroy(&attributes) == 0);
  while (low < STACK && stack[low] == PAINT) low++;
  return STACK - low;
}

static const size_t lengths[] = {8, 24, 256, 1024, 1032, 2048, 2056, 4096, 8192, 40960, LONGEST};

static size_t used_by_wrap(OSSL_LIB_CTX *library) {
  EVP_CIPHER *cipher = EVP_CIPHER_fetch(library, wraps[0], NULL);
  struct work work = {cipher, NULL, 1, 256};
  const size_t used = used_by(&work);
  EVP_CIPHER_free(cipher);
  return used;
}

static size_t most_of_ciphers(OSSL_LIB_CTX *library, size_t longest) {
  size_t most = 0;
  for (size_t number = 0; number < CIPHERS; number++) {
    EVP_CIPHER *cipher = EVP_CIPHER_fetch(library, ciphers[number], NULL);
    CHECK(cipher != NULL);
    for (size_t i = 0; i < 2 * COUNT(lengths) && lengths[i / 2] <= longest; i++) {
      struct work work = {cipher, NULL, (int)(i % 2), lengths[i / 2] / blocks_of_eight(ciphers[number])};
      const size_t used = used_by(&work);
      if (used > most) most = used;
    }
    EVP_CIPHER_free(cipher);
  }
  return most;
}

int main(int count, char **words) {
  void *aligned;
  struct work work = {NULL, NULL, 0, 0};
  CHECK(count == 4 && posix_memalign(&aligned, 4096, STACK) == 0);
  stack = aligned;
  OSSL_LIB_CTX *library = ours_by(words[1], words[2]), *own = theirs();
  const size_t limit = strtoull(words[3], NULL, 10), none = used_by(&work);
  const size_t by_ciphers = most_of_ciphers(library, LONGEST) - none, by_short = most_of_ciphers(library, 1024) - none;
  const size_t by_own = most_of_ciphers(own, LONGEST) - none, by_wrap = used_by_wrap(library) - none;
  work.mac = EVP_MAC_fetch(library, "RETAIL-MAC", NULL);
  CHECK(work.mac != NULL);
  work.length = LONGEST;
  const size_t by_mac = used_by(&work) - none;
  printf("stack: at most %zu bytes by ciphers, %zu up to 1 KiB, %zu by the MAC; OpenSSL's own ciphers %zu\n", by_ciphers, by_short,
         by_mac, by_own);
  CHECK(by_short > 500 && by_mac > 500 && by_wrap > 500);
  CHECK(by_short <= 16384 && by_ciphers <= limit && by_mac <= 16384 && by_wrap <= 16384);
  EVP_MAC_free(work.mac);
  drop_libraries(library, own);
  free(aligned);
  return 0;
}
