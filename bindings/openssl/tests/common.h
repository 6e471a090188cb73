/* What the tests of the provider share: a check, random numbers from a seed, and OpenSSL with the provider and without. */
#ifndef COMMON_H
#define COMMON_H

#include <openssl/core_names.h>
#include <openssl/err.h>
#include <openssl/evp.h>
#include <openssl/params.h>
#include <openssl/provider.h>
#include <stdbool.h>
#include <stdint.h>
#include <stdio.h>
#include <stdlib.h>
#include <string.h>

/* What a test is at, for the message of a check that fails. */
static const char *at_work = "";
static uint64_t seed = 1;

#define CHECK(holds)                                                                                                  \
  do {                                                                                                                \
    if (!(holds)) {                                                                                                   \
      fprintf(stderr, "%s:%d: %s (%s, seed %llu)\n", __FILE__, __LINE__, #holds, at_work, (unsigned long long)seed); \
      ERR_print_errors_fp(stderr);                                                                                    \
      exit(1);                                                                                                        \
    }                                                                                                                 \
  } while (0)

#define COUNT(LIST) (sizeof(LIST) / sizeof *(LIST))

enum { OURS = 0, THEIRS = 1 };

#define EACH(who) for (int who = OURS; who <= THEIRS; who++)

/* Splitmix64 from the seed. */
static uint64_t state = 1;

static inline uint64_t random_word(void) {
  uint64_t z = state += 0x9e3779b97f4a7c15;
  z = (z ^ (z >> 30)) * 0xbf58476d1ce4e5b9;
  z = (z ^ (z >> 27)) * 0x94d049bb133111eb;
  return z ^ (z >> 31);
}

static inline void start_from(uint64_t number) { state = seed = number; }
static inline size_t below(size_t bound) { return (size_t)(random_word() % bound); }
static inline bool once_in(size_t times) { return below(times) == 0; }

static inline void random_bytes(uint8_t *bytes, size_t count) {
  for (size_t i = 0; i < count; i++) bytes[i] = (uint8_t)random_word();
}

/* The ciphers but key wrap, those of OpenSSL's legacy provider last, and all of OpenSSL's names for each. */
static const char *const ciphers[] = {"DES-EDE3-CBC",  "DES-EDE3-ECB",  "DES-EDE3-OFB", "DES-EDE3-CFB", "DES-EDE3-CFB8",
                                      "DES-EDE3-CFB1", "DES-EDE-CBC",   "DES-EDE-ECB",  "DES-EDE-OFB",  "DES-EDE-CFB",
                                      "DES-CBC",       "DES-ECB",       "DES-OFB",      "DES-CFB",      "DES-CFB8",
                                      "DES-CFB1",      "DESX-CBC"};
static const char *const names[] = {
    "DES-EDE3-CBC", "DES3",          "1.2.840.113549.3.7", "DES-EDE3-ECB", "DES-EDE3",      "DES-EDE3-OFB", "DES-EDE3-CFB",
    "DES-EDE3-CFB8", "DES-EDE3-CFB1", "DES-EDE-CBC",        "DES-EDE-ECB",  "DES-EDE",       "1.3.14.3.2.17", "DES-EDE-OFB",
    "DES-EDE-CFB",  "DES-CBC",       "DES",                "1.3.14.3.2.7", "DES-ECB",       "1.3.14.3.2.6", "DES-OFB",
    "1.3.14.3.2.8", "DES-CFB",       "1.3.14.3.2.9",       "DES-CFB8",     "DES-CFB1",      "DESX-CBC",     "DESX"};
static const char *const wraps[] = {"DES3-WRAP", "id-smime-alg-CMS3DESwrap", "1.2.840.113549.1.9.16.3.6"};
enum { CIPHERS = COUNT(ciphers), NAMES = COUNT(names), WRAPS = COUNT(wraps) };

/* How many times a cipher encrypts a block for 8 bytes of a message. */
static inline size_t blocks_of_eight(const char *name) {
  return strstr(name, "CFB1") != NULL ? 64 : strstr(name, "CFB8") != NULL ? 8 : 1;
}

#ifdef BUILTIN
OSSL_provider_init_fn OSSL_provider_init;
#endif

/* An OpenSSL with nothing but the provider, as a configuration asks for it. BUILTIN: the provider is a part of the program. */
static inline OSSL_LIB_CTX *ours_by(const char *folder, const char *configuration) {
  OSSL_LIB_CTX *library = OSSL_LIB_CTX_new();
  CHECK(library != NULL && OSSL_PROVIDER_set_default_search_path(library, folder) == 1);
#ifdef BUILTIN
  CHECK(OSSL_PROVIDER_add_builtin(library, "cukvashe", OSSL_provider_init) == 1);
#endif
  CHECK(OSSL_LIB_CTX_load_config(library, configuration) == 1 && OSSL_PROVIDER_available(library, "cukvashe") == 1);
  return library;
}

/* OpenSSL's own, whose modules are in their own folder. One of it at a time. */
static OSSL_PROVIDER *loaded[2];

static inline OSSL_LIB_CTX *theirs(void) {
  OSSL_LIB_CTX *library = OSSL_LIB_CTX_new();
  CHECK(library != NULL);
  loaded[0] = OSSL_PROVIDER_load(library, "default");
  loaded[1] = OSSL_PROVIDER_load(library, "legacy");
  CHECK(loaded[0] != NULL && loaded[1] != NULL);
  return library;
}

static inline void drop_libraries(OSSL_LIB_CTX *of_ours, OSSL_LIB_CTX *of_theirs) {
  OSSL_LIB_CTX_free(of_ours);
  OSSL_PROVIDER_unload(loaded[0]);
  OSSL_PROVIDER_unload(loaded[1]);
  OSSL_LIB_CTX_free(of_theirs);
}

static inline bool is_ours(const OSSL_PROVIDER *provider) {
  return strcmp(OSSL_PROVIDER_get0_name(provider), "cukvashe") == 0;
}

/* The error of the call before, which is taken away: 0 if there is none. */
static inline unsigned long error_of_call(void) {
  unsigned long error = ERR_peek_last_error();
  ERR_clear_error();
  return error;
}

#endif
