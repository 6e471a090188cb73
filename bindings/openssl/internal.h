/* What the files of the provider share: what the core hands over, errors, parameters, and the lists of algorithms. */
#ifndef INTERNAL_H
#define INTERNAL_H

#include <cukvashe_des.h>
#include <openssl/core.h>
#include <openssl/core_dispatch.h>
#include <openssl/core_names.h>
#include <openssl/params.h>
#include <openssl/proverr.h>
#include <string.h>

enum { BLOCK = CUKVASHE_BLOCK_SIZE };

/* The provider once it is loaded: calls of the core, since no libcrypto is linked, and what the configuration asks for. */
struct provider {
  const OSSL_CORE_HANDLE *core;
  OSSL_FUNC_CRYPTO_zalloc_fn *zalloc;
  OSSL_FUNC_CRYPTO_clear_free_fn *clear_free;
  OSSL_FUNC_core_get_params_fn *get_params;
  OSSL_FUNC_core_new_error_fn *new_error;
  OSSL_FUNC_core_set_error_debug_fn *set_error_debug;
  OSSL_FUNC_core_vset_error_fn *vset_error;
  bool no_tables;   /* no table at a secret index */
  bool single_des;  /* single DES and DESX are offered too */
  bool small_stack; /* no vectors of 256 bits, whose calls take more of the stack */
  char build_info[64];
};

/* Kept out of short calls, which are most: the registers that it saves would slow them. */
#define NOT_INLINED __attribute__((noinline))

/* An error of OpenSSL's own providers (PROV_R_..), with a text or NULL. Always 0, for `return`. */
#define REFUSE(PROVIDER, REASON, TEXT) refuse(PROVIDER, __FILE__, __LINE__, __func__, REASON, TEXT)
int refuse(const struct provider *provider, const char *file, int line, const char *function, uint32_t reason,
           const char *text, ...) __attribute__((cold));

/* Memory of the core, zeros at first, and wiped when it goes. NULL if there is none, which the core reports. */
void *new_memory(const struct provider *provider, size_t size);
void wipe_and_free(const struct provider *provider, void *memory, size_t size);

/* As memmove, but null pointers may be copied from and to where `length` is 0. One block is copied without a call. */
static inline void copy(void *to, const void *from, size_t length) {
  if (length == BLOCK)
    memmove(to, from, BLOCK);
  else if (length != 0)
    memmove(to, from, length);
}

/*
 * Parameters, in the manner of libcrypto's OSSL_PARAM_get_.. and _set_.., which are not there to be called. What is put
 * into a parameter without a buffer tells its size. False if the type or the size of the parameter does not fit.
 */
struct number {
  const char *name;
  uint32_t value;
};

bool is_named(const OSSL_PARAM *param, const char *name);
bool put_numbers(OSSL_PARAM params[], const struct number *numbers, size_t count);
bool put_bytes(OSSL_PARAM *param, const uint8_t *bytes, size_t length);
bool put_text(OSSL_PARAM *param, const char *text);
bool take_number(const OSSL_PARAM *param, uint32_t *value);

/* The calls of an algorithm, as the core expects them. */
#define CALL(ID, FUNCTION) {ID, (void (*)(void))FUNCTION}
#define NO_MORE_CALLS {0, NULL}

#define PROPERTIES "provider=cukvashe"

const OSSL_ALGORITHM *ciphers_of(const struct provider *provider);
extern const OSSL_ALGORITHM macs[];

#endif
