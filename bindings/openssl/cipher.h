/* What the files of the ciphers share: a cipher in its mode, a message under a key, and the calls that the core makes. */
#ifndef CIPHER_H
#define CIPHER_H

#include "internal.h"

/* What a key becomes. */
union keys {
  cukvashe_des des;
  cukvashe_tdes_ede2 tdes_ede2;
  cukvashe_tdes_ede3 tdes_ede3;
  struct {
    cukvashe_des des;
    uint8_t after[BLOCK], both[BLOCK]; /* what is added after DES, and its sum with what is added before */
  } desx;
  uint8_t wrapping[CUKVASHE_TDES_EDE3_KEY_SIZE];
};

struct context;

/*
 * A cipher in its mode. `run` takes data in place, whole blocks if `block_size` is not 1, and CBC from the context's
 * vector. OFB and CFB have a mode of the library, and a call for whole segments, which leaves the vector.
 */
struct cipher {
  uint32_t evp_mode, key_length, vector_length, block_size;
  bool has_own_vector, takes_bits;
  size_t segment_bits;
  int (*init)(union keys *keys, const uint8_t *key, size_t length, bool no_tables);
  int (*run)(struct context *context, uint8_t *data, size_t length);
  int (*run_mode)(const struct context *context, bool encrypts, int mode, uint8_t *data, size_t length);
  int library_mode;
};

/* A message under a key. `pending` came and is not processed: a part of a block, or a whole last one that may be padding. */
struct context {
  const struct provider *provider;
  const struct cipher *cipher;
  union keys keys;
  bool has_key, has_vector, encrypts, pads, counts_bits;
  uint32_t number; /* "num": how many bytes of the vector are used, in OFB and in CFB of 64 bits; else it means nothing */
  uint8_t first_vector[BLOCK], vector[BLOCK], pending[BLOCK];
  size_t pending_length;
};

void *new_context(struct provider *provider, const struct cipher *cipher);
int get_params_of(const struct cipher *cipher, OSSL_PARAM params[]);

/* The first bits of a byte, 1 to 7, by CFB of 1 bit. */
int run_bits(struct context *context, uint8_t *byte, size_t bits);

/* A negative length of EVP comes as one that no buffer has. */
static inline bool is_length(size_t length) { return length <= SIZE_MAX / 2; }

extern OSSL_FUNC_cipher_freectx_fn free_context;
extern OSSL_FUNC_cipher_dupctx_fn copy_context;
extern OSSL_FUNC_cipher_encrypt_init_fn encrypt_init;
extern OSSL_FUNC_cipher_decrypt_init_fn decrypt_init;
extern OSSL_FUNC_cipher_update_fn block_update, stream_update, wrap_update;
extern OSSL_FUNC_cipher_final_fn block_final, stream_final, wrap_final;
extern OSSL_FUNC_cipher_cipher_fn block_at_once, stream_at_once, wrap_at_once;
extern OSSL_FUNC_cipher_gettable_params_fn gettable_params;
extern OSSL_FUNC_cipher_get_ctx_params_fn get_ctx_params;
extern OSSL_FUNC_cipher_gettable_ctx_params_fn gettable_ctx_params;
extern OSSL_FUNC_cipher_set_ctx_params_fn set_ctx_params;
extern OSSL_FUNC_cipher_settable_ctx_params_fn settable_ctx_params;

#endif
