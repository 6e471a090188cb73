/* The ciphers in their modes over the library, and the list of them with OpenSSL's names. */
#include "cipher.h"
#include <openssl/evp.h>

#define DEFINE_RUNS(NAME)                                                                                            \
  static int NAME##_init(union keys *keys, const uint8_t *key, size_t length, bool no_tables) {                      \
    if (no_tables) return cukvashe_##NAME##_init_no_tables(&keys->NAME, key, length);                                \
    return cukvashe_##NAME##_init(&keys->NAME, key, length);                                                         \
  }                                                                                                                  \
  static int NAME##_ecb(struct context *context, uint8_t *data, size_t length) {                                     \
    if (context->encrypts) return cukvashe_##NAME##_encrypt_ecb(&context->keys.NAME, data, length);                  \
    return cukvashe_##NAME##_decrypt_ecb(&context->keys.NAME, data, length);                                         \
  }                                                                                                                  \
  static int NAME##_cbc(struct context *context, uint8_t *data, size_t length) {                                     \
    if (context->encrypts) return cukvashe_##NAME##_encrypt_cbc(&context->keys.NAME, context->vector, data, length); \
    return cukvashe_##NAME##_decrypt_cbc(&context->keys.NAME, context->vector, data, length);                        \
  }                                                                                                                  \
  static int NAME##_mode(const struct context *context, bool encrypts, int mode, uint8_t *data, size_t length) {     \
    if (encrypts) return cukvashe_##NAME##_encrypt_mode(&context->keys.NAME, mode, context->vector, data, length);   \
    return cukvashe_##NAME##_decrypt_mode(&context->keys.NAME, mode, context->vector, data, length);                 \
  }

DEFINE_RUNS(des)
DEFINE_RUNS(tdes_ede2)
DEFINE_RUNS(tdes_ede3)

static void xor_block(uint8_t to[BLOCK], const uint8_t from[BLOCK]) {
  for (size_t i = 0; i < BLOCK; i++) to[i] ^= from[i];
}

static void xor_blocks(uint8_t *data, size_t length, const uint8_t block[BLOCK]) {
  for (size_t at = 0; at < length; at += BLOCK) xor_block(data + at, block);
}

/*
 * ---- DESX: a key of DES, a block that is added before it, and one that is added after it ----
 *
 * By definition C[i] = after ^ E(P[i] ^ C[i-1] ^ before), where C[0] is the vector. With D[i] = C[i] ^ after that is
 * D[i] = E(P[i] ^ before ^ after ^ D[i-1]): CBC of DES over the blocks P[i] ^ before ^ after.
 */

static int desx_init(union keys *keys, const uint8_t *key, size_t length, bool no_tables) {
  if (length != 3 * BLOCK) return CUKVASHE_ERR_KEY_LENGTH;
  memcpy(keys->desx.after, key + 2 * BLOCK, BLOCK);
  memcpy(keys->desx.both, key + BLOCK, BLOCK);
  xor_block(keys->desx.both, keys->desx.after);
  if (no_tables) return cukvashe_des_init_no_tables(&keys->desx.des, key, BLOCK);
  return cukvashe_des_init(&keys->desx.des, key, BLOCK);
}

static int desx_cbc(struct context *context, uint8_t *data, size_t length) {
  const cukvashe_des *des = &context->keys.desx.des;
  const uint8_t *both = context->keys.desx.both, *after = context->keys.desx.after;
  int status;
  xor_blocks(data, length, context->encrypts ? both : after);
  xor_block(context->vector, after);
  if (context->encrypts)
    status = cukvashe_des_encrypt_cbc(des, context->vector, data, length);
  else
    status = cukvashe_des_decrypt_cbc(des, context->vector, data, length);
  xor_block(context->vector, after);
  xor_blocks(data, length, context->encrypts ? after : both);
  return status;
}

/*
 * ---- OFB and CFB ----
 *
 * Their state is OpenSSL's, since programs read it and set it: the vector is the shift register, or of a block that has
 * begun the output block, whose first `number` bytes are used; in CFB the ciphertext stands in their place.
 */

static int run_mode(const struct context *context, uint8_t *data, size_t length) {
  return context->cipher->run_mode(context, context->encrypts, context->cipher->library_mode, data, length);
}

/* Moves ciphertext into a shift register from behind. */
static void shift_in(uint8_t shift_register[BLOCK], const uint8_t *ciphertext, size_t length) {
  const size_t count = length < BLOCK ? length : BLOCK;
  memmove(shift_register, shift_register + count, BLOCK - count);
  memcpy(shift_register + BLOCK - count, ciphertext + length - count, count);
}

/* Whole segments of CFB. */
static int run_cfb(struct context *context, uint8_t *data, size_t length) {
  uint8_t next[BLOCK];
  int status;
  memcpy(next, context->vector, BLOCK);
  if (!context->encrypts) shift_in(next, data, length);
  status = run_mode(context, data, length);
  if (context->encrypts) shift_in(next, data, length);
  memcpy(context->vector, next, BLOCK);
  return status;
}

/* Whole blocks of OFB, at least one. The last output block is what the last of them was added to. */
static int run_ofb(struct context *context, uint8_t *data, size_t length) {
  uint8_t *const last = data + length - BLOCK;
  uint8_t next[BLOCK];
  int status;
  memcpy(next, last, BLOCK);
  status = run_mode(context, data, length);
  xor_block(next, last);
  memcpy(context->vector, next, BLOCK);
  return status;
}

/* Makes the vector the next output block, which is OFB of zeros. */
static int begin_block(struct context *context) {
  uint8_t output[BLOCK] = {0};
  const int status = context->cipher->run_mode(context, true, CUKVASHE_OFB, output, BLOCK);
  memcpy(context->vector, output, BLOCK);
  return status;
}

/* Bytes of a block that has begun. */
static void run_in_block(struct context *context, uint8_t *data, size_t length) {
  const bool is_cfb = context->cipher->evp_mode == EVP_CIPH_CFB_MODE;
  for (size_t i = 0; i < length; i++) {
    uint8_t *const output = &context->vector[context->number];
    const uint8_t given = data[i];
    data[i] ^= *output;
    if (is_cfb) *output = context->encrypts ? data[i] : given;
    context->number = (context->number + 1) % BLOCK;
  }
}

/* OFB, and CFB of 64 bits: the rest of a block that has begun, whole blocks, and the beginning of the next. */
static int run_with_number(struct context *context, uint8_t *data, size_t length) {
  const size_t left = (BLOCK - context->number) % BLOCK, rest = left < length ? left : length;
  const size_t part = (length - rest) % BLOCK, whole = length - rest - part;
  int status = CUKVASHE_OK;
  run_in_block(context, data, rest);
  if (whole != 0) status = (context->cipher->evp_mode == EVP_CIPH_CFB_MODE ? run_cfb : run_ofb)(context, data + rest, whole);
  if (part != 0 && status == CUKVASHE_OK) status = begin_block(context);
  if (status == CUKVASHE_OK) run_in_block(context, data + rest + whole, part);
  return status;
}

/* A whole byte goes through the library, since no bit changes those before it. Then all but the first bits are put back. */
int run_bits(struct context *context, uint8_t *byte, size_t bits) {
  const size_t others = 8 - bits;
  const uint8_t given = *byte;
  uint8_t *const vector = context->vector;
  const int status = run_mode(context, byte, 1);
  const uint8_t ciphertext = context->encrypts ? *byte : given;
  for (size_t i = 0; i < BLOCK; i++) {
    const uint8_t next = i + 1 < BLOCK ? vector[i + 1] : ciphertext;
    vector[i] = (uint8_t)(vector[i] << bits | next >> others);
  }
  *byte ^= (uint8_t)((*byte ^ given) & (0xff >> bits));
  return status;
}

/* ---- Key wrap, which takes the key itself, and reads no tables ---- */

static int wrap_init(union keys *keys, const uint8_t *key, size_t length, bool no_tables) {
  (void)no_tables;
  if (length != sizeof keys->wrapping) return CUKVASHE_ERR_KEY_LENGTH;
  memcpy(keys->wrapping, key, length);
  return CUKVASHE_OK;
}

/* ---- The list. `newctx` and `get_params` are not told which cipher is meant, so that each has its own ---- */

#define DEFINE_CIPHER(NAME, STEPS, ...)                                                                         \
  static const struct cipher NAME##_cipher = {__VA_ARGS__};                                                     \
  static void *new_##NAME(void *provider) { return new_context(provider, &NAME##_cipher); }                     \
  static int get_params_of_##NAME(OSSL_PARAM params[]) { return get_params_of(&NAME##_cipher, params); }        \
  static const OSSL_DISPATCH NAME##_calls[] = {CALL(OSSL_FUNC_CIPHER_NEWCTX, new_##NAME),                       \
                                               CALL(OSSL_FUNC_CIPHER_FREECTX, free_context),                    \
                                               CALL(OSSL_FUNC_CIPHER_DUPCTX, copy_context),                     \
                                               CALL(OSSL_FUNC_CIPHER_ENCRYPT_INIT, encrypt_init),               \
                                               CALL(OSSL_FUNC_CIPHER_DECRYPT_INIT, decrypt_init),               \
                                               CALL(OSSL_FUNC_CIPHER_UPDATE, STEPS##_update),                   \
                                               CALL(OSSL_FUNC_CIPHER_FINAL, STEPS##_final),                     \
                                               CALL(OSSL_FUNC_CIPHER_CIPHER, STEPS##_at_once),                  \
                                               CALL(OSSL_FUNC_CIPHER_GET_PARAMS, get_params_of_##NAME),         \
                                               CALL(OSSL_FUNC_CIPHER_GETTABLE_PARAMS, gettable_params),         \
                                               CALL(OSSL_FUNC_CIPHER_GET_CTX_PARAMS, get_ctx_params),           \
                                               CALL(OSSL_FUNC_CIPHER_GETTABLE_CTX_PARAMS, gettable_ctx_params), \
                                               CALL(OSSL_FUNC_CIPHER_SET_CTX_PARAMS, set_ctx_params),           \
                                               CALL(OSSL_FUNC_CIPHER_SETTABLE_CTX_PARAMS, settable_ctx_params), \
                                               NO_MORE_CALLS};

#define DEFINE_BLOCK_CIPHER(NAME, MODE, KEY_LENGTH, VECTOR_LENGTH, INIT)                                                   \
  DEFINE_CIPHER(NAME, block, .evp_mode = EVP_CIPH_##MODE##_MODE, .key_length = KEY_LENGTH, .vector_length = VECTOR_LENGTH, \
                .block_size = BLOCK, .segment_bits = 8 * BLOCK, .init = INIT, .run = NAME)

#define DEFINE_STREAM(NAME, mode, MODE, KEY_LENGTH, LIBRARY_MODE, SEGMENT_BITS, RUN, TAKES_BITS)                 \
  DEFINE_CIPHER(NAME##_##mode, stream, .evp_mode = EVP_CIPH_##MODE##_MODE, .key_length = KEY_LENGTH,             \
                .vector_length = BLOCK, .block_size = 1, .takes_bits = TAKES_BITS, .segment_bits = SEGMENT_BITS, \
                .init = NAME##_init, .run = RUN, .run_mode = NAME##_mode, .library_mode = LIBRARY_MODE)

#define DEFINE_CIPHERS(NAME, KEY_LENGTH)                                                     \
  DEFINE_BLOCK_CIPHER(NAME##_cbc, CBC, KEY_LENGTH, BLOCK, NAME##_init)                       \
  DEFINE_BLOCK_CIPHER(NAME##_ecb, ECB, KEY_LENGTH, 0, NAME##_init)                           \
  DEFINE_STREAM(NAME, ofb, OFB, KEY_LENGTH, CUKVASHE_OFB, 8 * BLOCK, run_with_number, false) \
  DEFINE_STREAM(NAME, cfb64, CFB, KEY_LENGTH, CUKVASHE_CFB64, 8 * BLOCK, run_with_number, false)

/* OpenSSL counts bits in CFB of 1 bit for triple DES alone. */
#define DEFINE_SHORT_CFB(NAME, KEY_LENGTH, TAKES_BITS)                         \
  DEFINE_STREAM(NAME, cfb8, CFB, KEY_LENGTH, CUKVASHE_CFB8, 8, run_cfb, false) \
  DEFINE_STREAM(NAME, cfb1, CFB, KEY_LENGTH, CUKVASHE_CFB1, 1, run_cfb, TAKES_BITS)

DEFINE_CIPHERS(tdes_ede3, CUKVASHE_TDES_EDE3_KEY_SIZE)
DEFINE_SHORT_CFB(tdes_ede3, CUKVASHE_TDES_EDE3_KEY_SIZE, true)
DEFINE_CIPHERS(tdes_ede2, CUKVASHE_TDES_EDE2_KEY_SIZE)
DEFINE_CIPHERS(des, CUKVASHE_DES_KEY_SIZE)
DEFINE_SHORT_CFB(des, CUKVASHE_DES_KEY_SIZE, false)
DEFINE_BLOCK_CIPHER(desx_cbc, CBC, 3 * BLOCK, BLOCK, desx_init)

DEFINE_CIPHER(wrap, wrap, .evp_mode = EVP_CIPH_WRAP_MODE, .key_length = CUKVASHE_TDES_EDE3_KEY_SIZE, .block_size = BLOCK,
              .has_own_vector = true, .init = wrap_init)

/* The names are OpenSSL's, all of each: the core refuses a list that joins names of two algorithms. */
#define TRIPLE_CIPHERS                                                                                        \
  {"DES-EDE3-CBC:DES3:1.2.840.113549.3.7", PROPERTIES, tdes_ede3_cbc_calls, "triple DES of three keys, CBC"}, \
      {"DES-EDE3-ECB:DES-EDE3", PROPERTIES, tdes_ede3_ecb_calls, "triple DES of three keys, ECB"},            \
      {"DES-EDE3-OFB", PROPERTIES, tdes_ede3_ofb_calls, "triple DES of three keys, OFB"},                     \
      {"DES-EDE3-CFB", PROPERTIES, tdes_ede3_cfb64_calls, "triple DES of three keys, CFB of 64 bits"},        \
      {"DES-EDE3-CFB8", PROPERTIES, tdes_ede3_cfb8_calls, "triple DES of three keys, CFB of 8 bits"},         \
      {"DES-EDE3-CFB1", PROPERTIES, tdes_ede3_cfb1_calls, "triple DES of three keys, CFB of 1 bit"},          \
      {"DES3-WRAP:id-smime-alg-CMS3DESwrap:1.2.840.113549.1.9.16.3.6", PROPERTIES, wrap_calls,                \
       "key wrap under triple DES of three keys (RFC 3217)"},                                                 \
      {"DES-EDE-CBC", PROPERTIES, tdes_ede2_cbc_calls, "triple DES of two keys, CBC"},                        \
      {"DES-EDE-ECB:DES-EDE:1.3.14.3.2.17", PROPERTIES, tdes_ede2_ecb_calls, "triple DES of two keys, ECB"},  \
      {"DES-EDE-OFB", PROPERTIES, tdes_ede2_ofb_calls, "triple DES of two keys, OFB"},                        \
      {"DES-EDE-CFB", PROPERTIES, tdes_ede2_cfb64_calls, "triple DES of two keys, CFB of 64 bits"}

static const OSSL_ALGORITHM triple_ciphers[] = {TRIPLE_CIPHERS, {NULL, NULL, NULL, NULL}};
static const OSSL_ALGORITHM all_ciphers[] = {TRIPLE_CIPHERS,
                                             {"DES-CBC:DES:1.3.14.3.2.7", PROPERTIES, des_cbc_calls, "DES, CBC"},
                                             {"DES-ECB:1.3.14.3.2.6", PROPERTIES, des_ecb_calls, "DES, ECB"},
                                             {"DES-OFB:1.3.14.3.2.8", PROPERTIES, des_ofb_calls, "DES, OFB"},
                                             {"DES-CFB:1.3.14.3.2.9", PROPERTIES, des_cfb64_calls, "DES, CFB of 64 bits"},
                                             {"DES-CFB8", PROPERTIES, des_cfb8_calls, "DES, CFB of 8 bits"},
                                             {"DES-CFB1", PROPERTIES, des_cfb1_calls, "DES, CFB of 1 bit"},
                                             {"DESX-CBC:DESX", PROPERTIES, desx_cbc_calls, "DESX, CBC"},
                                             {NULL, NULL, NULL, NULL}};

const OSSL_ALGORITHM *ciphers_of(const struct provider *provider) {
  return provider->single_des ? all_ciphers : triple_ciphers;
}
