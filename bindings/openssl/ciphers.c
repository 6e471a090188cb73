/* Contexts of ciphers, their parameters, and messages in steps, as OpenSSL's own, with its statuses and errors. */
#include "cipher.h"
#include <sys/random.h>

static int run(struct context *context, uint8_t *data, size_t length) {
  if (context->cipher->run(context, data, length) == CUKVASHE_OK) return 1;
  return REFUSE(context->provider, PROV_R_CIPHER_OPERATION_FAILED, NULL);
}

/* Up to 128 segments the library takes no vectors of 256 bits. */
static NOT_INLINED int run_in_pieces(struct context *context, uint8_t *data, size_t length) {
  const size_t most = 128 * context->cipher->segment_bits / 8;
  for (; length > most; length -= most, data += most)
    if (!run(context, data, most)) return 0;
  return run(context, data, length);
}

/* ---- Contexts ---- */

void *new_context(struct provider *provider, const struct cipher *cipher) {
  struct context *context = new_memory(provider, sizeof *context);
  if (context == NULL) return NULL;
  context->provider = provider;
  context->cipher = cipher;
  context->pads = true;
  return context;
}

void free_context(void *given) {
  struct context *context = given;
  if (context != NULL) wipe_and_free(context->provider, context, sizeof *context);
}

void *copy_context(void *given) {
  const struct context *context = given;
  struct context *other = new_memory(context->provider, sizeof *other);
  if (other != NULL) *other = *context;
  return other;
}

/* ---- Parameters ---- */

#define COUNT(LIST) (sizeof(LIST) / sizeof *(LIST))

const OSSL_PARAM *gettable_params(void *provider) {
  static const OSSL_PARAM known[] = {OSSL_PARAM_uint(OSSL_CIPHER_PARAM_MODE, NULL),
                                     OSSL_PARAM_size_t(OSSL_CIPHER_PARAM_KEYLEN, NULL),
                                     OSSL_PARAM_size_t(OSSL_CIPHER_PARAM_IVLEN, NULL),
                                     OSSL_PARAM_size_t(OSSL_CIPHER_PARAM_BLOCK_SIZE, NULL),
                                     OSSL_PARAM_int(OSSL_CIPHER_PARAM_AEAD, NULL),
                                     OSSL_PARAM_int(OSSL_CIPHER_PARAM_CUSTOM_IV, NULL),
                                     OSSL_PARAM_int(OSSL_CIPHER_PARAM_CTS, NULL),
                                     OSSL_PARAM_int(OSSL_CIPHER_PARAM_TLS1_MULTIBLOCK, NULL),
                                     OSSL_PARAM_int(OSSL_CIPHER_PARAM_HAS_RAND_KEY, NULL),
                                     OSSL_PARAM_END};
  (void)provider;
  return known;
}

int get_params_of(const struct cipher *cipher, OSSL_PARAM params[]) {
  const struct number numbers[] = {{OSSL_CIPHER_PARAM_MODE, cipher->evp_mode},
                                   {OSSL_CIPHER_PARAM_KEYLEN, cipher->key_length},
                                   {OSSL_CIPHER_PARAM_IVLEN, cipher->vector_length},
                                   {OSSL_CIPHER_PARAM_BLOCK_SIZE, cipher->block_size},
                                   {OSSL_CIPHER_PARAM_AEAD, 0},
                                   {OSSL_CIPHER_PARAM_CUSTOM_IV, cipher->has_own_vector},
                                   {OSSL_CIPHER_PARAM_CTS, 0},
                                   {OSSL_CIPHER_PARAM_TLS1_MULTIBLOCK, 0},
                                   {OSSL_CIPHER_PARAM_HAS_RAND_KEY, 1}};
  return put_numbers(params, numbers, COUNT(numbers));
}

const OSSL_PARAM *gettable_ctx_params(void *context, void *provider) {
  static const OSSL_PARAM known[] = {OSSL_PARAM_size_t(OSSL_CIPHER_PARAM_KEYLEN, NULL),
                                     OSSL_PARAM_size_t(OSSL_CIPHER_PARAM_IVLEN, NULL),
                                     OSSL_PARAM_uint(OSSL_CIPHER_PARAM_PADDING, NULL),
                                     OSSL_PARAM_uint(OSSL_CIPHER_PARAM_NUM, NULL),
                                     OSSL_PARAM_octet_string(OSSL_CIPHER_PARAM_IV, NULL, 0),
                                     OSSL_PARAM_octet_string(OSSL_CIPHER_PARAM_UPDATED_IV, NULL, 0),
                                     OSSL_PARAM_octet_string(OSSL_CIPHER_PARAM_RANDOM_KEY, NULL, 0),
                                     OSSL_PARAM_END};
  (void)context;
  (void)provider;
  return known;
}

/*
 * A random key of odd parity. The core gives no size, or one that is large enough. A parameter of another type may have no more
 * than a number or a pointer behind it.
 */
static bool put_random_key(OSSL_PARAM *param, size_t length) {
  if (param->data_type != OSSL_PARAM_OCTET_STRING || param->data == NULL) return false;
  if (param->data_size != 0 && param->data_size < length) return false;
  if (getrandom(param->data, length, 0) != (ssize_t)length) return false;
  cukvashe_set_odd_parity(param->data, length);
  param->return_size = length;
  return true;
}

int get_ctx_params(void *given, OSSL_PARAM params[]) {
  const struct context *context = given;
  const struct cipher *cipher = context->cipher;
  const struct number numbers[] = {{OSSL_CIPHER_PARAM_KEYLEN, cipher->key_length},
                                   {OSSL_CIPHER_PARAM_IVLEN, cipher->vector_length},
                                   {OSSL_CIPHER_PARAM_PADDING, context->pads},
                                   {OSSL_CIPHER_PARAM_NUM, context->number}};
  bool fits = put_numbers(params, numbers, COUNT(numbers));
  for (OSSL_PARAM *param = params; fits && param != NULL && param->key != NULL; param++) {
    if (is_named(param, OSSL_CIPHER_PARAM_IV)) {
      fits = put_bytes(param, context->first_vector, cipher->vector_length);
    } else if (is_named(param, OSSL_CIPHER_PARAM_UPDATED_IV)) {
      fits = put_bytes(param, context->vector, cipher->vector_length);
    } else if (is_named(param, OSSL_CIPHER_PARAM_RANDOM_KEY) && !put_random_key(param, cipher->key_length)) {
      return REFUSE(context->provider, PROV_R_FAILED_TO_GENERATE_KEY, NULL);
    }
  }
  if (!fits) return REFUSE(context->provider, PROV_R_FAILED_TO_SET_PARAMETER, NULL);
  return 1;
}

const OSSL_PARAM *settable_ctx_params(void *context, void *provider) {
  static const OSSL_PARAM known[] = {OSSL_PARAM_uint(OSSL_CIPHER_PARAM_PADDING, NULL),
                                     OSSL_PARAM_uint(OSSL_CIPHER_PARAM_NUM, NULL),
                                     OSSL_PARAM_uint(OSSL_CIPHER_PARAM_USE_BITS, NULL),
                                     OSSL_PARAM_uint(OSSL_CIPHER_PARAM_TLS_VERSION, NULL), OSSL_PARAM_END};
  (void)context;
  (void)provider;
  return known;
}

/* A record of TLS wants its padding and its MAC taken off in here, in constant time. That is refused, and not done badly. */
int set_ctx_params(void *given, const OSSL_PARAM params[]) {
  struct context *context = given;
  const struct provider *provider = context->provider;
  for (const OSSL_PARAM *param = params; param != NULL && param->key != NULL; param++) {
    const bool is_padding = is_named(param, OSSL_CIPHER_PARAM_PADDING), is_number = is_named(param, OSSL_CIPHER_PARAM_NUM);
    const bool is_of_bits = is_named(param, OSSL_CIPHER_PARAM_USE_BITS);
    uint32_t value;
    if (!is_padding && !is_number && !is_of_bits && !is_named(param, OSSL_CIPHER_PARAM_TLS_VERSION)) continue;
    if (!take_number(param, &value)) return REFUSE(provider, PROV_R_FAILED_TO_GET_PARAMETER, NULL);
    if (is_padding)
      context->pads = value != 0;
    else if (is_of_bits)
      context->counts_bits = value != 0;
    else if (is_number && value >= BLOCK) /* as newer versions of OpenSSL have it */
      return REFUSE(provider, PROV_R_FAILED_TO_GET_PARAMETER, NULL);
    else if (is_number)
      context->number = value;
    else if (value != 0)
      return REFUSE(provider, PROV_R_NOT_SUPPORTED, "no records of TLS: take the cipher with provider!=cukvashe");
  }
  return 1;
}

/* ---- The beginning of a message ---- */

static int set_vector(struct context *context, const uint8_t *vector, size_t length) {
  if (length != context->cipher->vector_length) return REFUSE(context->provider, PROV_R_INVALID_IV_LENGTH, NULL);
  copy(context->first_vector, vector, length);
  context->has_vector = true;
  return 1;
}

static int set_key(struct context *context, const uint8_t *key, size_t length) {
  if (context->cipher->init(&context->keys, key, length, context->provider->no_tables) != CUKVASHE_OK)
    return REFUSE(context->provider, PROV_R_INVALID_KEY_LENGTH, NULL);
  context->has_key = true;
  return 1;
}

/* Without a key or a vector of its own, a message has those of the message before it, the vector as it was at first. */
static int begin(struct context *context, const uint8_t *key, size_t key_length, const uint8_t *vector,
                 size_t vector_length, const OSSL_PARAM params[], bool encrypts) {
  context->encrypts = encrypts;
  context->pending_length = 0;
  context->number = 0;
  if (vector != NULL && !set_vector(context, vector, vector_length)) return 0;
  if (context->has_vector) memcpy(context->vector, context->first_vector, BLOCK);
  return (key == NULL || set_key(context, key, key_length)) && set_ctx_params(context, params);
}

int encrypt_init(void *context, const unsigned char *key, size_t key_length, const unsigned char *vector,
                        size_t vector_length, const OSSL_PARAM params[]) {
  return begin(context, key, key_length, vector, vector_length, params, true);
}

int decrypt_init(void *context, const unsigned char *key, size_t key_length, const unsigned char *vector,
                        size_t vector_length, const OSSL_PARAM params[]) {
  return begin(context, key, key_length, vector, vector_length, params, false);
}

/* ---- The message in blocks ---- */

/* How many of `total` bytes go through the cipher now: all whole blocks, but for a last one that may be padding. */
static size_t ready_of(const struct context *context, size_t total) {
  const bool keeps_block = context->pads && !context->encrypts && total != 0 && total % BLOCK == 0;
  return total - (keeps_block ? BLOCK : total % BLOCK);
}

/* Input that was moved to its place in the output. */
static int run_moved(struct context *context, unsigned char *output, size_t length) {
  return context->provider->small_stack ? run_in_pieces(context, output, length) : run(context, output, length);
}

/*
 * The input may lie over the output in any way. So what will be pending is saved first, then the input moved to its place in
 * the output, and the pending bytes put before it. If a block is ready, it has all of them.
 */
static NOT_INLINED int run_with_pending(struct context *context, unsigned char *output, size_t ready, const unsigned char *input,
                         size_t pending) {
  const size_t rest_length = context->pending_length;
  uint8_t rest[BLOCK];
  copy(rest, input + (ready - pending), rest_length);
  copy(output + pending, input, ready - pending);
  copy(output, context->pending, pending);
  copy(context->pending, rest, rest_length);
  return run_moved(context, output, ready);
}

int block_update(void *given, unsigned char *output, size_t *output_length, size_t size, const unsigned char *input,
                 size_t length) {
  struct context *context = given;
  const size_t pending = context->pending_length, total = pending + length, ready = ready_of(context, total);
  if (!context->has_key) return REFUSE(context->provider, PROV_R_NO_KEY_SET, NULL);
  if (!is_length(length)) return REFUSE(context->provider, PROV_R_BAD_LENGTH, NULL);
  if (size < ready) return REFUSE(context->provider, PROV_R_OUTPUT_BUFFER_TOO_SMALL, NULL);
  *output_length = ready;
  context->pending_length = total - ready;
  if (ready == 0) {
    copy(context->pending + pending, input, length);
    return 1;
  }
  if (pending != 0 || ready != length) return run_with_pending(context, output, ready, input, pending);
  copy(output, input, length);
  return run_moved(context, output, length);
}

/* `length` bytes of the last block, which is not pending any longer. */
static int give_last(struct context *context, unsigned char *output, size_t *output_length, size_t size, size_t length) {
  if (size < length) return REFUSE(context->provider, PROV_R_OUTPUT_BUFFER_TOO_SMALL, NULL);
  copy(output, context->pending, length);
  *output_length = length;
  cukvashe_wipe(context->pending, BLOCK);
  context->pending_length = 0;
  return 1;
}

static int final_encryption(struct context *context, unsigned char *output, size_t *output_length, size_t size) {
  size_t padded = context->pending_length;
  if (context->pads && cukvashe_pad(context->pending, padded, BLOCK, CUKVASHE_PKCS7, &padded) != CUKVASHE_OK)
    return REFUSE(context->provider, PROV_R_CIPHER_OPERATION_FAILED, NULL);
  if (padded % BLOCK != 0) return REFUSE(context->provider, PROV_R_WRONG_FINAL_BLOCK_LENGTH, NULL);
  if (size < padded) return REFUSE(context->provider, PROV_R_OUTPUT_BUFFER_TOO_SMALL, NULL);
  return run(context, context->pending, padded) && give_last(context, output, output_length, size, padded);
}

/* A wrong padding is reported, as EVP expects. What it was decrypted to is not kept. */
static int final_decryption(struct context *context, unsigned char *output, size_t *output_length, size_t size) {
  size_t length = context->pending_length;
  if (length == 0 && !context->pads) return give_last(context, output, output_length, size, 0);
  if (length != BLOCK) return REFUSE(context->provider, PROV_R_WRONG_FINAL_BLOCK_LENGTH, NULL);
  if (!run(context, context->pending, BLOCK)) return 0;
  if (context->pads && cukvashe_unpad(context->pending, BLOCK, CUKVASHE_PKCS7, &length) != CUKVASHE_OK) {
    cukvashe_wipe(context->pending, BLOCK);
    context->pending_length = 0;
    return REFUSE(context->provider, PROV_R_BAD_DECRYPT, NULL);
  }
  return give_last(context, output, output_length, size, length);
}

int block_final(void *given, unsigned char *output, size_t *output_length, size_t size) {
  struct context *context = given;
  if (!context->has_key) return REFUSE(context->provider, PROV_R_NO_KEY_SET, NULL);
  if (context->encrypts) return final_encryption(context, output, output_length, size);
  return final_decryption(context, output, output_length, size);
}

/* EVP_Cipher: whole blocks, beside the pending bytes. */
int block_at_once(void *given, unsigned char *output, size_t *output_length, size_t size, const unsigned char *input,
                  size_t length) {
  struct context *context = given;
  if (!context->has_key) return REFUSE(context->provider, PROV_R_NO_KEY_SET, NULL);
  if (size < length) return REFUSE(context->provider, PROV_R_OUTPUT_BUFFER_TOO_SMALL, NULL);
  if (length % BLOCK != 0) return REFUSE(context->provider, PROV_R_WRONG_FINAL_BLOCK_LENGTH, NULL);
  copy(output, input, length);
  *output_length = length;
  return run_moved(context, output, length);
}

/* ---- The message in bytes, or in bits, which begin a byte: of others in the last byte the output keeps its own ---- */

static bool counts_bits(const struct context *context) { return context->cipher->takes_bits && context->counts_bits; }

static int run_by_bits(struct context *context, unsigned char *output, const unsigned char *input, size_t bits) {
  const size_t whole = bits / 8, part = bits % 8;
  uint8_t last = 0;
  if (part != 0) {
    const uint8_t behind = (uint8_t)(0xff >> part);
    last = (uint8_t)((input[whole] & ~behind) | (output[whole] & behind));
  }
  copy(output, input, whole);
  if (!run_moved(context, output, whole)) return 0;
  if (part == 0) return 1;
  output[whole] = last;
  if (run_bits(context, output + whole, part) == CUKVASHE_OK) return 1;
  return REFUSE(context->provider, PROV_R_CIPHER_OPERATION_FAILED, NULL);
}

/* EVP_Cipher does the same as an update. */
int stream_at_once(void *given, unsigned char *output, size_t *output_length, size_t size, const unsigned char *input,
                   size_t length) {
  struct context *context = given;
  if (!context->has_key) return REFUSE(context->provider, PROV_R_NO_KEY_SET, NULL);
  if (!is_length(length)) return REFUSE(context->provider, PROV_R_BAD_LENGTH, NULL);
  if (size < length) return REFUSE(context->provider, PROV_R_OUTPUT_BUFFER_TOO_SMALL, NULL);
  *output_length = length;
  if (length == 0) return 1;
  if (counts_bits(context)) return run_by_bits(context, output, input, length);
  copy(output, input, length);
  return run_moved(context, output, length);
}

int stream_update(void *given, unsigned char *output, size_t *output_length, size_t size, const unsigned char *input,
                  size_t length) {
  return stream_at_once(given, output, output_length, size, input, length);
}

int stream_final(void *given, unsigned char *output, size_t *output_length, size_t size) {
  const struct context *context = given;
  (void)output;
  (void)size;
  if (!context->has_key) return REFUSE(context->provider, PROV_R_NO_KEY_SET, NULL);
  *output_length = 0;
  return 1;
}
