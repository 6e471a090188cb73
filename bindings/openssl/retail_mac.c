/*
 * RETAIL-MAC, by EVP_MAC: ISO/IEC 9797-1:2011, MAC algorithm 3 over DES, a key of 16 bytes and a tag of 8, or by the
 * parameter "size" its first 4 to 7 bytes. The padding method, the number 1 or 2, is the parameter "padding". It has no
 * default, since the sender has chosen it.
 */
#include "internal.h"

#define PARAM_PADDING "padding"

enum { LEAST_TAG_SIZE = 4 }; /* that of the library's `verify` */

/* A message under a key. The key is kept, for messages after it. */
struct context {
  const struct provider *provider;
  cukvashe_retail_mac_des state;
  uint8_t key[CUKVASHE_RETAIL_MAC_DES_KEY_SIZE];
  int method; /* 0 until it is set */
  uint32_t tag_size;
  bool has_key, has_begun;
};

static void *new_context(void *provider) {
  struct context *context = new_memory(provider, sizeof *context);
  if (context == NULL) return NULL;
  context->provider = provider;
  context->tag_size = CUKVASHE_TAG_SIZE;
  return context;
}

static void free_context(void *given) {
  struct context *context = given;
  if (context != NULL) wipe_and_free(context->provider, context, sizeof *context);
}

static void *copy_context(void *given) {
  const struct context *context = given;
  struct context *other = new_memory(context->provider, sizeof *other);
  if (other != NULL) *other = *context;
  return other;
}

static int set_key(struct context *context, const uint8_t *key, size_t length) {
  if (length != sizeof context->key) return REFUSE(context->provider, PROV_R_INVALID_KEY_LENGTH, NULL);
  memcpy(context->key, key, sizeof context->key);
  context->has_key = true;
  return 1;
}

static int set_method(struct context *context, const OSSL_PARAM *param) {
  uint32_t method;
  if (!take_number(param, &method)) return REFUSE(context->provider, PROV_R_FAILED_TO_GET_PARAMETER, NULL);
  if (method != CUKVASHE_MAC_PADDING_1 && method != CUKVASHE_MAC_PADDING_2)
    return REFUSE(context->provider, PROV_R_INVALID_PADDING_MODE, "padding is 1 or 2");
  context->method = (int)method;
  return 1;
}

static int set_tag_size(struct context *context, const OSSL_PARAM *param) {
  uint32_t size;
  if (!take_number(param, &size)) return REFUSE(context->provider, PROV_R_FAILED_TO_GET_PARAMETER, NULL);
  if (size < LEAST_TAG_SIZE || size > CUKVASHE_TAG_SIZE)
    return REFUSE(context->provider, PROV_R_INVALID_OUTPUT_LENGTH, "size is 4 to 8");
  context->tag_size = size;
  return 1;
}

/* A message that has begun ends if its key or its padding changes: `init` begins the next. */
static int set_ctx_params(void *given, const OSSL_PARAM params[]) {
  struct context *context = given;
  for (const OSSL_PARAM *param = params; param != NULL && param->key != NULL; param++) {
    if (is_named(param, OSSL_MAC_PARAM_KEY)) {
      context->has_begun = false;
      if (param->data_type != OSSL_PARAM_OCTET_STRING || param->data == NULL)
        return REFUSE(context->provider, PROV_R_FAILED_TO_GET_PARAMETER, NULL);
      if (!set_key(context, param->data, param->data_size)) return 0;
    } else if (is_named(param, PARAM_PADDING)) {
      context->has_begun = false;
      if (!set_method(context, param)) return 0;
    } else if (is_named(param, OSSL_MAC_PARAM_SIZE) && !set_tag_size(context, param)) {
      return 0;
    }
  }
  return 1;
}

static int begin(struct context *context) {
  const struct provider *provider = context->provider;
  if (!context->has_key) return REFUSE(provider, PROV_R_NO_KEY_SET, NULL);
  if (context->method == 0) return REFUSE(provider, PROV_R_INVALID_PADDING_MODE, "set padding to 1 or 2");
  if ((provider->no_tables ? cukvashe_retail_mac_des_init_no_tables : cukvashe_retail_mac_des_init)(
          &context->state, context->key, sizeof context->key, context->method) != CUKVASHE_OK)
    return REFUSE(provider, PROV_R_KEY_SETUP_FAILED, NULL);
  context->has_begun = true;
  return 1;
}

static int init(void *given, const unsigned char *key, size_t key_length, const OSSL_PARAM params[]) {
  struct context *context = given;
  context->has_begun = false;
  return (key == NULL || set_key(context, key, key_length)) && set_ctx_params(context, params) && begin(context);
}

static int update(void *given, const unsigned char *message, size_t length) {
  struct context *context = given;
  if (!context->has_begun) return REFUSE(context->provider, PROV_R_NO_KEY_SET, "no message has begun");
  if (cukvashe_retail_mac_des_update(&context->state, message, length) == CUKVASHE_OK) return 1;
  return REFUSE(context->provider, PROV_R_CIPHER_OPERATION_FAILED, NULL);
}

static int final(void *given, unsigned char *tag, size_t *tag_length, size_t size) {
  struct context *context = given;
  uint8_t whole[CUKVASHE_TAG_SIZE];
  if (!context->has_begun) return REFUSE(context->provider, PROV_R_NO_KEY_SET, "no message has begun");
  if (size < context->tag_size) return REFUSE(context->provider, PROV_R_OUTPUT_BUFFER_TOO_SMALL, NULL);
  if (cukvashe_retail_mac_des_final(&context->state, whole) != CUKVASHE_OK)
    return REFUSE(context->provider, PROV_R_CIPHER_OPERATION_FAILED, NULL);
  memcpy(tag, whole, context->tag_size);
  cukvashe_wipe(whole, sizeof whole);
  *tag_length = context->tag_size;
  return 1;
}

static const OSSL_PARAM *gettable_ctx_params(void *context, void *provider) {
  static const OSSL_PARAM known[] = {OSSL_PARAM_size_t(OSSL_MAC_PARAM_SIZE, NULL),
                                     OSSL_PARAM_size_t(OSSL_MAC_PARAM_BLOCK_SIZE, NULL), OSSL_PARAM_END};
  (void)context;
  (void)provider;
  return known;
}

static int get_ctx_params(void *given, OSSL_PARAM params[]) {
  const struct context *context = given;
  const struct number numbers[] = {{OSSL_MAC_PARAM_SIZE, context->tag_size}, {OSSL_MAC_PARAM_BLOCK_SIZE, BLOCK}};
  if (put_numbers(params, numbers, sizeof numbers / sizeof *numbers)) return 1;
  return REFUSE(context->provider, PROV_R_FAILED_TO_SET_PARAMETER, NULL);
}

static const OSSL_PARAM *settable_ctx_params(void *context, void *provider) {
  static const OSSL_PARAM known[] = {OSSL_PARAM_octet_string(OSSL_MAC_PARAM_KEY, NULL, 0),
                                     OSSL_PARAM_uint(PARAM_PADDING, NULL), OSSL_PARAM_size_t(OSSL_MAC_PARAM_SIZE, NULL),
                                     OSSL_PARAM_END};
  (void)context;
  (void)provider;
  return known;
}

static const OSSL_DISPATCH calls[] = {CALL(OSSL_FUNC_MAC_NEWCTX, new_context),
                                      CALL(OSSL_FUNC_MAC_DUPCTX, copy_context),
                                      CALL(OSSL_FUNC_MAC_FREECTX, free_context),
                                      CALL(OSSL_FUNC_MAC_INIT, init),
                                      CALL(OSSL_FUNC_MAC_UPDATE, update),
                                      CALL(OSSL_FUNC_MAC_FINAL, final),
                                      CALL(OSSL_FUNC_MAC_GETTABLE_CTX_PARAMS, gettable_ctx_params),
                                      CALL(OSSL_FUNC_MAC_GET_CTX_PARAMS, get_ctx_params),
                                      CALL(OSSL_FUNC_MAC_SETTABLE_CTX_PARAMS, settable_ctx_params),
                                      CALL(OSSL_FUNC_MAC_SET_CTX_PARAMS, set_ctx_params),
                                      NO_MORE_CALLS};

const OSSL_ALGORITHM macs[] = {{"RETAIL-MAC", PROPERTIES, calls, "retail MAC over DES (ISO/IEC 9797-1, algorithm 3)"},
                               {NULL, NULL, NULL, NULL}};
