/*
 * Cukvashe as a provider of OpenSSL 3: DES and triple DES under OpenSSL's names and with its behaviour, and the retail
 * MAC. It links no libcrypto: memory and errors come by the calls that the core hands over. So one module serves any
 * OpenSSL 3, also one that a program holds in itself.
 */
#include "internal.h"
#include <openssl/err.h>
#include <stdarg.h>
#include <strings.h>

#define NO_TABLES "no-tables"
#define SINGLE_DES "single-des"
#define SMALL_STACK "small-stack"

/* Programs know OpenSSL's errors by the number of its providers' library, and the core has the texts for it. */
int refuse(const struct provider *provider, const char *file, int line, const char *function, uint32_t reason,
           const char *text, ...) {
  va_list words;
  if (provider->new_error == NULL || provider->vset_error == NULL) return 0;
  provider->new_error(provider->core);
  if (provider->set_error_debug != NULL) provider->set_error_debug(provider->core, file, line, function);
  va_start(words, text);
  provider->vset_error(provider->core, (uint32_t)ERR_PACK(ERR_LIB_PROV, 0, reason), text, words);
  va_end(words);
  return 0;
}

void *new_memory(const struct provider *provider, size_t size) { return provider->zalloc(size, __FILE__, __LINE__); }

void wipe_and_free(const struct provider *provider, void *memory, size_t size) {
  if (memory != NULL) provider->clear_free(memory, size, __FILE__, __LINE__);
}

/* What of the core is taken. The rest of its list is for other providers. */
static void take_calls(struct provider *provider, const OSSL_DISPATCH *in) {
  for (; in->function_id != 0; in++) {
    switch (in->function_id) {
      case OSSL_FUNC_CRYPTO_ZALLOC: provider->zalloc = OSSL_FUNC_CRYPTO_zalloc(in); break;
      case OSSL_FUNC_CRYPTO_CLEAR_FREE: provider->clear_free = OSSL_FUNC_CRYPTO_clear_free(in); break;
      case OSSL_FUNC_CORE_GET_PARAMS: provider->get_params = OSSL_FUNC_core_get_params(in); break;
      case OSSL_FUNC_CORE_NEW_ERROR: provider->new_error = OSSL_FUNC_core_new_error(in); break;
      case OSSL_FUNC_CORE_SET_ERROR_DEBUG: provider->set_error_debug = OSSL_FUNC_core_set_error_debug(in); break;
      case OSSL_FUNC_CORE_VSET_ERROR: provider->vset_error = OSSL_FUNC_core_vset_error(in); break;
      default: break;
    }
  }
}

/*
 * Whether the configuration sets a switch. Another word than yes or no counts as the careful one: if the module failed for
 * it, the program would silently take OpenSSL's own ciphers.
 */
static bool is_set(const struct provider *provider, const char *name, bool careful) {
  static const char *const words[][2] = {{"yes", "no"}, {"1", "0"}, {"true", "false"}, {"on", "off"}};
  const char *said = NULL;
  OSSL_PARAM asked[] = {OSSL_PARAM_DEFN(name, OSSL_PARAM_UTF8_PTR, &said, sizeof said), OSSL_PARAM_END};
  if (provider->get_params == NULL || !provider->get_params(provider->core, asked) || said == NULL) return false;
  for (size_t i = 0; i < sizeof words / sizeof *words; i++) {
    if (strcasecmp(said, words[i][0]) == 0) return true;
    if (strcasecmp(said, words[i][1]) == 0) return false;
  }
  return careful;
}

/* What the configuration asks for, and in the text that the provider tells of itself the switches that are set. */
static void take_configuration(struct provider *provider) {
  provider->no_tables = is_set(provider, NO_TABLES, true);
  provider->single_des = is_set(provider, SINGLE_DES, false);
  provider->small_stack = is_set(provider, SMALL_STACK, true);
  strcpy(provider->build_info, CUKVASHE_VERSION);
  if (provider->no_tables) strcat(provider->build_info, " " NO_TABLES);
  if (provider->single_des) strcat(provider->build_info, " " SINGLE_DES);
  if (provider->small_stack) strcat(provider->build_info, " " SMALL_STACK);
}

/*
 * A known answer of DES ("Now is t"), as triple DES under a key of equal parts: of one block, and of a list, of more than
 * 128 blocks if vectors of 256 bits may be taken.
 */
static bool ciphers_answer_as_known(const struct provider *provider) {
  enum { LIST = 129 };
  const size_t length = (provider->small_stack ? LIST - 1 : LIST) * BLOCK;
  static const uint8_t part[9] = "\x01\x23\x45\x67\x89\xab\xcd\xef", text[9] = "Now is t";
  static const uint8_t answer[9] = "\x3f\xa4\x0e\x8a\x98\x4d\x48\x15";
  cukvashe_tdes_ede3 context;
  uint8_t key[24], block[BLOCK], list[LIST * BLOCK];
  for (size_t i = 0; i < sizeof key; i += BLOCK) memcpy(key + i, part, BLOCK);
  for (size_t i = 0; i < sizeof list; i += BLOCK) memcpy(list + i, answer, BLOCK);
  memcpy(block, text, BLOCK);
  if ((provider->no_tables ? cukvashe_tdes_ede3_init_no_tables : cukvashe_tdes_ede3_init)(&context, key, sizeof key) !=
          CUKVASHE_OK ||
      cukvashe_tdes_ede3_encrypt_ecb(&context, block, BLOCK) != CUKVASHE_OK || memcmp(block, answer, BLOCK) != 0 ||
      cukvashe_tdes_ede3_decrypt_ecb(&context, list, length) != CUKVASHE_OK)
    return false;
  for (size_t i = 0; i < length; i += BLOCK)
    if (memcmp(list + i, text, BLOCK) != 0) return false;
  return true;
}

/* The tag of no bytes, by padding method 2, which OpenSSL's DES gives too. */
static bool mac_answers_as_known(const struct provider *provider) {
  static const uint8_t key[17] = "\x01\x23\x45\x67\x89\xab\xcd\xef\xfe\xdc\xba\x98\x76\x54\x32\x10";
  static const uint8_t answer[9] = "\xf1\xfb\xcf\x2a\x56\xd1\x9b\xa7";
  cukvashe_retail_mac_des context;
  uint8_t tag[CUKVASHE_TAG_SIZE];
  if ((provider->no_tables ? cukvashe_retail_mac_des_init_no_tables : cukvashe_retail_mac_des_init)(
          &context, key, 16, CUKVASHE_MAC_PADDING_2) != CUKVASHE_OK)
    return false;
  return cukvashe_retail_mac_des_final(&context, tag) == CUKVASHE_OK && memcmp(tag, answer, sizeof tag) == 0;
}

static int self_test(void *provider) { return ciphers_answer_as_known(provider) && mac_answers_as_known(provider); }

/* Whether this module may serve here; if not, why. */
static bool may_serve(struct provider *provider) {
  if (strcmp(cukvashe_version(), CUKVASHE_VERSION) != 0) {
    refuse(provider, __FILE__, __LINE__, __func__, PROV_R_MODULE_INTEGRITY_FAILURE,
           "the provider is of version %s, the library in it of %s", CUKVASHE_VERSION, cukvashe_version());
    return false;
  }
  /* An older processor must go on without it, and not end at an instruction. */
  if (!cukvashe_is_supported()) return REFUSE(provider, PROV_R_NOT_SUPPORTED, "the processor is not of x86-64-v2");
  if (!self_test(provider)) return REFUSE(provider, PROV_R_SELF_TEST_KAT_FAILURE, NULL);
  return true;
}

static const OSSL_ALGORITHM *query(void *provider, int operation, int *no_store) {
  *no_store = 0;
  if (operation == OSSL_OP_CIPHER) return ciphers_of(provider);
  return operation == OSSL_OP_MAC ? macs : NULL;
}

static const OSSL_PARAM *gettable_params(void *provider) {
  static const OSSL_PARAM known[] = {OSSL_PARAM_utf8_ptr(OSSL_PROV_PARAM_NAME, NULL, 0),
                                     OSSL_PARAM_utf8_ptr(OSSL_PROV_PARAM_VERSION, NULL, 0),
                                     OSSL_PARAM_utf8_ptr(OSSL_PROV_PARAM_BUILDINFO, NULL, 0),
                                     OSSL_PARAM_int(OSSL_PROV_PARAM_STATUS, NULL), OSSL_PARAM_END};
  (void)provider;
  return known;
}

static int get_params(void *given, OSSL_PARAM params[]) {
  static const struct number numbers[] = {{OSSL_PROV_PARAM_STATUS, 1}};
  const struct provider *provider = given;
  const char *const texts[][2] = {{OSSL_PROV_PARAM_NAME, "Cukvashe: DES and triple DES"},
                                  {OSSL_PROV_PARAM_VERSION, CUKVASHE_VERSION},
                                  {OSSL_PROV_PARAM_BUILDINFO, provider->build_info}};
  for (OSSL_PARAM *param = params; param != NULL && param->key != NULL; param++)
    for (size_t i = 0; i < sizeof texts / sizeof *texts; i++)
      if (is_named(param, texts[i][0]) && !put_text(param, texts[i][1])) return 0;
  return put_numbers(params, numbers, sizeof numbers / sizeof *numbers);
}

static void teardown(void *given) {
  struct provider *provider = given;
  wipe_and_free(provider, provider, sizeof *provider);
}

static const OSSL_DISPATCH calls[] = {CALL(OSSL_FUNC_PROVIDER_TEARDOWN, teardown),
                                      CALL(OSSL_FUNC_PROVIDER_GETTABLE_PARAMS, gettable_params),
                                      CALL(OSSL_FUNC_PROVIDER_GET_PARAMS, get_params),
                                      CALL(OSSL_FUNC_PROVIDER_QUERY_OPERATION, query),
                                      CALL(OSSL_FUNC_PROVIDER_SELF_TEST, self_test),
                                      NO_MORE_CALLS};

__attribute__((visibility("default"))) int OSSL_provider_init(const OSSL_CORE_HANDLE *core, const OSSL_DISPATCH *in,
                                                              const OSSL_DISPATCH **out, void **context) {
  struct provider found = {0}, *provider;
  found.core = core;
  take_calls(&found, in);
  take_configuration(&found);
  if (found.zalloc == NULL || found.clear_free == NULL || !may_serve(&found)) return 0;
  provider = new_memory(&found, sizeof *provider);
  if (provider == NULL) return 0;
  *provider = found;
  *out = calls;
  *context = provider;
  return 1;
}
