/*
 * The provider under a core of the test's own, which sees what libcrypto hides: memory that is refused, and what is given
 * back and wiped; errors; lengths and capacities that EVP never gives; and words of the configuration. And over a library that
 * is wrong in one call, since the linker takes the calls here for those that the provider tests. No libcrypto is linked.
 */
#include "../internal.h"
#include <openssl/err.h>
#include <openssl/evp.h>
#include <stdarg.h>
#include <stdio.h>
#include <stdlib.h>
#include <string.h>

#define CHECK(holds)                                              \
  do {                                                            \
    if (!(holds)) {                                               \
      fprintf(stderr, "%s:%d: %s\n", __FILE__, __LINE__, #holds); \
      exit(1);                                                    \
    }                                                             \
  } while (0)

/* ---- The core ---- */

enum { MOST = 64 };

static struct {
  void *memory[MOST];
  size_t size[MOST];
} given;
static size_t requests, refused_request = SIZE_MAX;
static uint32_t error;
static char text[200];
static const char *no_tables, *single_des, *small_stack;

static void *zalloc(size_t size, const char *file, int line) {
  CHECK(file != NULL && line > 0);
  if (requests++ == refused_request) return NULL;
  for (size_t i = 0; i < MOST; i++) {
    if (given.memory[i] != NULL) continue;
    given.size[i] = size;
    return given.memory[i] = calloc(1, size);
  }
  exit(1);
}

/* All of a memory is wiped, and none twice. */
static void clear_free(void *memory, size_t size, const char *file, int line) {
  size_t i = 0;
  CHECK(file != NULL && line > 0 && memory != NULL);
  while (i < MOST && given.memory[i] != memory) i++;
  CHECK(i < MOST && given.size[i] == size);
  given.memory[i] = NULL;
  free(memory);
}

static bool is_all_given_back(void) {
  for (size_t i = 0; i < MOST; i++)
    if (given.memory[i] != NULL) return false;
  return true;
}

static void new_error(const OSSL_CORE_HANDLE *core) {
  (void)core;
  error = 0;
  text[0] = 0;
}

static void vset_error(const OSSL_CORE_HANDLE *core, uint32_t reason, const char *format, va_list words) {
  (void)core;
  error = reason;
  if (format != NULL) vsnprintf(text, sizeof text, format, words);
}

static int configured(const OSSL_CORE_HANDLE *core, OSSL_PARAM params[]) {
  (void)core;
  for (; params->key != NULL; params++) {
    const char *said = strcmp(params->key, "no-tables") == 0     ? no_tables
                       : strcmp(params->key, "single-des") == 0  ? single_des
                       : strcmp(params->key, "small-stack") == 0 ? small_stack
                                                                 : NULL;
    CHECK(params->data_type == OSSL_PARAM_UTF8_PTR && params->data_size == sizeof said);
    if (said != NULL) memcpy(params->data, &said, sizeof said);
  }
  return 1;
}

enum { CORE_CALLS = 5 };

static const OSSL_DISPATCH whole_core[CORE_CALLS + 1] = {CALL(OSSL_FUNC_CRYPTO_ZALLOC, zalloc),
                                           CALL(OSSL_FUNC_CRYPTO_CLEAR_FREE, clear_free),
                                           CALL(OSSL_FUNC_CORE_NEW_ERROR, new_error),
                                           CALL(OSSL_FUNC_CORE_VSET_ERROR, vset_error),
                                           CALL(OSSL_FUNC_CORE_GET_PARAMS, configured),
                                           NO_MORE_CALLS};

/* ---- The provider ---- */

static void *provider;
static const OSSL_DISPATCH *calls;

static void (*function_of(const OSSL_DISPATCH *list, int id))(void) {
  while (list->function_id != 0 && list->function_id != id) list++;
  CHECK(list->function_id == id);
  return list->function;
}

static int load(const OSSL_DISPATCH *core) {
  return OSSL_provider_init((const OSSL_CORE_HANDLE *)&given, core, &calls, &provider);
}

static void unload(void) {
  ((OSSL_FUNC_provider_teardown_fn *)function_of(calls, OSSL_FUNC_PROVIDER_TEARDOWN))(provider);
  CHECK(is_all_given_back());
}

static const OSSL_ALGORITHM *algorithms(int operation) {
  int no_store = 1;
  const OSSL_ALGORITHM *list =
      ((OSSL_FUNC_provider_query_operation_fn *)function_of(calls, OSSL_FUNC_PROVIDER_QUERY_OPERATION))(provider, operation,
                                                                                                        &no_store);
  CHECK(no_store == 0);
  return list;
}

enum { TRIPLE = 11, ALL = 18 };

static size_t count_of_ciphers(void) {
  size_t count = 0;
  for (const OSSL_ALGORITHM *cipher = algorithms(OSSL_OP_CIPHER); cipher->algorithm_names != NULL; cipher++) count++;
  return count;
}

/* Whether the last call was refused, by one of OpenSSL's reasons and a text that has these words. */
static bool was_refused(int reason, const char *words) {
  const bool was = error == ERR_PACK(ERR_LIB_PROV, 0, reason) && strstr(text, words) != NULL;
  error = 0;
  text[0] = 0;
  return was;
}

/* ---- Loading ---- */

static void loads_only_over_what_it_needs(void) {
  OSSL_DISPATCH core[CORE_CALLS + 1];
  for (size_t missing = 0; missing < CORE_CALLS; missing++) {
    size_t count = 0;
    for (size_t i = 0; i < CORE_CALLS; i++)
      if (i != missing) core[count++] = whole_core[i];
    core[count] = whole_core[CORE_CALLS];
    CHECK(load(core) == (missing >= 2));
    if (missing >= 2) unload();
  }
  refused_request = requests;
  CHECK(load(whole_core) == 0 && is_all_given_back());
  refused_request = SIZE_MAX;
}

/* The switches as the provider sets them, which is an inner thing, since `no-tables` changes no answer; and what it tells. */
static void sets(bool is_no_tables, bool is_single_des, bool is_small_stack) {
  char expected[100];
  const char *told = NULL;
  OSSL_PARAM params[] = {OSSL_PARAM_utf8_ptr(OSSL_PROV_PARAM_BUILDINFO, &told, 0), OSSL_PARAM_END};
  CHECK(load(whole_core) == 1);
  const struct provider *loaded = provider;
  CHECK(loaded->no_tables == is_no_tables && loaded->single_des == is_single_des && loaded->small_stack == is_small_stack);
  CHECK(count_of_ciphers() == (is_single_des ? ALL : TRIPLE) && algorithms(OSSL_OP_DIGEST) == NULL);
  snprintf(expected, sizeof expected, "%s%s%s%s", CUKVASHE_VERSION, is_no_tables ? " no-tables" : "",
           is_single_des ? " single-des" : "", is_small_stack ? " small-stack" : "");
  CHECK(((OSSL_FUNC_provider_get_params_fn *)function_of(calls, OSSL_FUNC_PROVIDER_GET_PARAMS))(provider, params) == 1);
  CHECK(strcmp(told, expected) == 0);
  unload();
}

static void takes_its_configuration(void) {
  static const char *const on[] = {"yes", "1", "true", "on", "YES"}, *const off[] = {"no", "0", "false", "off", "No"};
  static const char *const neither[] = {"", "y", "yes ", "2", "maybe"};
  sets(false, false, false);
  for (int set = 0; set < 8; set++) {
    no_tables = set & 1 ? "yes" : NULL;
    single_des = set & 2 ? "yes" : NULL;
    small_stack = set & 4 ? "yes" : NULL;
    sets(set & 1, set & 2, set & 4);
  }
  for (size_t i = 0; i < 5; i++) {
    no_tables = single_des = small_stack = on[i];
    sets(true, true, true);
    no_tables = single_des = small_stack = off[i];
    sets(false, false, false);
    no_tables = single_des = small_stack = neither[i];
    sets(true, false, true);
  }
  no_tables = single_des = small_stack = NULL;
}

static void tells_of_itself(void) {
  const char *name = NULL, *version = NULL;
  unsigned status = 0;
  uint8_t narrow[2];
  OSSL_PARAM params[] = {OSSL_PARAM_utf8_ptr(OSSL_PROV_PARAM_NAME, &name, 0),
                         OSSL_PARAM_utf8_ptr(OSSL_PROV_PARAM_VERSION, &version, 0),
                         OSSL_PARAM_uint(OSSL_PROV_PARAM_STATUS, &status), OSSL_PARAM_END};
  OSSL_FUNC_provider_get_params_fn *get = (OSSL_FUNC_provider_get_params_fn *)function_of(calls, OSSL_FUNC_PROVIDER_GET_PARAMS);
  CHECK(get(provider, params) == 1 && strncmp(name, "Cukvashe", 8) == 0 && strcmp(version, CUKVASHE_VERSION) == 0 && status == 1);
  params[0] = (OSSL_PARAM)OSSL_PARAM_octet_string(OSSL_PROV_PARAM_NAME, narrow, sizeof narrow);
  CHECK(get(provider, params) == 0);
  params[0] = (OSSL_PARAM)OSSL_PARAM_DEFN(OSSL_PROV_PARAM_STATUS, OSSL_PARAM_INTEGER, narrow, sizeof narrow);
  CHECK(get(provider, params) == 0);
  CHECK(((OSSL_FUNC_provider_self_test_fn *)function_of(calls, OSSL_FUNC_PROVIDER_SELF_TEST))(provider) == 1);
}

/* ---- A wrong library ---- */

enum call { NONE, INIT, INIT_NO_TABLES, ENCRYPT, DECRYPT, MAC_INIT, MAC_INIT_NO_TABLES, MAC_FINAL };

enum { STATUS = -1 };

/* The call that is wrong: in its status alone, or in the byte at a place of its answer, if the answer has one there. */
static struct {
  enum call call;
  int place;
} wrong;

static int status_of(enum call call, int status) {
  return wrong.call == call && wrong.place == STATUS ? CUKVASHE_ERR_KEY_LENGTH : status;
}

static void spoil(enum call call, uint8_t *answer, size_t length) {
  if (wrong.call == call && wrong.place != STATUS && (size_t)wrong.place < length) answer[wrong.place] ^= 1;
}

#define WRAP(RESULT, NAME, ...)                                                                                       \
  RESULT __real_cukvashe_##NAME(__VA_ARGS__);                                                                         \
  RESULT __wrap_cukvashe_##NAME(__VA_ARGS__);                                                                         \
  RESULT __wrap_cukvashe_##NAME(__VA_ARGS__)
#define WRAP_INIT(NAME, CALL)                                                                                         \
  WRAP(int, NAME, cukvashe_tdes_ede3 *context, const uint8_t *key, size_t length) {                                   \
    return status_of(CALL, __real_cukvashe_##NAME(context, key, length));                                             \
  }
#define WRAP_ECB(NAME, CALL)                                                                                          \
  WRAP(int, NAME, const cukvashe_tdes_ede3 *context, uint8_t *data, size_t length) {                                  \
    const int status = __real_cukvashe_##NAME(context, data, length);                                                 \
    spoil(CALL, data, length);                                                                                        \
    return status_of(CALL, status);                                                                                   \
  }
#define WRAP_MAC_INIT(NAME, CALL)                                                                                     \
  WRAP(int, NAME, cukvashe_retail_mac_des *context, const uint8_t *key, size_t length, int method) {                  \
    return status_of(CALL, __real_cukvashe_##NAME(context, key, length, method));                                     \
  }

WRAP_INIT(tdes_ede3_init, INIT)
WRAP_INIT(tdes_ede3_init_no_tables, INIT_NO_TABLES)
WRAP_ECB(tdes_ede3_encrypt_ecb, ENCRYPT)
WRAP_ECB(tdes_ede3_decrypt_ecb, DECRYPT)
WRAP_MAC_INIT(retail_mac_des_init, MAC_INIT)
WRAP_MAC_INIT(retail_mac_des_init_no_tables, MAC_INIT_NO_TABLES)

WRAP(int, retail_mac_des_final, const cukvashe_retail_mac_des *context, uint8_t tag[8]) {
  const int status = __real_cukvashe_retail_mac_des_final(context, tag);
  spoil(MAC_FINAL, tag, CUKVASHE_TAG_SIZE);
  return status_of(MAC_FINAL, status);
}

/* What was wiped last, by the library's call for it, as far as a tag is long. */
static uint8_t wiped[CUKVASHE_TAG_SIZE];
static size_t wiped_size;

WRAP(void, wipe, void *pointer, size_t size) {
  memcpy(wiped, pointer, size < sizeof wiped ? size : sizeof wiped);
  wiped_size = size;
  __real_cukvashe_wipe(pointer, size);
}

/* Whether the provider does not serve over a library that is wrong so, and its test of itself fails where it served before. */
static bool is_seen(enum call call, int place) {
  CHECK(load(whole_core) == 1);
  OSSL_FUNC_provider_self_test_fn *self_test =
      (OSSL_FUNC_provider_self_test_fn *)function_of(calls, OSSL_FUNC_PROVIDER_SELF_TEST);
  wrong.call = call;
  wrong.place = place;
  const bool is_well = self_test(provider);
  unload();
  const bool is_loaded = load(whole_core);
  wrong.call = NONE;
  if (is_loaded) unload();
  CHECK(is_loaded == is_well && is_loaded != was_refused(PROV_R_SELF_TEST_KAT_FAILURE, ""));
  return !is_loaded;
}

/* The list has more than 128 blocks, since there the library takes vectors of 256 bits, but for `small-stack`, which never does. */
static void tests_itself(void) {
  enum { NARROW = 128 * BLOCK };
  for (int set = 0; set < 4; set++) {
    const bool has_no_tables = set & 1, is_small = set & 2;
    no_tables = has_no_tables ? "yes" : NULL;
    small_stack = is_small ? "yes" : NULL;
    CHECK(is_seen(INIT, STATUS) == !has_no_tables && is_seen(INIT_NO_TABLES, STATUS) == has_no_tables);
    CHECK(is_seen(MAC_INIT, STATUS) == !has_no_tables && is_seen(MAC_INIT_NO_TABLES, STATUS) == has_no_tables);
    CHECK(is_seen(ENCRYPT, STATUS) && is_seen(DECRYPT, STATUS) && is_seen(MAC_FINAL, STATUS));
    for (int place = 0; place < BLOCK; place++) CHECK(is_seen(ENCRYPT, place) && is_seen(MAC_FINAL, place));
    for (int place = 0; place < NARROW; place++) CHECK(is_seen(DECRYPT, place));
    for (int place = NARROW; place < NARROW + BLOCK; place++) CHECK(is_seen(DECRYPT, place) == !is_small);
  }
  no_tables = small_stack = NULL;
}

/* ---- Ciphers ---- */

static OSSL_FUNC_cipher_newctx_fn *new_context;
static OSSL_FUNC_cipher_freectx_fn *free_context;
static OSSL_FUNC_cipher_dupctx_fn *copy_context;
static OSSL_FUNC_cipher_encrypt_init_fn *encrypt_init;
static OSSL_FUNC_cipher_decrypt_init_fn *decrypt_init;
static OSSL_FUNC_cipher_update_fn *update;
static OSSL_FUNC_cipher_final_fn *final;
static OSSL_FUNC_cipher_cipher_fn *run_alone;
static OSSL_FUNC_cipher_get_ctx_params_fn *get_ctx_params;
static OSSL_FUNC_cipher_set_ctx_params_fn *set_ctx_params;
static size_t key_length, vector_length, block_size;
static unsigned mode;

static void take_cipher(const OSSL_ALGORITHM *cipher) {
  const OSSL_DISPATCH *list = cipher->implementation;
  OSSL_PARAM params[] = {OSSL_PARAM_size_t(OSSL_CIPHER_PARAM_KEYLEN, &key_length),
                         OSSL_PARAM_size_t(OSSL_CIPHER_PARAM_IVLEN, &vector_length),
                         OSSL_PARAM_size_t(OSSL_CIPHER_PARAM_BLOCK_SIZE, &block_size),
                         OSSL_PARAM_uint(OSSL_CIPHER_PARAM_MODE, &mode), OSSL_PARAM_END};
  new_context = (OSSL_FUNC_cipher_newctx_fn *)function_of(list, OSSL_FUNC_CIPHER_NEWCTX);
  free_context = (OSSL_FUNC_cipher_freectx_fn *)function_of(list, OSSL_FUNC_CIPHER_FREECTX);
  copy_context = (OSSL_FUNC_cipher_dupctx_fn *)function_of(list, OSSL_FUNC_CIPHER_DUPCTX);
  encrypt_init = (OSSL_FUNC_cipher_encrypt_init_fn *)function_of(list, OSSL_FUNC_CIPHER_ENCRYPT_INIT);
  decrypt_init = (OSSL_FUNC_cipher_decrypt_init_fn *)function_of(list, OSSL_FUNC_CIPHER_DECRYPT_INIT);
  update = (OSSL_FUNC_cipher_update_fn *)function_of(list, OSSL_FUNC_CIPHER_UPDATE);
  final = (OSSL_FUNC_cipher_final_fn *)function_of(list, OSSL_FUNC_CIPHER_FINAL);
  run_alone = (OSSL_FUNC_cipher_cipher_fn *)function_of(list, OSSL_FUNC_CIPHER_CIPHER);
  get_ctx_params = (OSSL_FUNC_cipher_get_ctx_params_fn *)function_of(list, OSSL_FUNC_CIPHER_GET_CTX_PARAMS);
  set_ctx_params = (OSSL_FUNC_cipher_set_ctx_params_fn *)function_of(list, OSSL_FUNC_CIPHER_SET_CTX_PARAMS);
  CHECK(((OSSL_FUNC_cipher_get_params_fn *)function_of(list, OSSL_FUNC_CIPHER_GET_PARAMS))(params) == 1);
}

static const uint8_t key[40] = "a key of some bytes, more than are taken", vector[40] = "a vector, too long";

static void *begun(OSSL_FUNC_cipher_encrypt_init_fn *init) {
  void *context = new_context(provider);
  CHECK(context != NULL && init(context, key, key_length, vector, vector_length, NULL) == 1);
  return context;
}

static void refuses_lengths_of_keys_and_vectors(void) {
  void *context = new_context(provider);
  uint8_t block[16];
  size_t made;
  CHECK(update(context, block, &made, 16, block, 8) == 0 && was_refused(PROV_R_NO_KEY_SET, ""));
  CHECK(run_alone(context, block, &made, 16, block, 8) == 0 && was_refused(PROV_R_NO_KEY_SET, ""));
  CHECK(final(context, block, &made, 16) == 0 && was_refused(PROV_R_NO_KEY_SET, ""));
  for (size_t length = 0; length < sizeof key; length++) {
    if (length != key_length)
      CHECK(encrypt_init(context, key, length, NULL, 0, NULL) == 0 && was_refused(PROV_R_INVALID_KEY_LENGTH, ""));
    if (length != vector_length)
      CHECK(decrypt_init(context, key, key_length, vector, length, NULL) == 0 && was_refused(PROV_R_INVALID_IV_LENGTH, ""));
  }
  CHECK(update(context, block, &made, 16, block, 8) == 0 && was_refused(PROV_R_NO_KEY_SET, ""));
  CHECK(decrypt_init(context, key, key_length, vector, vector_length, NULL) == 1);
  free_context(context);
}

/* Of a call that was refused nothing is left: the next one answers as if it had not been. */
static void refuses_capacities(OSSL_FUNC_cipher_encrypt_init_fn *init) {
  static uint8_t input[64], output[64], wanted[64];
  for (size_t length = 0; length <= 40; length++) {
    void *context = begun(init), *other = begun(init);
    size_t made = 0, made_at_once, last = 0;
    memset(wanted, 0, sizeof wanted);
    memset(output, 0, sizeof output);
    CHECK(update(other, wanted, &made_at_once, sizeof wanted, input, length) == 1);
    for (size_t capacity = 0; capacity < made_at_once; capacity++)
      CHECK(update(context, output, &made, capacity, input, length) == 0 && was_refused(PROV_R_OUTPUT_BUFFER_TOO_SMALL, ""));
    CHECK(update(context, output, &made, made_at_once, input, length) == 1 && made == made_at_once);
    CHECK(memcmp(output, wanted, sizeof output) == 0);
    if (init == encrypt_init) {
      for (size_t capacity = 0; capacity < BLOCK; capacity++)
        CHECK(final(context, output, &last, capacity) == 0 && was_refused(PROV_R_OUTPUT_BUFFER_TOO_SMALL, ""));
      CHECK(final(context, output, &last, BLOCK) == 1 && last == BLOCK);
      CHECK(final(other, wanted, &last, BLOCK) == 1 && memcmp(output, wanted, sizeof output) == 0);
    }
    CHECK(run_alone(context, output, &made, 15, input, 16) == 0 && was_refused(PROV_R_OUTPUT_BUFFER_TOO_SMALL, ""));
    free_context(context);
    free_context(other);
  }
}

static void refuses_lengths(void) {
  static uint8_t block[16];
  void *context = begun(decrypt_init);
  size_t made = 77;
  for (size_t below = 1; below <= 64; below++)
    CHECK(update(context, block, &made, SIZE_MAX, block, (size_t)0 - below) == 0 && was_refused(PROV_R_BAD_LENGTH, ""));
  for (size_t length = 1; length < 8 && block_size != 1; length++)
    CHECK(run_alone(context, block, &made, 16, block, length) == 0 && was_refused(PROV_R_WRONG_FINAL_BLOCK_LENGTH, ""));
  CHECK(made == 77);
  free_context(context);
}

/* A stream gives as many bytes as it takes, and asks for no more space. */
static void refuses_capacities_of_streams(void) {
  static uint8_t input[64], output[64], wanted[64];
  for (size_t length = 1; length <= 40; length++) {
    void *context = begun(decrypt_init), *other = begun(decrypt_init);
    size_t made = 0;
    memset(wanted, 0, sizeof wanted);
    memset(output, 0, sizeof output);
    CHECK(run_alone(other, wanted, &made, length, input, length) == 1 && made == length);
    for (size_t capacity = 0; capacity < length; capacity++) {
      CHECK(update(context, output, &made, capacity, input, length) == 0 && was_refused(PROV_R_OUTPUT_BUFFER_TOO_SMALL, ""));
      CHECK(run_alone(context, output, &made, capacity, input, length) == 0 && was_refused(PROV_R_OUTPUT_BUFFER_TOO_SMALL, ""));
    }
    CHECK(update(context, output, &made, length, input, length) == 1 && made == length);
    CHECK(memcmp(output, wanted, sizeof output) == 0 && final(context, output, &made, 0) == 1 && made == 0);
    free_context(context);
    free_context(other);
  }
}

static void refuses_to_wrap(void) {
  static uint8_t input[40], output[40];
  void *context = begun(encrypt_init);
  size_t made;
  for (size_t capacity = 0; capacity < 24; capacity++) {
    CHECK(update(context, output, &made, capacity, input, 24) == 0 && was_refused(PROV_R_OUTPUT_BUFFER_TOO_SMALL, ""));
    CHECK(run_alone(context, output, &made, capacity, input, 24) == 0 && was_refused(PROV_R_OUTPUT_BUFFER_TOO_SMALL, ""));
  }
  for (size_t below = 1; below <= 64; below++)
    CHECK(update(context, output, &made, SIZE_MAX, input, (size_t)0 - below) == 0 &&
          was_refused(PROV_R_CIPHER_OPERATION_FAILED, ""));
  CHECK(run_alone(context, output, &made, 1 << 30, input, 1 << 30) == 0 && made == 0);
  refused_request = requests;
  CHECK(update(context, output, &made, 24, input, 24) == 0 && made == 0 && was_refused(PROV_R_CIPHER_OPERATION_FAILED, ""));
  refused_request = SIZE_MAX;
  CHECK(update(context, output, &made, 24, input, 24) == 1 && made == 40);
  free_context(context);
}

static void refuses_records_of_tls(void) {
  void *context = begun(decrypt_init);
  for (unsigned tls_version = 0; tls_version < 0x305; tls_version += 0x300) {
    OSSL_PARAM params[] = {OSSL_PARAM_uint(OSSL_CIPHER_PARAM_TLS_VERSION, &tls_version), OSSL_PARAM_END};
    if (tls_version == 0)
      CHECK(set_ctx_params(context, params) == 1);
    else
      CHECK(set_ctx_params(context, params) == 0 && was_refused(PROV_R_NOT_SUPPORTED, "records of TLS"));
  }
  free_context(context);
}

static bool is_zeros(const uint8_t *bytes, size_t length) {
  for (size_t i = 0; i < length; i++)
    if (bytes[i] != 0) return false;
  return true;
}

/* A random key is bytes. Behind a parameter of another type there may be no more than a number or a pointer, whatever its size says. */
static void puts_a_random_key_into_bytes_alone(void) {
  static const unsigned types[] = {OSSL_PARAM_INTEGER,     OSSL_PARAM_UNSIGNED_INTEGER, OSSL_PARAM_REAL,
                                   OSSL_PARAM_UTF8_STRING, OSSL_PARAM_UTF8_PTR,         OSSL_PARAM_OCTET_PTR,
                                   OSSL_PARAM_OCTET_STRING};
  void *context = new_context(provider);
  for (size_t i = 0; i < sizeof types / sizeof *types; i++)
    for (size_t capacity = 0; capacity <= 40; capacity++) {
      uint8_t made[40] = {0};
      OSSL_PARAM params[] = {OSSL_PARAM_DEFN(OSSL_CIPHER_PARAM_RANDOM_KEY, types[i], made, capacity), OSSL_PARAM_END};
      if (types[i] == OSSL_PARAM_OCTET_STRING && (capacity == 0 || capacity >= key_length)) {
        CHECK(get_ctx_params(context, params) == 1 && params[0].return_size == key_length);
        CHECK(!is_zeros(made, key_length) && is_zeros(made + key_length, sizeof made - key_length));
        for (size_t byte = 0; byte < key_length; byte++) CHECK(__builtin_parity(made[byte]) == 1);
      } else {
        CHECK(get_ctx_params(context, params) == 0 && was_refused(PROV_R_FAILED_TO_GENERATE_KEY, ""));
        CHECK(is_zeros(made, sizeof made));
      }
    }
  free_context(context);
}

static void lives_with_refused_memory(void) {
  void *context;
  refused_request = requests;
  CHECK(new_context(provider) == NULL);
  context = new_context(provider);
  refused_request = requests;
  CHECK(context != NULL && copy_context(context) == NULL);
  refused_request = SIZE_MAX;
  free_context(context);
  free_context(NULL);
}

/* Whether a text is anywhere in a context. */
static bool has_text(const void *context, const char *words) {
  size_t i = 0;
  while (i < MOST && given.memory[i] != context) i++;
  CHECK(i < MOST);
  for (size_t at = 0; at + strlen(words) <= given.size[i]; at++)
    if (memcmp((const uint8_t *)context + at, words, strlen(words)) == 0) return true;
  return false;
}

/* Of the last block, of which a part waited for the end, and of one whose padding is wrong. */
static void leaves_no_text(void) {
  static const uint8_t block[9] = "secret, ";
  void *context = begun(encrypt_init), *other = begun(decrypt_init), *raw = begun(encrypt_init);
  uint8_t sealed[16], wrong[8], opened[16];
  size_t made, last;
  CHECK(run_alone(raw, wrong, &made, sizeof wrong, block, sizeof wrong) == 1);
  CHECK(update(context, sealed, &made, sizeof sealed, block, 7) == 1 && made == 0 && has_text(context, "secret,"));
  CHECK(final(context, sealed, &last, sizeof sealed) == 1 && !has_text(context, "secret"));
  CHECK(update(other, opened, &made, sizeof opened, sealed, 8) == 1 && final(other, opened, &last, sizeof opened) == 1);
  CHECK(last == 7 && memcmp(opened, block, 7) == 0 && !has_text(other, "secret"));
  CHECK(decrypt_init(other, NULL, 0, NULL, 0, NULL) == 1 && update(other, opened, &made, sizeof opened, wrong, 8) == 1);
  CHECK(final(other, opened, &last, sizeof opened) == 0 && was_refused(PROV_R_BAD_DECRYPT, "") && !has_text(other, "secret"));
  free_context(context);
  free_context(other);
  free_context(raw);
}

static void try_ciphers(void) {
  /* OpenSSL's names, which its own name map would add to if one were left out here. */
  static const char *const names[ALL] = {"DES-EDE3-CBC:DES3:1.2.840.113549.3.7",
                                         "DES-EDE3-ECB:DES-EDE3",
                                         "DES-EDE3-OFB",
                                         "DES-EDE3-CFB",
                                         "DES-EDE3-CFB8",
                                         "DES-EDE3-CFB1",
                                         "DES3-WRAP:id-smime-alg-CMS3DESwrap:1.2.840.113549.1.9.16.3.6",
                                         "DES-EDE-CBC",
                                         "DES-EDE-ECB:DES-EDE:1.3.14.3.2.17",
                                         "DES-EDE-OFB",
                                         "DES-EDE-CFB",
                                         "DES-CBC:DES:1.3.14.3.2.7",
                                         "DES-ECB:1.3.14.3.2.6",
                                         "DES-OFB:1.3.14.3.2.8",
                                         "DES-CFB:1.3.14.3.2.9",
                                         "DES-CFB8",
                                         "DES-CFB1",
                                         "DESX-CBC:DESX"};
  const char *const *name = names;
  single_des = "yes";
  CHECK(load(whole_core) == 1);
  tells_of_itself();
  for (const OSSL_ALGORITHM *cipher = algorithms(OSSL_OP_CIPHER); cipher->algorithm_names != NULL; cipher++) {
    CHECK(strcmp(cipher->algorithm_names, *name++) == 0 && strcmp(cipher->property_definition, "provider=cukvashe") == 0);
    take_cipher(cipher);
    refuses_lengths_of_keys_and_vectors();
    if (mode == EVP_CIPH_WRAP_MODE)
      refuses_to_wrap();
    else
      refuses_lengths();
    if (mode == EVP_CIPH_CBC_MODE || mode == EVP_CIPH_ECB_MODE) {
      leaves_no_text();
      refuses_capacities(encrypt_init);
      refuses_capacities(decrypt_init);
    }
    if (block_size == 1) refuses_capacities_of_streams();
    refuses_records_of_tls();
    puts_a_random_key_into_bytes_alone();
    lives_with_refused_memory();
  }
  unload();
}

/* Cut in pieces of 128 blocks, a list has the same answer. */
static void answers_alike_in_pieces(void) {
  enum { LENGTH = 8 * 1000 };
  static uint8_t input[LENGTH], output[2][LENGTH];
  for (size_t i = 0; i < LENGTH; i++) input[i] = (uint8_t)(i * i);
  single_des = "yes";
  for (size_t number = 0; number < ALL; number++)
    for (int pieces = 0; pieces < 2; pieces++) {
      size_t made;
      void *context;
      small_stack = pieces ? "yes" : "no";
      CHECK(load(whole_core) == 1);
      take_cipher(&algorithms(OSSL_OP_CIPHER)[number]);
      if (mode != EVP_CIPH_WRAP_MODE) {
        context = begun(decrypt_init);
        CHECK(run_alone(context, output[pieces], &made, LENGTH, input, LENGTH) == 1 && made == LENGTH);
        free_context(context);
      }
      unload();
      if (pieces) CHECK(memcmp(output[0], output[1], LENGTH) == 0);
    }
  single_des = small_stack = NULL;
}

/* ---- The MAC ---- */

static void try_mac(void) {
  static const uint8_t mac_key[16] = "a key, 16 bytes";
  unsigned method = 2;
  const OSSL_PARAM params[] = {OSSL_PARAM_uint("padding", &method), OSSL_PARAM_END};
  uint8_t tag[8], other_tag[8];
  size_t length = 77;
  CHECK(load(whole_core) == 1);
  const OSSL_DISPATCH *list = algorithms(OSSL_OP_MAC)->implementation;
  OSSL_FUNC_mac_newctx_fn *new_mac = (OSSL_FUNC_mac_newctx_fn *)function_of(list, OSSL_FUNC_MAC_NEWCTX);
  OSSL_FUNC_mac_dupctx_fn *copy_mac = (OSSL_FUNC_mac_dupctx_fn *)function_of(list, OSSL_FUNC_MAC_DUPCTX);
  OSSL_FUNC_mac_freectx_fn *free_mac = (OSSL_FUNC_mac_freectx_fn *)function_of(list, OSSL_FUNC_MAC_FREECTX);
  OSSL_FUNC_mac_init_fn *init = (OSSL_FUNC_mac_init_fn *)function_of(list, OSSL_FUNC_MAC_INIT);
  OSSL_FUNC_mac_update_fn *add = (OSSL_FUNC_mac_update_fn *)function_of(list, OSSL_FUNC_MAC_UPDATE);
  OSSL_FUNC_mac_final_fn *end = (OSSL_FUNC_mac_final_fn *)function_of(list, OSSL_FUNC_MAC_FINAL);
  void *context = new_mac(provider), *other;
  CHECK(context != NULL && init(context, mac_key, sizeof mac_key, params) == 1 && add(context, vector, 11) == 1);
  for (size_t capacity = 0; capacity < sizeof tag; capacity++)
    CHECK(end(context, tag, &length, capacity) == 0 && length == 77 && was_refused(PROV_R_OUTPUT_BUFFER_TOO_SMALL, ""));
  refused_request = requests;
  CHECK(new_mac(provider) == NULL);
  refused_request = requests;
  CHECK(copy_mac(context) == NULL);
  refused_request = SIZE_MAX;
  other = copy_mac(context);
  CHECK(other != NULL && end(context, tag, &length, sizeof tag) == 1 && length == sizeof tag);
  CHECK(wiped_size == sizeof tag && memcmp(wiped, tag, sizeof tag) == 0);
  free_mac(context);
  CHECK(end(other, other_tag, &length, sizeof tag) == 1 && memcmp(tag, other_tag, sizeof tag) == 0);
  free_mac(other);
  free_mac(NULL);
  unload();
}

int main(void) {
  loads_only_over_what_it_needs();
  takes_its_configuration();
  tests_itself();
  try_ciphers();
  try_mac();
  answers_alike_in_pieces();
  CHECK(is_all_given_back());
  printf("under a core of the test's own: %zu requests for memory, all given back and wiped\n", requests);
  return 0;
}
