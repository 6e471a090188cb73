/*
 * RETAIL-MAC by EVP_MAC: beside the same made of OpenSSL's own DES, at known tags, in pieces, in copies, again under one
 * key, and what is refused.
 *
 *   macs FOLDER CONFIGURATION SEED KNOWN    KNOWN: lines MAC METHOD KEY LENGTH TAG, as those of bindings/known_macs.txt
 */
#include "common.h"
#include <openssl/proverr.h>

enum { TAG = 8, KEY = 16, LONGEST = 5000 };

static OSSL_LIB_CTX *ours, *own;
static EVP_MAC *mac;

/* ---- The MAC by OpenSSL's own DES ---- */

static void by_des(const char *name, bool encrypts, const uint8_t key[8], const uint8_t *text, size_t length, uint8_t *made) {
  static const uint8_t zeros[8];
  EVP_CIPHER *cipher = EVP_CIPHER_fetch(own, name, NULL);
  EVP_CIPHER_CTX *context = EVP_CIPHER_CTX_new();
  int size;
  CHECK(EVP_CipherInit_ex2(context, cipher, key, zeros, encrypts, NULL) == 1 && EVP_CIPHER_CTX_set_padding(context, 0) == 1);
  CHECK(EVP_CipherUpdate(context, made, &size, text, (int)length) == 1 && (size_t)size == length);
  EVP_CIPHER_CTX_free(context);
  EVP_CIPHER_free(cipher);
}

/* ISO/IEC 9797-1:2011, 6.3 and 7.4: zeros, or a one bit and zeros; an empty message has one block of zeros by method 1. */
static void expected(const uint8_t key[KEY], unsigned method, const uint8_t *message, size_t length, uint8_t tag[TAG]) {
  static uint8_t padded[LONGEST + 8], by_cbc[LONGEST + 8];
  size_t size = method == 2 || length == 0 ? length / 8 * 8 + 8 : (length + 7) / 8 * 8;
  uint8_t middle[TAG];
  memset(padded, 0, size);
  memcpy(padded, message, length);
  if (method == 2) padded[length] = 0x80;
  by_des("DES-CBC", true, key, padded, size, by_cbc);
  by_des("DES-ECB", false, key + 8, by_cbc + size - 8, 8, middle);
  by_des("DES-ECB", true, key, middle, 8, tag);
}

/* ---- Calls of EVP_MAC ---- */

static EVP_MAC_CTX *begun(const uint8_t *key, unsigned method) {
  OSSL_PARAM params[] = {OSSL_PARAM_construct_uint("padding", &method), OSSL_PARAM_construct_end()};
  EVP_MAC_CTX *context = EVP_MAC_CTX_new(mac);
  CHECK(context != NULL && EVP_MAC_init(context, key, KEY, params) == 1);
  return context;
}

static void add_in_pieces(EVP_MAC_CTX *context, const uint8_t *message, size_t length) {
  while (length != 0) {
    const size_t piece = once_in(4) ? length : below(length + 1);
    CHECK(EVP_MAC_update(context, message, piece) == 1);
    message += piece;
    length -= piece;
  }
}

static void ends_by(EVP_MAC_CTX *context, const uint8_t tag[TAG]) {
  uint8_t made[TAG + 1] = {0};
  size_t length = 0;
  CHECK(EVP_MAC_final(context, made, &length, TAG) == 1 && length == TAG);
  CHECK(memcmp(made, tag, TAG) == 0 && made[TAG] == 0);
}

/* In pieces, with a copy that goes on from the middle, and once more under the same key. */
static void compare(size_t length, unsigned method) {
  static uint8_t message[LONGEST];
  uint8_t key[KEY], tag[TAG];
  const size_t middle = below(length + 1);
  EVP_MAC_CTX *context, *copy;
  random_bytes(key, sizeof key);
  random_bytes(message, length);
  expected(key, method, message, length, tag);
  context = begun(key, method);
  add_in_pieces(context, message, middle);
  copy = EVP_MAC_CTX_dup(context);
  CHECK(copy != NULL);
  add_in_pieces(context, message + middle, length - middle);
  ends_by(context, tag);
  add_in_pieces(copy, message + middle, length - middle);
  ends_by(copy, tag);
  CHECK(EVP_MAC_init(context, NULL, 0, NULL) == 1);
  add_in_pieces(context, message, length);
  ends_by(context, tag);
  EVP_MAC_CTX_free(context);
  EVP_MAC_CTX_free(copy);
}

/* ---- Known tags ---- */

static size_t bytes_of(const char *digits, uint8_t *bytes, size_t most) {
  size_t count = strlen(digits) / 2;
  CHECK(count <= most);
  for (size_t i = 0; i < count; i++) {
    unsigned byte;
    CHECK(sscanf(digits + 2 * i, "%2x", &byte) == 1);
    bytes[i] = (uint8_t)byte;
  }
  return count;
}

static size_t answers_as_known(const char *file) {
  static uint8_t message[LONGEST];
  char line[256], name[64], digits[64], tag_digits[64];
  size_t length, lines = 0;
  unsigned method;
  FILE *known = fopen(file, "r");
  CHECK(known != NULL);
  for (size_t i = 0; i < sizeof message; i++) message[i] = (uint8_t)(i % 251);
  while (fgets(line, sizeof line, known) != NULL) {
    uint8_t key[KEY], tag[TAG];
    if (sscanf(line, "%63s %u %63s %zu %63s", name, &method, digits, &length, tag_digits) != 5) continue;
    if (strcmp(name, "retail_mac_des") != 0) continue;
    CHECK(bytes_of(digits, key, KEY) == KEY && bytes_of(tag_digits, tag, TAG) == TAG && length <= LONGEST);
    EVP_MAC_CTX *context = begun(key, method);
    add_in_pieces(context, message, length);
    ends_by(context, tag);
    EVP_MAC_CTX_free(context);
    lines++;
  }
  fclose(known);
  return lines;
}

/* ---- Tags that are cut ---- */

static int set_size(EVP_MAC_CTX *context, size_t size) {
  OSSL_PARAM params[] = {OSSL_PARAM_construct_size_t(OSSL_MAC_PARAM_SIZE, &size), OSSL_PARAM_construct_end()};
  return EVP_MAC_CTX_set_params(context, params);
}

/* ISO/IEC 9797-1:2011, truncation: the leftmost bytes. A copy has the size too, and so has the next message. */
static void cuts_from_the_left(void) {
  static const uint8_t message[11] = "a message";
  uint8_t key[KEY], tag[TAG];
  random_bytes(key, sizeof key);
  expected(key, 2, message, sizeof message, tag);
  for (size_t size = 4; size <= TAG; size++) {
    EVP_MAC_CTX *context = begun(key, 2), *copy;
    CHECK(EVP_MAC_update(context, message, 5) == 1 && set_size(context, size) == 1 && EVP_MAC_CTX_get_mac_size(context) == size);
    CHECK(EVP_MAC_update(context, message + 5, 6) == 1 && (copy = EVP_MAC_CTX_dup(context)) != NULL);
    for (int again = 0; again < 3; again++) {
      EVP_MAC_CTX *taken = again == 1 ? copy : context;
      uint8_t made[TAG + 1] = {0};
      size_t length = 0;
      if (again == 2) CHECK(EVP_MAC_init(context, NULL, 0, NULL) == 1 && EVP_MAC_update(context, message, sizeof message) == 1);
      CHECK(EVP_MAC_final(taken, made, &length, size - 1) == 0);
      CHECK(EVP_MAC_final(taken, made, &length, size) == 1 && length == size && memcmp(made, tag, size) == 0);
      for (size_t i = size; i < sizeof made; i++) CHECK(made[i] == 0);
    }
    EVP_MAC_CTX_free(context);
    EVP_MAC_CTX_free(copy);
  }
  ERR_clear_error();
}

/* ---- What is refused ---- */

static void refused_by(int status, int reason) {
  const unsigned long error = error_of_call();
  CHECK(status == 0 && ERR_GET_LIB(error) == ERR_LIB_PROV && ERR_GET_REASON(error) == reason);
}

static int set_padding(EVP_MAC_CTX *context, unsigned method) {
  OSSL_PARAM params[] = {OSSL_PARAM_construct_uint("padding", &method), OSSL_PARAM_construct_end()};
  return EVP_MAC_CTX_set_params(context, params);
}

static int set_key(EVP_MAC_CTX *context, uint8_t *key, size_t length) {
  OSSL_PARAM params[] = {OSSL_PARAM_construct_octet_string(OSSL_MAC_PARAM_KEY, key, length), OSSL_PARAM_construct_end()};
  return EVP_MAC_CTX_set_params(context, params);
}

static void refuses(void) {
  uint8_t key[40] = {1}, tag[TAG];
  size_t length;
  EVP_MAC_CTX *context = EVP_MAC_CTX_new(mac);
  refused_by(EVP_MAC_init(context, NULL, 0, NULL), PROV_R_NO_KEY_SET);
  refused_by(EVP_MAC_update(context, key, 1), PROV_R_NO_KEY_SET);
  refused_by(EVP_MAC_final(context, tag, &length, TAG), PROV_R_NO_KEY_SET);
  refused_by(EVP_MAC_init(context, key, KEY, NULL), PROV_R_INVALID_PADDING_MODE);
  refused_by(EVP_MAC_update(context, key, 1), PROV_R_NO_KEY_SET);
  for (unsigned method = 0; method < 300; method++)
    if (method != 1 && method != 2) refused_by(set_padding(context, method), PROV_R_INVALID_PADDING_MODE);
  CHECK(set_padding(context, 1) == 1);
  for (size_t size = 0; size < sizeof key; size++) {
    if (size == KEY) continue;
    refused_by(EVP_MAC_init(context, key, size, NULL), PROV_R_INVALID_KEY_LENGTH);
    refused_by(set_key(context, key, size), PROV_R_INVALID_KEY_LENGTH);
  }
  for (size_t size = 0; size < 300; size++)
    if (size < 4 || size > TAG) refused_by(set_size(context, size), PROV_R_INVALID_OUTPUT_LENGTH);
  CHECK(EVP_MAC_CTX_get_mac_size(context) == TAG);
  /* A key and a padding from before, and a message that ends where one of them changes. */
  CHECK(EVP_MAC_init(context, NULL, 0, NULL) == 1 && EVP_MAC_update(context, NULL, 0) == 1);
  CHECK(set_padding(context, 2) == 1);
  refused_by(EVP_MAC_update(context, key, 1), PROV_R_NO_KEY_SET);
  CHECK(EVP_MAC_init(context, NULL, 0, NULL) == 1 && set_key(context, key, KEY) == 1);
  refused_by(EVP_MAC_final(context, tag, &length, TAG), PROV_R_NO_KEY_SET);
  CHECK(EVP_MAC_init(context, NULL, 0, NULL) == 1);
  for (size_t size = 0; size < TAG; size++) CHECK(EVP_MAC_final(context, tag, &length, size) == 0);
  CHECK(EVP_MAC_final(context, NULL, &length, 0) == 1 && length == TAG && EVP_MAC_CTX_get_mac_size(context) == TAG);
  ERR_clear_error();
  EVP_MAC_CTX_free(context);
}

int main(int count, char **words) {
  size_t lines;
  CHECK(count == 5);
  ours = ours_by(words[1], words[2]);
  own = theirs();
  start_from(strtoull(words[3], NULL, 10));
  mac = EVP_MAC_fetch(ours, "RETAIL-MAC", NULL);
  CHECK(mac != NULL && is_ours(EVP_MAC_get0_provider(mac)));
  CHECK(EVP_MAC_fetch(ours, "CMAC", NULL) == NULL && EVP_MAC_fetch(own, "RETAIL-MAC", NULL) == NULL);
  ERR_clear_error();
  lines = answers_as_known(words[4]);
  CHECK(lines > 10);
  for (unsigned method = 1; method <= 2; method++) {
    for (size_t length = 0; length <= 200; length++) compare(length, method);
    for (int i = 0; i < 50; i++) compare(below(LONGEST), method);
  }
  cuts_from_the_left();
  refuses();
  EVP_MAC_free(mac);
  drop_libraries(ours, own);
  printf("RETAIL-MAC: %zu known tags, and 502 messages beside OpenSSL's DES from seed %llu\n", lines, (unsigned long long)seed);
  return 0;
}
