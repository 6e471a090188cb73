/* Parameters of the core: numbers of any width, bytes, and texts. */
#include "internal.h"

bool is_named(const OSSL_PARAM *param, const char *name) { return strcmp(param->key, name) == 0; }

static bool is_number(const OSSL_PARAM *param) {
  return param->data_type == OSSL_PARAM_UNSIGNED_INTEGER || param->data_type == OSSL_PARAM_INTEGER;
}

/* The bytes of a number, the lowest first as on this processor. Zeros fill what is wider. */
static bool put_number(OSSL_PARAM *param, uint32_t value) {
  if (!is_number(param)) return false;
  param->return_size = sizeof value;
  if (param->data == NULL) return true;
  if (param->data_size < sizeof value) return false;
  memset(param->data, 0, param->data_size);
  memcpy(param->data, &value, sizeof value);
  param->return_size = param->data_size;
  return true;
}

bool put_numbers(OSSL_PARAM params[], const struct number *numbers, size_t count) {
  for (OSSL_PARAM *param = params; param != NULL && param->key != NULL; param++)
    for (size_t i = 0; i < count; i++)
      if (is_named(param, numbers[i].name) && !put_number(param, numbers[i].value)) return false;
  return true;
}

bool put_bytes(OSSL_PARAM *param, const uint8_t *bytes, size_t length) {
  param->return_size = length;
  if (param->data == NULL) return true;
  if (param->data_type == OSSL_PARAM_OCTET_PTR) {
    memcpy(param->data, &bytes, sizeof bytes);
    return true;
  }
  if (param->data_type != OSSL_PARAM_OCTET_STRING || param->data_size < length) return false;
  copy(param->data, bytes, length);
  return true;
}

bool put_text(OSSL_PARAM *param, const char *text) {
  if (param->data_type != OSSL_PARAM_UTF8_PTR) return false;
  param->return_size = strlen(text);
  if (param->data != NULL) memcpy(param->data, &text, sizeof text);
  return true;
}

/* A number of any width that is not negative and has 32 bits at most. */
bool take_number(const OSSL_PARAM *param, uint32_t *value) {
  const uint8_t *bytes = param->data;
  uint32_t number = 0;
  if (!is_number(param) || bytes == NULL || param->data_size == 0) return false;
  if (param->data_type == OSSL_PARAM_INTEGER && bytes[param->data_size - 1] >= 0x80) return false;
  for (size_t i = 0; i < param->data_size; i++) {
    if (i < sizeof number)
      number |= (uint32_t)bytes[i] << 8 * i;
    else if (bytes[i] != 0)
      return false;
  }
  *value = number;
  return true;
}
