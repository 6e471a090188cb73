/* DES3-WRAP (RFC 3217): a key, all in one call, as OpenSSL's own, with its statuses and errors. */
#include "cipher.h"
#include <sys/random.h>

enum { OVERHEAD = 2 * BLOCK, MOST = 1 << 30 };

static bool wrap(const struct context *context, const uint8_t *key, size_t length, uint8_t *output) {
  const uint8_t *wrapping = context->keys.wrapping;
  const size_t capacity = length + OVERHEAD;
  uint8_t vector[BLOCK];
  size_t made;
  if (getrandom(vector, sizeof vector, 0) != sizeof vector) return false;
  return cukvashe_cms_wrap_key(wrapping, sizeof context->keys.wrapping, vector, key, length, output, capacity, &made) == CUKVASHE_OK;
}

/* Of what is refused, zeros stand in the output, as by OpenSSL's own. */
static bool unwrap(const struct context *context, const uint8_t *wrapped, size_t length, uint8_t *output) {
  const uint8_t *wrapping = context->keys.wrapping;
  const size_t capacity = length - OVERHEAD;
  size_t made;
  if (cukvashe_cms_unwrap_key(wrapping, sizeof context->keys.wrapping, wrapped, length, output, capacity, &made) == CUKVASHE_OK)
    return true;
  memset(output, 0, capacity);
  return false;
}

/* The input may lie over the output in any way, and the library's may not: it takes a copy. */
static bool run_copied(const struct context *context, uint8_t *output, const uint8_t *input, size_t length) {
  uint8_t *copied = new_memory(context->provider, length);
  bool is_done;
  if (copied == NULL) return false;
  memcpy(copied, input, length);
  is_done = (context->encrypts ? wrap : unwrap)(context, copied, length, output);
  wipe_and_free(context->provider, copied, length);
  return is_done;
}

static int run(const struct context *context, uint8_t *output, size_t *output_length, const uint8_t *input, size_t length) {
  const size_t least = context->encrypts ? BLOCK : BLOCK + OVERHEAD;
  if (length < least || length >= MOST || length % BLOCK != 0) return 0;
  if (output != NULL && !run_copied(context, output, input, length)) return 0;
  *output_length = context->encrypts ? length + OVERHEAD : length - OVERHEAD;
  return 1;
}

/*
 * The core says of an output that it has space for the input and a block, though a wrapped key is two blocks longer: as by
 * OpenSSL's own, the program must have allowed for them. Without an output the length is told.
 */
static int is_ready(const struct context *context, size_t size, size_t length) {
  if (!context->has_key) return REFUSE(context->provider, PROV_R_NO_KEY_SET, NULL);
  if (size < length) return REFUSE(context->provider, PROV_R_OUTPUT_BUFFER_TOO_SMALL, NULL);
  return 1;
}

int wrap_at_once(void *given, unsigned char *output, size_t *output_length, size_t size, const unsigned char *input,
                 size_t length) {
  *output_length = 0;
  return is_ready(given, size, length) && run(given, output, output_length, input, length);
}

int wrap_update(void *given, unsigned char *output, size_t *output_length, size_t size, const unsigned char *input,
                size_t length) {
  const struct context *context = given;
  *output_length = 0;
  if (length == 0) return 1;
  if (!is_ready(context, size, length)) return 0;
  if (run(context, output, output_length, input, length)) return 1;
  return REFUSE(context->provider, PROV_R_CIPHER_OPERATION_FAILED, NULL);
}

int wrap_final(void *context, unsigned char *output, size_t *output_length, size_t size) {
  return stream_final(context, output, output_length, size);
}
