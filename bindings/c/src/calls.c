/* Calls of the header over the proved exports, those that say in a bool what another says in a status, and those that give a number.
   Made by bindings/describe of the header and the exports. */
#include "internal.h"

/* Stands in for a `fill` that a struct leaves out. */
static const uint8_t no_fill[10];

int cukvashe_des_init(cukvashe_des *context, const uint8_t *key, size_t key_length) {
  const int result = cukvashe_internal_init(context->words, 17, key, key_length, false);
  cukvashe_internal_wipe_stack(STACK_des_init);
  return result;
}

int cukvashe_tdes_ede2_init(cukvashe_tdes_ede2 *context, const uint8_t *key, size_t key_length) {
  const int result = cukvashe_internal_init(context->words, 33, key, key_length, false);
  cukvashe_internal_wipe_stack(STACK_tdes_ede2_init);
  return result;
}

int cukvashe_tdes_ede3_init(cukvashe_tdes_ede3 *context, const uint8_t *key, size_t key_length) {
  const int result = cukvashe_internal_init(context->words, 49, key, key_length, false);
  cukvashe_internal_wipe_stack(STACK_tdes_ede3_init);
  return result;
}

int cukvashe_des_init_no_tables(cukvashe_des *context, const uint8_t *key, size_t key_length) {
  const int result = cukvashe_internal_init(context->words, 17, key, key_length, true);
  cukvashe_internal_wipe_stack(STACK_des_init_no_tables);
  return result;
}

int cukvashe_tdes_ede2_init_no_tables(cukvashe_tdes_ede2 *context, const uint8_t *key, size_t key_length) {
  const int result = cukvashe_internal_init(context->words, 33, key, key_length, true);
  cukvashe_internal_wipe_stack(STACK_tdes_ede2_init_no_tables);
  return result;
}

int cukvashe_tdes_ede3_init_no_tables(cukvashe_tdes_ede3 *context, const uint8_t *key, size_t key_length) {
  const int result = cukvashe_internal_init(context->words, 49, key, key_length, true);
  cukvashe_internal_wipe_stack(STACK_tdes_ede3_init_no_tables);
  return result;
}

int cukvashe_des_encrypt_ecb(const cukvashe_des *context, uint8_t *data, size_t length) {
  return CHOOSE(length / CUKVASHE_BLOCK_SIZE, encrypt_ecb, context->words, 17, data, length / CUKVASHE_BLOCK_SIZE,
    length);
}

int cukvashe_des_decrypt_ecb(const cukvashe_des *context, uint8_t *data, size_t length) {
  return CHOOSE(length / CUKVASHE_BLOCK_SIZE, decrypt_ecb, context->words, 17, data, length / CUKVASHE_BLOCK_SIZE,
    length);
}

int cukvashe_des_encrypt_ecb_to(const cukvashe_des *context, const uint8_t *input, uint8_t *output, size_t length) {
  if (input == output) return cukvashe_des_encrypt_ecb(context, output, length);
  return CHOOSE(length / CUKVASHE_BLOCK_SIZE, encrypt_ecb_to, context->words, 17, input, length / CUKVASHE_BLOCK_SIZE,
    output, length / CUKVASHE_BLOCK_SIZE, length);
}

int cukvashe_des_decrypt_ecb_to(const cukvashe_des *context, const uint8_t *input, uint8_t *output, size_t length) {
  if (input == output) return cukvashe_des_decrypt_ecb(context, output, length);
  return CHOOSE(length / CUKVASHE_BLOCK_SIZE, decrypt_ecb_to, context->words, 17, input, length / CUKVASHE_BLOCK_SIZE,
    output, length / CUKVASHE_BLOCK_SIZE, length);
}

int cukvashe_tdes_ede2_encrypt_ecb(const cukvashe_tdes_ede2 *context, uint8_t *data, size_t length) {
  return CHOOSE(length / CUKVASHE_BLOCK_SIZE, encrypt_ecb, context->words, 33, data, length / CUKVASHE_BLOCK_SIZE,
    length);
}

int cukvashe_tdes_ede2_decrypt_ecb(const cukvashe_tdes_ede2 *context, uint8_t *data, size_t length) {
  return CHOOSE(length / CUKVASHE_BLOCK_SIZE, decrypt_ecb, context->words, 33, data, length / CUKVASHE_BLOCK_SIZE,
    length);
}

int cukvashe_tdes_ede2_encrypt_ecb_to(const cukvashe_tdes_ede2 *context, const uint8_t *input, uint8_t *output,
    size_t length) {
  if (input == output) return cukvashe_tdes_ede2_encrypt_ecb(context, output, length);
  return CHOOSE(length / CUKVASHE_BLOCK_SIZE, encrypt_ecb_to, context->words, 33, input, length / CUKVASHE_BLOCK_SIZE,
    output, length / CUKVASHE_BLOCK_SIZE, length);
}

int cukvashe_tdes_ede2_decrypt_ecb_to(const cukvashe_tdes_ede2 *context, const uint8_t *input, uint8_t *output,
    size_t length) {
  if (input == output) return cukvashe_tdes_ede2_decrypt_ecb(context, output, length);
  return CHOOSE(length / CUKVASHE_BLOCK_SIZE, decrypt_ecb_to, context->words, 33, input, length / CUKVASHE_BLOCK_SIZE,
    output, length / CUKVASHE_BLOCK_SIZE, length);
}

int cukvashe_tdes_ede3_encrypt_ecb(const cukvashe_tdes_ede3 *context, uint8_t *data, size_t length) {
  return CHOOSE(length / CUKVASHE_BLOCK_SIZE, encrypt_ecb, context->words, 49, data, length / CUKVASHE_BLOCK_SIZE,
    length);
}

int cukvashe_tdes_ede3_decrypt_ecb(const cukvashe_tdes_ede3 *context, uint8_t *data, size_t length) {
  return CHOOSE(length / CUKVASHE_BLOCK_SIZE, decrypt_ecb, context->words, 49, data, length / CUKVASHE_BLOCK_SIZE,
    length);
}

int cukvashe_tdes_ede3_encrypt_ecb_to(const cukvashe_tdes_ede3 *context, const uint8_t *input, uint8_t *output,
    size_t length) {
  if (input == output) return cukvashe_tdes_ede3_encrypt_ecb(context, output, length);
  return CHOOSE(length / CUKVASHE_BLOCK_SIZE, encrypt_ecb_to, context->words, 49, input, length / CUKVASHE_BLOCK_SIZE,
    output, length / CUKVASHE_BLOCK_SIZE, length);
}

int cukvashe_tdes_ede3_decrypt_ecb_to(const cukvashe_tdes_ede3 *context, const uint8_t *input, uint8_t *output,
    size_t length) {
  if (input == output) return cukvashe_tdes_ede3_decrypt_ecb(context, output, length);
  return CHOOSE(length / CUKVASHE_BLOCK_SIZE, decrypt_ecb_to, context->words, 49, input, length / CUKVASHE_BLOCK_SIZE,
    output, length / CUKVASHE_BLOCK_SIZE, length);
}

int cukvashe_des_encrypt_cbc(const cukvashe_des *context, uint8_t iv[8], uint8_t *data, size_t length) {
  return cukvashe_internal_encrypt_cbc(context->words, 17, iv, data, length / CUKVASHE_BLOCK_SIZE, length);
}

int cukvashe_des_decrypt_cbc(const cukvashe_des *context, uint8_t iv[8], uint8_t *data, size_t length) {
  return CHOOSE(length / CUKVASHE_BLOCK_SIZE, decrypt_cbc, context->words, 17, iv, data, length / CUKVASHE_BLOCK_SIZE,
    length);
}

int cukvashe_des_encrypt_cbc_to(const cukvashe_des *context, uint8_t iv[8], const uint8_t *input, uint8_t *output,
    size_t length) {
  if (input == output) return cukvashe_des_encrypt_cbc(context, iv, output, length);
  return cukvashe_internal_encrypt_cbc_to(context->words, 17, iv, input, length / CUKVASHE_BLOCK_SIZE, output,
    length / CUKVASHE_BLOCK_SIZE, length);
}

int cukvashe_des_decrypt_cbc_to(const cukvashe_des *context, uint8_t iv[8], const uint8_t *input, uint8_t *output,
    size_t length) {
  if (input == output) return cukvashe_des_decrypt_cbc(context, iv, output, length);
  return CHOOSE(length / CUKVASHE_BLOCK_SIZE, decrypt_cbc_to, context->words, 17, iv, input,
    length / CUKVASHE_BLOCK_SIZE, output, length / CUKVASHE_BLOCK_SIZE, length);
}

int cukvashe_tdes_ede2_encrypt_cbc(const cukvashe_tdes_ede2 *context, uint8_t iv[8], uint8_t *data, size_t length) {
  return cukvashe_internal_encrypt_cbc(context->words, 33, iv, data, length / CUKVASHE_BLOCK_SIZE, length);
}

int cukvashe_tdes_ede2_decrypt_cbc(const cukvashe_tdes_ede2 *context, uint8_t iv[8], uint8_t *data, size_t length) {
  return CHOOSE(length / CUKVASHE_BLOCK_SIZE, decrypt_cbc, context->words, 33, iv, data, length / CUKVASHE_BLOCK_SIZE,
    length);
}

int cukvashe_tdes_ede2_encrypt_cbc_to(const cukvashe_tdes_ede2 *context, uint8_t iv[8], const uint8_t *input,
    uint8_t *output, size_t length) {
  if (input == output) return cukvashe_tdes_ede2_encrypt_cbc(context, iv, output, length);
  return cukvashe_internal_encrypt_cbc_to(context->words, 33, iv, input, length / CUKVASHE_BLOCK_SIZE, output,
    length / CUKVASHE_BLOCK_SIZE, length);
}

int cukvashe_tdes_ede2_decrypt_cbc_to(const cukvashe_tdes_ede2 *context, uint8_t iv[8], const uint8_t *input,
    uint8_t *output, size_t length) {
  if (input == output) return cukvashe_tdes_ede2_decrypt_cbc(context, iv, output, length);
  return CHOOSE(length / CUKVASHE_BLOCK_SIZE, decrypt_cbc_to, context->words, 33, iv, input,
    length / CUKVASHE_BLOCK_SIZE, output, length / CUKVASHE_BLOCK_SIZE, length);
}

int cukvashe_tdes_ede3_encrypt_cbc(const cukvashe_tdes_ede3 *context, uint8_t iv[8], uint8_t *data, size_t length) {
  return cukvashe_internal_encrypt_cbc(context->words, 49, iv, data, length / CUKVASHE_BLOCK_SIZE, length);
}

int cukvashe_tdes_ede3_decrypt_cbc(const cukvashe_tdes_ede3 *context, uint8_t iv[8], uint8_t *data, size_t length) {
  return CHOOSE(length / CUKVASHE_BLOCK_SIZE, decrypt_cbc, context->words, 49, iv, data, length / CUKVASHE_BLOCK_SIZE,
    length);
}

int cukvashe_tdes_ede3_encrypt_cbc_to(const cukvashe_tdes_ede3 *context, uint8_t iv[8], const uint8_t *input,
    uint8_t *output, size_t length) {
  if (input == output) return cukvashe_tdes_ede3_encrypt_cbc(context, iv, output, length);
  return cukvashe_internal_encrypt_cbc_to(context->words, 49, iv, input, length / CUKVASHE_BLOCK_SIZE, output,
    length / CUKVASHE_BLOCK_SIZE, length);
}

int cukvashe_tdes_ede3_decrypt_cbc_to(const cukvashe_tdes_ede3 *context, uint8_t iv[8], const uint8_t *input,
    uint8_t *output, size_t length) {
  if (input == output) return cukvashe_tdes_ede3_decrypt_cbc(context, iv, output, length);
  return CHOOSE(length / CUKVASHE_BLOCK_SIZE, decrypt_cbc_to, context->words, 49, iv, input,
    length / CUKVASHE_BLOCK_SIZE, output, length / CUKVASHE_BLOCK_SIZE, length);
}

int cukvashe_des_encrypt_mode(const cukvashe_des *context, int mode, const uint8_t iv[8], uint8_t *data,
    size_t length) {
  return CHOOSE(mode == CUKVASHE_CTR ? length / CUKVASHE_BLOCK_SIZE : 0, encrypt_mode, context->words, 17,
    (uint32_t)mode, iv, data, length);
}

int cukvashe_des_decrypt_mode(const cukvashe_des *context, int mode, const uint8_t iv[8], uint8_t *data,
    size_t length) {
  return CHOOSE(mode == CUKVASHE_OFB ? 0 : length / CUKVASHE_BLOCK_SIZE, decrypt_mode, context->words, 17,
    (uint32_t)mode, iv, data, length);
}

int cukvashe_tdes_ede2_encrypt_mode(const cukvashe_tdes_ede2 *context, int mode, const uint8_t iv[8], uint8_t *data,
    size_t length) {
  return CHOOSE(mode == CUKVASHE_CTR ? length / CUKVASHE_BLOCK_SIZE : 0, encrypt_mode, context->words, 33,
    (uint32_t)mode, iv, data, length);
}

int cukvashe_tdes_ede2_decrypt_mode(const cukvashe_tdes_ede2 *context, int mode, const uint8_t iv[8], uint8_t *data,
    size_t length) {
  return CHOOSE(mode == CUKVASHE_OFB ? 0 : length / CUKVASHE_BLOCK_SIZE, decrypt_mode, context->words, 33,
    (uint32_t)mode, iv, data, length);
}

int cukvashe_tdes_ede3_encrypt_mode(const cukvashe_tdes_ede3 *context, int mode, const uint8_t iv[8], uint8_t *data,
    size_t length) {
  return CHOOSE(mode == CUKVASHE_CTR ? length / CUKVASHE_BLOCK_SIZE : 0, encrypt_mode, context->words, 49,
    (uint32_t)mode, iv, data, length);
}

int cukvashe_tdes_ede3_decrypt_mode(const cukvashe_tdes_ede3 *context, int mode, const uint8_t iv[8], uint8_t *data,
    size_t length) {
  return CHOOSE(mode == CUKVASHE_OFB ? 0 : length / CUKVASHE_BLOCK_SIZE, decrypt_mode, context->words, 49,
    (uint32_t)mode, iv, data, length);
}

int cukvashe_des_encrypt_stream(const cukvashe_des *context, cukvashe_stream *stream, uint8_t *data, size_t length) {
  return CHOOSE(length / CUKVASHE_BLOCK_SIZE, encrypt_stream, context->words, 17, stream, data, length);
}

int cukvashe_des_decrypt_stream(const cukvashe_des *context, cukvashe_stream *stream, uint8_t *data, size_t length) {
  return CHOOSE(length / CUKVASHE_BLOCK_SIZE, decrypt_stream, context->words, 17, stream, data, length);
}

int cukvashe_tdes_ede2_encrypt_stream(const cukvashe_tdes_ede2 *context, cukvashe_stream *stream, uint8_t *data,
    size_t length) {
  return CHOOSE(length / CUKVASHE_BLOCK_SIZE, encrypt_stream, context->words, 33, stream, data, length);
}

int cukvashe_tdes_ede2_decrypt_stream(const cukvashe_tdes_ede2 *context, cukvashe_stream *stream, uint8_t *data,
    size_t length) {
  return CHOOSE(length / CUKVASHE_BLOCK_SIZE, decrypt_stream, context->words, 33, stream, data, length);
}

int cukvashe_tdes_ede3_encrypt_stream(const cukvashe_tdes_ede3 *context, cukvashe_stream *stream, uint8_t *data,
    size_t length) {
  return CHOOSE(length / CUKVASHE_BLOCK_SIZE, encrypt_stream, context->words, 49, stream, data, length);
}

int cukvashe_tdes_ede3_decrypt_stream(const cukvashe_tdes_ede3 *context, cukvashe_stream *stream, uint8_t *data,
    size_t length) {
  return CHOOSE(length / CUKVASHE_BLOCK_SIZE, decrypt_stream, context->words, 49, stream, data, length);
}

int cukvashe_des_encrypt_stream_bits(const cukvashe_des *context, cukvashe_stream *stream, uint8_t *data, size_t bits) {
  return cukvashe_internal_encrypt_stream_bits(context->words, 17, stream, data, bits / 8 + (bits % 8 != 0), bits);
}

int cukvashe_des_decrypt_stream_bits(const cukvashe_des *context, cukvashe_stream *stream, uint8_t *data, size_t bits) {
  return cukvashe_internal_decrypt_stream_bits(context->words, 17, stream, data, bits / 8 + (bits % 8 != 0), bits);
}

int cukvashe_tdes_ede2_encrypt_stream_bits(const cukvashe_tdes_ede2 *context, cukvashe_stream *stream, uint8_t *data,
    size_t bits) {
  return cukvashe_internal_encrypt_stream_bits(context->words, 33, stream, data, bits / 8 + (bits % 8 != 0), bits);
}

int cukvashe_tdes_ede2_decrypt_stream_bits(const cukvashe_tdes_ede2 *context, cukvashe_stream *stream, uint8_t *data,
    size_t bits) {
  return cukvashe_internal_decrypt_stream_bits(context->words, 33, stream, data, bits / 8 + (bits % 8 != 0), bits);
}

int cukvashe_tdes_ede3_encrypt_stream_bits(const cukvashe_tdes_ede3 *context, cukvashe_stream *stream, uint8_t *data,
    size_t bits) {
  return cukvashe_internal_encrypt_stream_bits(context->words, 49, stream, data, bits / 8 + (bits % 8 != 0), bits);
}

int cukvashe_tdes_ede3_decrypt_stream_bits(const cukvashe_tdes_ede3 *context, cukvashe_stream *stream, uint8_t *data,
    size_t bits) {
  return cukvashe_internal_decrypt_stream_bits(context->words, 49, stream, data, bits / 8 + (bits % 8 != 0), bits);
}

int cukvashe_cms_wrap_key(const uint8_t *protection, size_t protection_length, const uint8_t iv[8], const uint8_t *key,
    size_t key_length, uint8_t *wrapped, size_t capacity, size_t *wrapped_length) {
  if (overlap(wrapped, capacity, key, key_length)) return CUKVASHE_ERR_OVERLAP;
  const int result = cukvashe_unwiped_cms_wrap_key(protection, protection_length, iv, key, key_length, wrapped,
    capacity / 8, wrapped_length);
  cukvashe_internal_wipe_stack(STACK_cms_wrap_key);
  return result;
}

int cukvashe_cms_unwrap_key(const uint8_t *protection, size_t protection_length, const uint8_t *wrapped,
    size_t wrapped_length, uint8_t *key, size_t capacity, size_t *key_length) {
  if (overlap(key, capacity, wrapped, wrapped_length)) return CUKVASHE_ERR_OVERLAP;
  const int result = cukvashe_unwiped_cms_unwrap_key(protection, protection_length, wrapped, wrapped_length, key,
    capacity / 8, key_length);
  cukvashe_internal_wipe_stack(STACK_cms_unwrap_key);
  return result;
}

int cukvashe_tkw_wrap_key(const uint8_t *protection, size_t protection_length, const uint8_t *key, size_t key_length,
    uint8_t *wrapped, size_t capacity, size_t *wrapped_length) {
  if (overlap(wrapped, capacity, key, key_length)) return CUKVASHE_ERR_OVERLAP;
  const int result = cukvashe_unwiped_tkw_wrap_key(protection, protection_length, key, key_length, wrapped,
    capacity / 4, wrapped_length);
  cukvashe_internal_wipe_stack(STACK_tkw_wrap_key);
  return result;
}

int cukvashe_tkw_unwrap_key(const uint8_t *protection, size_t protection_length, const uint8_t *wrapped,
    size_t wrapped_length, uint8_t *key, size_t capacity, size_t *key_length) {
  if (overlap(key, capacity, wrapped, wrapped_length)) return CUKVASHE_ERR_OVERLAP;
  const int result = cukvashe_unwiped_tkw_unwrap_key(protection, protection_length, wrapped, wrapped_length, key,
    capacity / 4, key_length);
  cukvashe_internal_wipe_stack(STACK_tkw_unwrap_key);
  return result;
}

int cukvashe_des_encrypt_each(const uint8_t *keys, size_t count, uint8_t *blocks, size_t length) {
  if (length % CUKVASHE_BLOCK_SIZE != 0) return CUKVASHE_ERR_BLOCKS;
  if (count != length / CUKVASHE_BLOCK_SIZE) return CUKVASHE_ERR_COUNTS;
  const int result = CHOOSE(count, encrypt_each, CUKVASHE_DES_KEY_SIZE, keys, count * CUKVASHE_DES_KEY_SIZE, blocks,
    count);
  cukvashe_internal_wipe_stack(STACK_des_encrypt_each);
  return result;
}

int cukvashe_des_decrypt_each(const uint8_t *keys, size_t count, uint8_t *blocks, size_t length) {
  if (length % CUKVASHE_BLOCK_SIZE != 0) return CUKVASHE_ERR_BLOCKS;
  if (count != length / CUKVASHE_BLOCK_SIZE) return CUKVASHE_ERR_COUNTS;
  const int result = CHOOSE(count, decrypt_each, CUKVASHE_DES_KEY_SIZE, keys, count * CUKVASHE_DES_KEY_SIZE, blocks,
    count);
  cukvashe_internal_wipe_stack(STACK_des_decrypt_each);
  return result;
}

int cukvashe_tdes_ede2_encrypt_each(const uint8_t *keys, size_t count, uint8_t *blocks, size_t length) {
  if (length % CUKVASHE_BLOCK_SIZE != 0) return CUKVASHE_ERR_BLOCKS;
  if (count != length / CUKVASHE_BLOCK_SIZE) return CUKVASHE_ERR_COUNTS;
  const int result = CHOOSE(count, encrypt_each, CUKVASHE_TDES_EDE2_KEY_SIZE, keys, count * CUKVASHE_TDES_EDE2_KEY_SIZE,
    blocks, count);
  cukvashe_internal_wipe_stack(STACK_tdes_ede2_encrypt_each);
  return result;
}

int cukvashe_tdes_ede2_decrypt_each(const uint8_t *keys, size_t count, uint8_t *blocks, size_t length) {
  if (length % CUKVASHE_BLOCK_SIZE != 0) return CUKVASHE_ERR_BLOCKS;
  if (count != length / CUKVASHE_BLOCK_SIZE) return CUKVASHE_ERR_COUNTS;
  const int result = CHOOSE(count, decrypt_each, CUKVASHE_TDES_EDE2_KEY_SIZE, keys, count * CUKVASHE_TDES_EDE2_KEY_SIZE,
    blocks, count);
  cukvashe_internal_wipe_stack(STACK_tdes_ede2_decrypt_each);
  return result;
}

int cukvashe_tdes_ede3_encrypt_each(const uint8_t *keys, size_t count, uint8_t *blocks, size_t length) {
  if (length % CUKVASHE_BLOCK_SIZE != 0) return CUKVASHE_ERR_BLOCKS;
  if (count != length / CUKVASHE_BLOCK_SIZE) return CUKVASHE_ERR_COUNTS;
  const int result = CHOOSE(count, encrypt_each, CUKVASHE_TDES_EDE3_KEY_SIZE, keys, count * CUKVASHE_TDES_EDE3_KEY_SIZE,
    blocks, count);
  cukvashe_internal_wipe_stack(STACK_tdes_ede3_encrypt_each);
  return result;
}

int cukvashe_tdes_ede3_decrypt_each(const uint8_t *keys, size_t count, uint8_t *blocks, size_t length) {
  if (length % CUKVASHE_BLOCK_SIZE != 0) return CUKVASHE_ERR_BLOCKS;
  if (count != length / CUKVASHE_BLOCK_SIZE) return CUKVASHE_ERR_COUNTS;
  const int result = CHOOSE(count, decrypt_each, CUKVASHE_TDES_EDE3_KEY_SIZE, keys, count * CUKVASHE_TDES_EDE3_KEY_SIZE,
    blocks, count);
  cukvashe_internal_wipe_stack(STACK_tdes_ede3_decrypt_each);
  return result;
}

int cukvashe_des_encrypt_cbc_records(const cukvashe_des *context, uint8_t *vectors, size_t vectors_length,
    const size_t *counts, size_t records_count, uint8_t *bytes, size_t length) {
  if (!are_elements(records_count, 8, vectors_length)) return CUKVASHE_ERR_COUNTS;
  return CHOOSE(records_count, encrypt_cbc_records, context->words, 17, vectors, records_count, counts, records_count,
    bytes, length / CUKVASHE_BLOCK_SIZE, length);
}

int cukvashe_des_decrypt_cbc_records(const cukvashe_des *context, uint8_t *vectors, size_t vectors_length,
    const size_t *counts, size_t records_count, uint8_t *bytes, size_t length) {
  if (!are_elements(records_count, 8, vectors_length)) return CUKVASHE_ERR_COUNTS;
  return CHOOSE(length / CUKVASHE_BLOCK_SIZE, decrypt_cbc_records, context->words, 17, vectors, records_count, counts,
    records_count, bytes, length / CUKVASHE_BLOCK_SIZE, length);
}

int cukvashe_tdes_ede2_encrypt_cbc_records(const cukvashe_tdes_ede2 *context, uint8_t *vectors, size_t vectors_length,
    const size_t *counts, size_t records_count, uint8_t *bytes, size_t length) {
  if (!are_elements(records_count, 8, vectors_length)) return CUKVASHE_ERR_COUNTS;
  return CHOOSE(records_count, encrypt_cbc_records, context->words, 33, vectors, records_count, counts, records_count,
    bytes, length / CUKVASHE_BLOCK_SIZE, length);
}

int cukvashe_tdes_ede2_decrypt_cbc_records(const cukvashe_tdes_ede2 *context, uint8_t *vectors, size_t vectors_length,
    const size_t *counts, size_t records_count, uint8_t *bytes, size_t length) {
  if (!are_elements(records_count, 8, vectors_length)) return CUKVASHE_ERR_COUNTS;
  return CHOOSE(length / CUKVASHE_BLOCK_SIZE, decrypt_cbc_records, context->words, 33, vectors, records_count, counts,
    records_count, bytes, length / CUKVASHE_BLOCK_SIZE, length);
}

int cukvashe_tdes_ede3_encrypt_cbc_records(const cukvashe_tdes_ede3 *context, uint8_t *vectors, size_t vectors_length,
    const size_t *counts, size_t records_count, uint8_t *bytes, size_t length) {
  if (!are_elements(records_count, 8, vectors_length)) return CUKVASHE_ERR_COUNTS;
  return CHOOSE(records_count, encrypt_cbc_records, context->words, 49, vectors, records_count, counts, records_count,
    bytes, length / CUKVASHE_BLOCK_SIZE, length);
}

int cukvashe_tdes_ede3_decrypt_cbc_records(const cukvashe_tdes_ede3 *context, uint8_t *vectors, size_t vectors_length,
    const size_t *counts, size_t records_count, uint8_t *bytes, size_t length) {
  if (!are_elements(records_count, 8, vectors_length)) return CUKVASHE_ERR_COUNTS;
  return CHOOSE(length / CUKVASHE_BLOCK_SIZE, decrypt_cbc_records, context->words, 49, vectors, records_count, counts,
    records_count, bytes, length / CUKVASHE_BLOCK_SIZE, length);
}

int cukvashe_pad(uint8_t *buffer, size_t length, size_t capacity, int method, size_t *padded_length) {
  return cukvashe_internal_pad(buffer, capacity, length, method, padded_length);
}

int cukvashe_weak_key_test(const uint8_t *key, size_t key_length) {
  const int result = cukvashe_unwiped_weak_key_test(key, key_length);
  cukvashe_internal_wipe_stack(STACK_weak_key_test);
  return result;
}

void cukvashe_set_odd_parity(uint8_t *key, size_t key_length) {
  cukvashe_unwiped_set_odd_parity(key, key_length);
  cukvashe_internal_wipe_stack(STACK_set_odd_parity);
}

bool cukvashe_equal_but_parity(const uint8_t *first, const uint8_t *second, size_t key_length) {
  const bool result = cukvashe_internal_equal_but_parity(first, key_length, second, key_length);
  cukvashe_internal_wipe_stack(STACK_equal_but_parity);
  return result;
}

int cukvashe_cbc_mac_des_init(cukvashe_cbc_mac_des *context, const uint8_t *key, size_t key_length, int method) {
  const int result = cukvashe_internal_mac_init(ALGORITHM_CBC_MAC, context->words, 17, context->words + 17, key,
    key_length, (uint32_t)method, false);
  cukvashe_internal_wipe_stack(STACK_cbc_mac_des_init);
  return result;
}

int cukvashe_cbc_mac_tdes_ede2_init(cukvashe_cbc_mac_tdes_ede2 *context, const uint8_t *key, size_t key_length,
    int method) {
  const int result = cukvashe_internal_mac_init(ALGORITHM_CBC_MAC, context->words, 33, context->words + 33, key,
    key_length, (uint32_t)method, false);
  cukvashe_internal_wipe_stack(STACK_cbc_mac_tdes_ede2_init);
  return result;
}

int cukvashe_cbc_mac_tdes_ede3_init(cukvashe_cbc_mac_tdes_ede3 *context, const uint8_t *key, size_t key_length,
    int method) {
  const int result = cukvashe_internal_mac_init(ALGORITHM_CBC_MAC, context->words, 49, context->words + 49, key,
    key_length, (uint32_t)method, false);
  cukvashe_internal_wipe_stack(STACK_cbc_mac_tdes_ede3_init);
  return result;
}

int cukvashe_retail_mac_des_init(cukvashe_retail_mac_des *context, const uint8_t *key, size_t key_length, int method) {
  const int result = cukvashe_internal_mac_init(ALGORITHM_RETAIL_MAC, context->words, 34, context->words + 34, key,
    key_length, (uint32_t)method, false);
  cukvashe_internal_wipe_stack(STACK_retail_mac_des_init);
  return result;
}

int cukvashe_cmac_tdes_ede2_init(cukvashe_cmac_tdes_ede2 *context, const uint8_t *key, size_t key_length) {
  const int result = cukvashe_internal_mac_init(ALGORITHM_CMAC, context->words, 33, context->words + 33, key,
    key_length, CUKVASHE_MAC_PADDING_2, false);
  cukvashe_internal_wipe_stack(STACK_cmac_tdes_ede2_init);
  return result;
}

int cukvashe_cmac_tdes_ede3_init(cukvashe_cmac_tdes_ede3 *context, const uint8_t *key, size_t key_length) {
  const int result = cukvashe_internal_mac_init(ALGORITHM_CMAC, context->words, 49, context->words + 49, key,
    key_length, CUKVASHE_MAC_PADDING_2, false);
  cukvashe_internal_wipe_stack(STACK_cmac_tdes_ede3_init);
  return result;
}

int cukvashe_cbc_mac_des_init_no_tables(cukvashe_cbc_mac_des *context, const uint8_t *key, size_t key_length,
    int method) {
  const int result = cukvashe_internal_mac_init(ALGORITHM_CBC_MAC, context->words, 17, context->words + 17, key,
    key_length, (uint32_t)method, true);
  cukvashe_internal_wipe_stack(STACK_cbc_mac_des_init_no_tables);
  return result;
}

int cukvashe_cbc_mac_tdes_ede2_init_no_tables(cukvashe_cbc_mac_tdes_ede2 *context, const uint8_t *key,
    size_t key_length, int method) {
  const int result = cukvashe_internal_mac_init(ALGORITHM_CBC_MAC, context->words, 33, context->words + 33, key,
    key_length, (uint32_t)method, true);
  cukvashe_internal_wipe_stack(STACK_cbc_mac_tdes_ede2_init_no_tables);
  return result;
}

int cukvashe_cbc_mac_tdes_ede3_init_no_tables(cukvashe_cbc_mac_tdes_ede3 *context, const uint8_t *key,
    size_t key_length, int method) {
  const int result = cukvashe_internal_mac_init(ALGORITHM_CBC_MAC, context->words, 49, context->words + 49, key,
    key_length, (uint32_t)method, true);
  cukvashe_internal_wipe_stack(STACK_cbc_mac_tdes_ede3_init_no_tables);
  return result;
}

int cukvashe_retail_mac_des_init_no_tables(cukvashe_retail_mac_des *context, const uint8_t *key, size_t key_length,
    int method) {
  const int result = cukvashe_internal_mac_init(ALGORITHM_RETAIL_MAC, context->words, 34, context->words + 34, key,
    key_length, (uint32_t)method, true);
  cukvashe_internal_wipe_stack(STACK_retail_mac_des_init_no_tables);
  return result;
}

int cukvashe_cmac_tdes_ede2_init_no_tables(cukvashe_cmac_tdes_ede2 *context, const uint8_t *key, size_t key_length) {
  const int result = cukvashe_internal_mac_init(ALGORITHM_CMAC, context->words, 33, context->words + 33, key,
    key_length, CUKVASHE_MAC_PADDING_2, true);
  cukvashe_internal_wipe_stack(STACK_cmac_tdes_ede2_init_no_tables);
  return result;
}

int cukvashe_cmac_tdes_ede3_init_no_tables(cukvashe_cmac_tdes_ede3 *context, const uint8_t *key, size_t key_length) {
  const int result = cukvashe_internal_mac_init(ALGORITHM_CMAC, context->words, 49, context->words + 49, key,
    key_length, CUKVASHE_MAC_PADDING_2, true);
  cukvashe_internal_wipe_stack(STACK_cmac_tdes_ede3_init_no_tables);
  return result;
}

int cukvashe_cbc_mac_des_update(cukvashe_cbc_mac_des *context, const uint8_t *message, size_t length) {
  return cukvashe_internal_mac_update(ALGORITHM_CBC_MAC, context->words, 17, context->words + 17, message, length);
}

int cukvashe_cbc_mac_tdes_ede2_update(cukvashe_cbc_mac_tdes_ede2 *context, const uint8_t *message, size_t length) {
  return cukvashe_internal_mac_update(ALGORITHM_CBC_MAC, context->words, 33, context->words + 33, message, length);
}

int cukvashe_cbc_mac_tdes_ede3_update(cukvashe_cbc_mac_tdes_ede3 *context, const uint8_t *message, size_t length) {
  return cukvashe_internal_mac_update(ALGORITHM_CBC_MAC, context->words, 49, context->words + 49, message, length);
}

int cukvashe_retail_mac_des_update(cukvashe_retail_mac_des *context, const uint8_t *message, size_t length) {
  return cukvashe_internal_mac_update(ALGORITHM_RETAIL_MAC, context->words, 34, context->words + 34, message, length);
}

int cukvashe_cmac_tdes_ede2_update(cukvashe_cmac_tdes_ede2 *context, const uint8_t *message, size_t length) {
  return cukvashe_internal_mac_update(ALGORITHM_CMAC, context->words, 33, context->words + 33, message, length);
}

int cukvashe_cmac_tdes_ede3_update(cukvashe_cmac_tdes_ede3 *context, const uint8_t *message, size_t length) {
  return cukvashe_internal_mac_update(ALGORITHM_CMAC, context->words, 49, context->words + 49, message, length);
}

int cukvashe_cbc_mac_des_final(const cukvashe_cbc_mac_des *context, uint8_t tag[8]) {
  return cukvashe_internal_mac_final(ALGORITHM_CBC_MAC, context->words, 17, context->words + 17, tag);
}

int cukvashe_cbc_mac_tdes_ede2_final(const cukvashe_cbc_mac_tdes_ede2 *context, uint8_t tag[8]) {
  return cukvashe_internal_mac_final(ALGORITHM_CBC_MAC, context->words, 33, context->words + 33, tag);
}

int cukvashe_cbc_mac_tdes_ede3_final(const cukvashe_cbc_mac_tdes_ede3 *context, uint8_t tag[8]) {
  return cukvashe_internal_mac_final(ALGORITHM_CBC_MAC, context->words, 49, context->words + 49, tag);
}

int cukvashe_retail_mac_des_final(const cukvashe_retail_mac_des *context, uint8_t tag[8]) {
  return cukvashe_internal_mac_final(ALGORITHM_RETAIL_MAC, context->words, 34, context->words + 34, tag);
}

int cukvashe_cmac_tdes_ede2_final(const cukvashe_cmac_tdes_ede2 *context, uint8_t tag[8]) {
  return cukvashe_internal_mac_final(ALGORITHM_CMAC, context->words, 33, context->words + 33, tag);
}

int cukvashe_cmac_tdes_ede3_final(const cukvashe_cmac_tdes_ede3 *context, uint8_t tag[8]) {
  return cukvashe_internal_mac_final(ALGORITHM_CMAC, context->words, 49, context->words + 49, tag);
}

int cukvashe_cbc_mac_des_verify(const cukvashe_cbc_mac_des *context, const uint8_t *tag, size_t tag_length) {
  return cukvashe_internal_mac_verify(ALGORITHM_CBC_MAC, context->words, 17, context->words + 17, tag, tag_length);
}

int cukvashe_cbc_mac_tdes_ede2_verify(const cukvashe_cbc_mac_tdes_ede2 *context, const uint8_t *tag,
    size_t tag_length) {
  return cukvashe_internal_mac_verify(ALGORITHM_CBC_MAC, context->words, 33, context->words + 33, tag, tag_length);
}

int cukvashe_cbc_mac_tdes_ede3_verify(const cukvashe_cbc_mac_tdes_ede3 *context, const uint8_t *tag,
    size_t tag_length) {
  return cukvashe_internal_mac_verify(ALGORITHM_CBC_MAC, context->words, 49, context->words + 49, tag, tag_length);
}

int cukvashe_retail_mac_des_verify(const cukvashe_retail_mac_des *context, const uint8_t *tag, size_t tag_length) {
  return cukvashe_internal_mac_verify(ALGORITHM_RETAIL_MAC, context->words, 34, context->words + 34, tag, tag_length);
}

int cukvashe_cmac_tdes_ede2_verify(const cukvashe_cmac_tdes_ede2 *context, const uint8_t *tag, size_t tag_length) {
  return cukvashe_internal_mac_verify(ALGORITHM_CMAC, context->words, 33, context->words + 33, tag, tag_length);
}

int cukvashe_cmac_tdes_ede3_verify(const cukvashe_cmac_tdes_ede3 *context, const uint8_t *tag, size_t tag_length) {
  return cukvashe_internal_mac_verify(ALGORITHM_CMAC, context->words, 49, context->words + 49, tag, tag_length);
}

bool cukvashe_cbc_mac_des_is_tag(const cukvashe_cbc_mac_des *context, const uint8_t *tag, size_t tag_length) {
  return cukvashe_cbc_mac_des_verify(context, tag, tag_length) == CUKVASHE_OK;
}

bool cukvashe_cbc_mac_tdes_ede2_is_tag(const cukvashe_cbc_mac_tdes_ede2 *context, const uint8_t *tag,
    size_t tag_length) {
  return cukvashe_cbc_mac_tdes_ede2_verify(context, tag, tag_length) == CUKVASHE_OK;
}

bool cukvashe_cbc_mac_tdes_ede3_is_tag(const cukvashe_cbc_mac_tdes_ede3 *context, const uint8_t *tag,
    size_t tag_length) {
  return cukvashe_cbc_mac_tdes_ede3_verify(context, tag, tag_length) == CUKVASHE_OK;
}

bool cukvashe_retail_mac_des_is_tag(const cukvashe_retail_mac_des *context, const uint8_t *tag, size_t tag_length) {
  return cukvashe_retail_mac_des_verify(context, tag, tag_length) == CUKVASHE_OK;
}

bool cukvashe_cmac_tdes_ede2_is_tag(const cukvashe_cmac_tdes_ede2 *context, const uint8_t *tag, size_t tag_length) {
  return cukvashe_cmac_tdes_ede2_verify(context, tag, tag_length) == CUKVASHE_OK;
}

bool cukvashe_cmac_tdes_ede3_is_tag(const cukvashe_cmac_tdes_ede3 *context, const uint8_t *tag, size_t tag_length) {
  return cukvashe_cmac_tdes_ede3_verify(context, tag, tag_length) == CUKVASHE_OK;
}

int cukvashe_cbc_mac_des_macs(const uint8_t *key, size_t key_length, int method, const cukvashe_message *messages,
    uint8_t *tags, size_t tags_length, size_t count) {
  if (key_length != CUKVASHE_CBC_MAC_DES_KEY_SIZE) return CUKVASHE_ERR_KEY_LENGTH;
  if (!are_elements(count, 8, tags_length)) return CUKVASHE_ERR_COUNTS;
  const int result = CHOOSE(count, macs, ALGORITHM_CBC_MAC, (uint32_t)method, key, key_length, messages, count, tags,
    count);
  cukvashe_internal_wipe_stack(STACK_cbc_mac_des_macs);
  return result;
}

int cukvashe_cbc_mac_des_macs_each(const uint8_t *keys, size_t keys_length, int method,
    const cukvashe_message *messages, uint8_t *tags, size_t tags_length, size_t count) {
  if (!are_elements(count, CUKVASHE_CBC_MAC_DES_KEY_SIZE, keys_length)) return CUKVASHE_ERR_COUNTS;
  if (!are_elements(count, 8, tags_length)) return CUKVASHE_ERR_COUNTS;
  const int result = CHOOSE(count, macs_each, ALGORITHM_CBC_MAC, (uint32_t)method, CUKVASHE_CBC_MAC_DES_KEY_SIZE, keys,
    keys_length, messages, count, tags, count);
  cukvashe_internal_wipe_stack(STACK_cbc_mac_des_macs_each);
  return result;
}

int cukvashe_cbc_mac_tdes_ede2_macs(const uint8_t *key, size_t key_length, int method, const cukvashe_message *messages,
    uint8_t *tags, size_t tags_length, size_t count) {
  if (key_length != CUKVASHE_CBC_MAC_TDES_EDE2_KEY_SIZE) return CUKVASHE_ERR_KEY_LENGTH;
  if (!are_elements(count, 8, tags_length)) return CUKVASHE_ERR_COUNTS;
  const int result = CHOOSE(count, macs, ALGORITHM_CBC_MAC, (uint32_t)method, key, key_length, messages, count, tags,
    count);
  cukvashe_internal_wipe_stack(STACK_cbc_mac_tdes_ede2_macs);
  return result;
}

int cukvashe_cbc_mac_tdes_ede2_macs_each(const uint8_t *keys, size_t keys_length, int method,
    const cukvashe_message *messages, uint8_t *tags, size_t tags_length, size_t count) {
  if (!are_elements(count, CUKVASHE_CBC_MAC_TDES_EDE2_KEY_SIZE, keys_length)) return CUKVASHE_ERR_COUNTS;
  if (!are_elements(count, 8, tags_length)) return CUKVASHE_ERR_COUNTS;
  const int result = CHOOSE(count, macs_each, ALGORITHM_CBC_MAC, (uint32_t)method, CUKVASHE_CBC_MAC_TDES_EDE2_KEY_SIZE,
    keys, keys_length, messages, count, tags, count);
  cukvashe_internal_wipe_stack(STACK_cbc_mac_tdes_ede2_macs_each);
  return result;
}

int cukvashe_cbc_mac_tdes_ede3_macs(const uint8_t *key, size_t key_length, int method, const cukvashe_message *messages,
    uint8_t *tags, size_t tags_length, size_t count) {
  if (key_length != CUKVASHE_CBC_MAC_TDES_EDE3_KEY_SIZE) return CUKVASHE_ERR_KEY_LENGTH;
  if (!are_elements(count, 8, tags_length)) return CUKVASHE_ERR_COUNTS;
  const int result = CHOOSE(count, macs, ALGORITHM_CBC_MAC, (uint32_t)method, key, key_length, messages, count, tags,
    count);
  cukvashe_internal_wipe_stack(STACK_cbc_mac_tdes_ede3_macs);
  return result;
}

int cukvashe_cbc_mac_tdes_ede3_macs_each(const uint8_t *keys, size_t keys_length, int method,
    const cukvashe_message *messages, uint8_t *tags, size_t tags_length, size_t count) {
  if (!are_elements(count, CUKVASHE_CBC_MAC_TDES_EDE3_KEY_SIZE, keys_length)) return CUKVASHE_ERR_COUNTS;
  if (!are_elements(count, 8, tags_length)) return CUKVASHE_ERR_COUNTS;
  const int result = CHOOSE(count, macs_each, ALGORITHM_CBC_MAC, (uint32_t)method, CUKVASHE_CBC_MAC_TDES_EDE3_KEY_SIZE,
    keys, keys_length, messages, count, tags, count);
  cukvashe_internal_wipe_stack(STACK_cbc_mac_tdes_ede3_macs_each);
  return result;
}

int cukvashe_retail_mac_des_macs(const uint8_t *key, size_t key_length, int method, const cukvashe_message *messages,
    uint8_t *tags, size_t tags_length, size_t count) {
  if (key_length != CUKVASHE_RETAIL_MAC_DES_KEY_SIZE) return CUKVASHE_ERR_KEY_LENGTH;
  if (!are_elements(count, 8, tags_length)) return CUKVASHE_ERR_COUNTS;
  const int result = CHOOSE(count, macs, ALGORITHM_RETAIL_MAC, (uint32_t)method, key, key_length, messages, count, tags,
    count);
  cukvashe_internal_wipe_stack(STACK_retail_mac_des_macs);
  return result;
}

int cukvashe_retail_mac_des_macs_each(const uint8_t *keys, size_t keys_length, int method,
    const cukvashe_message *messages, uint8_t *tags, size_t tags_length, size_t count) {
  if (!are_elements(count, CUKVASHE_RETAIL_MAC_DES_KEY_SIZE, keys_length)) return CUKVASHE_ERR_COUNTS;
  if (!are_elements(count, 8, tags_length)) return CUKVASHE_ERR_COUNTS;
  const int result = CHOOSE(count, macs_each, ALGORITHM_RETAIL_MAC, (uint32_t)method, CUKVASHE_RETAIL_MAC_DES_KEY_SIZE,
    keys, keys_length, messages, count, tags, count);
  cukvashe_internal_wipe_stack(STACK_retail_mac_des_macs_each);
  return result;
}

int cukvashe_cmac_tdes_ede2_macs(const uint8_t *key, size_t key_length, const cukvashe_message *messages, uint8_t *tags,
    size_t tags_length, size_t count) {
  if (key_length != CUKVASHE_CMAC_TDES_EDE2_KEY_SIZE) return CUKVASHE_ERR_KEY_LENGTH;
  if (!are_elements(count, 8, tags_length)) return CUKVASHE_ERR_COUNTS;
  const int result = CHOOSE(count, macs, ALGORITHM_CMAC, CUKVASHE_MAC_PADDING_2, key, key_length, messages, count, tags,
    count);
  cukvashe_internal_wipe_stack(STACK_cmac_tdes_ede2_macs);
  return result;
}

int cukvashe_cmac_tdes_ede2_macs_each(const uint8_t *keys, size_t keys_length, const cukvashe_message *messages,
    uint8_t *tags, size_t tags_length, size_t count) {
  if (!are_elements(count, CUKVASHE_CMAC_TDES_EDE2_KEY_SIZE, keys_length)) return CUKVASHE_ERR_COUNTS;
  if (!are_elements(count, 8, tags_length)) return CUKVASHE_ERR_COUNTS;
  const int result = CHOOSE(count, macs_each, ALGORITHM_CMAC, CUKVASHE_MAC_PADDING_2, CUKVASHE_CMAC_TDES_EDE2_KEY_SIZE,
    keys, keys_length, messages, count, tags, count);
  cukvashe_internal_wipe_stack(STACK_cmac_tdes_ede2_macs_each);
  return result;
}

int cukvashe_cmac_tdes_ede3_macs(const uint8_t *key, size_t key_length, const cukvashe_message *messages, uint8_t *tags,
    size_t tags_length, size_t count) {
  if (key_length != CUKVASHE_CMAC_TDES_EDE3_KEY_SIZE) return CUKVASHE_ERR_KEY_LENGTH;
  if (!are_elements(count, 8, tags_length)) return CUKVASHE_ERR_COUNTS;
  const int result = CHOOSE(count, macs, ALGORITHM_CMAC, CUKVASHE_MAC_PADDING_2, key, key_length, messages, count, tags,
    count);
  cukvashe_internal_wipe_stack(STACK_cmac_tdes_ede3_macs);
  return result;
}

int cukvashe_cmac_tdes_ede3_macs_each(const uint8_t *keys, size_t keys_length, const cukvashe_message *messages,
    uint8_t *tags, size_t tags_length, size_t count) {
  if (!are_elements(count, CUKVASHE_CMAC_TDES_EDE3_KEY_SIZE, keys_length)) return CUKVASHE_ERR_COUNTS;
  if (!are_elements(count, 8, tags_length)) return CUKVASHE_ERR_COUNTS;
  const int result = CHOOSE(count, macs_each, ALGORITHM_CMAC, CUKVASHE_MAC_PADDING_2, CUKVASHE_CMAC_TDES_EDE3_KEY_SIZE,
    keys, keys_length, messages, count, tags, count);
  cukvashe_internal_wipe_stack(STACK_cmac_tdes_ede3_macs_each);
  return result;
}

int cukvashe_compare_tags(const uint8_t *tags, size_t tags_length, const uint8_t *expected, size_t expected_length,
    bool *right, size_t count) {
  if (!are_elements(count, 8, tags_length)) return CUKVASHE_ERR_COUNTS;
  if (!are_elements(count, 8, expected_length)) return CUKVASHE_ERR_COUNTS;
  return cukvashe_internal_compare_tags(tags, count, expected, count, right, count);
}

int cukvashe_des_check_value(const uint8_t *key, size_t key_length, uint8_t value[3]) {
  const int result = cukvashe_internal_check_value(CUKVASHE_DES_KEY_SIZE, key, key_length, value);
  cukvashe_internal_wipe_stack(STACK_des_check_value);
  return result;
}

int cukvashe_tdes_ede2_check_value(const uint8_t *key, size_t key_length, uint8_t value[3]) {
  const int result = cukvashe_internal_check_value(CUKVASHE_TDES_EDE2_KEY_SIZE, key, key_length, value);
  cukvashe_internal_wipe_stack(STACK_tdes_ede2_check_value);
  return result;
}

int cukvashe_tdes_ede3_check_value(const uint8_t *key, size_t key_length, uint8_t value[3]) {
  const int result = cukvashe_internal_check_value(CUKVASHE_TDES_EDE3_KEY_SIZE, key, key_length, value);
  cukvashe_internal_wipe_stack(STACK_tdes_ede3_check_value);
  return result;
}

int cukvashe_key_check_value(const uint8_t *key, size_t key_length, uint8_t value[3]) {
  const int result = cukvashe_unwiped_key_check_value(key, key_length, value);
  cukvashe_internal_wipe_stack(STACK_key_check_value);
  return result;
}

int cukvashe_short_key_check_value(const uint8_t *key, size_t key_length, uint8_t value[2]) {
  const int result = cukvashe_unwiped_short_key_check_value(key, key_length, value);
  cukvashe_internal_wipe_stack(STACK_short_key_check_value);
  return result;
}

int cukvashe_des_check_values(const uint8_t *keys, size_t keys_length, uint8_t *values, size_t values_length,
    size_t count) {
  if (!are_elements(count, CUKVASHE_DES_KEY_SIZE, keys_length)) return CUKVASHE_ERR_COUNTS;
  if (!are_elements(count, 3, values_length)) return CUKVASHE_ERR_COUNTS;
  const int result = CHOOSE(count, check_values, CUKVASHE_DES_KEY_SIZE, keys, keys_length, values, count);
  cukvashe_internal_wipe_stack(STACK_des_check_values);
  return result;
}

int cukvashe_tdes_ede2_check_values(const uint8_t *keys, size_t keys_length, uint8_t *values, size_t values_length,
    size_t count) {
  if (!are_elements(count, CUKVASHE_TDES_EDE2_KEY_SIZE, keys_length)) return CUKVASHE_ERR_COUNTS;
  if (!are_elements(count, 3, values_length)) return CUKVASHE_ERR_COUNTS;
  const int result = CHOOSE(count, check_values, CUKVASHE_TDES_EDE2_KEY_SIZE, keys, keys_length, values, count);
  cukvashe_internal_wipe_stack(STACK_tdes_ede2_check_values);
  return result;
}

int cukvashe_tdes_ede3_check_values(const uint8_t *keys, size_t keys_length, uint8_t *values, size_t values_length,
    size_t count) {
  if (!are_elements(count, CUKVASHE_TDES_EDE3_KEY_SIZE, keys_length)) return CUKVASHE_ERR_COUNTS;
  if (!are_elements(count, 3, values_length)) return CUKVASHE_ERR_COUNTS;
  const int result = CHOOSE(count, check_values, CUKVASHE_TDES_EDE3_KEY_SIZE, keys, keys_length, values, count);
  cukvashe_internal_wipe_stack(STACK_tdes_ede3_check_values);
  return result;
}

int cukvashe_combine_8(const uint8_t first[8], const uint8_t second[8], const uint8_t *others, size_t others_length,
    size_t others_count, uint8_t key[8]) {
  if (!are_elements(others_count, 8, others_length)) return CUKVASHE_ERR_COUNTS;
  const int result = cukvashe_internal_combine(first, 8, second, 8, others, others_length, key, 8);
  cukvashe_internal_wipe_stack(STACK_combine_8);
  return result;
}

int cukvashe_combine_16(const uint8_t first[16], const uint8_t second[16], const uint8_t *others, size_t others_length,
    size_t others_count, uint8_t key[16]) {
  if (!are_elements(others_count, 16, others_length)) return CUKVASHE_ERR_COUNTS;
  const int result = cukvashe_internal_combine(first, 16, second, 16, others, others_length, key, 16);
  cukvashe_internal_wipe_stack(STACK_combine_16);
  return result;
}

int cukvashe_combine_24(const uint8_t first[24], const uint8_t second[24], const uint8_t *others, size_t others_length,
    size_t others_count, uint8_t key[24]) {
  if (!are_elements(others_count, 24, others_length)) return CUKVASHE_ERR_COUNTS;
  const int result = cukvashe_internal_combine(first, 24, second, 24, others, others_length, key, 24);
  cukvashe_internal_wipe_stack(STACK_combine_24);
  return result;
}

void cukvashe_dukpt_initial_key(const uint8_t base[16], const uint8_t serial[10], uint8_t key[16]) {
  cukvashe_unwiped_dukpt_initial_key(base, serial, key);
  cukvashe_internal_wipe_stack(STACK_dukpt_initial_key);
}

void cukvashe_dukpt_transaction_key(const uint8_t initial[16], const uint8_t serial[10], uint8_t key[16]) {
  cukvashe_unwiped_dukpt_transaction_key(initial, serial, key);
  cukvashe_internal_wipe_stack(STACK_dukpt_transaction_key);
}

int cukvashe_dukpt_transaction_keys_from_base(const uint8_t base[16], const uint8_t *serials, size_t serials_length,
    uint8_t *keys, size_t keys_length, size_t count) {
  if (!are_elements(count, 10, serials_length)) return CUKVASHE_ERR_COUNTS;
  if (!are_elements(count, 16, keys_length)) return CUKVASHE_ERR_COUNTS;
  const int result = CHOOSE(count, dukpt_transaction_keys, base, serials, count, keys, count);
  cukvashe_internal_wipe_stack(STACK_dukpt_transaction_keys_from_base);
  return result;
}

void cukvashe_dukpt_pin_key(const uint8_t transaction[16], uint8_t key[16]) {
  cukvashe_unwiped_dukpt_pin_key(transaction, key);
  cukvashe_internal_wipe_stack(STACK_dukpt_pin_key);
}

void cukvashe_dukpt_mac_key(const uint8_t transaction[16], bool is_response, uint8_t key[16]) {
  cukvashe_unwiped_dukpt_mac_key(transaction, is_response, key);
  cukvashe_internal_wipe_stack(STACK_dukpt_mac_key);
}

void cukvashe_dukpt_data_key(const uint8_t transaction[16], bool is_response, uint8_t key[16]) {
  cukvashe_unwiped_dukpt_data_key(transaction, is_response, key);
  cukvashe_internal_wipe_stack(STACK_dukpt_data_key);
}

void cukvashe_dukpt_data_variant(const uint8_t transaction[16], bool is_response, uint8_t key[16]) {
  cukvashe_unwiped_dukpt_data_variant(transaction, is_response, key);
  cukvashe_internal_wipe_stack(STACK_dukpt_data_variant);
}

void cukvashe_dukpt_terminal_init(cukvashe_dukpt_terminal *terminal, const uint8_t initial[16],
    const uint8_t serial[10]) {
  cukvashe_unwiped_dukpt_terminal_init(terminal, initial, serial);
  cukvashe_internal_wipe_stack(STACK_dukpt_terminal_init);
}

int cukvashe_pin_encode_0(const char *pin, size_t pin_length, const char *account, size_t account_length,
    uint8_t block[8]) {
  const int result = cukvashe_unwiped_pin_encode_0(pin, pin_length, account, account_length, block);
  cukvashe_internal_wipe_stack(STACK_pin_encode_0);
  return result;
}

int cukvashe_pin_encode_1(const char *pin, size_t pin_length, const uint8_t transaction[10], uint8_t block[8]) {
  const int result = cukvashe_unwiped_pin_encode_1(pin, pin_length, transaction, block);
  cukvashe_internal_wipe_stack(STACK_pin_encode_1);
  return result;
}

int cukvashe_pin_encode_2(const char *pin, size_t pin_length, uint8_t block[8]) {
  const int result = cukvashe_unwiped_pin_encode_2(pin, pin_length, block);
  cukvashe_internal_wipe_stack(STACK_pin_encode_2);
  return result;
}

int cukvashe_pin_encode_3(const char *pin, size_t pin_length, const char *account, size_t account_length,
    const uint8_t fill[10], uint8_t block[8]) {
  const int result = cukvashe_unwiped_pin_encode_3(pin, pin_length, account, account_length, fill, block);
  cukvashe_internal_wipe_stack(STACK_pin_encode_3);
  return result;
}

int cukvashe_pin_decode_0(const uint8_t block[8], const char *account, size_t account_length, char pin[13]) {
  const int result = cukvashe_unwiped_pin_decode_0(block, account, account_length, pin);
  cukvashe_internal_wipe_stack(STACK_pin_decode_0);
  return result;
}

int cukvashe_pin_decode_1(const uint8_t block[8], char pin[13]) {
  const int result = cukvashe_unwiped_pin_decode_1(block, pin);
  cukvashe_internal_wipe_stack(STACK_pin_decode_1);
  return result;
}

int cukvashe_pin_decode_2(const uint8_t block[8], char pin[13]) {
  const int result = cukvashe_unwiped_pin_decode_2(block, pin);
  cukvashe_internal_wipe_stack(STACK_pin_decode_2);
  return result;
}

int cukvashe_pin_decode_3(const uint8_t block[8], const char *account, size_t account_length, char pin[13]) {
  const int result = cukvashe_unwiped_pin_decode_3(block, account, account_length, pin);
  cukvashe_internal_wipe_stack(STACK_pin_decode_3);
  return result;
}

int cukvashe_pin_translate_to_0(const cukvashe_pin_translation *translation, const uint8_t block[8],
    uint8_t translated[8]) {
  const int result = cukvashe_unwiped_pin_translate_to_0(translation->incoming_key, translation->incoming_key_length,
    (uint32_t)translation->incoming_format, translation->outgoing_key, translation->outgoing_key_length,
    (const uint8_t *)translation->account, translation->account_length, block, translated);
  cukvashe_internal_wipe_stack(STACK_pin_translate_to_0);
  return result;
}

int cukvashe_pin_translate_to_1(const cukvashe_pin_translation *translation, const uint8_t block[8],
    uint8_t translated[8]) {
  if (translation->incoming_format != 1) return CUKVASHE_ERR_FORMATS;
  const int result = cukvashe_unwiped_pin_translate_to_1(translation->incoming_key, translation->incoming_key_length,
    translation->outgoing_key, translation->outgoing_key_length, block, translated);
  cukvashe_internal_wipe_stack(STACK_pin_translate_to_1);
  return result;
}

int cukvashe_pin_translate_to_3(const cukvashe_pin_translation *translation, const uint8_t block[8],
    uint8_t translated[8]) {
  const int result = cukvashe_unwiped_pin_translate_to_3(translation->incoming_key, translation->incoming_key_length,
    (uint32_t)translation->incoming_format, translation->outgoing_key, translation->outgoing_key_length,
    (const uint8_t *)translation->account, translation->account_length,
    translation->fill != NULL ? translation->fill : no_fill, block, translated);
  cukvashe_internal_wipe_stack(STACK_pin_translate_to_3);
  return result;
}

int cukvashe_pvv(const uint8_t key[16], const char *account, size_t account_length, int index, const char *pin,
    size_t pin_length, char value[5]) {
  const int result = cukvashe_unwiped_pvv(key, account, account_length, index, pin, pin_length, value);
  cukvashe_internal_wipe_stack(STACK_pvv);
  return result;
}

int cukvashe_pvv_verify(const uint8_t key[16], const char *account, size_t account_length, int index, const char *pin,
    size_t pin_length, const char *value, size_t value_length) {
  const int result = cukvashe_unwiped_pvv_verify(key, account, account_length, index, pin, pin_length, value,
    value_length);
  cukvashe_internal_wipe_stack(STACK_pvv_verify);
  return result;
}

bool cukvashe_pvv_is_pin(const uint8_t key[16], const char *account, size_t account_length, int index, const char *pin,
    size_t pin_length, const char *value, size_t value_length) {
  return cukvashe_pvv_verify(key, account, account_length, index, pin, pin_length, value, value_length) == CUKVASHE_OK;
}

int cukvashe_natural_pin(const uint8_t *key, size_t key_length, const cukvashe_decimal_table *table,
    const uint8_t validation[8], size_t pin_length, char pin[13]) {
  const int result = cukvashe_unwiped_natural_pin(key, key_length, table, validation, pin_length, pin);
  cukvashe_internal_wipe_stack(STACK_natural_pin);
  return result;
}

int cukvashe_pin_offset(const uint8_t *key, size_t key_length, const cukvashe_decimal_table *table,
    const uint8_t validation[8], const char *pin, size_t pin_length, char offset[13]) {
  const int result = cukvashe_unwiped_pin_offset(key, key_length, table, validation, pin, pin_length, offset);
  cukvashe_internal_wipe_stack(STACK_pin_offset);
  return result;
}

int cukvashe_pin_offset_verify(const uint8_t *key, size_t key_length, const cukvashe_decimal_table *table,
    const uint8_t validation[8], const char *pin, size_t pin_length, const char *offset, size_t offset_length) {
  const int result = cukvashe_unwiped_pin_offset_verify(key, key_length, table, validation, pin, pin_length, offset,
    offset_length);
  cukvashe_internal_wipe_stack(STACK_pin_offset_verify);
  return result;
}

bool cukvashe_pin_offset_is_pin(const uint8_t *key, size_t key_length, const cukvashe_decimal_table *table,
    const uint8_t validation[8], const char *pin, size_t pin_length, const char *offset, size_t offset_length) {
  return cukvashe_pin_offset_verify(key, key_length, table, validation, pin, pin_length, offset,
    offset_length) == CUKVASHE_OK;
}

int cukvashe_cvv(const uint8_t key[16], const char *account, size_t account_length, const char *expiry,
    size_t expiry_length, const char *service, size_t service_length, char value[4]) {
  const int result = cukvashe_unwiped_cvv(key, account, account_length, expiry, expiry_length, service, service_length,
    value);
  cukvashe_internal_wipe_stack(STACK_cvv);
  return result;
}

int cukvashe_emv_card_key(const uint8_t issuer[16], const char *account, size_t account_length, const char *sequence,
    size_t sequence_length, uint8_t key[16]) {
  const int result = cukvashe_unwiped_emv_card_key(issuer, account, account_length, sequence, sequence_length, key);
  cukvashe_internal_wipe_stack(STACK_emv_card_key);
  return result;
}

int cukvashe_emv_card_key_b(const uint8_t issuer[16], const char *account, size_t account_length, const char *sequence,
    size_t sequence_length, uint8_t key[16]) {
  const int result = cukvashe_unwiped_emv_card_key_b(issuer, account, account_length, sequence, sequence_length, key);
  cukvashe_internal_wipe_stack(STACK_emv_card_key_b);
  return result;
}

void cukvashe_emv_application_key(const uint8_t card[16], const uint8_t counter[2], uint8_t key[16]) {
  cukvashe_unwiped_emv_application_key(card, counter, key);
  cukvashe_internal_wipe_stack(STACK_emv_application_key);
}

void cukvashe_emv_session_key(const uint8_t card[16], const uint8_t block[8], uint8_t key[16]) {
  cukvashe_unwiped_emv_session_key(card, block, key);
  cukvashe_internal_wipe_stack(STACK_emv_session_key);
}

void cukvashe_emv_application_cryptogram(const uint8_t session[16], const uint8_t *data, size_t length,
    uint8_t cryptogram[8]) {
  cukvashe_unwiped_emv_application_cryptogram(session, data, length, cryptogram);
  cukvashe_internal_wipe_stack(STACK_emv_application_cryptogram);
}

void cukvashe_emv_response_1(const uint8_t session[16], const uint8_t cryptogram[8], const uint8_t code[2],
    uint8_t response[8]) {
  cukvashe_unwiped_emv_response_1(session, cryptogram, code, response);
  cukvashe_internal_wipe_stack(STACK_emv_response_1);
}

int cukvashe_emv_response_2(const uint8_t session[16], const uint8_t cryptogram[8], const uint8_t status[4],
    const uint8_t *data, size_t length, uint8_t response[4]) {
  const int result = cukvashe_unwiped_emv_response_2(session, cryptogram, status, data, length, response);
  cukvashe_internal_wipe_stack(STACK_emv_response_2);
  return result;
}

int cukvashe_key_block_unwrap(const uint8_t *protection, size_t protection_length, const char *block,
    size_t block_length, cukvashe_key_block_fields *header, uint8_t key[24], size_t *key_length) {
  const int result = cukvashe_unwiped_key_block_unwrap(protection, protection_length, block, block_length, header, key,
    key_length);
  cukvashe_internal_wipe_stack(STACK_key_block_unwrap);
  return result;
}

int cukvashe_key_block_wrap(const cukvashe_key_block_parts *parts, char *block, size_t capacity, size_t *length) {
  const int result = cukvashe_unwiped_key_block_wrap(parts->protection, parts->protection_length, &parts->header,
    (const uint8_t *)parts->optional, parts->optional_length, parts->key, parts->key_length, parts->padding,
    parts->padding_length, (uint8_t *)block, capacity, length);
  cukvashe_internal_wipe_stack(STACK_key_block_wrap);
  return result;
}

int cukvashe_pbkdf2(int hash, size_t iterations, const uint8_t *password, size_t password_length, const uint8_t *salt,
    size_t salt_length, uint8_t *key, size_t key_length) {
  const int result = cukvashe_unwiped_pbkdf2((uint32_t)hash, password, password_length, salt, salt_length, iterations,
    key, key_length);
  cukvashe_internal_wipe_stack(STACK_pbkdf2);
  return result;
}

int cukvashe_bytes_to_key(int hash, const uint8_t *password, size_t password_length, const uint8_t *salt,
    size_t salt_length, uint8_t *key, size_t key_length) {
  const int result = cukvashe_unwiped_bytes_to_key(hash, password, password_length, salt, salt_length, key, key_length);
  cukvashe_internal_wipe_stack(STACK_bytes_to_key);
  return result;
}

int cukvashe_des_open_salted(int hash, size_t iterations, const uint8_t *password, size_t password_length,
    const uint8_t *bytes, size_t length, uint8_t *plain, size_t capacity, size_t *plain_length) {
  const int result = cukvashe_internal_open_salted(CUKVASHE_DES_KEY_SIZE, (uint32_t)hash, iterations, password,
    password_length, bytes, length, plain, capacity, plain_length);
  cukvashe_internal_wipe_stack(STACK_des_open_salted);
  return result;
}

int cukvashe_tdes_ede2_open_salted(int hash, size_t iterations, const uint8_t *password, size_t password_length,
    const uint8_t *bytes, size_t length, uint8_t *plain, size_t capacity, size_t *plain_length) {
  const int result = cukvashe_internal_open_salted(CUKVASHE_TDES_EDE2_KEY_SIZE, (uint32_t)hash, iterations, password,
    password_length, bytes, length, plain, capacity, plain_length);
  cukvashe_internal_wipe_stack(STACK_tdes_ede2_open_salted);
  return result;
}

int cukvashe_tdes_ede3_open_salted(int hash, size_t iterations, const uint8_t *password, size_t password_length,
    const uint8_t *bytes, size_t length, uint8_t *plain, size_t capacity, size_t *plain_length) {
  const int result = cukvashe_internal_open_salted(CUKVASHE_TDES_EDE3_KEY_SIZE, (uint32_t)hash, iterations, password,
    password_length, bytes, length, plain, capacity, plain_length);
  cukvashe_internal_wipe_stack(STACK_tdes_ede3_open_salted);
  return result;
}

int cukvashe_mysql_decrypt_values(const uint8_t *password, size_t password_length, const uint8_t *values, size_t length,
    const size_t *lengths, size_t values_count, uint8_t *texts, size_t *text_lengths, int *statuses) {
  const int result = CHOOSE(length / CUKVASHE_BLOCK_SIZE, mysql_decrypt_values, password, password_length, values,
    length, lengths, values_count, texts, length, text_lengths, values_count, statuses, values_count);
  cukvashe_internal_wipe_stack(STACK_mysql_decrypt_values);
  return result;
}

int cukvashe_mysql_decrypt_values_by_file(const uint8_t *keys, size_t keys_length, const uint8_t *values, size_t length,
    const size_t *lengths, size_t values_count, uint8_t *texts, size_t *text_lengths, int *statuses) {
  const int result = CHOOSE(length / CUKVASHE_BLOCK_SIZE, mysql_decrypt_values_by_file, keys, keys_length, values,
    length, lengths, values_count, texts, length, text_lengths, values_count, statuses, values_count);
  cukvashe_internal_wipe_stack(STACK_mysql_decrypt_values_by_file);
  return result;
}

int cukvashe_pgcrypto_decrypt_values(const char *algorithm, size_t algorithm_length, const uint8_t *key,
    size_t key_length, const uint8_t *iv, size_t iv_length, const uint8_t *values, size_t length, const size_t *lengths,
    size_t values_count, uint8_t *texts, size_t *text_lengths, int *statuses) {
  const int result = CHOOSE(length / CUKVASHE_BLOCK_SIZE, pgcrypto_decrypt_values, (const uint8_t *)algorithm,
    algorithm_length, key, key_length, iv, iv_length, values, length, lengths, values_count, texts, length,
    text_lengths, values_count, statuses, values_count);
  cukvashe_internal_wipe_stack(STACK_pgcrypto_decrypt_values);
  return result;
}

int cukvashe_mysql_encrypt_values(const uint8_t *password, size_t password_length, size_t number, const uint8_t *texts,
    size_t length, const size_t *lengths, size_t texts_count, uint8_t *values, size_t values_length) {
  const int result = CHOOSE(texts_count, mysql_encrypt_values, password, password_length, number, texts, length,
    lengths, texts_count, values, values_length);
  cukvashe_internal_wipe_stack(STACK_mysql_encrypt_values);
  return result;
}

int cukvashe_pgcrypto_encrypt_values(const char *algorithm, size_t algorithm_length, const uint8_t *key,
    size_t key_length, const uint8_t *iv, size_t iv_length, const uint8_t *texts, size_t length, const size_t *lengths,
    size_t texts_count, uint8_t *values, size_t values_length) {
  const int result = CHOOSE(texts_count, pgcrypto_encrypt_values, (const uint8_t *)algorithm, algorithm_length, key,
    key_length, iv, iv_length, texts, length, lengths, texts_count, values, values_length);
  cukvashe_internal_wipe_stack(STACK_pgcrypto_encrypt_values);
  return result;
}

int cukvashe_pbe_key(const char *algorithm, size_t algorithm_length, size_t iterations, const uint8_t *password,
    size_t password_length, const uint8_t *salt, size_t salt_length, uint8_t *key, size_t key_length) {
  const int result = cukvashe_unwiped_pbe_key(algorithm, algorithm_length, iterations, password, password_length, salt,
    salt_length, key, key_length);
  cukvashe_internal_wipe_stack(STACK_pbe_key);
  return result;
}

int cukvashe_jasypt_decrypt_values(const char *algorithm, size_t algorithm_length, size_t iterations,
    const uint8_t *password, size_t password_length, const uint8_t *values, size_t length, const size_t *lengths,
    size_t values_count, uint8_t *texts, size_t *text_lengths, int *statuses) {
  const int result = cukvashe_internal_jasypt_decrypt_values((const uint8_t *)algorithm, algorithm_length, iterations,
    password, password_length, values, length, lengths, values_count, texts, length, text_lengths, values_count,
    statuses, values_count);
  cukvashe_internal_wipe_stack(STACK_jasypt_decrypt_values);
  return result;
}

int cukvashe_jasypt_encrypt_values(const char *algorithm, size_t algorithm_length, size_t iterations,
    const uint8_t *password, size_t password_length, const uint8_t *salts, size_t salts_length, const uint8_t *texts,
    size_t length, const size_t *lengths, size_t texts_count, uint8_t *values, size_t values_length) {
  if (!are_elements(texts_count, 8, salts_length)) return CUKVASHE_ERR_COUNTS;
  const int result = cukvashe_internal_jasypt_encrypt_values((const uint8_t *)algorithm, algorithm_length, iterations,
    password, password_length, salts, texts_count, texts, length, lengths, texts_count, values, values_length);
  cukvashe_internal_wipe_stack(STACK_jasypt_encrypt_values);
  return result;
}

size_t cukvashe_des_size(void) {
  return sizeof(cukvashe_des);
}

size_t cukvashe_tdes_ede2_size(void) {
  return sizeof(cukvashe_tdes_ede2);
}

size_t cukvashe_tdes_ede3_size(void) {
  return sizeof(cukvashe_tdes_ede3);
}

size_t cukvashe_stream_size(void) {
  return sizeof(cukvashe_stream);
}

size_t cukvashe_cbc_mac_des_size(void) {
  return sizeof(cukvashe_cbc_mac_des);
}

size_t cukvashe_cbc_mac_tdes_ede2_size(void) {
  return sizeof(cukvashe_cbc_mac_tdes_ede2);
}

size_t cukvashe_cbc_mac_tdes_ede3_size(void) {
  return sizeof(cukvashe_cbc_mac_tdes_ede3);
}

size_t cukvashe_retail_mac_des_size(void) {
  return sizeof(cukvashe_retail_mac_des);
}

size_t cukvashe_cmac_tdes_ede2_size(void) {
  return sizeof(cukvashe_cmac_tdes_ede2);
}

size_t cukvashe_cmac_tdes_ede3_size(void) {
  return sizeof(cukvashe_cmac_tdes_ede3);
}

size_t cukvashe_message_size(void) {
  return sizeof(cukvashe_message);
}

size_t cukvashe_dukpt_terminal_size(void) {
  return sizeof(cukvashe_dukpt_terminal);
}

size_t cukvashe_pin_translation_size(void) {
  return sizeof(cukvashe_pin_translation);
}

size_t cukvashe_decimal_table_size(void) {
  return sizeof(cukvashe_decimal_table);
}

size_t cukvashe_key_block_fields_size(void) {
  return sizeof(cukvashe_key_block_fields);
}

size_t cukvashe_key_block_parts_size(void) {
  return sizeof(cukvashe_key_block_parts);
}

int cukvashe_version_major(void) {
  return CUKVASHE_VERSION_MAJOR;
}

int cukvashe_version_minor(void) {
  return CUKVASHE_VERSION_MINOR;
}

int cukvashe_version_patch(void) {
  return CUKVASHE_VERSION_PATCH;
}

size_t cukvashe_block_size(void) {
  return CUKVASHE_BLOCK_SIZE;
}

size_t cukvashe_tag_size(void) {
  return CUKVASHE_TAG_SIZE;
}

size_t cukvashe_des_key_size(void) {
  return CUKVASHE_DES_KEY_SIZE;
}

size_t cukvashe_tdes_ede2_key_size(void) {
  return CUKVASHE_TDES_EDE2_KEY_SIZE;
}

size_t cukvashe_tdes_ede3_key_size(void) {
  return CUKVASHE_TDES_EDE3_KEY_SIZE;
}

size_t cukvashe_cbc_mac_des_key_size(void) {
  return CUKVASHE_CBC_MAC_DES_KEY_SIZE;
}

size_t cukvashe_cbc_mac_tdes_ede2_key_size(void) {
  return CUKVASHE_CBC_MAC_TDES_EDE2_KEY_SIZE;
}

size_t cukvashe_cbc_mac_tdes_ede3_key_size(void) {
  return CUKVASHE_CBC_MAC_TDES_EDE3_KEY_SIZE;
}

size_t cukvashe_retail_mac_des_key_size(void) {
  return CUKVASHE_RETAIL_MAC_DES_KEY_SIZE;
}

size_t cukvashe_cmac_tdes_ede2_key_size(void) {
  return CUKVASHE_CMAC_TDES_EDE2_KEY_SIZE;
}

size_t cukvashe_cmac_tdes_ede3_key_size(void) {
  return CUKVASHE_CMAC_TDES_EDE3_KEY_SIZE;
}

size_t cukvashe_check_value_size(void) {
  return CUKVASHE_CHECK_VALUE_SIZE;
}

size_t cukvashe_short_check_value_size(void) {
  return CUKVASHE_SHORT_CHECK_VALUE_SIZE;
}

size_t cukvashe_dukpt_key_size(void) {
  return CUKVASHE_DUKPT_KEY_SIZE;
}

size_t cukvashe_dukpt_serial_size(void) {
  return CUKVASHE_DUKPT_SERIAL_SIZE;
}

size_t cukvashe_fill_size(void) {
  return CUKVASHE_FILL_SIZE;
}

size_t cukvashe_pin_size(void) {
  return CUKVASHE_PIN_SIZE;
}

size_t cukvashe_cvv_size(void) {
  return CUKVASHE_CVV_SIZE;
}

size_t cukvashe_pvv_size(void) {
  return CUKVASHE_PVV_SIZE;
}

size_t cukvashe_key_data_size(void) {
  return CUKVASHE_KEY_DATA_SIZE;
}

size_t cukvashe_key_block_size(void) {
  return CUKVASHE_KEY_BLOCK_SIZE;
}

int cukvashe_pkcs7(void) {
  return CUKVASHE_PKCS7;
}

int cukvashe_iso7816(void) {
  return CUKVASHE_ISO7816;
}

int cukvashe_md5(void) {
  return CUKVASHE_MD5;
}

int cukvashe_sha1(void) {
  return CUKVASHE_SHA1;
}

int cukvashe_sha256(void) {
  return CUKVASHE_SHA256;
}

int cukvashe_ctr(void) {
  return CUKVASHE_CTR;
}

int cukvashe_ofb(void) {
  return CUKVASHE_OFB;
}

int cukvashe_cfb1(void) {
  return CUKVASHE_CFB1;
}

int cukvashe_cfb8(void) {
  return CUKVASHE_CFB8;
}

int cukvashe_cfb64(void) {
  return CUKVASHE_CFB64;
}

int cukvashe_mac_padding_1(void) {
  return CUKVASHE_MAC_PADDING_1;
}

int cukvashe_mac_padding_2(void) {
  return CUKVASHE_MAC_PADDING_2;
}
