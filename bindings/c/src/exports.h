/* The proved exports (crates/des_c) that the library's C calls, and the bytes of the stack over which each call writes zeros that
   wipes. Made by bindings/describe of the header and the exports. */
#ifndef EXPORTS_H
#define EXPORTS_H

#include <cukvashe_des.h>

int cukvashe_internal_init(uint64_t *context, size_t context_count, const uint8_t *key, size_t key_count,
    bool no_tables);
int cukvashe_internal_encrypt_cbc(const uint64_t *context, size_t context_count, uint8_t iv[8], uint8_t *blocks,
    size_t blocks_count, size_t size);
int cukvashe_internal_encrypt_cbc_to(const uint64_t *context, size_t context_count, uint8_t iv[8], const uint8_t *input,
    size_t input_count, uint8_t *output, size_t output_count, size_t size);
int cukvashe_internal_jasypt_decrypt_values(const uint8_t *algorithm, size_t algorithm_count, size_t iterations,
    const uint8_t *password, size_t password_count, const uint8_t *values, size_t values_count, const size_t *lengths,
    size_t lengths_count, uint8_t *texts, size_t texts_count, size_t *text_lengths, size_t text_lengths_count,
    int *statuses, size_t statuses_count);
int cukvashe_internal_jasypt_encrypt_values(const uint8_t *algorithm, size_t algorithm_count, size_t iterations,
    const uint8_t *password, size_t password_count, const uint8_t *salts, size_t salts_count, const uint8_t *texts,
    size_t texts_count, const size_t *lengths, size_t lengths_count, uint8_t *values, size_t values_count);
bool cukvashe_internal_equal_but_parity(const uint8_t *first, size_t first_count, const uint8_t *second,
    size_t second_count);
int cukvashe_internal_encrypt_ecb(const uint64_t *context, size_t context_count, uint8_t *blocks, size_t blocks_count,
    size_t size);
int cukvashe_internal_decrypt_ecb(const uint64_t *context, size_t context_count, uint8_t *blocks, size_t blocks_count,
    size_t size);
int cukvashe_internal_encrypt_ecb_to(const uint64_t *context, size_t context_count, const uint8_t *input,
    size_t input_count, uint8_t *output, size_t output_count, size_t size);
int cukvashe_internal_decrypt_ecb_to(const uint64_t *context, size_t context_count, const uint8_t *input,
    size_t input_count, uint8_t *output, size_t output_count, size_t size);
int cukvashe_internal_decrypt_cbc(const uint64_t *context, size_t context_count, uint8_t iv[8], uint8_t *blocks,
    size_t blocks_count, size_t size);
int cukvashe_internal_decrypt_cbc_to(const uint64_t *context, size_t context_count, uint8_t iv[8], const uint8_t *input,
    size_t input_count, uint8_t *output, size_t output_count, size_t size);
int cukvashe_internal_mysql_decrypt_values(const uint8_t *password, size_t password_count, const uint8_t *values,
    size_t values_count, const size_t *lengths, size_t lengths_count, uint8_t *texts, size_t texts_count,
    size_t *text_lengths, size_t text_lengths_count, int *statuses, size_t statuses_count);
int cukvashe_internal_mysql_decrypt_values_by_file(const uint8_t *keys, size_t keys_count, const uint8_t *values,
    size_t values_count, const size_t *lengths, size_t lengths_count, uint8_t *texts, size_t texts_count,
    size_t *text_lengths, size_t text_lengths_count, int *statuses, size_t statuses_count);
int cukvashe_internal_pgcrypto_decrypt_values(const uint8_t *algorithm, size_t algorithm_count, const uint8_t *key,
    size_t key_count, const uint8_t *iv, size_t iv_count, const uint8_t *values, size_t values_count,
    const size_t *lengths, size_t lengths_count, uint8_t *texts, size_t texts_count, size_t *text_lengths,
    size_t text_lengths_count, int *statuses, size_t statuses_count);
int cukvashe_internal_mysql_encrypt_values(const uint8_t *password, size_t password_count, size_t number,
    const uint8_t *texts, size_t texts_count, const size_t *lengths, size_t lengths_count, uint8_t *values,
    size_t values_count);
int cukvashe_internal_pgcrypto_encrypt_values(const uint8_t *algorithm, size_t algorithm_count, const uint8_t *key,
    size_t key_count, const uint8_t *iv, size_t iv_count, const uint8_t *texts, size_t texts_count,
    const size_t *lengths, size_t lengths_count, uint8_t *values, size_t values_count);
int cukvashe_internal_encrypt_each(size_t key_size, const uint8_t *keys, size_t keys_count, uint8_t *blocks,
    size_t blocks_count);
int cukvashe_internal_decrypt_each(size_t key_size, const uint8_t *keys, size_t keys_count, uint8_t *blocks,
    size_t blocks_count);
int cukvashe_internal_macs(uint32_t algorithm, uint32_t padding, const uint8_t *key, size_t key_count,
    const cukvashe_message *messages, size_t messages_count, uint8_t *tags, size_t tags_count);
int cukvashe_internal_macs_each(uint32_t algorithm, uint32_t padding, size_t key_size, const uint8_t *keys,
    size_t keys_count, const cukvashe_message *messages, size_t messages_count, uint8_t *tags, size_t tags_count);
int cukvashe_internal_check_values(size_t key_size, const uint8_t *keys, size_t keys_count, uint8_t *values,
    size_t values_count);
int cukvashe_internal_dukpt_transaction_keys(const uint8_t base[16], const uint8_t *serials, size_t serials_count,
    uint8_t *keys, size_t keys_count);
int cukvashe_internal_encrypt_cbc_records(const uint64_t *context, size_t context_count, uint8_t *vectors,
    size_t vectors_count, const size_t *counts, size_t counts_count, uint8_t *blocks, size_t blocks_count, size_t size);
int cukvashe_internal_decrypt_cbc_records(const uint64_t *context, size_t context_count, uint8_t *vectors,
    size_t vectors_count, const size_t *counts, size_t counts_count, uint8_t *blocks, size_t blocks_count, size_t size);
int cukvashe_internal_encrypt_stream(const uint64_t *context, size_t context_count, cukvashe_stream *stream,
    uint8_t *bytes, size_t bytes_count);
int cukvashe_internal_decrypt_stream(const uint64_t *context, size_t context_count, cukvashe_stream *stream,
    uint8_t *bytes, size_t bytes_count);
int cukvashe_internal_encrypt_mode(const uint64_t *context, size_t context_count, uint32_t mode, const uint8_t iv[8],
    uint8_t *bytes, size_t bytes_count);
int cukvashe_internal_decrypt_mode(const uint64_t *context, size_t context_count, uint32_t mode, const uint8_t iv[8],
    uint8_t *bytes, size_t bytes_count);
int cukvashe_internal_mac_init(uint32_t algorithm, uint64_t *context, size_t context_count, uint64_t message[4],
    const uint8_t *key, size_t key_count, uint32_t padding, bool no_tables);
int cukvashe_internal_mac_update(uint32_t algorithm, const uint64_t *context, size_t context_count, uint64_t message[4],
    const uint8_t *bytes, size_t bytes_count);
int cukvashe_internal_mac_final(uint32_t algorithm, const uint64_t *context, size_t context_count,
    const uint64_t message[4], uint8_t tag[8]);
int cukvashe_internal_mac_verify(uint32_t algorithm, const uint64_t *context, size_t context_count,
    const uint64_t message[4], const uint8_t *tag, size_t tag_count);
int cukvashe_internal_compare_tags(const uint8_t *tags, size_t tags_count, const uint8_t *expected,
    size_t expected_count, bool *right, size_t right_count);
int cukvashe_internal_pad(uint8_t *buffer, size_t buffer_count, size_t count, int method, size_t *padded_length);
int cukvashe_internal_open_salted(size_t key_size, uint32_t hash, size_t iterations, const uint8_t *password,
    size_t password_count, const uint8_t *bytes, size_t bytes_count, uint8_t *plain, size_t plain_count,
    size_t *plain_length);
int cukvashe_internal_check_value(size_t key_size, const uint8_t *key, size_t key_count, uint8_t value[3]);
int cukvashe_internal_combine(const uint8_t *first, size_t first_count, const uint8_t *second, size_t second_count,
    const uint8_t *others, size_t others_count, uint8_t *key, size_t key_count);
int cukvashe_internal_encrypt_stream_bits(const uint64_t *context, size_t context_count, cukvashe_stream *stream,
    uint8_t *bytes, size_t bytes_count, size_t bits);
int cukvashe_internal_decrypt_stream_bits(const uint64_t *context, size_t context_count, cukvashe_stream *stream,
    uint8_t *bytes, size_t bytes_count, size_t bits);

/* Those of lists for x86-64-v3, which take 256 at a time: what bindings/widen and bindings/generate make of the same source. */
int cukvashe_wide_encrypt_ecb(const uint64_t *context, size_t context_count, uint8_t *blocks, size_t blocks_count,
    size_t size);
int cukvashe_wide_decrypt_ecb(const uint64_t *context, size_t context_count, uint8_t *blocks, size_t blocks_count,
    size_t size);
int cukvashe_wide_encrypt_ecb_to(const uint64_t *context, size_t context_count, const uint8_t *input,
    size_t input_count, uint8_t *output, size_t output_count, size_t size);
int cukvashe_wide_decrypt_ecb_to(const uint64_t *context, size_t context_count, const uint8_t *input,
    size_t input_count, uint8_t *output, size_t output_count, size_t size);
int cukvashe_wide_decrypt_cbc(const uint64_t *context, size_t context_count, uint8_t iv[8], uint8_t *blocks,
    size_t blocks_count, size_t size);
int cukvashe_wide_decrypt_cbc_to(const uint64_t *context, size_t context_count, uint8_t iv[8], const uint8_t *input,
    size_t input_count, uint8_t *output, size_t output_count, size_t size);
int cukvashe_wide_mysql_decrypt_values(const uint8_t *password, size_t password_count, const uint8_t *values,
    size_t values_count, const size_t *lengths, size_t lengths_count, uint8_t *texts, size_t texts_count,
    size_t *text_lengths, size_t text_lengths_count, int *statuses, size_t statuses_count);
int cukvashe_wide_mysql_decrypt_values_by_file(const uint8_t *keys, size_t keys_count, const uint8_t *values,
    size_t values_count, const size_t *lengths, size_t lengths_count, uint8_t *texts, size_t texts_count,
    size_t *text_lengths, size_t text_lengths_count, int *statuses, size_t statuses_count);
int cukvashe_wide_pgcrypto_decrypt_values(const uint8_t *algorithm, size_t algorithm_count, const uint8_t *key,
    size_t key_count, const uint8_t *iv, size_t iv_count, const uint8_t *values, size_t values_count,
    const size_t *lengths, size_t lengths_count, uint8_t *texts, size_t texts_count, size_t *text_lengths,
    size_t text_lengths_count, int *statuses, size_t statuses_count);
int cukvashe_wide_mysql_encrypt_values(const uint8_t *password, size_t password_count, size_t number,
    const uint8_t *texts, size_t texts_count, const size_t *lengths, size_t lengths_count, uint8_t *values,
    size_t values_count);
int cukvashe_wide_pgcrypto_encrypt_values(const uint8_t *algorithm, size_t algorithm_count, const uint8_t *key,
    size_t key_count, const uint8_t *iv, size_t iv_count, const uint8_t *texts, size_t texts_count,
    const size_t *lengths, size_t lengths_count, uint8_t *values, size_t values_count);
int cukvashe_wide_encrypt_each(size_t key_size, const uint8_t *keys, size_t keys_count, uint8_t *blocks,
    size_t blocks_count);
int cukvashe_wide_decrypt_each(size_t key_size, const uint8_t *keys, size_t keys_count, uint8_t *blocks,
    size_t blocks_count);
int cukvashe_wide_macs(uint32_t algorithm, uint32_t padding, const uint8_t *key, size_t key_count,
    const cukvashe_message *messages, size_t messages_count, uint8_t *tags, size_t tags_count);
int cukvashe_wide_macs_each(uint32_t algorithm, uint32_t padding, size_t key_size, const uint8_t *keys,
    size_t keys_count, const cukvashe_message *messages, size_t messages_count, uint8_t *tags, size_t tags_count);
int cukvashe_wide_check_values(size_t key_size, const uint8_t *keys, size_t keys_count, uint8_t *values,
    size_t values_count);
int cukvashe_wide_dukpt_transaction_keys(const uint8_t base[16], const uint8_t *serials, size_t serials_count,
    uint8_t *keys, size_t keys_count);
int cukvashe_wide_encrypt_cbc_records(const uint64_t *context, size_t context_count, uint8_t *vectors,
    size_t vectors_count, const size_t *counts, size_t counts_count, uint8_t *blocks, size_t blocks_count, size_t size);
int cukvashe_wide_decrypt_cbc_records(const uint64_t *context, size_t context_count, uint8_t *vectors,
    size_t vectors_count, const size_t *counts, size_t counts_count, uint8_t *blocks, size_t blocks_count, size_t size);
int cukvashe_wide_encrypt_stream(const uint64_t *context, size_t context_count, cukvashe_stream *stream, uint8_t *bytes,
    size_t bytes_count);
int cukvashe_wide_decrypt_stream(const uint64_t *context, size_t context_count, cukvashe_stream *stream, uint8_t *bytes,
    size_t bytes_count);
int cukvashe_wide_encrypt_mode(const uint64_t *context, size_t context_count, uint32_t mode, const uint8_t iv[8],
    uint8_t *bytes, size_t bytes_count);
int cukvashe_wide_decrypt_mode(const uint64_t *context, size_t context_count, uint32_t mode, const uint8_t iv[8],
    uint8_t *bytes, size_t bytes_count);

/* Those that have the name of a call of the header, which wipes after them: bindings/generate gives them these names. */
int cukvashe_unwiped_cms_wrap_key(const uint8_t *protection, size_t protection_count, const uint8_t iv[8],
    const uint8_t *key, size_t key_count, uint8_t *wrapped, size_t wrapped_count, size_t *wrapped_length);
int cukvashe_unwiped_cms_unwrap_key(const uint8_t *protection, size_t protection_count, const uint8_t *wrapped,
    size_t wrapped_count, uint8_t *key, size_t key_count, size_t *key_length);
int cukvashe_unwiped_tkw_wrap_key(const uint8_t *protection, size_t protection_count, const uint8_t *key,
    size_t key_count, uint8_t *wrapped, size_t wrapped_count, size_t *wrapped_length);
int cukvashe_unwiped_tkw_unwrap_key(const uint8_t *protection, size_t protection_count, const uint8_t *wrapped,
    size_t wrapped_count, uint8_t *key, size_t key_count, size_t *key_length);
int cukvashe_unwiped_weak_key_test(const uint8_t *key, size_t key_length);
void cukvashe_unwiped_set_odd_parity(uint8_t *key, size_t key_length);
int cukvashe_unwiped_key_check_value(const uint8_t *key, size_t key_length, uint8_t value[3]);
int cukvashe_unwiped_short_key_check_value(const uint8_t *key, size_t key_length, uint8_t value[2]);
void cukvashe_unwiped_dukpt_initial_key(const uint8_t base[16], const uint8_t serial[10], uint8_t key[16]);
void cukvashe_unwiped_dukpt_transaction_key(const uint8_t initial[16], const uint8_t serial[10], uint8_t key[16]);
void cukvashe_unwiped_dukpt_pin_key(const uint8_t transaction[16], uint8_t key[16]);
void cukvashe_unwiped_dukpt_mac_key(const uint8_t transaction[16], bool is_response, uint8_t key[16]);
void cukvashe_unwiped_dukpt_data_key(const uint8_t transaction[16], bool is_response, uint8_t key[16]);
void cukvashe_unwiped_dukpt_data_variant(const uint8_t transaction[16], bool is_response, uint8_t key[16]);
void cukvashe_unwiped_dukpt_terminal_init(cukvashe_dukpt_terminal *terminal, const uint8_t initial[16],
    const uint8_t serial[10]);
int cukvashe_unwiped_dukpt_terminal_next_key(cukvashe_dukpt_terminal *terminal, uint8_t serial[10], uint8_t key[16]);
int cukvashe_unwiped_pin_encode_0(const char *pin, size_t pin_length, const char *account, size_t account_length,
    uint8_t block[8]);
int cukvashe_unwiped_pin_encode_1(const char *pin, size_t pin_length, const uint8_t transaction[10], uint8_t block[8]);
int cukvashe_unwiped_pin_encode_2(const char *pin, size_t pin_length, uint8_t block[8]);
int cukvashe_unwiped_pin_encode_3(const char *pin, size_t pin_length, const char *account, size_t account_length,
    const uint8_t fill[10], uint8_t block[8]);
int cukvashe_unwiped_pin_decode_0(const uint8_t block[8], const char *account, size_t account_length, char pin[13]);
int cukvashe_unwiped_pin_decode_1(const uint8_t block[8], char pin[13]);
int cukvashe_unwiped_pin_decode_2(const uint8_t block[8], char pin[13]);
int cukvashe_unwiped_pin_decode_3(const uint8_t block[8], const char *account, size_t account_length, char pin[13]);
int cukvashe_unwiped_pin_translate_to_0(const uint8_t *incoming, size_t incoming_count, uint32_t format,
    const uint8_t *outgoing, size_t outgoing_count, const uint8_t *account, size_t account_count,
    const uint8_t block[8], uint8_t translated[8]);
int cukvashe_unwiped_pin_translate_to_1(const uint8_t *incoming, size_t incoming_count, const uint8_t *outgoing,
    size_t outgoing_count, const uint8_t block[8], uint8_t translated[8]);
int cukvashe_unwiped_pin_translate_to_3(const uint8_t *incoming, size_t incoming_count, uint32_t format,
    const uint8_t *outgoing, size_t outgoing_count, const uint8_t *account, size_t account_count,
    const uint8_t fill[10], const uint8_t block[8], uint8_t translated[8]);
int cukvashe_unwiped_pvv(const uint8_t key[16], const char *account, size_t account_length, int index, const char *pin,
    size_t pin_length, char value[5]);
int cukvashe_unwiped_pvv_verify(const uint8_t key[16], const char *account, size_t account_length, int index,
    const char *pin, size_t pin_length, const char *value, size_t value_length);
int cukvashe_unwiped_natural_pin(const uint8_t *key, size_t key_length, const cukvashe_decimal_table *table,
    const uint8_t validation[8], size_t pin_length, char pin[13]);
int cukvashe_unwiped_pin_offset(const uint8_t *key, size_t key_length, const cukvashe_decimal_table *table,
    const uint8_t validation[8], const char *pin, size_t pin_length, char offset[13]);
int cukvashe_unwiped_pin_offset_verify(const uint8_t *key, size_t key_length, const cukvashe_decimal_table *table,
    const uint8_t validation[8], const char *pin, size_t pin_length, const char *offset, size_t offset_length);
int cukvashe_unwiped_cvv(const uint8_t key[16], const char *account, size_t account_length, const char *expiry,
    size_t expiry_length, const char *service, size_t service_length, char value[4]);
int cukvashe_unwiped_emv_card_key(const uint8_t issuer[16], const char *account, size_t account_length,
    const char *sequence, size_t sequence_length, uint8_t key[16]);
int cukvashe_unwiped_emv_card_key_b(const uint8_t issuer[16], const char *account, size_t account_length,
    const char *sequence, size_t sequence_length, uint8_t key[16]);
void cukvashe_unwiped_emv_application_key(const uint8_t card[16], const uint8_t counter[2], uint8_t key[16]);
void cukvashe_unwiped_emv_session_key(const uint8_t card[16], const uint8_t block[8], uint8_t key[16]);
void cukvashe_unwiped_emv_application_cryptogram(const uint8_t session[16], const uint8_t *data, size_t length,
    uint8_t cryptogram[8]);
void cukvashe_unwiped_emv_response_1(const uint8_t session[16], const uint8_t cryptogram[8], const uint8_t code[2],
    uint8_t response[8]);
int cukvashe_unwiped_emv_response_2(const uint8_t session[16], const uint8_t cryptogram[8], const uint8_t status[4],
    const uint8_t *data, size_t length, uint8_t response[4]);
int cukvashe_unwiped_key_block_unwrap(const uint8_t *protection, size_t protection_length, const char *block,
    size_t block_length, cukvashe_key_block_fields *header, uint8_t key[24], size_t *key_length);
int cukvashe_unwiped_key_block_wrap(const uint8_t *protection, size_t protection_count,
    const cukvashe_key_block_fields *header, const uint8_t *optional, size_t optional_count, const uint8_t *key,
    size_t key_count, const uint8_t *padding, size_t padding_count, uint8_t *block, size_t block_count, size_t *length);
int cukvashe_unwiped_pbkdf2(uint32_t hash, const uint8_t *password, size_t password_count, const uint8_t *salt,
    size_t salt_count, size_t iterations, uint8_t *key, size_t key_count);
int cukvashe_unwiped_bytes_to_key(int hash, const uint8_t *password, size_t password_length, const uint8_t *salt,
    size_t salt_length, uint8_t *key, size_t key_length);
int cukvashe_unwiped_pbe_key(const char *algorithm, size_t algorithm_length, size_t iterations, const uint8_t *password,
    size_t password_length, const uint8_t *salt, size_t salt_length, uint8_t *key, size_t key_length);

enum {
  STACK_des_init = 5650,
  STACK_tdes_ede2_init = 5650,
  STACK_tdes_ede3_init = 5650,
  STACK_des_init_no_tables = 5650,
  STACK_tdes_ede2_init_no_tables = 5650,
  STACK_tdes_ede3_init_no_tables = 5650,
  STACK_cms_wrap_key = 6650,
  STACK_cms_unwrap_key = 6650,
  STACK_tkw_wrap_key = 5650,
  STACK_tkw_unwrap_key = 5650,
  STACK_des_encrypt_each = 26650,
  STACK_des_decrypt_each = 26650,
  STACK_tdes_ede2_encrypt_each = 26650,
  STACK_tdes_ede2_decrypt_each = 26650,
  STACK_tdes_ede3_encrypt_each = 26650,
  STACK_tdes_ede3_decrypt_each = 26650,
  STACK_weak_key_test = 5650,
  STACK_set_odd_parity = 5650,
  STACK_equal_but_parity = 5650,
  STACK_cbc_mac_des_init = 5650,
  STACK_cbc_mac_tdes_ede2_init = 5650,
  STACK_cbc_mac_tdes_ede3_init = 5650,
  STACK_retail_mac_des_init = 5650,
  STACK_cmac_tdes_ede2_init = 5650,
  STACK_cmac_tdes_ede3_init = 5650,
  STACK_cbc_mac_des_init_no_tables = 5650,
  STACK_cbc_mac_tdes_ede2_init_no_tables = 5650,
  STACK_cbc_mac_tdes_ede3_init_no_tables = 5650,
  STACK_retail_mac_des_init_no_tables = 5650,
  STACK_cmac_tdes_ede2_init_no_tables = 5650,
  STACK_cmac_tdes_ede3_init_no_tables = 5650,
  STACK_cbc_mac_des_macs = 45650,
  STACK_cbc_mac_des_macs_each = 45650,
  STACK_cbc_mac_tdes_ede2_macs = 45650,
  STACK_cbc_mac_tdes_ede2_macs_each = 45650,
  STACK_cbc_mac_tdes_ede3_macs = 45650,
  STACK_cbc_mac_tdes_ede3_macs_each = 45650,
  STACK_retail_mac_des_macs = 45650,
  STACK_retail_mac_des_macs_each = 45650,
  STACK_cmac_tdes_ede2_macs = 45650,
  STACK_cmac_tdes_ede2_macs_each = 45650,
  STACK_cmac_tdes_ede3_macs = 45650,
  STACK_cmac_tdes_ede3_macs_each = 45650,
  STACK_des_check_value = 5650,
  STACK_tdes_ede2_check_value = 5650,
  STACK_tdes_ede3_check_value = 5650,
  STACK_key_check_value = 5650,
  STACK_short_key_check_value = 5650,
  STACK_des_check_values = 26650,
  STACK_tdes_ede2_check_values = 26650,
  STACK_tdes_ede3_check_values = 26650,
  STACK_combine_8 = 5650,
  STACK_combine_16 = 5650,
  STACK_combine_24 = 5650,
  STACK_dukpt_initial_key = 5650,
  STACK_dukpt_transaction_key = 5650,
  STACK_dukpt_transaction_keys_from_base = 45650,
  STACK_dukpt_pin_key = 5650,
  STACK_dukpt_mac_key = 5650,
  STACK_dukpt_data_key = 5650,
  STACK_dukpt_data_variant = 5650,
  STACK_dukpt_terminal_init = 5650,
  STACK_dukpt_terminal_next_key = 5650,
  STACK_pin_encode_0 = 5650,
  STACK_pin_encode_1 = 5650,
  STACK_pin_encode_2 = 5650,
  STACK_pin_encode_3 = 5650,
  STACK_pin_decode_0 = 5650,
  STACK_pin_decode_1 = 5650,
  STACK_pin_decode_2 = 5650,
  STACK_pin_decode_3 = 5650,
  STACK_pin_translate_to_0 = 5650,
  STACK_pin_translate_to_1 = 5650,
  STACK_pin_translate_to_3 = 5650,
  STACK_pvv = 5650,
  STACK_pvv_verify = 5650,
  STACK_pvv_is_pin = 5650,
  STACK_natural_pin = 5650,
  STACK_pin_offset = 5650,
  STACK_pin_offset_verify = 5650,
  STACK_pin_offset_is_pin = 5650,
  STACK_cvv = 5650,
  STACK_emv_card_key = 5650,
  STACK_emv_card_key_b = 5650,
  STACK_emv_application_key = 5650,
  STACK_emv_session_key = 5650,
  STACK_emv_application_cryptogram = 5650,
  STACK_emv_response_1 = 5650,
  STACK_emv_response_2 = 5650,
  STACK_key_block_unwrap = 26650,
  STACK_key_block_wrap = 26650,
  STACK_pbkdf2 = 5650,
  STACK_bytes_to_key = 5650,
  STACK_des_open_salted = 26650,
  STACK_tdes_ede2_open_salted = 26650,
  STACK_tdes_ede3_open_salted = 26650,
  STACK_mysql_decrypt_values = 45650,
  STACK_mysql_decrypt_values_by_file = 45650,
  STACK_pgcrypto_decrypt_values = 45650,
  STACK_mysql_encrypt_values = 65650,
  STACK_pgcrypto_encrypt_values = 65650,
  STACK_pbe_key = 5650,
  STACK_jasypt_decrypt_values = 45650,
  STACK_jasypt_encrypt_values = 45650,
};

#endif
