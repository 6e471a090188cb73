/* In the place of each export that C goes on to a function that notes what it is given. Made by bindings/describe. */
int cukvashe_internal_init(uint64_t *context, size_t context_count, const uint8_t *key, size_t key_count,
    bool no_tables) {
  return noted("internal init", ARGUMENTS((uintptr_t)context, (uintptr_t)context_count, (uintptr_t)key,
    (uintptr_t)key_count, (uintptr_t)no_tables));
}
int cukvashe_internal_encrypt_cbc(const uint64_t *context, size_t context_count, uint8_t iv[8], uint8_t *blocks,
    size_t blocks_count, size_t size) {
  return noted("internal encrypt_cbc", ARGUMENTS((uintptr_t)context, (uintptr_t)context_count, (uintptr_t)iv,
    (uintptr_t)blocks, (uintptr_t)blocks_count, (uintptr_t)size));
}
int cukvashe_internal_encrypt_cbc_to(const uint64_t *context, size_t context_count, uint8_t iv[8], const uint8_t *input,
    size_t input_count, uint8_t *output, size_t output_count, size_t size) {
  return noted("internal encrypt_cbc_to", ARGUMENTS((uintptr_t)context, (uintptr_t)context_count, (uintptr_t)iv,
    (uintptr_t)input, (uintptr_t)input_count, (uintptr_t)output, (uintptr_t)output_count, (uintptr_t)size));
}
int cukvashe_internal_jasypt_decrypt_values(const uint8_t *algorithm, size_t algorithm_count, size_t iterations,
    const uint8_t *password, size_t password_count, const uint8_t *values, size_t values_count, const size_t *lengths,
    size_t lengths_count, uint8_t *texts, size_t texts_count, size_t *text_lengths, size_t text_lengths_count,
    int *statuses, size_t statuses_count) {
  return noted("internal jasypt_decrypt_values", ARGUMENTS((uintptr_t)algorithm, (uintptr_t)algorithm_count,
    (uintptr_t)iterations, (uintptr_t)password, (uintptr_t)password_count, (uintptr_t)values, (uintptr_t)values_count,
    (uintptr_t)lengths, (uintptr_t)lengths_count, (uintptr_t)texts, (uintptr_t)texts_count, (uintptr_t)text_lengths,
    (uintptr_t)text_lengths_count, (uintptr_t)statuses, (uintptr_t)statuses_count));
}
int cukvashe_internal_jasypt_encrypt_values(const uint8_t *algorithm, size_t algorithm_count, size_t iterations,
    const uint8_t *password, size_t password_count, const uint8_t *salts, size_t salts_count, const uint8_t *texts,
    size_t texts_count, const size_t *lengths, size_t lengths_count, uint8_t *values, size_t values_count) {
  return noted("internal jasypt_encrypt_values", ARGUMENTS((uintptr_t)algorithm, (uintptr_t)algorithm_count,
    (uintptr_t)iterations, (uintptr_t)password, (uintptr_t)password_count, (uintptr_t)salts, (uintptr_t)salts_count,
    (uintptr_t)texts, (uintptr_t)texts_count, (uintptr_t)lengths, (uintptr_t)lengths_count, (uintptr_t)values,
    (uintptr_t)values_count));
}
bool cukvashe_internal_equal_but_parity(const uint8_t *first, size_t first_count, const uint8_t *second,
    size_t second_count) {
  return noted("internal equal_but_parity", ARGUMENTS((uintptr_t)first, (uintptr_t)first_count, (uintptr_t)second,
    (uintptr_t)second_count)) == STATUS && answer;
}
int cukvashe_internal_encrypt_ecb(const uint64_t *context, size_t context_count, uint8_t *blocks, size_t blocks_count,
    size_t size) {
  return noted("internal encrypt_ecb", ARGUMENTS((uintptr_t)context, (uintptr_t)context_count, (uintptr_t)blocks,
    (uintptr_t)blocks_count, (uintptr_t)size));
}
int cukvashe_internal_decrypt_ecb(const uint64_t *context, size_t context_count, uint8_t *blocks, size_t blocks_count,
    size_t size) {
  return noted("internal decrypt_ecb", ARGUMENTS((uintptr_t)context, (uintptr_t)context_count, (uintptr_t)blocks,
    (uintptr_t)blocks_count, (uintptr_t)size));
}
int cukvashe_internal_encrypt_ecb_to(const uint64_t *context, size_t context_count, const uint8_t *input,
    size_t input_count, uint8_t *output, size_t output_count, size_t size) {
  return noted("internal encrypt_ecb_to", ARGUMENTS((uintptr_t)context, (uintptr_t)context_count, (uintptr_t)input,
    (uintptr_t)input_count, (uintptr_t)output, (uintptr_t)output_count, (uintptr_t)size));
}
int cukvashe_internal_decrypt_ecb_to(const uint64_t *context, size_t context_count, const uint8_t *input,
    size_t input_count, uint8_t *output, size_t output_count, size_t size) {
  return noted("internal decrypt_ecb_to", ARGUMENTS((uintptr_t)context, (uintptr_t)context_count, (uintptr_t)input,
    (uintptr_t)input_count, (uintptr_t)output, (uintptr_t)output_count, (uintptr_t)size));
}
int cukvashe_internal_decrypt_cbc(const uint64_t *context, size_t context_count, uint8_t iv[8], uint8_t *blocks,
    size_t blocks_count, size_t size) {
  return noted("internal decrypt_cbc", ARGUMENTS((uintptr_t)context, (uintptr_t)context_count, (uintptr_t)iv,
    (uintptr_t)blocks, (uintptr_t)blocks_count, (uintptr_t)size));
}
int cukvashe_internal_decrypt_cbc_to(const uint64_t *context, size_t context_count, uint8_t iv[8], const uint8_t *input,
    size_t input_count, uint8_t *output, size_t output_count, size_t size) {
  return noted("internal decrypt_cbc_to", ARGUMENTS((uintptr_t)context, (uintptr_t)context_count, (uintptr_t)iv,
    (uintptr_t)input, (uintptr_t)input_count, (uintptr_t)output, (uintptr_t)output_count, (uintptr_t)size));
}
int cukvashe_internal_mysql_decrypt_values(const uint8_t *password, size_t password_count, const uint8_t *values,
    size_t values_count, const size_t *lengths, size_t lengths_count, uint8_t *texts, size_t texts_count,
    size_t *text_lengths, size_t text_lengths_count, int *statuses, size_t statuses_count) {
  return noted("internal mysql_decrypt_values", ARGUMENTS((uintptr_t)password, (uintptr_t)password_count,
    (uintptr_t)values, (uintptr_t)values_count, (uintptr_t)lengths, (uintptr_t)lengths_count, (uintptr_t)texts,
    (uintptr_t)texts_count, (uintptr_t)text_lengths, (uintptr_t)text_lengths_count, (uintptr_t)statuses,
    (uintptr_t)statuses_count));
}
int cukvashe_internal_mysql_decrypt_values_by_file(const uint8_t *keys, size_t keys_count, const uint8_t *values,
    size_t values_count, const size_t *lengths, size_t lengths_count, uint8_t *texts, size_t texts_count,
    size_t *text_lengths, size_t text_lengths_count, int *statuses, size_t statuses_count) {
  return noted("internal mysql_decrypt_values_by_file", ARGUMENTS((uintptr_t)keys, (uintptr_t)keys_count,
    (uintptr_t)values, (uintptr_t)values_count, (uintptr_t)lengths, (uintptr_t)lengths_count, (uintptr_t)texts,
    (uintptr_t)texts_count, (uintptr_t)text_lengths, (uintptr_t)text_lengths_count, (uintptr_t)statuses,
    (uintptr_t)statuses_count));
}
int cukvashe_internal_pgcrypto_decrypt_values(const uint8_t *algorithm, size_t algorithm_count, const uint8_t *key,
    size_t key_count, const uint8_t *iv, size_t iv_count, const uint8_t *values, size_t values_count,
    const size_t *lengths, size_t lengths_count, uint8_t *texts, size_t texts_count, size_t *text_lengths,
    size_t text_lengths_count, int *statuses, size_t statuses_count) {
  return noted("internal pgcrypto_decrypt_values", ARGUMENTS((uintptr_t)algorithm, (uintptr_t)algorithm_count,
    (uintptr_t)key, (uintptr_t)key_count, (uintptr_t)iv, (uintptr_t)iv_count, (uintptr_t)values,
    (uintptr_t)values_count, (uintptr_t)lengths, (uintptr_t)lengths_count, (uintptr_t)texts, (uintptr_t)texts_count,
    (uintptr_t)text_lengths, (uintptr_t)text_lengths_count, (uintptr_t)statuses, (uintptr_t)statuses_count));
}
int cukvashe_internal_mysql_encrypt_values(const uint8_t *password, size_t password_count, size_t number,
    const uint8_t *texts, size_t texts_count, const size_t *lengths, size_t lengths_count, uint8_t *values,
    size_t values_count) {
  return noted("internal mysql_encrypt_values", ARGUMENTS((uintptr_t)password, (uintptr_t)password_count,
    (uintptr_t)number, (uintptr_t)texts, (uintptr_t)texts_count, (uintptr_t)lengths, (uintptr_t)lengths_count,
    (uintptr_t)values, (uintptr_t)values_count));
}
int cukvashe_internal_pgcrypto_encrypt_values(const uint8_t *algorithm, size_t algorithm_count, const uint8_t *key,
    size_t key_count, const uint8_t *iv, size_t iv_count, const uint8_t *texts, size_t texts_count,
    const size_t *lengths, size_t lengths_count, uint8_t *values, size_t values_count) {
  return noted("internal pgcrypto_encrypt_values", ARGUMENTS((uintptr_t)algorithm, (uintptr_t)algorithm_count,
    (uintptr_t)key, (uintptr_t)key_count, (uintptr_t)iv, (uintptr_t)iv_count, (uintptr_t)texts, (uintptr_t)texts_count,
    (uintptr_t)lengths, (uintptr_t)lengths_count, (uintptr_t)values, (uintptr_t)values_count));
}
int cukvashe_internal_encrypt_each(size_t key_size, const uint8_t *keys, size_t keys_count, uint8_t *blocks,
    size_t blocks_count) {
  return noted("internal encrypt_each", ARGUMENTS((uintptr_t)key_size, (uintptr_t)keys, (uintptr_t)keys_count,
    (uintptr_t)blocks, (uintptr_t)blocks_count));
}
int cukvashe_internal_decrypt_each(size_t key_size, const uint8_t *keys, size_t keys_count, uint8_t *blocks,
    size_t blocks_count) {
  return noted("internal decrypt_each", ARGUMENTS((uintptr_t)key_size, (uintptr_t)keys, (uintptr_t)keys_count,
    (uintptr_t)blocks, (uintptr_t)blocks_count));
}
int cukvashe_internal_macs(uint32_t algorithm, uint32_t padding, const uint8_t *key, size_t key_count,
    const cukvashe_message *messages, size_t messages_count, uint8_t *tags, size_t tags_count) {
  return noted("internal macs", ARGUMENTS((uintptr_t)algorithm, (uintptr_t)padding, (uintptr_t)key,
    (uintptr_t)key_count, (uintptr_t)messages, (uintptr_t)messages_count, (uintptr_t)tags, (uintptr_t)tags_count));
}
int cukvashe_internal_macs_each(uint32_t algorithm, uint32_t padding, size_t key_size, const uint8_t *keys,
    size_t keys_count, const cukvashe_message *messages, size_t messages_count, uint8_t *tags, size_t tags_count) {
  return noted("internal macs_each", ARGUMENTS((uintptr_t)algorithm, (uintptr_t)padding, (uintptr_t)key_size,
    (uintptr_t)keys, (uintptr_t)keys_count, (uintptr_t)messages, (uintptr_t)messages_count, (uintptr_t)tags,
    (uintptr_t)tags_count));
}
int cukvashe_internal_check_values(size_t key_size, const uint8_t *keys, size_t keys_count, uint8_t *values,
    size_t values_count) {
  return noted("internal check_values", ARGUMENTS((uintptr_t)key_size, (uintptr_t)keys, (uintptr_t)keys_count,
    (uintptr_t)values, (uintptr_t)values_count));
}
int cukvashe_internal_dukpt_transaction_keys(const uint8_t base[16], const uint8_t *serials, size_t serials_count,
    uint8_t *keys, size_t keys_count) {
  return noted("internal dukpt_transaction_keys", ARGUMENTS((uintptr_t)base, (uintptr_t)serials,
    (uintptr_t)serials_count, (uintptr_t)keys, (uintptr_t)keys_count));
}
int cukvashe_internal_encrypt_cbc_records(const uint64_t *context, size_t context_count, uint8_t *vectors,
    size_t vectors_count, const size_t *counts, size_t counts_count, uint8_t *blocks, size_t blocks_count,
    size_t size) {
  return noted("internal encrypt_cbc_records", ARGUMENTS((uintptr_t)context, (uintptr_t)context_count,
    (uintptr_t)vectors, (uintptr_t)vectors_count, (uintptr_t)counts, (uintptr_t)counts_count, (uintptr_t)blocks,
    (uintptr_t)blocks_count, (uintptr_t)size));
}
int cukvashe_internal_decrypt_cbc_records(const uint64_t *context, size_t context_count, uint8_t *vectors,
    size_t vectors_count, const size_t *counts, size_t counts_count, uint8_t *blocks, size_t blocks_count,
    size_t size) {
  return noted("internal decrypt_cbc_records", ARGUMENTS((uintptr_t)context, (uintptr_t)context_count,
    (uintptr_t)vectors, (uintptr_t)vectors_count, (uintptr_t)counts, (uintptr_t)counts_count, (uintptr_t)blocks,
    (uintptr_t)blocks_count, (uintptr_t)size));
}
int cukvashe_internal_encrypt_stream(const uint64_t *context, size_t context_count, cukvashe_stream *stream,
    uint8_t *bytes, size_t bytes_count) {
  return noted("internal encrypt_stream", ARGUMENTS((uintptr_t)context, (uintptr_t)context_count, (uintptr_t)stream,
    (uintptr_t)bytes, (uintptr_t)bytes_count));
}
int cukvashe_internal_decrypt_stream(const uint64_t *context, size_t context_count, cukvashe_stream *stream,
    uint8_t *bytes, size_t bytes_count) {
  return noted("internal decrypt_stream", ARGUMENTS((uintptr_t)context, (uintptr_t)context_count, (uintptr_t)stream,
    (uintptr_t)bytes, (uintptr_t)bytes_count));
}
int cukvashe_internal_encrypt_mode(const uint64_t *context, size_t context_count, uint32_t mode, const uint8_t iv[8],
    uint8_t *bytes, size_t bytes_count) {
  return noted("internal encrypt_mode", ARGUMENTS((uintptr_t)context, (uintptr_t)context_count, (uintptr_t)mode,
    (uintptr_t)iv, (uintptr_t)bytes, (uintptr_t)bytes_count));
}
int cukvashe_internal_decrypt_mode(const uint64_t *context, size_t context_count, uint32_t mode, const uint8_t iv[8],
    uint8_t *bytes, size_t bytes_count) {
  return noted("internal decrypt_mode", ARGUMENTS((uintptr_t)context, (uintptr_t)context_count, (uintptr_t)mode,
    (uintptr_t)iv, (uintptr_t)bytes, (uintptr_t)bytes_count));
}
int cukvashe_internal_mac_init(uint32_t algorithm, uint64_t *context, size_t context_count, uint64_t message[4],
    const uint8_t *key, size_t key_count, uint32_t padding, bool no_tables) {
  return noted("internal mac_init", ARGUMENTS((uintptr_t)algorithm, (uintptr_t)context, (uintptr_t)context_count,
    (uintptr_t)message, (uintptr_t)key, (uintptr_t)key_count, (uintptr_t)padding, (uintptr_t)no_tables));
}
int cukvashe_internal_mac_update(uint32_t algorithm, const uint64_t *context, size_t context_count, uint64_t message[4],
    const uint8_t *bytes, size_t bytes_count) {
  return noted("internal mac_update", ARGUMENTS((uintptr_t)algorithm, (uintptr_t)context, (uintptr_t)context_count,
    (uintptr_t)message, (uintptr_t)bytes, (uintptr_t)bytes_count));
}
int cukvashe_internal_mac_final(uint32_t algorithm, const uint64_t *context, size_t context_count,
    const uint64_t message[4], uint8_t tag[8]) {
  return noted("internal mac_final", ARGUMENTS((uintptr_t)algorithm, (uintptr_t)context, (uintptr_t)context_count,
    (uintptr_t)message, (uintptr_t)tag));
}
int cukvashe_internal_mac_verify(uint32_t algorithm, const uint64_t *context, size_t context_count,
    const uint64_t message[4], const uint8_t *tag, size_t tag_count) {
  return noted("internal mac_verify", ARGUMENTS((uintptr_t)algorithm, (uintptr_t)context, (uintptr_t)context_count,
    (uintptr_t)message, (uintptr_t)tag, (uintptr_t)tag_count));
}
int cukvashe_internal_compare_tags(const uint8_t *tags, size_t tags_count, const uint8_t *expected,
    size_t expected_count, bool *right, size_t right_count) {
  return noted("internal compare_tags", ARGUMENTS((uintptr_t)tags, (uintptr_t)tags_count, (uintptr_t)expected,
    (uintptr_t)expected_count, (uintptr_t)right, (uintptr_t)right_count));
}
int cukvashe_internal_pad(uint8_t *buffer, size_t buffer_count, size_t count, int method, size_t *padded_length) {
  return noted("internal pad", ARGUMENTS((uintptr_t)buffer, (uintptr_t)buffer_count, (uintptr_t)count,
    (uintptr_t)method, (uintptr_t)padded_length));
}
int cukvashe_internal_open_salted(size_t key_size, uint32_t hash, size_t iterations, const uint8_t *password,
    size_t password_count, const uint8_t *bytes, size_t bytes_count, uint8_t *plain, size_t plain_count,
    size_t *plain_length) {
  return noted("internal open_salted", ARGUMENTS((uintptr_t)key_size, (uintptr_t)hash, (uintptr_t)iterations,
    (uintptr_t)password, (uintptr_t)password_count, (uintptr_t)bytes, (uintptr_t)bytes_count, (uintptr_t)plain,
    (uintptr_t)plain_count, (uintptr_t)plain_length));
}
int cukvashe_internal_check_value(size_t key_size, const uint8_t *key, size_t key_count, uint8_t value[3]) {
  return noted("internal check_value", ARGUMENTS((uintptr_t)key_size, (uintptr_t)key, (uintptr_t)key_count,
    (uintptr_t)value));
}
int cukvashe_internal_combine(const uint8_t *first, size_t first_count, const uint8_t *second, size_t second_count,
    const uint8_t *others, size_t others_count, uint8_t *key, size_t key_count) {
  return noted("internal combine", ARGUMENTS((uintptr_t)first, (uintptr_t)first_count, (uintptr_t)second,
    (uintptr_t)second_count, (uintptr_t)others, (uintptr_t)others_count, (uintptr_t)key, (uintptr_t)key_count));
}
int cukvashe_internal_encrypt_stream_bits(const uint64_t *context, size_t context_count, cukvashe_stream *stream,
    uint8_t *bytes, size_t bytes_count, size_t bits) {
  return noted("internal encrypt_stream_bits", ARGUMENTS((uintptr_t)context, (uintptr_t)context_count,
    (uintptr_t)stream, (uintptr_t)bytes, (uintptr_t)bytes_count, (uintptr_t)bits));
}
int cukvashe_internal_decrypt_stream_bits(const uint64_t *context, size_t context_count, cukvashe_stream *stream,
    uint8_t *bytes, size_t bytes_count, size_t bits) {
  return noted("internal decrypt_stream_bits", ARGUMENTS((uintptr_t)context, (uintptr_t)context_count,
    (uintptr_t)stream, (uintptr_t)bytes, (uintptr_t)bytes_count, (uintptr_t)bits));
}
#if HAS_WIDE
int cukvashe_wide_encrypt_ecb(const uint64_t *context, size_t context_count, uint8_t *blocks, size_t blocks_count,
    size_t size) {
  return noted("wide encrypt_ecb", ARGUMENTS((uintptr_t)context, (uintptr_t)context_count, (uintptr_t)blocks,
    (uintptr_t)blocks_count, (uintptr_t)size));
}
int cukvashe_wide_decrypt_ecb(const uint64_t *context, size_t context_count, uint8_t *blocks, size_t blocks_count,
    size_t size) {
  return noted("wide decrypt_ecb", ARGUMENTS((uintptr_t)context, (uintptr_t)context_count, (uintptr_t)blocks,
    (uintptr_t)blocks_count, (uintptr_t)size));
}
int cukvashe_wide_encrypt_ecb_to(const uint64_t *context, size_t context_count, const uint8_t *input,
    size_t input_count, uint8_t *output, size_t output_count, size_t size) {
  return noted("wide encrypt_ecb_to", ARGUMENTS((uintptr_t)context, (uintptr_t)context_count, (uintptr_t)input,
    (uintptr_t)input_count, (uintptr_t)output, (uintptr_t)output_count, (uintptr_t)size));
}
int cukvashe_wide_decrypt_ecb_to(const uint64_t *context, size_t context_count, const uint8_t *input,
    size_t input_count, uint8_t *output, size_t output_count, size_t size) {
  return noted("wide decrypt_ecb_to", ARGUMENTS((uintptr_t)context, (uintptr_t)context_count, (uintptr_t)input,
    (uintptr_t)input_count, (uintptr_t)output, (uintptr_t)output_count, (uintptr_t)size));
}
int cukvashe_wide_decrypt_cbc(const uint64_t *context, size_t context_count, uint8_t iv[8], uint8_t *blocks,
    size_t blocks_count, size_t size) {
  return noted("wide decrypt_cbc", ARGUMENTS((uintptr_t)context, (uintptr_t)context_count, (uintptr_t)iv,
    (uintptr_t)blocks, (uintptr_t)blocks_count, (uintptr_t)size));
}
int cukvashe_wide_decrypt_cbc_to(const uint64_t *context, size_t context_count, uint8_t iv[8], const uint8_t *input,
    size_t input_count, uint8_t *output, size_t output_count, size_t size) {
  return noted("wide decrypt_cbc_to", ARGUMENTS((uintptr_t)context, (uintptr_t)context_count, (uintptr_t)iv,
    (uintptr_t)input, (uintptr_t)input_count, (uintptr_t)output, (uintptr_t)output_count, (uintptr_t)size));
}
int cukvashe_wide_mysql_decrypt_values(const uint8_t *password, size_t password_count, const uint8_t *values,
    size_t values_count, const size_t *lengths, size_t lengths_count, uint8_t *texts, size_t texts_count,
    size_t *text_lengths, size_t text_lengths_count, int *statuses, size_t statuses_count) {
  return noted("wide mysql_decrypt_values", ARGUMENTS((uintptr_t)password, (uintptr_t)password_count, (uintptr_t)values,
    (uintptr_t)values_count, (uintptr_t)lengths, (uintptr_t)lengths_count, (uintptr_t)texts, (uintptr_t)texts_count,
    (uintptr_t)text_lengths, (uintptr_t)text_lengths_count, (uintptr_t)statuses, (uintptr_t)statuses_count));
}
int cukvashe_wide_mysql_decrypt_values_by_file(const uint8_t *keys, size_t keys_count, const uint8_t *values,
    size_t values_count, const size_t *lengths, size_t lengths_count, uint8_t *texts, size_t texts_count,
    size_t *text_lengths, size_t text_lengths_count, int *statuses, size_t statuses_count) {
  return noted("wide mysql_decrypt_values_by_file", ARGUMENTS((uintptr_t)keys, (uintptr_t)keys_count, (uintptr_t)values,
    (uintptr_t)values_count, (uintptr_t)lengths, (uintptr_t)lengths_count, (uintptr_t)texts, (uintptr_t)texts_count,
    (uintptr_t)text_lengths, (uintptr_t)text_lengths_count, (uintptr_t)statuses, (uintptr_t)statuses_count));
}
int cukvashe_wide_pgcrypto_decrypt_values(const uint8_t *algorithm, size_t algorithm_count, const uint8_t *key,
    size_t key_count, const uint8_t *iv, size_t iv_count, const uint8_t *values, size_t values_count,
    const size_t *lengths, size_t lengths_count, uint8_t *texts, size_t texts_count, size_t *text_lengths,
    size_t text_lengths_count, int *statuses, size_t statuses_count) {
  return noted("wide pgcrypto_decrypt_values", ARGUMENTS((uintptr_t)algorithm, (uintptr_t)algorithm_count,
    (uintptr_t)key, (uintptr_t)key_count, (uintptr_t)iv, (uintptr_t)iv_count, (uintptr_t)values,
    (uintptr_t)values_count, (uintptr_t)lengths, (uintptr_t)lengths_count, (uintptr_t)texts, (uintptr_t)texts_count,
    (uintptr_t)text_lengths, (uintptr_t)text_lengths_count, (uintptr_t)statuses, (uintptr_t)statuses_count));
}
int cukvashe_wide_mysql_encrypt_values(const uint8_t *password, size_t password_count, size_t number,
    const uint8_t *texts, size_t texts_count, const size_t *lengths, size_t lengths_count, uint8_t *values,
    size_t values_count) {
  return noted("wide mysql_encrypt_values", ARGUMENTS((uintptr_t)password, (uintptr_t)password_count, (uintptr_t)number,
    (uintptr_t)texts, (uintptr_t)texts_count, (uintptr_t)lengths, (uintptr_t)lengths_count, (uintptr_t)values,
    (uintptr_t)values_count));
}
int cukvashe_wide_pgcrypto_encrypt_values(const uint8_t *algorithm, size_t algorithm_count, const uint8_t *key,
    size_t key_count, const uint8_t *iv, size_t iv_count, const uint8_t *texts, size_t texts_count,
    const size_t *lengths, size_t lengths_count, uint8_t *values, size_t values_count) {
  return noted("wide pgcrypto_encrypt_values", ARGUMENTS((uintptr_t)algorithm, (uintptr_t)algorithm_count,
    (uintptr_t)key, (uintptr_t)key_count, (uintptr_t)iv, (uintptr_t)iv_count, (uintptr_t)texts, (uintptr_t)texts_count,
    (uintptr_t)lengths, (uintptr_t)lengths_count, (uintptr_t)values, (uintptr_t)values_count));
}
int cukvashe_wide_encrypt_each(size_t key_size, const uint8_t *keys, size_t keys_count, uint8_t *blocks,
    size_t blocks_count) {
  return noted("wide encrypt_each", ARGUMENTS((uintptr_t)key_size, (uintptr_t)keys, (uintptr_t)keys_count,
    (uintptr_t)blocks, (uintptr_t)blocks_count));
}
int cukvashe_wide_decrypt_each(size_t key_size, const uint8_t *keys, size_t keys_count, uint8_t *blocks,
    size_t blocks_count) {
  return noted("wide decrypt_each", ARGUMENTS((uintptr_t)key_size, (uintptr_t)keys, (uintptr_t)keys_count,
    (uintptr_t)blocks, (uintptr_t)blocks_count));
}
int cukvashe_wide_macs(uint32_t algorithm, uint32_t padding, const uint8_t *key, size_t key_count,
    const cukvashe_message *messages, size_t messages_count, uint8_t *tags, size_t tags_count) {
  return noted("wide macs", ARGUMENTS((uintptr_t)algorithm, (uintptr_t)padding, (uintptr_t)key, (uintptr_t)key_count,
    (uintptr_t)messages, (uintptr_t)messages_count, (uintptr_t)tags, (uintptr_t)tags_count));
}
int cukvashe_wide_macs_each(uint32_t algorithm, uint32_t padding, size_t key_size, const uint8_t *keys,
    size_t keys_count, const cukvashe_message *messages, size_t messages_count, uint8_t *tags, size_t tags_count) {
  return noted("wide macs_each", ARGUMENTS((uintptr_t)algorithm, (uintptr_t)padding, (uintptr_t)key_size,
    (uintptr_t)keys, (uintptr_t)keys_count, (uintptr_t)messages, (uintptr_t)messages_count, (uintptr_t)tags,
    (uintptr_t)tags_count));
}
int cukvashe_wide_check_values(size_t key_size, const uint8_t *keys, size_t keys_count, uint8_t *values,
    size_t values_count) {
  return noted("wide check_values", ARGUMENTS((uintptr_t)key_size, (uintptr_t)keys, (uintptr_t)keys_count,
    (uintptr_t)values, (uintptr_t)values_count));
}
int cukvashe_wide_dukpt_transaction_keys(const uint8_t base[16], const uint8_t *serials, size_t serials_count,
    uint8_t *keys, size_t keys_count) {
  return noted("wide dukpt_transaction_keys", ARGUMENTS((uintptr_t)base, (uintptr_t)serials, (uintptr_t)serials_count,
    (uintptr_t)keys, (uintptr_t)keys_count));
}
int cukvashe_wide_encrypt_cbc_records(const uint64_t *context, size_t context_count, uint8_t *vectors,
    size_t vectors_count, const size_t *counts, size_t counts_count, uint8_t *blocks, size_t blocks_count,
    size_t size) {
  return noted("wide encrypt_cbc_records", ARGUMENTS((uintptr_t)context, (uintptr_t)context_count, (uintptr_t)vectors,
    (uintptr_t)vectors_count, (uintptr_t)counts, (uintptr_t)counts_count, (uintptr_t)blocks, (uintptr_t)blocks_count,
    (uintptr_t)size));
}
int cukvashe_wide_decrypt_cbc_records(const uint64_t *context, size_t context_count, uint8_t *vectors,
    size_t vectors_count, const size_t *counts, size_t counts_count, uint8_t *blocks, size_t blocks_count,
    size_t size) {
  return noted("wide decrypt_cbc_records", ARGUMENTS((uintptr_t)context, (uintptr_t)context_count, (uintptr_t)vectors,
    (uintptr_t)vectors_count, (uintptr_t)counts, (uintptr_t)counts_count, (uintptr_t)blocks, (uintptr_t)blocks_count,
    (uintptr_t)size));
}
int cukvashe_wide_encrypt_stream(const uint64_t *context, size_t context_count, cukvashe_stream *stream, uint8_t *bytes,
    size_t bytes_count) {
  return noted("wide encrypt_stream", ARGUMENTS((uintptr_t)context, (uintptr_t)context_count, (uintptr_t)stream,
    (uintptr_t)bytes, (uintptr_t)bytes_count));
}
int cukvashe_wide_decrypt_stream(const uint64_t *context, size_t context_count, cukvashe_stream *stream, uint8_t *bytes,
    size_t bytes_count) {
  return noted("wide decrypt_stream", ARGUMENTS((uintptr_t)context, (uintptr_t)context_count, (uintptr_t)stream,
    (uintptr_t)bytes, (uintptr_t)bytes_count));
}
int cukvashe_wide_encrypt_mode(const uint64_t *context, size_t context_count, uint32_t mode, const uint8_t iv[8],
    uint8_t *bytes, size_t bytes_count) {
  return noted("wide encrypt_mode", ARGUMENTS((uintptr_t)context, (uintptr_t)context_count, (uintptr_t)mode,
    (uintptr_t)iv, (uintptr_t)bytes, (uintptr_t)bytes_count));
}
int cukvashe_wide_decrypt_mode(const uint64_t *context, size_t context_count, uint32_t mode, const uint8_t iv[8],
    uint8_t *bytes, size_t bytes_count) {
  return noted("wide decrypt_mode", ARGUMENTS((uintptr_t)context, (uintptr_t)context_count, (uintptr_t)mode,
    (uintptr_t)iv, (uintptr_t)bytes, (uintptr_t)bytes_count));
}
#endif
int cukvashe_unwiped_cms_wrap_key(const uint8_t *protection, size_t protection_count, const uint8_t iv[8],
    const uint8_t *key, size_t key_count, uint8_t *wrapped, size_t wrapped_count, size_t *wrapped_length) {
  return noted("unwiped cms_wrap_key", ARGUMENTS((uintptr_t)protection, (uintptr_t)protection_count, (uintptr_t)iv,
    (uintptr_t)key, (uintptr_t)key_count, (uintptr_t)wrapped, (uintptr_t)wrapped_count, (uintptr_t)wrapped_length));
}
int cukvashe_unwiped_cms_unwrap_key(const uint8_t *protection, size_t protection_count, const uint8_t *wrapped,
    size_t wrapped_count, uint8_t *key, size_t key_count, size_t *key_length) {
  return noted("unwiped cms_unwrap_key", ARGUMENTS((uintptr_t)protection, (uintptr_t)protection_count,
    (uintptr_t)wrapped, (uintptr_t)wrapped_count, (uintptr_t)key, (uintptr_t)key_count, (uintptr_t)key_length));
}
int cukvashe_unwiped_tkw_wrap_key(const uint8_t *protection, size_t protection_count, const uint8_t *key,
    size_t key_count, uint8_t *wrapped, size_t wrapped_count, size_t *wrapped_length) {
  return noted("unwiped tkw_wrap_key", ARGUMENTS((uintptr_t)protection, (uintptr_t)protection_count, (uintptr_t)key,
    (uintptr_t)key_count, (uintptr_t)wrapped, (uintptr_t)wrapped_count, (uintptr_t)wrapped_length));
}
int cukvashe_unwiped_tkw_unwrap_key(const uint8_t *protection, size_t protection_count, const uint8_t *wrapped,
    size_t wrapped_count, uint8_t *key, size_t key_count, size_t *key_length) {
  return noted("unwiped tkw_unwrap_key", ARGUMENTS((uintptr_t)protection, (uintptr_t)protection_count,
    (uintptr_t)wrapped, (uintptr_t)wrapped_count, (uintptr_t)key, (uintptr_t)key_count, (uintptr_t)key_length));
}
int cukvashe_unwiped_weak_key_test(const uint8_t *key, size_t key_length) {
  return noted("unwiped weak_key_test", ARGUMENTS((uintptr_t)key, (uintptr_t)key_length));
}
void cukvashe_unwiped_set_odd_parity(uint8_t *key, size_t key_length) {
  noted("unwiped set_odd_parity", ARGUMENTS((uintptr_t)key, (uintptr_t)key_length));
}
int cukvashe_unwiped_key_check_value(const uint8_t *key, size_t key_length, uint8_t value[3]) {
  return noted("unwiped key_check_value", ARGUMENTS((uintptr_t)key, (uintptr_t)key_length, (uintptr_t)value));
}
int cukvashe_unwiped_short_key_check_value(const uint8_t *key, size_t key_length, uint8_t value[2]) {
  return noted("unwiped short_key_check_value", ARGUMENTS((uintptr_t)key, (uintptr_t)key_length, (uintptr_t)value));
}
void cukvashe_unwiped_dukpt_initial_key(const uint8_t base[16], const uint8_t serial[10], uint8_t key[16]) {
  noted("unwiped dukpt_initial_key", ARGUMENTS((uintptr_t)base, (uintptr_t)serial, (uintptr_t)key));
}
void cukvashe_unwiped_dukpt_transaction_key(const uint8_t initial[16], const uint8_t serial[10], uint8_t key[16]) {
  noted("unwiped dukpt_transaction_key", ARGUMENTS((uintptr_t)initial, (uintptr_t)serial, (uintptr_t)key));
}
void cukvashe_unwiped_dukpt_pin_key(const uint8_t transaction[16], uint8_t key[16]) {
  noted("unwiped dukpt_pin_key", ARGUMENTS((uintptr_t)transaction, (uintptr_t)key));
}
void cukvashe_unwiped_dukpt_mac_key(const uint8_t transaction[16], bool is_response, uint8_t key[16]) {
  noted("unwiped dukpt_mac_key", ARGUMENTS((uintptr_t)transaction, (uintptr_t)is_response, (uintptr_t)key));
}
void cukvashe_unwiped_dukpt_data_key(const uint8_t transaction[16], bool is_response, uint8_t key[16]) {
  noted("unwiped dukpt_data_key", ARGUMENTS((uintptr_t)transaction, (uintptr_t)is_response, (uintptr_t)key));
}
void cukvashe_unwiped_dukpt_data_variant(const uint8_t transaction[16], bool is_response, uint8_t key[16]) {
  noted("unwiped dukpt_data_variant", ARGUMENTS((uintptr_t)transaction, (uintptr_t)is_response, (uintptr_t)key));
}
void cukvashe_unwiped_dukpt_terminal_init(cukvashe_dukpt_terminal *terminal, const uint8_t initial[16],
    const uint8_t serial[10]) {
  noted("unwiped dukpt_terminal_init", ARGUMENTS((uintptr_t)terminal, (uintptr_t)initial, (uintptr_t)serial));
}
int cukvashe_unwiped_dukpt_terminal_next_key(cukvashe_dukpt_terminal *terminal, uint8_t serial[10], uint8_t key[16]) {
  return noted("unwiped dukpt_terminal_next_key", ARGUMENTS((uintptr_t)terminal, (uintptr_t)serial, (uintptr_t)key));
}
int cukvashe_unwiped_pin_encode_0(const char *pin, size_t pin_length, const char *account, size_t account_length,
    uint8_t block[8]) {
  return noted("unwiped pin_encode_0", ARGUMENTS((uintptr_t)pin, (uintptr_t)pin_length, (uintptr_t)account,
    (uintptr_t)account_length, (uintptr_t)block));
}
int cukvashe_unwiped_pin_encode_1(const char *pin, size_t pin_length, const uint8_t transaction[10], uint8_t block[8]) {
  return noted("unwiped pin_encode_1", ARGUMENTS((uintptr_t)pin, (uintptr_t)pin_length, (uintptr_t)transaction,
    (uintptr_t)block));
}
int cukvashe_unwiped_pin_encode_2(const char *pin, size_t pin_length, uint8_t block[8]) {
  return noted("unwiped pin_encode_2", ARGUMENTS((uintptr_t)pin, (uintptr_t)pin_length, (uintptr_t)block));
}
int cukvashe_unwiped_pin_encode_3(const char *pin, size_t pin_length, const char *account, size_t account_length,
    const uint8_t fill[10], uint8_t block[8]) {
  return noted("unwiped pin_encode_3", ARGUMENTS((uintptr_t)pin, (uintptr_t)pin_length, (uintptr_t)account,
    (uintptr_t)account_length, (uintptr_t)fill, (uintptr_t)block));
}
int cukvashe_unwiped_pin_decode_0(const uint8_t block[8], const char *account, size_t account_length, char pin[13]) {
  return noted("unwiped pin_decode_0", ARGUMENTS((uintptr_t)block, (uintptr_t)account, (uintptr_t)account_length,
    (uintptr_t)pin));
}
int cukvashe_unwiped_pin_decode_1(const uint8_t block[8], char pin[13]) {
  return noted("unwiped pin_decode_1", ARGUMENTS((uintptr_t)block, (uintptr_t)pin));
}
int cukvashe_unwiped_pin_decode_2(const uint8_t block[8], char pin[13]) {
  return noted("unwiped pin_decode_2", ARGUMENTS((uintptr_t)block, (uintptr_t)pin));
}
int cukvashe_unwiped_pin_decode_3(const uint8_t block[8], const char *account, size_t account_length, char pin[13]) {
  return noted("unwiped pin_decode_3", ARGUMENTS((uintptr_t)block, (uintptr_t)account, (uintptr_t)account_length,
    (uintptr_t)pin));
}
int cukvashe_unwiped_pin_translate_to_0(const uint8_t *incoming, size_t incoming_count, uint32_t format,
    const uint8_t *outgoing, size_t outgoing_count, const uint8_t *account, size_t account_count,
    const uint8_t block[8], uint8_t translated[8]) {
  return noted("unwiped pin_translate_to_0", ARGUMENTS((uintptr_t)incoming, (uintptr_t)incoming_count,
    (uintptr_t)format, (uintptr_t)outgoing, (uintptr_t)outgoing_count, (uintptr_t)account, (uintptr_t)account_count,
    (uintptr_t)block, (uintptr_t)translated));
}
int cukvashe_unwiped_pin_translate_to_1(const uint8_t *incoming, size_t incoming_count, const uint8_t *outgoing,
    size_t outgoing_count, const uint8_t block[8], uint8_t translated[8]) {
  return noted("unwiped pin_translate_to_1", ARGUMENTS((uintptr_t)incoming, (uintptr_t)incoming_count,
    (uintptr_t)outgoing, (uintptr_t)outgoing_count, (uintptr_t)block, (uintptr_t)translated));
}
int cukvashe_unwiped_pin_translate_to_3(const uint8_t *incoming, size_t incoming_count, uint32_t format,
    const uint8_t *outgoing, size_t outgoing_count, const uint8_t *account, size_t account_count,
    const uint8_t fill[10], const uint8_t block[8], uint8_t translated[8]) {
  return noted("unwiped pin_translate_to_3", ARGUMENTS((uintptr_t)incoming, (uintptr_t)incoming_count,
    (uintptr_t)format, (uintptr_t)outgoing, (uintptr_t)outgoing_count, (uintptr_t)account, (uintptr_t)account_count,
    (uintptr_t)fill, (uintptr_t)block, (uintptr_t)translated));
}
int cukvashe_unwiped_pvv(const uint8_t key[16], const char *account, size_t account_length, int index, const char *pin,
    size_t pin_length, char value[5]) {
  return noted("unwiped pvv", ARGUMENTS((uintptr_t)key, (uintptr_t)account, (uintptr_t)account_length, (uintptr_t)index,
    (uintptr_t)pin, (uintptr_t)pin_length, (uintptr_t)value));
}
int cukvashe_unwiped_pvv_verify(const uint8_t key[16], const char *account, size_t account_length, int index,
    const char *pin, size_t pin_length, const char *value, size_t value_length) {
  return noted("unwiped pvv_verify", ARGUMENTS((uintptr_t)key, (uintptr_t)account, (uintptr_t)account_length,
    (uintptr_t)index, (uintptr_t)pin, (uintptr_t)pin_length, (uintptr_t)value, (uintptr_t)value_length));
}
int cukvashe_unwiped_natural_pin(const uint8_t *key, size_t key_length, const cukvashe_decimal_table *table,
    const uint8_t validation[8], size_t pin_length, char pin[13]) {
  return noted("unwiped natural_pin", ARGUMENTS((uintptr_t)key, (uintptr_t)key_length, (uintptr_t)table,
    (uintptr_t)validation, (uintptr_t)pin_length, (uintptr_t)pin));
}
int cukvashe_unwiped_pin_offset(const uint8_t *key, size_t key_length, const cukvashe_decimal_table *table,
    const uint8_t validation[8], const char *pin, size_t pin_length, char offset[13]) {
  return noted("unwiped pin_offset", ARGUMENTS((uintptr_t)key, (uintptr_t)key_length, (uintptr_t)table,
    (uintptr_t)validation, (uintptr_t)pin, (uintptr_t)pin_length, (uintptr_t)offset));
}
int cukvashe_unwiped_pin_offset_verify(const uint8_t *key, size_t key_length, const cukvashe_decimal_table *table,
    const uint8_t validation[8], const char *pin, size_t pin_length, const char *offset, size_t offset_length) {
  return noted("unwiped pin_offset_verify", ARGUMENTS((uintptr_t)key, (uintptr_t)key_length, (uintptr_t)table,
    (uintptr_t)validation, (uintptr_t)pin, (uintptr_t)pin_length, (uintptr_t)offset, (uintptr_t)offset_length));
}
int cukvashe_unwiped_cvv(const uint8_t key[16], const char *account, size_t account_length, const char *expiry,
    size_t expiry_length, const char *service, size_t service_length, char value[4]) {
  return noted("unwiped cvv", ARGUMENTS((uintptr_t)key, (uintptr_t)account, (uintptr_t)account_length,
    (uintptr_t)expiry, (uintptr_t)expiry_length, (uintptr_t)service, (uintptr_t)service_length, (uintptr_t)value));
}
int cukvashe_unwiped_emv_card_key(const uint8_t issuer[16], const char *account, size_t account_length,
    const char *sequence, size_t sequence_length, uint8_t key[16]) {
  return noted("unwiped emv_card_key", ARGUMENTS((uintptr_t)issuer, (uintptr_t)account, (uintptr_t)account_length,
    (uintptr_t)sequence, (uintptr_t)sequence_length, (uintptr_t)key));
}
int cukvashe_unwiped_emv_card_key_b(const uint8_t issuer[16], const char *account, size_t account_length,
    const char *sequence, size_t sequence_length, uint8_t key[16]) {
  return noted("unwiped emv_card_key_b", ARGUMENTS((uintptr_t)issuer, (uintptr_t)account, (uintptr_t)account_length,
    (uintptr_t)sequence, (uintptr_t)sequence_length, (uintptr_t)key));
}
void cukvashe_unwiped_emv_application_key(const uint8_t card[16], const uint8_t counter[2], uint8_t key[16]) {
  noted("unwiped emv_application_key", ARGUMENTS((uintptr_t)card, (uintptr_t)counter, (uintptr_t)key));
}
void cukvashe_unwiped_emv_session_key(const uint8_t card[16], const uint8_t block[8], uint8_t key[16]) {
  noted("unwiped emv_session_key", ARGUMENTS((uintptr_t)card, (uintptr_t)block, (uintptr_t)key));
}
void cukvashe_unwiped_emv_application_cryptogram(const uint8_t session[16], const uint8_t *data, size_t length,
    uint8_t cryptogram[8]) {
  noted("unwiped emv_application_cryptogram", ARGUMENTS((uintptr_t)session, (uintptr_t)data, (uintptr_t)length,
    (uintptr_t)cryptogram));
}
void cukvashe_unwiped_emv_response_1(const uint8_t session[16], const uint8_t cryptogram[8], const uint8_t code[2],
    uint8_t response[8]) {
  noted("unwiped emv_response_1", ARGUMENTS((uintptr_t)session, (uintptr_t)cryptogram, (uintptr_t)code,
    (uintptr_t)response));
}
int cukvashe_unwiped_emv_response_2(const uint8_t session[16], const uint8_t cryptogram[8], const uint8_t status[4],
    const uint8_t *data, size_t length, uint8_t response[4]) {
  return noted("unwiped emv_response_2", ARGUMENTS((uintptr_t)session, (uintptr_t)cryptogram, (uintptr_t)status,
    (uintptr_t)data, (uintptr_t)length, (uintptr_t)response));
}
int cukvashe_unwiped_key_block_unwrap(const uint8_t *protection, size_t protection_length, const char *block,
    size_t block_length, cukvashe_key_block_fields *header, uint8_t key[24], size_t *key_length) {
  return noted("unwiped key_block_unwrap", ARGUMENTS((uintptr_t)protection, (uintptr_t)protection_length,
    (uintptr_t)block, (uintptr_t)block_length, (uintptr_t)header, (uintptr_t)key, (uintptr_t)key_length));
}
int cukvashe_unwiped_key_block_wrap(const uint8_t *protection, size_t protection_count,
    const cukvashe_key_block_fields *header, const uint8_t *optional, size_t optional_count, const uint8_t *key,
    size_t key_count, const uint8_t *padding, size_t padding_count, uint8_t *block, size_t block_count,
    size_t *length) {
  return noted("unwiped key_block_wrap", ARGUMENTS((uintptr_t)protection, (uintptr_t)protection_count,
    (uintptr_t)header, (uintptr_t)optional, (uintptr_t)optional_count, (uintptr_t)key, (uintptr_t)key_count,
    (uintptr_t)padding, (uintptr_t)padding_count, (uintptr_t)block, (uintptr_t)block_count, (uintptr_t)length));
}
int cukvashe_unwiped_pbkdf2(uint32_t hash, const uint8_t *password, size_t password_count, const uint8_t *salt,
    size_t salt_count, size_t iterations, uint8_t *key, size_t key_count) {
  return noted("unwiped pbkdf2", ARGUMENTS((uintptr_t)hash, (uintptr_t)password, (uintptr_t)password_count,
    (uintptr_t)salt, (uintptr_t)salt_count, (uintptr_t)iterations, (uintptr_t)key, (uintptr_t)key_count));
}
int cukvashe_unwiped_bytes_to_key(int hash, const uint8_t *password, size_t password_length, const uint8_t *salt,
    size_t salt_length, uint8_t *key, size_t key_length) {
  return noted("unwiped bytes_to_key", ARGUMENTS((uintptr_t)hash, (uintptr_t)password, (uintptr_t)password_length,
    (uintptr_t)salt, (uintptr_t)salt_length, (uintptr_t)key, (uintptr_t)key_length));
}
int cukvashe_unwiped_pbe_key(const char *algorithm, size_t algorithm_length, size_t iterations, const uint8_t *password,
    size_t password_length, const uint8_t *salt, size_t salt_length, uint8_t *key, size_t key_length) {
  return noted("unwiped pbe_key", ARGUMENTS((uintptr_t)algorithm, (uintptr_t)algorithm_length, (uintptr_t)iterations,
    (uintptr_t)password, (uintptr_t)password_length, (uintptr_t)salt, (uintptr_t)salt_length, (uintptr_t)key,
    (uintptr_t)key_length));
}
