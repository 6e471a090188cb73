/* Each call that returns a status, with the faults that it is told to have. Made by bindings/describe. */
static int faulty_des_init(const bool *has) {
  return cukvashe_des_init((void *)contexts[0], key, has[0] ? 7 : CUKVASHE_DES_KEY_SIZE);
}
static int faulty_tdes_ede2_init(const bool *has) {
  return cukvashe_tdes_ede2_init((void *)contexts[1], key, has[0] ? 7 : CUKVASHE_TDES_EDE2_KEY_SIZE);
}
static int faulty_tdes_ede3_init(const bool *has) {
  return cukvashe_tdes_ede3_init((void *)contexts[2], key, has[0] ? 7 : CUKVASHE_TDES_EDE3_KEY_SIZE);
}
static int faulty_des_init_no_tables(const bool *has) {
  return cukvashe_des_init_no_tables((void *)contexts[0], key, has[0] ? 7 : CUKVASHE_DES_KEY_SIZE);
}
static int faulty_tdes_ede2_init_no_tables(const bool *has) {
  return cukvashe_tdes_ede2_init_no_tables((void *)contexts[1], key, has[0] ? 7 : CUKVASHE_TDES_EDE2_KEY_SIZE);
}
static int faulty_tdes_ede3_init_no_tables(const bool *has) {
  return cukvashe_tdes_ede3_init_no_tables((void *)contexts[2], key, has[0] ? 7 : CUKVASHE_TDES_EDE3_KEY_SIZE);
}
static int faulty_des_encrypt_ecb(const bool *has) {
  return cukvashe_des_encrypt_ecb(has[0] ? (void *)no_bytes : (void *)contexts[0], (void *)outputs[0],
    has[1] ? 8 * count + 1 : 8 * count);
}
static int faulty_des_decrypt_ecb(const bool *has) {
  return cukvashe_des_decrypt_ecb(has[0] ? (void *)no_bytes : (void *)contexts[0], (void *)outputs[0],
    has[1] ? 8 * count + 1 : 8 * count);
}
static int faulty_des_encrypt_ecb_to(const bool *has) {
  return cukvashe_des_encrypt_ecb_to(has[0] ? (void *)no_bytes : (void *)contexts[0], blocks, (void *)outputs[0],
    has[1] ? 8 * count + 1 : 8 * count);
}
static int faulty_des_decrypt_ecb_to(const bool *has) {
  return cukvashe_des_decrypt_ecb_to(has[0] ? (void *)no_bytes : (void *)contexts[0], blocks, (void *)outputs[0],
    has[1] ? 8 * count + 1 : 8 * count);
}
static int faulty_tdes_ede2_encrypt_ecb(const bool *has) {
  return cukvashe_tdes_ede2_encrypt_ecb(has[0] ? (void *)no_bytes : (void *)contexts[1], (void *)outputs[0],
    has[1] ? 8 * count + 1 : 8 * count);
}
static int faulty_tdes_ede2_decrypt_ecb(const bool *has) {
  return cukvashe_tdes_ede2_decrypt_ecb(has[0] ? (void *)no_bytes : (void *)contexts[1], (void *)outputs[0],
    has[1] ? 8 * count + 1 : 8 * count);
}
static int faulty_tdes_ede2_encrypt_ecb_to(const bool *has) {
  return cukvashe_tdes_ede2_encrypt_ecb_to(has[0] ? (void *)no_bytes : (void *)contexts[1], blocks, (void *)outputs[0],
    has[1] ? 8 * count + 1 : 8 * count);
}
static int faulty_tdes_ede2_decrypt_ecb_to(const bool *has) {
  return cukvashe_tdes_ede2_decrypt_ecb_to(has[0] ? (void *)no_bytes : (void *)contexts[1], blocks, (void *)outputs[0],
    has[1] ? 8 * count + 1 : 8 * count);
}
static int faulty_tdes_ede3_encrypt_ecb(const bool *has) {
  return cukvashe_tdes_ede3_encrypt_ecb(has[0] ? (void *)no_bytes : (void *)contexts[2], (void *)outputs[0],
    has[1] ? 8 * count + 1 : 8 * count);
}
static int faulty_tdes_ede3_decrypt_ecb(const bool *has) {
  return cukvashe_tdes_ede3_decrypt_ecb(has[0] ? (void *)no_bytes : (void *)contexts[2], (void *)outputs[0],
    has[1] ? 8 * count + 1 : 8 * count);
}
static int faulty_tdes_ede3_encrypt_ecb_to(const bool *has) {
  return cukvashe_tdes_ede3_encrypt_ecb_to(has[0] ? (void *)no_bytes : (void *)contexts[2], blocks, (void *)outputs[0],
    has[1] ? 8 * count + 1 : 8 * count);
}
static int faulty_tdes_ede3_decrypt_ecb_to(const bool *has) {
  return cukvashe_tdes_ede3_decrypt_ecb_to(has[0] ? (void *)no_bytes : (void *)contexts[2], blocks, (void *)outputs[0],
    has[1] ? 8 * count + 1 : 8 * count);
}
static int faulty_des_encrypt_cbc(const bool *has) {
  return cukvashe_des_encrypt_cbc(has[0] ? (void *)no_bytes : (void *)contexts[0], (void *)outputs[0],
    (void *)outputs[1], has[1] ? 8 * count + 1 : 8 * count);
}
static int faulty_des_decrypt_cbc(const bool *has) {
  return cukvashe_des_decrypt_cbc(has[0] ? (void *)no_bytes : (void *)contexts[0], (void *)outputs[0],
    (void *)outputs[1], has[1] ? 8 * count + 1 : 8 * count);
}
static int faulty_des_encrypt_cbc_to(const bool *has) {
  return cukvashe_des_encrypt_cbc_to(has[0] ? (void *)no_bytes : (void *)contexts[0], (void *)outputs[0], blocks,
    (void *)outputs[1], has[1] ? 8 * count + 1 : 8 * count);
}
static int faulty_des_decrypt_cbc_to(const bool *has) {
  return cukvashe_des_decrypt_cbc_to(has[0] ? (void *)no_bytes : (void *)contexts[0], (void *)outputs[0], blocks,
    (void *)outputs[1], has[1] ? 8 * count + 1 : 8 * count);
}
static int faulty_tdes_ede2_encrypt_cbc(const bool *has) {
  return cukvashe_tdes_ede2_encrypt_cbc(has[0] ? (void *)no_bytes : (void *)contexts[1], (void *)outputs[0],
    (void *)outputs[1], has[1] ? 8 * count + 1 : 8 * count);
}
static int faulty_tdes_ede2_decrypt_cbc(const bool *has) {
  return cukvashe_tdes_ede2_decrypt_cbc(has[0] ? (void *)no_bytes : (void *)contexts[1], (void *)outputs[0],
    (void *)outputs[1], has[1] ? 8 * count + 1 : 8 * count);
}
static int faulty_tdes_ede2_encrypt_cbc_to(const bool *has) {
  return cukvashe_tdes_ede2_encrypt_cbc_to(has[0] ? (void *)no_bytes : (void *)contexts[1], (void *)outputs[0], blocks,
    (void *)outputs[1], has[1] ? 8 * count + 1 : 8 * count);
}
static int faulty_tdes_ede2_decrypt_cbc_to(const bool *has) {
  return cukvashe_tdes_ede2_decrypt_cbc_to(has[0] ? (void *)no_bytes : (void *)contexts[1], (void *)outputs[0], blocks,
    (void *)outputs[1], has[1] ? 8 * count + 1 : 8 * count);
}
static int faulty_tdes_ede3_encrypt_cbc(const bool *has) {
  return cukvashe_tdes_ede3_encrypt_cbc(has[0] ? (void *)no_bytes : (void *)contexts[2], (void *)outputs[0],
    (void *)outputs[1], has[1] ? 8 * count + 1 : 8 * count);
}
static int faulty_tdes_ede3_decrypt_cbc(const bool *has) {
  return cukvashe_tdes_ede3_decrypt_cbc(has[0] ? (void *)no_bytes : (void *)contexts[2], (void *)outputs[0],
    (void *)outputs[1], has[1] ? 8 * count + 1 : 8 * count);
}
static int faulty_tdes_ede3_encrypt_cbc_to(const bool *has) {
  return cukvashe_tdes_ede3_encrypt_cbc_to(has[0] ? (void *)no_bytes : (void *)contexts[2], (void *)outputs[0], blocks,
    (void *)outputs[1], has[1] ? 8 * count + 1 : 8 * count);
}
static int faulty_tdes_ede3_decrypt_cbc_to(const bool *has) {
  return cukvashe_tdes_ede3_decrypt_cbc_to(has[0] ? (void *)no_bytes : (void *)contexts[2], (void *)outputs[0], blocks,
    (void *)outputs[1], has[1] ? 8 * count + 1 : 8 * count);
}
static int faulty_des_encrypt_mode(const bool *has) {
  return cukvashe_des_encrypt_mode(has[0] ? (void *)no_bytes : (void *)contexts[0], has[1] ? 0 : CUKVASHE_CTR, blocks,
    (void *)outputs[0], 8 * count);
}
static int faulty_tdes_ede2_encrypt_mode(const bool *has) {
  return cukvashe_tdes_ede2_encrypt_mode(has[0] ? (void *)no_bytes : (void *)contexts[1], has[1] ? 0 : CUKVASHE_CTR,
    blocks, (void *)outputs[0], 8 * count);
}
static int faulty_tdes_ede3_encrypt_mode(const bool *has) {
  return cukvashe_tdes_ede3_encrypt_mode(has[0] ? (void *)no_bytes : (void *)contexts[2], has[1] ? 0 : CUKVASHE_CTR,
    blocks, (void *)outputs[0], 8 * count);
}
static int faulty_des_decrypt_mode(const bool *has) {
  return cukvashe_des_decrypt_mode(has[0] ? (void *)no_bytes : (void *)contexts[0], has[1] ? 0 : CUKVASHE_CFB64, blocks,
    (void *)outputs[0], 8 * count);
}
static int faulty_tdes_ede2_decrypt_mode(const bool *has) {
  return cukvashe_tdes_ede2_decrypt_mode(has[0] ? (void *)no_bytes : (void *)contexts[1], has[1] ? 0 : CUKVASHE_CFB64,
    blocks, (void *)outputs[0], 8 * count);
}
static int faulty_tdes_ede3_decrypt_mode(const bool *has) {
  return cukvashe_tdes_ede3_decrypt_mode(has[0] ? (void *)no_bytes : (void *)contexts[2], has[1] ? 0 : CUKVASHE_CFB64,
    blocks, (void *)outputs[0], 8 * count);
}
static int faulty_stream_begin(const bool *has) {
  return cukvashe_stream_begin((void *)outputs[0], has[0] ? 0 : CUKVASHE_CTR, blocks);
}
static int faulty_des_encrypt_stream(const bool *has) {
  return cukvashe_des_encrypt_stream(has[0] ? (void *)no_bytes : (void *)contexts[0],
    has[1] ? (void *)no_bytes : &streams[0], (void *)outputs[0], 8 * count);
}
static int faulty_tdes_ede2_encrypt_stream(const bool *has) {
  return cukvashe_tdes_ede2_encrypt_stream(has[0] ? (void *)no_bytes : (void *)contexts[1],
    has[1] ? (void *)no_bytes : &streams[0], (void *)outputs[0], 8 * count);
}
static int faulty_tdes_ede3_encrypt_stream(const bool *has) {
  return cukvashe_tdes_ede3_encrypt_stream(has[0] ? (void *)no_bytes : (void *)contexts[2],
    has[1] ? (void *)no_bytes : &streams[0], (void *)outputs[0], 8 * count);
}
static int faulty_des_decrypt_stream(const bool *has) {
  return cukvashe_des_decrypt_stream(has[0] ? (void *)no_bytes : (void *)contexts[0],
    has[1] ? (void *)no_bytes : &streams[2], (void *)outputs[0], 8 * count);
}
static int faulty_tdes_ede2_decrypt_stream(const bool *has) {
  return cukvashe_tdes_ede2_decrypt_stream(has[0] ? (void *)no_bytes : (void *)contexts[1],
    has[1] ? (void *)no_bytes : &streams[2], (void *)outputs[0], 8 * count);
}
static int faulty_tdes_ede3_decrypt_stream(const bool *has) {
  return cukvashe_tdes_ede3_decrypt_stream(has[0] ? (void *)no_bytes : (void *)contexts[2],
    has[1] ? (void *)no_bytes : &streams[2], (void *)outputs[0], 8 * count);
}
static int faulty_des_encrypt_stream_bits(const bool *has) {
  return cukvashe_des_encrypt_stream_bits(has[0] ? (void *)no_bytes : (void *)contexts[0],
    has[1] ? (void *)no_bytes : has[2] ? &streams[0] : &streams[1], (void *)outputs[0], 8 * count);
}
static int faulty_tdes_ede2_encrypt_stream_bits(const bool *has) {
  return cukvashe_tdes_ede2_encrypt_stream_bits(has[0] ? (void *)no_bytes : (void *)contexts[1],
    has[1] ? (void *)no_bytes : has[2] ? &streams[0] : &streams[1], (void *)outputs[0], 8 * count);
}
static int faulty_tdes_ede3_encrypt_stream_bits(const bool *has) {
  return cukvashe_tdes_ede3_encrypt_stream_bits(has[0] ? (void *)no_bytes : (void *)contexts[2],
    has[1] ? (void *)no_bytes : has[2] ? &streams[0] : &streams[1], (void *)outputs[0], 8 * count);
}
static int faulty_des_decrypt_stream_bits(const bool *has) {
  return cukvashe_des_decrypt_stream_bits(has[0] ? (void *)no_bytes : (void *)contexts[0],
    has[1] ? (void *)no_bytes : has[2] ? &streams[0] : &streams[1], (void *)outputs[0], 8 * count);
}
static int faulty_tdes_ede2_decrypt_stream_bits(const bool *has) {
  return cukvashe_tdes_ede2_decrypt_stream_bits(has[0] ? (void *)no_bytes : (void *)contexts[1],
    has[1] ? (void *)no_bytes : has[2] ? &streams[0] : &streams[1], (void *)outputs[0], 8 * count);
}
static int faulty_tdes_ede3_decrypt_stream_bits(const bool *has) {
  return cukvashe_tdes_ede3_decrypt_stream_bits(has[0] ? (void *)no_bytes : (void *)contexts[2],
    has[1] ? (void *)no_bytes : has[2] ? &streams[0] : &streams[1], (void *)outputs[0], 8 * count);
}
static int faulty_cms_wrap_key(const bool *has) {
  return cukvashe_cms_wrap_key(key, has[1] ? 8 : 24, blocks, key, has[2] ? 7 : 24,
    has[0] ? (void *)key : (void *)outputs[0], has[3] ? 7 : sizeof blocks, (void *)outputs[1]);
}
static int faulty_tkw_wrap_key(const bool *has) {
  return cukvashe_tkw_wrap_key(key, has[1] ? 8 : 24, key, has[2] ? 7 : 24, has[0] ? (void *)key : (void *)outputs[0],
    has[3] ? 7 : sizeof blocks, (void *)outputs[1]);
}
static int faulty_cms_unwrap_key(const bool *has) {
  return cukvashe_cms_unwrap_key(key, has[1] ? 8 : 24, blocks, has[2] ? 9 : 40,
    has[0] ? (void *)blocks : (void *)outputs[0], has[3] ? 7 : sizeof blocks, (void *)outputs[1]);
}
static int faulty_tkw_unwrap_key(const bool *has) {
  return cukvashe_tkw_unwrap_key(key, has[1] ? 8 : 24, blocks, has[2] ? 9 : 40,
    has[0] ? (void *)blocks : (void *)outputs[0], has[3] ? 7 : sizeof blocks, (void *)outputs[1]);
}
static int faulty_des_encrypt_each(const bool *has) {
  return cukvashe_des_encrypt_each(keys, has[1] ? count + 1 : count, (void *)outputs[0],
    has[0] ? 8 * count + 1 : 8 * count);
}
static int faulty_des_decrypt_each(const bool *has) {
  return cukvashe_des_decrypt_each(keys, has[1] ? count + 1 : count, (void *)outputs[0],
    has[0] ? 8 * count + 1 : 8 * count);
}
static int faulty_tdes_ede2_encrypt_each(const bool *has) {
  return cukvashe_tdes_ede2_encrypt_each(keys, has[1] ? count + 1 : count, (void *)outputs[0],
    has[0] ? 8 * count + 1 : 8 * count);
}
static int faulty_tdes_ede2_decrypt_each(const bool *has) {
  return cukvashe_tdes_ede2_decrypt_each(keys, has[1] ? count + 1 : count, (void *)outputs[0],
    has[0] ? 8 * count + 1 : 8 * count);
}
static int faulty_tdes_ede3_encrypt_each(const bool *has) {
  return cukvashe_tdes_ede3_encrypt_each(keys, has[1] ? count + 1 : count, (void *)outputs[0],
    has[0] ? 8 * count + 1 : 8 * count);
}
static int faulty_tdes_ede3_decrypt_each(const bool *has) {
  return cukvashe_tdes_ede3_decrypt_each(keys, has[1] ? count + 1 : count, (void *)outputs[0],
    has[0] ? 8 * count + 1 : 8 * count);
}
static int faulty_des_encrypt_cbc_records(const bool *has) {
  return cukvashe_des_encrypt_cbc_records(has[1] ? (void *)no_bytes : (void *)contexts[0], (void *)outputs[0],
    has[0] ? 8 * count + 1 : 8 * count, has[3] ? no_counts : ones, count, (void *)outputs[1],
    has[2] ? 8 * count + 1 : 8 * count);
}
static int faulty_des_decrypt_cbc_records(const bool *has) {
  return cukvashe_des_decrypt_cbc_records(has[1] ? (void *)no_bytes : (void *)contexts[0], (void *)outputs[0],
    has[0] ? 8 * count + 1 : 8 * count, has[3] ? no_counts : ones, count, (void *)outputs[1],
    has[2] ? 8 * count + 1 : 8 * count);
}
static int faulty_tdes_ede2_encrypt_cbc_records(const bool *has) {
  return cukvashe_tdes_ede2_encrypt_cbc_records(has[1] ? (void *)no_bytes : (void *)contexts[1], (void *)outputs[0],
    has[0] ? 8 * count + 1 : 8 * count, has[3] ? no_counts : ones, count, (void *)outputs[1],
    has[2] ? 8 * count + 1 : 8 * count);
}
static int faulty_tdes_ede2_decrypt_cbc_records(const bool *has) {
  return cukvashe_tdes_ede2_decrypt_cbc_records(has[1] ? (void *)no_bytes : (void *)contexts[1], (void *)outputs[0],
    has[0] ? 8 * count + 1 : 8 * count, has[3] ? no_counts : ones, count, (void *)outputs[1],
    has[2] ? 8 * count + 1 : 8 * count);
}
static int faulty_tdes_ede3_encrypt_cbc_records(const bool *has) {
  return cukvashe_tdes_ede3_encrypt_cbc_records(has[1] ? (void *)no_bytes : (void *)contexts[2], (void *)outputs[0],
    has[0] ? 8 * count + 1 : 8 * count, has[3] ? no_counts : ones, count, (void *)outputs[1],
    has[2] ? 8 * count + 1 : 8 * count);
}
static int faulty_tdes_ede3_decrypt_cbc_records(const bool *has) {
  return cukvashe_tdes_ede3_decrypt_cbc_records(has[1] ? (void *)no_bytes : (void *)contexts[2], (void *)outputs[0],
    has[0] ? 8 * count + 1 : 8 * count, has[3] ? no_counts : ones, count, (void *)outputs[1],
    has[2] ? 8 * count + 1 : 8 * count);
}
static int faulty_pad(const bool *has) {
  return cukvashe_pad((void *)outputs[0], 77, has[1] ? 77 : sizeof blocks, has[0] ? 0 : CUKVASHE_PKCS7,
    (void *)outputs[1]);
}
static int faulty_unpad(const bool *has) {
  return cukvashe_unpad(blocks, has[1] ? 9 : 80, has[0] ? 0 : CUKVASHE_PKCS7, (void *)outputs[0]);
}
static int faulty_weak_key_test(const bool *has) {
  return cukvashe_weak_key_test(has[1] ? no_bytes : key, has[0] ? 7 : 24);
}
static int faulty_cbc_mac_des_init(const bool *has) {
  return cukvashe_cbc_mac_des_init((void *)contexts[3], key, has[0] ? 7 : CUKVASHE_CBC_MAC_DES_KEY_SIZE,
    has[1] ? 0 : 1);
}
static int faulty_cbc_mac_tdes_ede2_init(const bool *has) {
  return cukvashe_cbc_mac_tdes_ede2_init((void *)contexts[4], key, has[0] ? 7 : CUKVASHE_CBC_MAC_TDES_EDE2_KEY_SIZE,
    has[1] ? 0 : 1);
}
static int faulty_cbc_mac_tdes_ede3_init(const bool *has) {
  return cukvashe_cbc_mac_tdes_ede3_init((void *)contexts[5], key, has[0] ? 7 : CUKVASHE_CBC_MAC_TDES_EDE3_KEY_SIZE,
    has[1] ? 0 : 1);
}
static int faulty_retail_mac_des_init(const bool *has) {
  return cukvashe_retail_mac_des_init((void *)contexts[6], key, has[0] ? 7 : CUKVASHE_RETAIL_MAC_DES_KEY_SIZE,
    has[1] ? 0 : 1);
}
static int faulty_cmac_tdes_ede2_init(const bool *has) {
  return cukvashe_cmac_tdes_ede2_init((void *)contexts[7], key, has[0] ? 7 : CUKVASHE_CMAC_TDES_EDE2_KEY_SIZE);
}
static int faulty_cmac_tdes_ede3_init(const bool *has) {
  return cukvashe_cmac_tdes_ede3_init((void *)contexts[8], key, has[0] ? 7 : CUKVASHE_CMAC_TDES_EDE3_KEY_SIZE);
}
static int faulty_cbc_mac_des_init_no_tables(const bool *has) {
  return cukvashe_cbc_mac_des_init_no_tables((void *)contexts[3], key, has[0] ? 7 : CUKVASHE_CBC_MAC_DES_KEY_SIZE,
    has[1] ? 0 : 1);
}
static int faulty_cbc_mac_tdes_ede2_init_no_tables(const bool *has) {
  return cukvashe_cbc_mac_tdes_ede2_init_no_tables((void *)contexts[4], key,
    has[0] ? 7 : CUKVASHE_CBC_MAC_TDES_EDE2_KEY_SIZE, has[1] ? 0 : 1);
}
static int faulty_cbc_mac_tdes_ede3_init_no_tables(const bool *has) {
  return cukvashe_cbc_mac_tdes_ede3_init_no_tables((void *)contexts[5], key,
    has[0] ? 7 : CUKVASHE_CBC_MAC_TDES_EDE3_KEY_SIZE, has[1] ? 0 : 1);
}
static int faulty_retail_mac_des_init_no_tables(const bool *has) {
  return cukvashe_retail_mac_des_init_no_tables((void *)contexts[6], key, has[0] ? 7 : CUKVASHE_RETAIL_MAC_DES_KEY_SIZE,
    has[1] ? 0 : 1);
}
static int faulty_cmac_tdes_ede2_init_no_tables(const bool *has) {
  return cukvashe_cmac_tdes_ede2_init_no_tables((void *)contexts[7], key,
    has[0] ? 7 : CUKVASHE_CMAC_TDES_EDE2_KEY_SIZE);
}
static int faulty_cmac_tdes_ede3_init_no_tables(const bool *has) {
  return cukvashe_cmac_tdes_ede3_init_no_tables((void *)contexts[8], key,
    has[0] ? 7 : CUKVASHE_CMAC_TDES_EDE3_KEY_SIZE);
}
static int faulty_cbc_mac_des_update(const bool *has) {
  return cukvashe_cbc_mac_des_update(has[0] ? (void *)no_bytes : (void *)contexts[3], blocks, 8 * count);
}
static int faulty_cbc_mac_tdes_ede2_update(const bool *has) {
  return cukvashe_cbc_mac_tdes_ede2_update(has[0] ? (void *)no_bytes : (void *)contexts[4], blocks, 8 * count);
}
static int faulty_cbc_mac_tdes_ede3_update(const bool *has) {
  return cukvashe_cbc_mac_tdes_ede3_update(has[0] ? (void *)no_bytes : (void *)contexts[5], blocks, 8 * count);
}
static int faulty_retail_mac_des_update(const bool *has) {
  return cukvashe_retail_mac_des_update(has[0] ? (void *)no_bytes : (void *)contexts[6], blocks, 8 * count);
}
static int faulty_cmac_tdes_ede2_update(const bool *has) {
  return cukvashe_cmac_tdes_ede2_update(has[0] ? (void *)no_bytes : (void *)contexts[7], blocks, 8 * count);
}
static int faulty_cmac_tdes_ede3_update(const bool *has) {
  return cukvashe_cmac_tdes_ede3_update(has[0] ? (void *)no_bytes : (void *)contexts[8], blocks, 8 * count);
}
static int faulty_cbc_mac_des_final(const bool *has) {
  return cukvashe_cbc_mac_des_final(has[0] ? (void *)no_bytes : (void *)contexts[3], (void *)outputs[0]);
}
static int faulty_cbc_mac_tdes_ede2_final(const bool *has) {
  return cukvashe_cbc_mac_tdes_ede2_final(has[0] ? (void *)no_bytes : (void *)contexts[4], (void *)outputs[0]);
}
static int faulty_cbc_mac_tdes_ede3_final(const bool *has) {
  return cukvashe_cbc_mac_tdes_ede3_final(has[0] ? (void *)no_bytes : (void *)contexts[5], (void *)outputs[0]);
}
static int faulty_retail_mac_des_final(const bool *has) {
  return cukvashe_retail_mac_des_final(has[0] ? (void *)no_bytes : (void *)contexts[6], (void *)outputs[0]);
}
static int faulty_cmac_tdes_ede2_final(const bool *has) {
  return cukvashe_cmac_tdes_ede2_final(has[0] ? (void *)no_bytes : (void *)contexts[7], (void *)outputs[0]);
}
static int faulty_cmac_tdes_ede3_final(const bool *has) {
  return cukvashe_cmac_tdes_ede3_final(has[0] ? (void *)no_bytes : (void *)contexts[8], (void *)outputs[0]);
}
static int faulty_cbc_mac_des_verify(const bool *has) {
  return cukvashe_cbc_mac_des_verify(has[0] ? (void *)no_bytes : (void *)contexts[3], blocks, 8);
}
static int faulty_cbc_mac_tdes_ede2_verify(const bool *has) {
  return cukvashe_cbc_mac_tdes_ede2_verify(has[0] ? (void *)no_bytes : (void *)contexts[4], blocks, 8);
}
static int faulty_cbc_mac_tdes_ede3_verify(const bool *has) {
  return cukvashe_cbc_mac_tdes_ede3_verify(has[0] ? (void *)no_bytes : (void *)contexts[5], blocks, 8);
}
static int faulty_retail_mac_des_verify(const bool *has) {
  return cukvashe_retail_mac_des_verify(has[0] ? (void *)no_bytes : (void *)contexts[6], blocks, 8);
}
static int faulty_cmac_tdes_ede2_verify(const bool *has) {
  return cukvashe_cmac_tdes_ede2_verify(has[0] ? (void *)no_bytes : (void *)contexts[7], blocks, 8);
}
static int faulty_cmac_tdes_ede3_verify(const bool *has) {
  return cukvashe_cmac_tdes_ede3_verify(has[0] ? (void *)no_bytes : (void *)contexts[8], blocks, 8);
}
static int faulty_compare_tags(const bool *has) {
  return cukvashe_compare_tags(blocks, 8 * count, blocks, 8 * count, (void *)outputs[0], has[0] ? count + 1 : count);
}
static int faulty_cbc_mac_des_macs(const bool *has) {
  return cukvashe_cbc_mac_des_macs(key, has[0] ? 7 : CUKVASHE_CBC_MAC_DES_KEY_SIZE, has[2] ? 0 : 1, messages,
    (void *)outputs[0], 8 * count, has[1] ? count + 1 : count);
}
static int faulty_cbc_mac_des_macs_each(const bool *has) {
  return cukvashe_cbc_mac_des_macs_each(keys, CUKVASHE_CBC_MAC_DES_KEY_SIZE * count, has[1] ? 0 : 1, messages,
    (void *)outputs[0], 8 * count, has[0] ? count + 1 : count);
}
static int faulty_cbc_mac_tdes_ede2_macs(const bool *has) {
  return cukvashe_cbc_mac_tdes_ede2_macs(key, has[0] ? 7 : CUKVASHE_CBC_MAC_TDES_EDE2_KEY_SIZE, has[2] ? 0 : 1,
    messages, (void *)outputs[0], 8 * count, has[1] ? count + 1 : count);
}
static int faulty_cbc_mac_tdes_ede2_macs_each(const bool *has) {
  return cukvashe_cbc_mac_tdes_ede2_macs_each(keys, CUKVASHE_CBC_MAC_TDES_EDE2_KEY_SIZE * count, has[1] ? 0 : 1,
    messages, (void *)outputs[0], 8 * count, has[0] ? count + 1 : count);
}
static int faulty_cbc_mac_tdes_ede3_macs(const bool *has) {
  return cukvashe_cbc_mac_tdes_ede3_macs(key, has[0] ? 7 : CUKVASHE_CBC_MAC_TDES_EDE3_KEY_SIZE, has[2] ? 0 : 1,
    messages, (void *)outputs[0], 8 * count, has[1] ? count + 1 : count);
}
static int faulty_cbc_mac_tdes_ede3_macs_each(const bool *has) {
  return cukvashe_cbc_mac_tdes_ede3_macs_each(keys, CUKVASHE_CBC_MAC_TDES_EDE3_KEY_SIZE * count, has[1] ? 0 : 1,
    messages, (void *)outputs[0], 8 * count, has[0] ? count + 1 : count);
}
static int faulty_retail_mac_des_macs(const bool *has) {
  return cukvashe_retail_mac_des_macs(key, has[0] ? 7 : CUKVASHE_RETAIL_MAC_DES_KEY_SIZE, has[2] ? 0 : 1, messages,
    (void *)outputs[0], 8 * count, has[1] ? count + 1 : count);
}
static int faulty_retail_mac_des_macs_each(const bool *has) {
  return cukvashe_retail_mac_des_macs_each(keys, CUKVASHE_RETAIL_MAC_DES_KEY_SIZE * count, has[1] ? 0 : 1, messages,
    (void *)outputs[0], 8 * count, has[0] ? count + 1 : count);
}
static int faulty_cmac_tdes_ede2_macs(const bool *has) {
  return cukvashe_cmac_tdes_ede2_macs(key, has[0] ? 7 : CUKVASHE_CMAC_TDES_EDE2_KEY_SIZE, messages, (void *)outputs[0],
    8 * count, has[1] ? count + 1 : count);
}
static int faulty_cmac_tdes_ede2_macs_each(const bool *has) {
  return cukvashe_cmac_tdes_ede2_macs_each(keys, CUKVASHE_CMAC_TDES_EDE2_KEY_SIZE * count, messages, (void *)outputs[0],
    8 * count, has[0] ? count + 1 : count);
}
static int faulty_cmac_tdes_ede3_macs(const bool *has) {
  return cukvashe_cmac_tdes_ede3_macs(key, has[0] ? 7 : CUKVASHE_CMAC_TDES_EDE3_KEY_SIZE, messages, (void *)outputs[0],
    8 * count, has[1] ? count + 1 : count);
}
static int faulty_cmac_tdes_ede3_macs_each(const bool *has) {
  return cukvashe_cmac_tdes_ede3_macs_each(keys, CUKVASHE_CMAC_TDES_EDE3_KEY_SIZE * count, messages, (void *)outputs[0],
    8 * count, has[0] ? count + 1 : count);
}
static int faulty_des_check_value(const bool *has) {
  return cukvashe_des_check_value(key, has[0] ? 7 : CUKVASHE_DES_KEY_SIZE, (void *)outputs[0]);
}
static int faulty_tdes_ede2_check_value(const bool *has) {
  return cukvashe_tdes_ede2_check_value(key, has[0] ? 7 : CUKVASHE_TDES_EDE2_KEY_SIZE, (void *)outputs[0]);
}
static int faulty_tdes_ede3_check_value(const bool *has) {
  return cukvashe_tdes_ede3_check_value(key, has[0] ? 7 : CUKVASHE_TDES_EDE3_KEY_SIZE, (void *)outputs[0]);
}
static int faulty_key_check_value(const bool *has) {
  return cukvashe_key_check_value(key, has[0] ? 7 : 24, (void *)outputs[0]);
}
static int faulty_short_key_check_value(const bool *has) {
  return cukvashe_short_key_check_value(key, has[0] ? 7 : 24, (void *)outputs[0]);
}
static int faulty_des_check_values(const bool *has) {
  return cukvashe_des_check_values(keys, CUKVASHE_DES_KEY_SIZE * count, (void *)outputs[0], 3 * count,
    has[0] ? count + 1 : count);
}
static int faulty_tdes_ede2_check_values(const bool *has) {
  return cukvashe_tdes_ede2_check_values(keys, CUKVASHE_TDES_EDE2_KEY_SIZE * count, (void *)outputs[0], 3 * count,
    has[0] ? count + 1 : count);
}
static int faulty_tdes_ede3_check_values(const bool *has) {
  return cukvashe_tdes_ede3_check_values(keys, CUKVASHE_TDES_EDE3_KEY_SIZE * count, (void *)outputs[0], 3 * count,
    has[0] ? count + 1 : count);
}
static int faulty_combine_8(const bool *has) {
  return cukvashe_combine_8(has[1] ? no_bytes : key, others, others, 8, has[0] ? 2 : 1, (void *)outputs[0]);
}
static int faulty_combine_16(const bool *has) {
  return cukvashe_combine_16(has[1] ? no_bytes : key, others, others, 16, has[0] ? 2 : 1, (void *)outputs[0]);
}
static int faulty_combine_24(const bool *has) {
  return cukvashe_combine_24(has[1] ? no_bytes : key, others, others, 24, has[0] ? 2 : 1, (void *)outputs[0]);
}
static int faulty_dukpt_next_serial(const bool *has) {
  return cukvashe_dukpt_next_serial(has[0] ? last_serial : serial, (void *)outputs[0]);
}
static int faulty_dukpt_transaction_keys_from_base(const bool *has) {
  return cukvashe_dukpt_transaction_keys_from_base(key, blocks, 10 * count, (void *)outputs[0], 16 * count,
    has[0] ? count + 1 : count);
}
static int faulty_dukpt_terminal_next_key(const bool *has) {
  return cukvashe_dukpt_terminal_next_key(has[0] ? (void *)no_bytes : &terminal, (void *)outputs[0],
    (void *)outputs[1]);
}
static int faulty_pin_encode_0(const bool *has) {
  return cukvashe_pin_encode_0(has[1] ? "x23456789012" : pin_digits, has[0] ? 3 : 12,
    has[3] ? "x012345678909" : "4012345678909", has[2] ? 7 : 13, (void *)outputs[0]);
}
static int faulty_pin_encode_1(const bool *has) {
  return cukvashe_pin_encode_1(has[1] ? "x23456789012" : pin_digits, has[0] ? 3 : 12, has[2] ? no_digits : fill,
    (void *)outputs[0]);
}
static int faulty_pin_encode_2(const bool *has) {
  return cukvashe_pin_encode_2(has[1] ? "x23456789012" : pin_digits, has[0] ? 3 : 12, (void *)outputs[0]);
}
static int faulty_pin_encode_3(const bool *has) {
  return cukvashe_pin_encode_3(has[1] ? "x23456789012" : pin_digits, has[0] ? 3 : 12,
    has[3] ? "x012345678909" : "4012345678909", has[2] ? 7 : 13, has[4] ? no_digits : fill, (void *)outputs[0]);
}
static int faulty_pin_decode_0(const bool *has) {
  return cukvashe_pin_decode_0(has[2] ? no_format : sent, has[1] ? "x012345678909" : "4012345678909", has[0] ? 7 : 13,
    (void *)outputs[0]);
}
static int faulty_pin_decode_1(const bool *has) {
  return cukvashe_pin_decode_1(has[0] ? no_format : sent + 8, (void *)outputs[0]);
}
static int faulty_pin_decode_2(const bool *has) {
  return cukvashe_pin_decode_2(has[0] ? no_format : sent, (void *)outputs[0]);
}
static int faulty_pin_decode_3(const bool *has) {
  return cukvashe_pin_decode_3(has[2] ? no_format : sent, has[1] ? "x012345678909" : "4012345678909", has[0] ? 7 : 13,
    (void *)outputs[0]);
}
static int faulty_pin_translate_to_0(const bool *has) {
  return cukvashe_pin_translate_to_0(&(cukvashe_pin_translation){.incoming_key = translations[0].incoming_key,
    .incoming_key_length = has[0] ? 7 : translations[0].incoming_key_length,
    .incoming_format = has[1] ? 2 : translations[0].incoming_format, .outgoing_key = translations[0].outgoing_key,
    .outgoing_key_length = translations[0].outgoing_key_length,
    .account = has[3] ? "x012345678909" : translations[0].account,
    .account_length = has[2] ? 7 : translations[0].account_length, .fill = translations[0].fill},
    has[4] ? no_bytes : sent, (void *)outputs[0]);
}
static int faulty_pin_translate_to_3(const bool *has) {
  return cukvashe_pin_translate_to_3(&(cukvashe_pin_translation){.incoming_key = translations[0].incoming_key,
    .incoming_key_length = has[0] ? 7 : translations[0].incoming_key_length,
    .incoming_format = has[1] ? 2 : translations[0].incoming_format, .outgoing_key = translations[0].outgoing_key,
    .outgoing_key_length = translations[0].outgoing_key_length,
    .account = has[3] ? "x012345678909" : translations[0].account,
    .account_length = has[2] ? 7 : translations[0].account_length, .fill = has[4] ? no_digits : translations[0].fill},
    has[5] ? no_bytes : sent, (void *)outputs[0]);
}
static int faulty_pin_translate_to_1(const bool *has) {
  return cukvashe_pin_translate_to_1(&(cukvashe_pin_translation){.incoming_key = translations[1].incoming_key,
    .incoming_key_length = has[1] ? 7 : translations[1].incoming_key_length,
    .incoming_format = has[0] ? 2 : translations[1].incoming_format, .outgoing_key = translations[1].outgoing_key,
    .outgoing_key_length = translations[1].outgoing_key_length, .account = translations[1].account,
    .account_length = translations[1].account_length, .fill = translations[1].fill}, has[2] ? no_bytes : sent + 8,
    (void *)outputs[0]);
}
static int faulty_pvv(const bool *has) {
  return cukvashe_pvv(key, has[3] ? "x012345678909" : "4012345678909", has[2] ? 7 : 13, has[4] ? 0 : 1,
    has[1] ? "x23456789012" : pin_digits, has[0] ? 3 : 12, (void *)outputs[0]);
}
static int faulty_pvv_verify(const bool *has) {
  return cukvashe_pvv_verify(key, has[3] ? "x012345678909" : "4012345678909", has[2] ? 7 : 13, has[4] ? 0 : 1,
    has[1] ? "x23456789012" : pin_digits, has[0] ? 3 : 12, pin_digits, 4);
}
static int faulty_decimal_table_init(const bool *has) {
  return cukvashe_decimal_table_init((void *)outputs[0],
    has[1] ? "x101010101010101" : has[2] ? "0101010101010101" : "0123456789012345", has[0] ? 15 : 16);
}
static int faulty_decimal_table_init_any(const bool *has) {
  return cukvashe_decimal_table_init_any((void *)outputs[0], has[1] ? "x101010101010101" : "0000000000000000",
    has[0] ? 15 : 16);
}
static int faulty_natural_pin(const bool *has) {
  return cukvashe_natural_pin(key, has[1] ? 7 : 24, has[0] ? (const void *)no_bytes : &table, blocks, has[2] ? 13 : 12,
    (void *)outputs[0]);
}
static int faulty_pin_offset(const bool *has) {
  return cukvashe_pin_offset(key, has[3] ? 7 : 24, has[2] ? (const void *)no_bytes : &table, blocks,
    has[1] ? "x23456789012" : pin_digits, has[0] ? 3 : 12, (void *)outputs[0]);
}
static int faulty_pin_offset_verify(const bool *has) {
  return cukvashe_pin_offset_verify(key, has[5] ? 7 : 24, has[4] ? (const void *)no_bytes : &table, blocks,
    has[1] ? "x23456789012" : pin_digits, has[0] ? 3 : 12, has[3] ? "x23456789012" : pin_digits, has[2] ? 3 : 12);
}
static int faulty_cvv(const bool *has) {
  return cukvashe_cvv(key, has[1] ? "x012345678909" : "4012345678909", has[0] ? 7 : 13, has[3] ? "x701" : "8701",
    has[2] ? 3 : 4, has[5] ? "x01" : "101", has[4] ? 2 : 3, (void *)outputs[0]);
}
static int faulty_emv_card_key(const bool *has) {
  return cukvashe_emv_card_key(key, has[1] ? "x012345678909" : "4012345678909", has[0] ? 7 : 13, has[3] ? "x0" : "00",
    has[2] ? 1 : 2, (void *)outputs[0]);
}
static int faulty_emv_card_key_b(const bool *has) {
  return cukvashe_emv_card_key_b(key, has[1] ? "x012345678909" : "6304000000000000001", has[0] ? 7 : 19,
    has[3] ? "x0" : "00", has[2] ? 1 : 2, (void *)outputs[0]);
}
static int faulty_emv_response_2(const bool *has) {
  return cukvashe_emv_response_2(key, blocks, blocks, blocks, has[0] ? 9 : 8, (void *)outputs[0]);
}
static int faulty_key_block_unwrap(const bool *has) {
  return cukvashe_key_block_unwrap(key, has[0] ? 8 : 24,
    has[2] ? block_with(VERSION) : has[3] ? block_with(HEADER) : has[4] ? block_with(OPTIONAL_BLOCK) : has[5] ? block_with(KEY_DATA_LENGTH) : has[6] ? block_with(KEY_BLOCK_DIGIT) : has[7] ? block_with(KEY_BLOCK_MAC) : key_block,
    has[1] ? key_block_length - 1 : key_block_length, (void *)outputs[0], (void *)outputs[1], (void *)outputs[2]);
}
static int faulty_key_block_wrap(const bool *has) {
  return cukvashe_key_block_wrap(&(cukvashe_key_block_parts){.protection = parts.protection,
    .protection_length = has[2] ? 8 : parts.protection_length,
    .header = has[0] ? no_version : has[3] ? no_mode : parts.header, .optional = parts.optional,
    .optional_length = has[1] ? 1 : parts.optional_length, .key = parts.key,
    .key_length = has[4] ? 7 : parts.key_length, .padding = parts.padding,
    .padding_length = has[5] ? 7 : parts.padding_length}, key_block, has[6] ? 80 : sizeof key_block, &key_block_length);
}
static int faulty_key_block_header(const bool *has) {
  return cukvashe_key_block_header(has[1] ? block_with(VERSION) : has[2] ? block_with(HEADER) : has[3] ? block_with(OPTIONAL_BLOCK) : has[4] ? block_with(KEY_DATA_LENGTH) : key_block,
    has[0] ? key_block_length - 1 : key_block_length, (void *)outputs[0]);
}
static int faulty_key_block_context(const bool *has) {
  return cukvashe_key_block_context(has[1] ? block_with(VERSION) : has[2] ? block_with(HEADER) : has[3] ? block_with(OPTIONAL_BLOCK) : has[4] ? block_with(KEY_DATA_LENGTH) : key_block,
    has[0] ? key_block_length - 1 : key_block_length, (void *)outputs[0]);
}
static int faulty_key_block_optional_block(const bool *has) {
  return cukvashe_key_block_optional_block(has[1] ? block_with(VERSION) : has[2] ? block_with(HEADER) : has[3] ? block_with(OPTIONAL_BLOCK) : has[4] ? block_with(KEY_DATA_LENGTH) : key_block,
    has[0] ? key_block_length - 1 : key_block_length, 0, (void *)outputs[0], (void *)outputs[1], (void *)outputs[2]);
}
static int faulty_pbkdf2(const bool *has) {
  return cukvashe_pbkdf2(has[0] ? 0 : CUKVASHE_SHA256, has[1] ? 0 : 2, others, sizeof others, blocks, 8,
    (void *)outputs[0], 24);
}
static int faulty_bytes_to_key(const bool *has) {
  return cukvashe_bytes_to_key(has[1] ? 0 : CUKVASHE_SHA256, others, sizeof others, blocks, has[0] ? 7 : 8,
    (void *)outputs[0], 24);
}
static int faulty_des_open_salted(const bool *has) {
  return cukvashe_des_open_salted(has[0] ? 0 : has[3] ? CUKVASHE_SHA256 : CUKVASHE_SHA1, has[3] ? (size_t)1 << 32 : 2,
    others, sizeof others, has[1] ? blocks : salted, has[2] ? 15 : has[4] ? 17 : sizeof salted, (void *)outputs[0],
    sizeof salted, (void *)outputs[1]);
}
static int faulty_tdes_ede2_open_salted(const bool *has) {
  return cukvashe_tdes_ede2_open_salted(has[0] ? 0 : has[3] ? CUKVASHE_SHA256 : CUKVASHE_MD5,
    has[3] ? (size_t)1 << 32 : 0, others, sizeof others, has[1] ? blocks : salted,
    has[2] ? 15 : has[4] ? 17 : sizeof salted, (void *)outputs[0], sizeof salted, (void *)outputs[1]);
}
static int faulty_tdes_ede3_open_salted(const bool *has) {
  return cukvashe_tdes_ede3_open_salted(has[0] ? 0 : has[3] ? CUKVASHE_SHA256 : CUKVASHE_SHA256,
    has[3] ? (size_t)1 << 32 : 0, others, sizeof others, has[1] ? blocks : salted,
    has[2] ? 15 : has[4] ? 17 : sizeof salted, (void *)outputs[0], sizeof salted, (void *)outputs[1]);
}
static int faulty_mysql_decrypt_values(const bool *has) {
  return cukvashe_mysql_decrypt_values(others, sizeof others, column, 9 * count, has[0] ? no_counts : nines, count,
    (void *)outputs[0], (void *)outputs[1], (void *)outputs[2]);
}
static int faulty_mysql_decrypt_values_by_file(const bool *has) {
  return cukvashe_mysql_decrypt_values_by_file((const uint8_t *)"9 key\n", 6, column, 9 * count,
    has[0] ? no_counts : nines, count, (void *)outputs[0], (void *)outputs[1], (void *)outputs[2]);
}
static int faulty_pgcrypto_decrypt_values(const bool *has) {
  return cukvashe_pgcrypto_decrypt_values(has[0] ? "xdes" : "3des", 4, key, 24, blocks, 8, blocks, 8 * count,
    has[1] ? no_counts : eights, count, (void *)outputs[0], (void *)outputs[1], (void *)outputs[2]);
}
static int faulty_mysql_encrypt_values(const bool *has) {
  return cukvashe_mysql_encrypt_values(others, sizeof others, has[0] ? 10 : 127, blocks, 8 * count,
    has[1] ? no_counts : eights, count, (void *)outputs[0], 17 * count);
}
static int faulty_pgcrypto_encrypt_values(const bool *has) {
  return cukvashe_pgcrypto_encrypt_values(has[0] ? "xdes" : "3des", 4, key, 24, blocks, 8, blocks, 8 * count,
    has[1] ? no_counts : eights, count, (void *)outputs[0], 16 * count);
}
static int faulty_pbe_key(const bool *has) {
  return cukvashe_pbe_key(has[0] ? "PBEWithMD5AndTripleDEX" : "PBEWithMD5AndTripleDES", 22, has[2] ? 0 : 2, others,
    sizeof others, blocks, has[3] ? 7 : 8, (void *)outputs[0], has[1] ? 7 : 32);
}
static int faulty_jasypt_decrypt_values(const bool *has) {
  return cukvashe_jasypt_decrypt_values(has[0] ? "PBEWithMD5AndDEX" : "PBEWithMD5AndDES", 16, has[1] ? 0 : 2, others,
    sizeof others, blocks, 8 * count, has[2] ? no_counts : eights, count, (void *)outputs[0], (void *)outputs[1],
    (void *)outputs[2]);
}
static int faulty_jasypt_encrypt_values(const bool *has) {
  return cukvashe_jasypt_encrypt_values(has[1] ? "PBEWithMD5AndDEX" : "PBEWithMD5AndDES", 16, has[2] ? 0 : 2, others,
    sizeof others, blocks, has[0] ? 8 * count + 1 : 8 * count, blocks, 8 * count, has[3] ? no_counts : eights, count,
    (void *)outputs[0], 32 * count);
}

/* The statuses of the faults of each call, in the order of the header. */
static const struct order orders[] = {
    {"des_init", faulty_des_init, {CUKVASHE_ERR_KEY_LENGTH}},
    {"tdes_ede2_init", faulty_tdes_ede2_init, {CUKVASHE_ERR_KEY_LENGTH}},
    {"tdes_ede3_init", faulty_tdes_ede3_init, {CUKVASHE_ERR_KEY_LENGTH}},
    {"des_init_no_tables", faulty_des_init_no_tables, {CUKVASHE_ERR_KEY_LENGTH}},
    {"tdes_ede2_init_no_tables", faulty_tdes_ede2_init_no_tables, {CUKVASHE_ERR_KEY_LENGTH}},
    {"tdes_ede3_init_no_tables", faulty_tdes_ede3_init_no_tables, {CUKVASHE_ERR_KEY_LENGTH}},
    {"des_encrypt_ecb", faulty_des_encrypt_ecb, {CUKVASHE_ERR_CONTEXT, CUKVASHE_ERR_BLOCKS}},
    {"des_decrypt_ecb", faulty_des_decrypt_ecb, {CUKVASHE_ERR_CONTEXT, CUKVASHE_ERR_BLOCKS}},
    {"des_encrypt_ecb_to", faulty_des_encrypt_ecb_to, {CUKVASHE_ERR_CONTEXT, CUKVASHE_ERR_BLOCKS}},
    {"des_decrypt_ecb_to", faulty_des_decrypt_ecb_to, {CUKVASHE_ERR_CONTEXT, CUKVASHE_ERR_BLOCKS}},
    {"tdes_ede2_encrypt_ecb", faulty_tdes_ede2_encrypt_ecb, {CUKVASHE_ERR_CONTEXT, CUKVASHE_ERR_BLOCKS}},
    {"tdes_ede2_decrypt_ecb", faulty_tdes_ede2_decrypt_ecb, {CUKVASHE_ERR_CONTEXT, CUKVASHE_ERR_BLOCKS}},
    {"tdes_ede2_encrypt_ecb_to", faulty_tdes_ede2_encrypt_ecb_to, {CUKVASHE_ERR_CONTEXT, CUKVASHE_ERR_BLOCKS}},
    {"tdes_ede2_decrypt_ecb_to", faulty_tdes_ede2_decrypt_ecb_to, {CUKVASHE_ERR_CONTEXT, CUKVASHE_ERR_BLOCKS}},
    {"tdes_ede3_encrypt_ecb", faulty_tdes_ede3_encrypt_ecb, {CUKVASHE_ERR_CONTEXT, CUKVASHE_ERR_BLOCKS}},
    {"tdes_ede3_decrypt_ecb", faulty_tdes_ede3_decrypt_ecb, {CUKVASHE_ERR_CONTEXT, CUKVASHE_ERR_BLOCKS}},
    {"tdes_ede3_encrypt_ecb_to", faulty_tdes_ede3_encrypt_ecb_to, {CUKVASHE_ERR_CONTEXT, CUKVASHE_ERR_BLOCKS}},
    {"tdes_ede3_decrypt_ecb_to", faulty_tdes_ede3_decrypt_ecb_to, {CUKVASHE_ERR_CONTEXT, CUKVASHE_ERR_BLOCKS}},
    {"des_encrypt_cbc", faulty_des_encrypt_cbc, {CUKVASHE_ERR_CONTEXT, CUKVASHE_ERR_BLOCKS}},
    {"des_decrypt_cbc", faulty_des_decrypt_cbc, {CUKVASHE_ERR_CONTEXT, CUKVASHE_ERR_BLOCKS}},
    {"des_encrypt_cbc_to", faulty_des_encrypt_cbc_to, {CUKVASHE_ERR_CONTEXT, CUKVASHE_ERR_BLOCKS}},
    {"des_decrypt_cbc_to", faulty_des_decrypt_cbc_to, {CUKVASHE_ERR_CONTEXT, CUKVASHE_ERR_BLOCKS}},
    {"tdes_ede2_encrypt_cbc", faulty_tdes_ede2_encrypt_cbc, {CUKVASHE_ERR_CONTEXT, CUKVASHE_ERR_BLOCKS}},
    {"tdes_ede2_decrypt_cbc", faulty_tdes_ede2_decrypt_cbc, {CUKVASHE_ERR_CONTEXT, CUKVASHE_ERR_BLOCKS}},
    {"tdes_ede2_encrypt_cbc_to", faulty_tdes_ede2_encrypt_cbc_to, {CUKVASHE_ERR_CONTEXT, CUKVASHE_ERR_BLOCKS}},
    {"tdes_ede2_decrypt_cbc_to", faulty_tdes_ede2_decrypt_cbc_to, {CUKVASHE_ERR_CONTEXT, CUKVASHE_ERR_BLOCKS}},
    {"tdes_ede3_encrypt_cbc", faulty_tdes_ede3_encrypt_cbc, {CUKVASHE_ERR_CONTEXT, CUKVASHE_ERR_BLOCKS}},
    {"tdes_ede3_decrypt_cbc", faulty_tdes_ede3_decrypt_cbc, {CUKVASHE_ERR_CONTEXT, CUKVASHE_ERR_BLOCKS}},
    {"tdes_ede3_encrypt_cbc_to", faulty_tdes_ede3_encrypt_cbc_to, {CUKVASHE_ERR_CONTEXT, CUKVASHE_ERR_BLOCKS}},
    {"tdes_ede3_decrypt_cbc_to", faulty_tdes_ede3_decrypt_cbc_to, {CUKVASHE_ERR_CONTEXT, CUKVASHE_ERR_BLOCKS}},
    {"des_encrypt_mode", faulty_des_encrypt_mode, {CUKVASHE_ERR_CONTEXT, CUKVASHE_ERR_MODE}},
    {"tdes_ede2_encrypt_mode", faulty_tdes_ede2_encrypt_mode, {CUKVASHE_ERR_CONTEXT, CUKVASHE_ERR_MODE}},
    {"tdes_ede3_encrypt_mode", faulty_tdes_ede3_encrypt_mode, {CUKVASHE_ERR_CONTEXT, CUKVASHE_ERR_MODE}},
    {"des_decrypt_mode", faulty_des_decrypt_mode, {CUKVASHE_ERR_CONTEXT, CUKVASHE_ERR_MODE}},
    {"tdes_ede2_decrypt_mode", faulty_tdes_ede2_decrypt_mode, {CUKVASHE_ERR_CONTEXT, CUKVASHE_ERR_MODE}},
    {"tdes_ede3_decrypt_mode", faulty_tdes_ede3_decrypt_mode, {CUKVASHE_ERR_CONTEXT, CUKVASHE_ERR_MODE}},
    {"stream_begin", faulty_stream_begin, {CUKVASHE_ERR_MODE}},
    {"des_encrypt_stream", faulty_des_encrypt_stream, {CUKVASHE_ERR_CONTEXT, CUKVASHE_ERR_STREAM}},
    {"tdes_ede2_encrypt_stream", faulty_tdes_ede2_encrypt_stream, {CUKVASHE_ERR_CONTEXT, CUKVASHE_ERR_STREAM}},
    {"tdes_ede3_encrypt_stream", faulty_tdes_ede3_encrypt_stream, {CUKVASHE_ERR_CONTEXT, CUKVASHE_ERR_STREAM}},
    {"des_decrypt_stream", faulty_des_decrypt_stream, {CUKVASHE_ERR_CONTEXT, CUKVASHE_ERR_STREAM}},
    {"tdes_ede2_decrypt_stream", faulty_tdes_ede2_decrypt_stream, {CUKVASHE_ERR_CONTEXT, CUKVASHE_ERR_STREAM}},
    {"tdes_ede3_decrypt_stream", faulty_tdes_ede3_decrypt_stream, {CUKVASHE_ERR_CONTEXT, CUKVASHE_ERR_STREAM}},
    {"des_encrypt_stream_bits", faulty_des_encrypt_stream_bits, {CUKVASHE_ERR_CONTEXT, CUKVASHE_ERR_STREAM,
    CUKVASHE_ERR_MODE}},
    {"tdes_ede2_encrypt_stream_bits", faulty_tdes_ede2_encrypt_stream_bits, {CUKVASHE_ERR_CONTEXT, CUKVASHE_ERR_STREAM,
    CUKVASHE_ERR_MODE}},
    {"tdes_ede3_encrypt_stream_bits", faulty_tdes_ede3_encrypt_stream_bits, {CUKVASHE_ERR_CONTEXT, CUKVASHE_ERR_STREAM,
    CUKVASHE_ERR_MODE}},
    {"des_decrypt_stream_bits", faulty_des_decrypt_stream_bits, {CUKVASHE_ERR_CONTEXT, CUKVASHE_ERR_STREAM,
    CUKVASHE_ERR_MODE}},
    {"tdes_ede2_decrypt_stream_bits", faulty_tdes_ede2_decrypt_stream_bits, {CUKVASHE_ERR_CONTEXT, CUKVASHE_ERR_STREAM,
    CUKVASHE_ERR_MODE}},
    {"tdes_ede3_decrypt_stream_bits", faulty_tdes_ede3_decrypt_stream_bits, {CUKVASHE_ERR_CONTEXT, CUKVASHE_ERR_STREAM,
    CUKVASHE_ERR_MODE}},
    {"cms_wrap_key", faulty_cms_wrap_key, {CUKVASHE_ERR_OVERLAP, CUKVASHE_ERR_PROTECTION_KEY_LENGTH,
    CUKVASHE_ERR_BLOCKS, CUKVASHE_ERR_CAPACITY}},
    {"tkw_wrap_key", faulty_tkw_wrap_key, {CUKVASHE_ERR_OVERLAP, CUKVASHE_ERR_PROTECTION_KEY_LENGTH,
    CUKVASHE_ERR_KEY_LENGTH, CUKVASHE_ERR_CAPACITY}},
    {"cms_unwrap_key", faulty_cms_unwrap_key, {CUKVASHE_ERR_OVERLAP, CUKVASHE_ERR_PROTECTION_KEY_LENGTH,
    CUKVASHE_ERR_WRAPPED_LENGTH, CUKVASHE_ERR_CAPACITY, CUKVASHE_ERR_WRAPPED_KEY}},
    {"tkw_unwrap_key", faulty_tkw_unwrap_key, {CUKVASHE_ERR_OVERLAP, CUKVASHE_ERR_PROTECTION_KEY_LENGTH,
    CUKVASHE_ERR_WRAPPED_LENGTH, CUKVASHE_ERR_CAPACITY, CUKVASHE_ERR_WRAPPED_KEY}},
    {"des_encrypt_each", faulty_des_encrypt_each, {CUKVASHE_ERR_BLOCKS, CUKVASHE_ERR_COUNTS}},
    {"des_decrypt_each", faulty_des_decrypt_each, {CUKVASHE_ERR_BLOCKS, CUKVASHE_ERR_COUNTS}},
    {"tdes_ede2_encrypt_each", faulty_tdes_ede2_encrypt_each, {CUKVASHE_ERR_BLOCKS, CUKVASHE_ERR_COUNTS}},
    {"tdes_ede2_decrypt_each", faulty_tdes_ede2_decrypt_each, {CUKVASHE_ERR_BLOCKS, CUKVASHE_ERR_COUNTS}},
    {"tdes_ede3_encrypt_each", faulty_tdes_ede3_encrypt_each, {CUKVASHE_ERR_BLOCKS, CUKVASHE_ERR_COUNTS}},
    {"tdes_ede3_decrypt_each", faulty_tdes_ede3_decrypt_each, {CUKVASHE_ERR_BLOCKS, CUKVASHE_ERR_COUNTS}},
    {"des_encrypt_cbc_records", faulty_des_encrypt_cbc_records, {CUKVASHE_ERR_COUNTS, CUKVASHE_ERR_CONTEXT,
    CUKVASHE_ERR_BLOCKS, CUKVASHE_ERR_COUNTS}},
    {"des_decrypt_cbc_records", faulty_des_decrypt_cbc_records, {CUKVASHE_ERR_COUNTS, CUKVASHE_ERR_CONTEXT,
    CUKVASHE_ERR_BLOCKS, CUKVASHE_ERR_COUNTS}},
    {"tdes_ede2_encrypt_cbc_records", faulty_tdes_ede2_encrypt_cbc_records, {CUKVASHE_ERR_COUNTS, CUKVASHE_ERR_CONTEXT,
    CUKVASHE_ERR_BLOCKS, CUKVASHE_ERR_COUNTS}},
    {"tdes_ede2_decrypt_cbc_records", faulty_tdes_ede2_decrypt_cbc_records, {CUKVASHE_ERR_COUNTS, CUKVASHE_ERR_CONTEXT,
    CUKVASHE_ERR_BLOCKS, CUKVASHE_ERR_COUNTS}},
    {"tdes_ede3_encrypt_cbc_records", faulty_tdes_ede3_encrypt_cbc_records, {CUKVASHE_ERR_COUNTS, CUKVASHE_ERR_CONTEXT,
    CUKVASHE_ERR_BLOCKS, CUKVASHE_ERR_COUNTS}},
    {"tdes_ede3_decrypt_cbc_records", faulty_tdes_ede3_decrypt_cbc_records, {CUKVASHE_ERR_COUNTS, CUKVASHE_ERR_CONTEXT,
    CUKVASHE_ERR_BLOCKS, CUKVASHE_ERR_COUNTS}},
    {"pad", faulty_pad, {CUKVASHE_ERR_PADDING_METHOD, CUKVASHE_ERR_CAPACITY}},
    {"unpad", faulty_unpad, {CUKVASHE_ERR_PADDING_METHOD, CUKVASHE_ERR_BLOCKS, CUKVASHE_ERR_PADDING}},
    {"weak_key_test", faulty_weak_key_test, {CUKVASHE_ERR_KEY_LENGTH, CUKVASHE_ERR_WEAK_KEY}},
    {"cbc_mac_des_init", faulty_cbc_mac_des_init, {CUKVASHE_ERR_KEY_LENGTH, CUKVASHE_ERR_PADDING_METHOD}},
    {"cbc_mac_tdes_ede2_init", faulty_cbc_mac_tdes_ede2_init, {CUKVASHE_ERR_KEY_LENGTH, CUKVASHE_ERR_PADDING_METHOD}},
    {"cbc_mac_tdes_ede3_init", faulty_cbc_mac_tdes_ede3_init, {CUKVASHE_ERR_KEY_LENGTH, CUKVASHE_ERR_PADDING_METHOD}},
    {"retail_mac_des_init", faulty_retail_mac_des_init, {CUKVASHE_ERR_KEY_LENGTH, CUKVASHE_ERR_PADDING_METHOD}},
    {"cmac_tdes_ede2_init", faulty_cmac_tdes_ede2_init, {CUKVASHE_ERR_KEY_LENGTH}},
    {"cmac_tdes_ede3_init", faulty_cmac_tdes_ede3_init, {CUKVASHE_ERR_KEY_LENGTH}},
    {"cbc_mac_des_init_no_tables", faulty_cbc_mac_des_init_no_tables, {CUKVASHE_ERR_KEY_LENGTH,
    CUKVASHE_ERR_PADDING_METHOD}},
    {"cbc_mac_tdes_ede2_init_no_tables", faulty_cbc_mac_tdes_ede2_init_no_tables, {CUKVASHE_ERR_KEY_LENGTH,
    CUKVASHE_ERR_PADDING_METHOD}},
    {"cbc_mac_tdes_ede3_init_no_tables", faulty_cbc_mac_tdes_ede3_init_no_tables, {CUKVASHE_ERR_KEY_LENGTH,
    CUKVASHE_ERR_PADDING_METHOD}},
    {"retail_mac_des_init_no_tables", faulty_retail_mac_des_init_no_tables, {CUKVASHE_ERR_KEY_LENGTH,
    CUKVASHE_ERR_PADDING_METHOD}},
    {"cmac_tdes_ede2_init_no_tables", faulty_cmac_tdes_ede2_init_no_tables, {CUKVASHE_ERR_KEY_LENGTH}},
    {"cmac_tdes_ede3_init_no_tables", faulty_cmac_tdes_ede3_init_no_tables, {CUKVASHE_ERR_KEY_LENGTH}},
    {"cbc_mac_des_update", faulty_cbc_mac_des_update, {CUKVASHE_ERR_CONTEXT}},
    {"cbc_mac_tdes_ede2_update", faulty_cbc_mac_tdes_ede2_update, {CUKVASHE_ERR_CONTEXT}},
    {"cbc_mac_tdes_ede3_update", faulty_cbc_mac_tdes_ede3_update, {CUKVASHE_ERR_CONTEXT}},
    {"retail_mac_des_update", faulty_retail_mac_des_update, {CUKVASHE_ERR_CONTEXT}},
    {"cmac_tdes_ede2_update", faulty_cmac_tdes_ede2_update, {CUKVASHE_ERR_CONTEXT}},
    {"cmac_tdes_ede3_update", faulty_cmac_tdes_ede3_update, {CUKVASHE_ERR_CONTEXT}},
    {"cbc_mac_des_final", faulty_cbc_mac_des_final, {CUKVASHE_ERR_CONTEXT}},
    {"cbc_mac_tdes_ede2_final", faulty_cbc_mac_tdes_ede2_final, {CUKVASHE_ERR_CONTEXT}},
    {"cbc_mac_tdes_ede3_final", faulty_cbc_mac_tdes_ede3_final, {CUKVASHE_ERR_CONTEXT}},
    {"retail_mac_des_final", faulty_retail_mac_des_final, {CUKVASHE_ERR_CONTEXT}},
    {"cmac_tdes_ede2_final", faulty_cmac_tdes_ede2_final, {CUKVASHE_ERR_CONTEXT}},
    {"cmac_tdes_ede3_final", faulty_cmac_tdes_ede3_final, {CUKVASHE_ERR_CONTEXT}},
    {"cbc_mac_des_verify", faulty_cbc_mac_des_verify, {CUKVASHE_ERR_CONTEXT, CUKVASHE_ERR_TAG}},
    {"cbc_mac_tdes_ede2_verify", faulty_cbc_mac_tdes_ede2_verify, {CUKVASHE_ERR_CONTEXT, CUKVASHE_ERR_TAG}},
    {"cbc_mac_tdes_ede3_verify", faulty_cbc_mac_tdes_ede3_verify, {CUKVASHE_ERR_CONTEXT, CUKVASHE_ERR_TAG}},
    {"retail_mac_des_verify", faulty_retail_mac_des_verify, {CUKVASHE_ERR_CONTEXT, CUKVASHE_ERR_TAG}},
    {"cmac_tdes_ede2_verify", faulty_cmac_tdes_ede2_verify, {CUKVASHE_ERR_CONTEXT, CUKVASHE_ERR_TAG}},
    {"cmac_tdes_ede3_verify", faulty_cmac_tdes_ede3_verify, {CUKVASHE_ERR_CONTEXT, CUKVASHE_ERR_TAG}},
    {"compare_tags", faulty_compare_tags, {CUKVASHE_ERR_COUNTS}},
    {"cbc_mac_des_macs", faulty_cbc_mac_des_macs, {CUKVASHE_ERR_KEY_LENGTH, CUKVASHE_ERR_COUNTS,
    CUKVASHE_ERR_PADDING_METHOD}},
    {"cbc_mac_des_macs_each", faulty_cbc_mac_des_macs_each, {CUKVASHE_ERR_COUNTS, CUKVASHE_ERR_PADDING_METHOD}},
    {"cbc_mac_tdes_ede2_macs", faulty_cbc_mac_tdes_ede2_macs, {CUKVASHE_ERR_KEY_LENGTH, CUKVASHE_ERR_COUNTS,
    CUKVASHE_ERR_PADDING_METHOD}},
    {"cbc_mac_tdes_ede2_macs_each", faulty_cbc_mac_tdes_ede2_macs_each, {CUKVASHE_ERR_COUNTS,
    CUKVASHE_ERR_PADDING_METHOD}},
    {"cbc_mac_tdes_ede3_macs", faulty_cbc_mac_tdes_ede3_macs, {CUKVASHE_ERR_KEY_LENGTH, CUKVASHE_ERR_COUNTS,
    CUKVASHE_ERR_PADDING_METHOD}},
    {"cbc_mac_tdes_ede3_macs_each", faulty_cbc_mac_tdes_ede3_macs_each, {CUKVASHE_ERR_COUNTS,
    CUKVASHE_ERR_PADDING_METHOD}},
    {"retail_mac_des_macs", faulty_retail_mac_des_macs, {CUKVASHE_ERR_KEY_LENGTH, CUKVASHE_ERR_COUNTS,
    CUKVASHE_ERR_PADDING_METHOD}},
    {"retail_mac_des_macs_each", faulty_retail_mac_des_macs_each, {CUKVASHE_ERR_COUNTS, CUKVASHE_ERR_PADDING_METHOD}},
    {"cmac_tdes_ede2_macs", faulty_cmac_tdes_ede2_macs, {CUKVASHE_ERR_KEY_LENGTH, CUKVASHE_ERR_COUNTS}},
    {"cmac_tdes_ede2_macs_each", faulty_cmac_tdes_ede2_macs_each, {CUKVASHE_ERR_COUNTS}},
    {"cmac_tdes_ede3_macs", faulty_cmac_tdes_ede3_macs, {CUKVASHE_ERR_KEY_LENGTH, CUKVASHE_ERR_COUNTS}},
    {"cmac_tdes_ede3_macs_each", faulty_cmac_tdes_ede3_macs_each, {CUKVASHE_ERR_COUNTS}},
    {"des_check_value", faulty_des_check_value, {CUKVASHE_ERR_KEY_LENGTH}},
    {"tdes_ede2_check_value", faulty_tdes_ede2_check_value, {CUKVASHE_ERR_KEY_LENGTH}},
    {"tdes_ede3_check_value", faulty_tdes_ede3_check_value, {CUKVASHE_ERR_KEY_LENGTH}},
    {"key_check_value", faulty_key_check_value, {CUKVASHE_ERR_KEY_LENGTH}},
    {"short_key_check_value", faulty_short_key_check_value, {CUKVASHE_ERR_KEY_LENGTH}},
    {"des_check_values", faulty_des_check_values, {CUKVASHE_ERR_COUNTS}},
    {"tdes_ede2_check_values", faulty_tdes_ede2_check_values, {CUKVASHE_ERR_COUNTS}},
    {"tdes_ede3_check_values", faulty_tdes_ede3_check_values, {CUKVASHE_ERR_COUNTS}},
    {"combine_8", faulty_combine_8, {CUKVASHE_ERR_COUNTS, CUKVASHE_ERR_WEAK_KEY}},
    {"combine_16", faulty_combine_16, {CUKVASHE_ERR_COUNTS, CUKVASHE_ERR_WEAK_KEY}},
    {"combine_24", faulty_combine_24, {CUKVASHE_ERR_COUNTS, CUKVASHE_ERR_WEAK_KEY}},
    {"dukpt_next_serial", faulty_dukpt_next_serial, {CUKVASHE_ERR_NO_SERIAL}},
    {"dukpt_transaction_keys_from_base", faulty_dukpt_transaction_keys_from_base, {CUKVASHE_ERR_COUNTS}},
    {"dukpt_terminal_next_key", faulty_dukpt_terminal_next_key, {CUKVASHE_ERR_NO_SERIAL}},
    {"pin_encode_0", faulty_pin_encode_0, {CUKVASHE_ERR_PIN_LENGTH, CUKVASHE_ERR_PIN_DIGIT, CUKVASHE_ERR_ACCOUNT_LENGTH,
    CUKVASHE_ERR_ACCOUNT_DIGIT}},
    {"pin_encode_1", faulty_pin_encode_1, {CUKVASHE_ERR_PIN_LENGTH, CUKVASHE_ERR_PIN_DIGIT, CUKVASHE_ERR_FILL}},
    {"pin_encode_2", faulty_pin_encode_2, {CUKVASHE_ERR_PIN_LENGTH, CUKVASHE_ERR_PIN_DIGIT}},
    {"pin_encode_3", faulty_pin_encode_3, {CUKVASHE_ERR_PIN_LENGTH, CUKVASHE_ERR_PIN_DIGIT, CUKVASHE_ERR_ACCOUNT_LENGTH,
    CUKVASHE_ERR_ACCOUNT_DIGIT, CUKVASHE_ERR_FILL}},
    {"pin_decode_0", faulty_pin_decode_0, {CUKVASHE_ERR_ACCOUNT_LENGTH, CUKVASHE_ERR_ACCOUNT_DIGIT,
    CUKVASHE_ERR_FORMAT}},
    {"pin_decode_1", faulty_pin_decode_1, {CUKVASHE_ERR_FORMAT}},
    {"pin_decode_2", faulty_pin_decode_2, {CUKVASHE_ERR_FORMAT}},
    {"pin_decode_3", faulty_pin_decode_3, {CUKVASHE_ERR_ACCOUNT_LENGTH, CUKVASHE_ERR_ACCOUNT_DIGIT,
    CUKVASHE_ERR_FORMAT}},
    {"pin_translate_to_0", faulty_pin_translate_to_0, {CUKVASHE_ERR_KEY_LENGTH, CUKVASHE_ERR_FORMATS,
    CUKVASHE_ERR_ACCOUNT_LENGTH, CUKVASHE_ERR_ACCOUNT_DIGIT, CUKVASHE_ERR_PIN_BLOCK}},
    {"pin_translate_to_3", faulty_pin_translate_to_3, {CUKVASHE_ERR_KEY_LENGTH, CUKVASHE_ERR_FORMATS,
    CUKVASHE_ERR_ACCOUNT_LENGTH, CUKVASHE_ERR_ACCOUNT_DIGIT, CUKVASHE_ERR_FILL, CUKVASHE_ERR_PIN_BLOCK}},
    {"pin_translate_to_1", faulty_pin_translate_to_1, {CUKVASHE_ERR_FORMATS, CUKVASHE_ERR_KEY_LENGTH,
    CUKVASHE_ERR_PIN_BLOCK}},
    {"pvv", faulty_pvv, {CUKVASHE_ERR_PIN_LENGTH, CUKVASHE_ERR_PIN_DIGIT, CUKVASHE_ERR_ACCOUNT_LENGTH,
    CUKVASHE_ERR_ACCOUNT_DIGIT, CUKVASHE_ERR_KEY_INDEX}},
    {"pvv_verify", faulty_pvv_verify, {CUKVASHE_ERR_PIN_LENGTH, CUKVASHE_ERR_PIN_DIGIT, CUKVASHE_ERR_ACCOUNT_LENGTH,
    CUKVASHE_ERR_ACCOUNT_DIGIT, CUKVASHE_ERR_KEY_INDEX, CUKVASHE_ERR_WRONG_PIN}},
    {"decimal_table_init", faulty_decimal_table_init, {CUKVASHE_ERR_TABLE_LENGTH, CUKVASHE_ERR_TABLE_DIGIT,
    CUKVASHE_ERR_TABLE_VARIETY}},
    {"decimal_table_init_any", faulty_decimal_table_init_any, {CUKVASHE_ERR_TABLE_LENGTH, CUKVASHE_ERR_TABLE_DIGIT}},
    {"natural_pin", faulty_natural_pin, {CUKVASHE_ERR_TABLE_DIGIT, CUKVASHE_ERR_KEY_LENGTH, CUKVASHE_ERR_PIN_LENGTH}},
    {"pin_offset", faulty_pin_offset, {CUKVASHE_ERR_PIN_LENGTH, CUKVASHE_ERR_PIN_DIGIT, CUKVASHE_ERR_TABLE_DIGIT,
    CUKVASHE_ERR_KEY_LENGTH}},
    {"pin_offset_verify", faulty_pin_offset_verify, {CUKVASHE_ERR_PIN_LENGTH, CUKVASHE_ERR_PIN_DIGIT,
    CUKVASHE_ERR_PIN_LENGTH, CUKVASHE_ERR_PIN_DIGIT, CUKVASHE_ERR_TABLE_DIGIT, CUKVASHE_ERR_KEY_LENGTH,
    CUKVASHE_ERR_WRONG_PIN}},
    {"cvv", faulty_cvv, {CUKVASHE_ERR_ACCOUNT_LENGTH, CUKVASHE_ERR_ACCOUNT_DIGIT, CUKVASHE_ERR_EXPIRY_LENGTH,
    CUKVASHE_ERR_EXPIRY_DIGIT, CUKVASHE_ERR_SERVICE_LENGTH, CUKVASHE_ERR_SERVICE_DIGIT}},
    {"emv_card_key", faulty_emv_card_key, {CUKVASHE_ERR_ACCOUNT_LENGTH, CUKVASHE_ERR_ACCOUNT_DIGIT,
    CUKVASHE_ERR_SEQUENCE_LENGTH, CUKVASHE_ERR_SEQUENCE_DIGIT}},
    {"emv_card_key_b", faulty_emv_card_key_b, {CUKVASHE_ERR_ACCOUNT_LENGTH, CUKVASHE_ERR_ACCOUNT_DIGIT,
    CUKVASHE_ERR_SEQUENCE_LENGTH, CUKVASHE_ERR_SEQUENCE_DIGIT}},
    {"emv_response_2", faulty_emv_response_2, {CUKVASHE_ERR_DATA_LENGTH}},
    {"key_block_unwrap", faulty_key_block_unwrap, {CUKVASHE_ERR_PROTECTION_KEY_LENGTH, CUKVASHE_ERR_KEY_BLOCK_LENGTH,
    CUKVASHE_ERR_VERSION, CUKVASHE_ERR_HEADER, CUKVASHE_ERR_OPTIONAL_BLOCK, CUKVASHE_ERR_KEY_DATA_LENGTH,
    CUKVASHE_ERR_KEY_BLOCK_DIGIT, CUKVASHE_ERR_KEY_BLOCK_MAC}},
    {"key_block_wrap", faulty_key_block_wrap, {CUKVASHE_ERR_VERSION, CUKVASHE_ERR_OPTIONAL_BLOCK,
    CUKVASHE_ERR_PROTECTION_KEY_LENGTH, CUKVASHE_ERR_HEADER, CUKVASHE_ERR_KEY_LENGTH, CUKVASHE_ERR_PADDING_LENGTH,
    CUKVASHE_ERR_KEY_BLOCK_LENGTH}},
    {"key_block_header", faulty_key_block_header, {CUKVASHE_ERR_KEY_BLOCK_LENGTH, CUKVASHE_ERR_VERSION,
    CUKVASHE_ERR_HEADER, CUKVASHE_ERR_OPTIONAL_BLOCK, CUKVASHE_ERR_KEY_DATA_LENGTH}},
    {"key_block_context", faulty_key_block_context, {CUKVASHE_ERR_KEY_BLOCK_LENGTH, CUKVASHE_ERR_VERSION,
    CUKVASHE_ERR_HEADER, CUKVASHE_ERR_OPTIONAL_BLOCK, CUKVASHE_ERR_KEY_DATA_LENGTH}},
    {"key_block_optional_block", faulty_key_block_optional_block, {CUKVASHE_ERR_KEY_BLOCK_LENGTH, CUKVASHE_ERR_VERSION,
    CUKVASHE_ERR_HEADER, CUKVASHE_ERR_OPTIONAL_BLOCK, CUKVASHE_ERR_KEY_DATA_LENGTH, CUKVASHE_ERR_NO_OPTIONAL_BLOCK}},
    {"pbkdf2", faulty_pbkdf2, {CUKVASHE_ERR_HASH, CUKVASHE_ERR_ITERATIONS}},
    {"bytes_to_key", faulty_bytes_to_key, {CUKVASHE_ERR_SALT_LENGTH, CUKVASHE_ERR_HASH}},
    {"des_open_salted", faulty_des_open_salted, {CUKVASHE_ERR_HASH, CUKVASHE_ERR_NOT_SALTED, CUKVASHE_ERR_SALT_LENGTH,
    CUKVASHE_ERR_ITERATIONS, CUKVASHE_ERR_BLOCKS}},
    {"tdes_ede2_open_salted", faulty_tdes_ede2_open_salted, {CUKVASHE_ERR_HASH, CUKVASHE_ERR_NOT_SALTED,
    CUKVASHE_ERR_SALT_LENGTH, CUKVASHE_ERR_ITERATIONS, CUKVASHE_ERR_BLOCKS}},
    {"tdes_ede3_open_salted", faulty_tdes_ede3_open_salted, {CUKVASHE_ERR_HASH, CUKVASHE_ERR_NOT_SALTED,
    CUKVASHE_ERR_SALT_LENGTH, CUKVASHE_ERR_ITERATIONS, CUKVASHE_ERR_BLOCKS}},
    {"mysql_decrypt_values", faulty_mysql_decrypt_values, {CUKVASHE_ERR_COUNTS, CUKVASHE_ERR_VALUES}},
    {"mysql_decrypt_values_by_file", faulty_mysql_decrypt_values_by_file, {CUKVASHE_ERR_COUNTS, CUKVASHE_ERR_VALUES}},
    {"pgcrypto_decrypt_values", faulty_pgcrypto_decrypt_values, {CUKVASHE_ERR_ALGORITHM, CUKVASHE_ERR_COUNTS,
    CUKVASHE_ERR_VALUES}},
    {"mysql_encrypt_values", faulty_mysql_encrypt_values, {CUKVASHE_ERR_KEY_NUMBER, CUKVASHE_ERR_COUNTS}},
    {"pgcrypto_encrypt_values", faulty_pgcrypto_encrypt_values, {CUKVASHE_ERR_ALGORITHM, CUKVASHE_ERR_COUNTS}},
    {"pbe_key", faulty_pbe_key, {CUKVASHE_ERR_ALGORITHM, CUKVASHE_ERR_KEY_LENGTH, CUKVASHE_ERR_ITERATIONS,
    CUKVASHE_ERR_SALT_LENGTH}},
    {"jasypt_decrypt_values", faulty_jasypt_decrypt_values, {CUKVASHE_ERR_ALGORITHM, CUKVASHE_ERR_ITERATIONS,
    CUKVASHE_ERR_COUNTS, CUKVASHE_ERR_VALUES}},
    {"jasypt_encrypt_values", faulty_jasypt_encrypt_values, {CUKVASHE_ERR_COUNTS, CUKVASHE_ERR_ALGORITHM,
    CUKVASHE_ERR_ITERATIONS, CUKVASHE_ERR_COUNTS}},
};
