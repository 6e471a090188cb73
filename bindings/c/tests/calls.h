/* Each call of the header with arguments that it takes, by its name. Made by bindings/describe. */
static void call_is_supported(void) { returned = cukvashe_is_supported(); }
static void call_version(void) { returned = *cukvashe_version(); }
static void call_strerror(void) { returned = *cukvashe_strerror(3); }
static void call_wipe(void) { cukvashe_wipe((void *)outputs[0], sizeof blocks); }
static void call_des_init(void) { returned = cukvashe_des_init((void *)contexts[0], key, CUKVASHE_DES_KEY_SIZE); }
static void call_tdes_ede2_init(void) { returned = cukvashe_tdes_ede2_init((void *)contexts[1], key,
    CUKVASHE_TDES_EDE2_KEY_SIZE); }
static void call_tdes_ede3_init(void) { returned = cukvashe_tdes_ede3_init((void *)contexts[2], key,
    CUKVASHE_TDES_EDE3_KEY_SIZE); }
static void call_des_init_no_tables(void) { returned = cukvashe_des_init_no_tables((void *)contexts[0], key,
    CUKVASHE_DES_KEY_SIZE); }
static void call_tdes_ede2_init_no_tables(void) { returned = cukvashe_tdes_ede2_init_no_tables((void *)contexts[1], key,
    CUKVASHE_TDES_EDE2_KEY_SIZE); }
static void call_tdes_ede3_init_no_tables(void) { returned = cukvashe_tdes_ede3_init_no_tables((void *)contexts[2], key,
    CUKVASHE_TDES_EDE3_KEY_SIZE); }
static void call_des_encrypt_ecb(void) { returned = cukvashe_des_encrypt_ecb((void *)contexts[0], (void *)outputs[0],
    8 * count); }
static void call_des_decrypt_ecb(void) { returned = cukvashe_des_decrypt_ecb((void *)contexts[0], (void *)outputs[0],
    8 * count); }
static void call_des_encrypt_ecb_to(void) { returned = cukvashe_des_encrypt_ecb_to((void *)contexts[0], blocks,
    (void *)outputs[0], 8 * count); }
static void call_des_decrypt_ecb_to(void) { returned = cukvashe_des_decrypt_ecb_to((void *)contexts[0], blocks,
    (void *)outputs[0], 8 * count); }
static void call_tdes_ede2_encrypt_ecb(void) { returned = cukvashe_tdes_ede2_encrypt_ecb((void *)contexts[1],
    (void *)outputs[0], 8 * count); }
static void call_tdes_ede2_decrypt_ecb(void) { returned = cukvashe_tdes_ede2_decrypt_ecb((void *)contexts[1],
    (void *)outputs[0], 8 * count); }
static void call_tdes_ede2_encrypt_ecb_to(void) { returned = cukvashe_tdes_ede2_encrypt_ecb_to((void *)contexts[1],
    blocks, (void *)outputs[0], 8 * count); }
static void call_tdes_ede2_decrypt_ecb_to(void) { returned = cukvashe_tdes_ede2_decrypt_ecb_to((void *)contexts[1],
    blocks, (void *)outputs[0], 8 * count); }
static void call_tdes_ede3_encrypt_ecb(void) { returned = cukvashe_tdes_ede3_encrypt_ecb((void *)contexts[2],
    (void *)outputs[0], 8 * count); }
static void call_tdes_ede3_decrypt_ecb(void) { returned = cukvashe_tdes_ede3_decrypt_ecb((void *)contexts[2],
    (void *)outputs[0], 8 * count); }
static void call_tdes_ede3_encrypt_ecb_to(void) { returned = cukvashe_tdes_ede3_encrypt_ecb_to((void *)contexts[2],
    blocks, (void *)outputs[0], 8 * count); }
static void call_tdes_ede3_decrypt_ecb_to(void) { returned = cukvashe_tdes_ede3_decrypt_ecb_to((void *)contexts[2],
    blocks, (void *)outputs[0], 8 * count); }
static void call_des_encrypt_cbc(void) { returned = cukvashe_des_encrypt_cbc((void *)contexts[0], (void *)outputs[0],
    (void *)outputs[1], 8 * count); }
static void call_des_decrypt_cbc(void) { returned = cukvashe_des_decrypt_cbc((void *)contexts[0], (void *)outputs[0],
    (void *)outputs[1], 8 * count); }
static void call_des_encrypt_cbc_to(void) { returned = cukvashe_des_encrypt_cbc_to((void *)contexts[0],
    (void *)outputs[0], blocks, (void *)outputs[1], 8 * count); }
static void call_des_decrypt_cbc_to(void) { returned = cukvashe_des_decrypt_cbc_to((void *)contexts[0],
    (void *)outputs[0], blocks, (void *)outputs[1], 8 * count); }
static void call_tdes_ede2_encrypt_cbc(void) { returned = cukvashe_tdes_ede2_encrypt_cbc((void *)contexts[1],
    (void *)outputs[0], (void *)outputs[1], 8 * count); }
static void call_tdes_ede2_decrypt_cbc(void) { returned = cukvashe_tdes_ede2_decrypt_cbc((void *)contexts[1],
    (void *)outputs[0], (void *)outputs[1], 8 * count); }
static void call_tdes_ede2_encrypt_cbc_to(void) { returned = cukvashe_tdes_ede2_encrypt_cbc_to((void *)contexts[1],
    (void *)outputs[0], blocks, (void *)outputs[1], 8 * count); }
static void call_tdes_ede2_decrypt_cbc_to(void) { returned = cukvashe_tdes_ede2_decrypt_cbc_to((void *)contexts[1],
    (void *)outputs[0], blocks, (void *)outputs[1], 8 * count); }
static void call_tdes_ede3_encrypt_cbc(void) { returned = cukvashe_tdes_ede3_encrypt_cbc((void *)contexts[2],
    (void *)outputs[0], (void *)outputs[1], 8 * count); }
static void call_tdes_ede3_decrypt_cbc(void) { returned = cukvashe_tdes_ede3_decrypt_cbc((void *)contexts[2],
    (void *)outputs[0], (void *)outputs[1], 8 * count); }
static void call_tdes_ede3_encrypt_cbc_to(void) { returned = cukvashe_tdes_ede3_encrypt_cbc_to((void *)contexts[2],
    (void *)outputs[0], blocks, (void *)outputs[1], 8 * count); }
static void call_tdes_ede3_decrypt_cbc_to(void) { returned = cukvashe_tdes_ede3_decrypt_cbc_to((void *)contexts[2],
    (void *)outputs[0], blocks, (void *)outputs[1], 8 * count); }
static void call_des_encrypt_mode(void) { returned = cukvashe_des_encrypt_mode((void *)contexts[0], CUKVASHE_CTR,
    blocks, (void *)outputs[0], 8 * count); }
static void call_des_decrypt_mode(void) { returned = cukvashe_des_decrypt_mode((void *)contexts[0], CUKVASHE_CFB64,
    blocks, (void *)outputs[0], 8 * count); }
static void call_tdes_ede2_encrypt_mode(void) { returned = cukvashe_tdes_ede2_encrypt_mode((void *)contexts[1],
    CUKVASHE_CTR, blocks, (void *)outputs[0], 8 * count); }
static void call_tdes_ede2_decrypt_mode(void) { returned = cukvashe_tdes_ede2_decrypt_mode((void *)contexts[1],
    CUKVASHE_CFB64, blocks, (void *)outputs[0], 8 * count); }
static void call_tdes_ede3_encrypt_mode(void) { returned = cukvashe_tdes_ede3_encrypt_mode((void *)contexts[2],
    CUKVASHE_CTR, blocks, (void *)outputs[0], 8 * count); }
static void call_tdes_ede3_decrypt_mode(void) { returned = cukvashe_tdes_ede3_decrypt_mode((void *)contexts[2],
    CUKVASHE_CFB64, blocks, (void *)outputs[0], 8 * count); }
static void call_stream_begin(void) { returned = cukvashe_stream_begin((void *)outputs[0], CUKVASHE_CTR, blocks); }
static void call_stream_begin_ctr_at(void) { cukvashe_stream_begin_ctr_at((void *)outputs[0], blocks, 1); }
static void call_des_encrypt_stream(void) { returned = cukvashe_des_encrypt_stream((void *)contexts[0], &streams[0],
    (void *)outputs[0], 8 * count); }
static void call_des_decrypt_stream(void) { returned = cukvashe_des_decrypt_stream((void *)contexts[0], &streams[2],
    (void *)outputs[0], 8 * count); }
static void call_tdes_ede2_encrypt_stream(void) { returned = cukvashe_tdes_ede2_encrypt_stream((void *)contexts[1],
    &streams[0], (void *)outputs[0], 8 * count); }
static void call_tdes_ede2_decrypt_stream(void) { returned = cukvashe_tdes_ede2_decrypt_stream((void *)contexts[1],
    &streams[2], (void *)outputs[0], 8 * count); }
static void call_tdes_ede3_encrypt_stream(void) { returned = cukvashe_tdes_ede3_encrypt_stream((void *)contexts[2],
    &streams[0], (void *)outputs[0], 8 * count); }
static void call_tdes_ede3_decrypt_stream(void) { returned = cukvashe_tdes_ede3_decrypt_stream((void *)contexts[2],
    &streams[2], (void *)outputs[0], 8 * count); }
static void call_des_encrypt_stream_bits(void) { returned = cukvashe_des_encrypt_stream_bits((void *)contexts[0],
    &streams[1], (void *)outputs[0], 8 * count); }
static void call_des_decrypt_stream_bits(void) { returned = cukvashe_des_decrypt_stream_bits((void *)contexts[0],
    &streams[1], (void *)outputs[0], 8 * count); }
static void call_tdes_ede2_encrypt_stream_bits(void) { returned = cukvashe_tdes_ede2_encrypt_stream_bits((void *)contexts[1],
    &streams[1], (void *)outputs[0], 8 * count); }
static void call_tdes_ede2_decrypt_stream_bits(void) { returned = cukvashe_tdes_ede2_decrypt_stream_bits((void *)contexts[1],
    &streams[1], (void *)outputs[0], 8 * count); }
static void call_tdes_ede3_encrypt_stream_bits(void) { returned = cukvashe_tdes_ede3_encrypt_stream_bits((void *)contexts[2],
    &streams[1], (void *)outputs[0], 8 * count); }
static void call_tdes_ede3_decrypt_stream_bits(void) { returned = cukvashe_tdes_ede3_decrypt_stream_bits((void *)contexts[2],
    &streams[1], (void *)outputs[0], 8 * count); }
static void call_stream_position(void) { cukvashe_stream_position(&streams[0], (void *)outputs[0],
    (void *)outputs[1]); }
static void call_cms_wrap_key(void) { returned = cukvashe_cms_wrap_key(key, 24, blocks, key, 24, (void *)outputs[0],
    sizeof blocks, (void *)outputs[1]); }
static void call_cms_unwrap_key(void) { returned = cukvashe_cms_unwrap_key(key, 24, blocks, 40, (void *)outputs[0],
    sizeof blocks, (void *)outputs[1]); }
static void call_tkw_wrap_key(void) { returned = cukvashe_tkw_wrap_key(key, 24, key, 24, (void *)outputs[0],
    sizeof blocks, (void *)outputs[1]); }
static void call_tkw_unwrap_key(void) { returned = cukvashe_tkw_unwrap_key(key, 24, blocks, 40, (void *)outputs[0],
    sizeof blocks, (void *)outputs[1]); }
static void call_des_encrypt_each(void) { returned = cukvashe_des_encrypt_each(keys, count, (void *)outputs[0],
    8 * count); }
static void call_des_decrypt_each(void) { returned = cukvashe_des_decrypt_each(keys, count, (void *)outputs[0],
    8 * count); }
static void call_tdes_ede2_encrypt_each(void) { returned = cukvashe_tdes_ede2_encrypt_each(keys, count,
    (void *)outputs[0], 8 * count); }
static void call_tdes_ede2_decrypt_each(void) { returned = cukvashe_tdes_ede2_decrypt_each(keys, count,
    (void *)outputs[0], 8 * count); }
static void call_tdes_ede3_encrypt_each(void) { returned = cukvashe_tdes_ede3_encrypt_each(keys, count,
    (void *)outputs[0], 8 * count); }
static void call_tdes_ede3_decrypt_each(void) { returned = cukvashe_tdes_ede3_decrypt_each(keys, count,
    (void *)outputs[0], 8 * count); }
static void call_des_encrypt_cbc_records(void) { returned = cukvashe_des_encrypt_cbc_records((void *)contexts[0],
    (void *)outputs[0], 8 * count, ones, count, (void *)outputs[1], 8 * count); }
static void call_des_decrypt_cbc_records(void) { returned = cukvashe_des_decrypt_cbc_records((void *)contexts[0],
    (void *)outputs[0], 8 * count, ones, count, (void *)outputs[1], 8 * count); }
static void call_tdes_ede2_encrypt_cbc_records(void) { returned = cukvashe_tdes_ede2_encrypt_cbc_records((void *)contexts[1],
    (void *)outputs[0], 8 * count, ones, count, (void *)outputs[1], 8 * count); }
static void call_tdes_ede2_decrypt_cbc_records(void) { returned = cukvashe_tdes_ede2_decrypt_cbc_records((void *)contexts[1],
    (void *)outputs[0], 8 * count, ones, count, (void *)outputs[1], 8 * count); }
static void call_tdes_ede3_encrypt_cbc_records(void) { returned = cukvashe_tdes_ede3_encrypt_cbc_records((void *)contexts[2],
    (void *)outputs[0], 8 * count, ones, count, (void *)outputs[1], 8 * count); }
static void call_tdes_ede3_decrypt_cbc_records(void) { returned = cukvashe_tdes_ede3_decrypt_cbc_records((void *)contexts[2],
    (void *)outputs[0], 8 * count, ones, count, (void *)outputs[1], 8 * count); }
static void call_pad(void) { returned = cukvashe_pad((void *)outputs[0], 77, sizeof blocks, CUKVASHE_PKCS7,
    (void *)outputs[1]); }
static void call_unpad(void) { returned = cukvashe_unpad(blocks, 80, CUKVASHE_PKCS7, (void *)outputs[0]); }
static void call_weak_key_test(void) { returned = cukvashe_weak_key_test(key, 24); }
static void call_set_odd_parity(void) { cukvashe_set_odd_parity((void *)outputs[0], 24); }
static void call_equal_but_parity(void) { returned = cukvashe_equal_but_parity(key, others, 24); }
static void call_cbc_mac_des_init(void) { returned = cukvashe_cbc_mac_des_init((void *)contexts[3], key,
    CUKVASHE_CBC_MAC_DES_KEY_SIZE, 1); }
static void call_cbc_mac_tdes_ede2_init(void) { returned = cukvashe_cbc_mac_tdes_ede2_init((void *)contexts[4], key,
    CUKVASHE_CBC_MAC_TDES_EDE2_KEY_SIZE, 1); }
static void call_cbc_mac_tdes_ede3_init(void) { returned = cukvashe_cbc_mac_tdes_ede3_init((void *)contexts[5], key,
    CUKVASHE_CBC_MAC_TDES_EDE3_KEY_SIZE, 1); }
static void call_retail_mac_des_init(void) { returned = cukvashe_retail_mac_des_init((void *)contexts[6], key,
    CUKVASHE_RETAIL_MAC_DES_KEY_SIZE, 1); }
static void call_cmac_tdes_ede2_init(void) { returned = cukvashe_cmac_tdes_ede2_init((void *)contexts[7], key,
    CUKVASHE_CMAC_TDES_EDE2_KEY_SIZE); }
static void call_cmac_tdes_ede3_init(void) { returned = cukvashe_cmac_tdes_ede3_init((void *)contexts[8], key,
    CUKVASHE_CMAC_TDES_EDE3_KEY_SIZE); }
static void call_cbc_mac_des_init_no_tables(void) { returned = cukvashe_cbc_mac_des_init_no_tables((void *)contexts[3],
    key, CUKVASHE_CBC_MAC_DES_KEY_SIZE, 1); }
static void call_cbc_mac_tdes_ede2_init_no_tables(void) { returned = cukvashe_cbc_mac_tdes_ede2_init_no_tables((void *)contexts[4],
    key, CUKVASHE_CBC_MAC_TDES_EDE2_KEY_SIZE, 1); }
static void call_cbc_mac_tdes_ede3_init_no_tables(void) { returned = cukvashe_cbc_mac_tdes_ede3_init_no_tables((void *)contexts[5],
    key, CUKVASHE_CBC_MAC_TDES_EDE3_KEY_SIZE, 1); }
static void call_retail_mac_des_init_no_tables(void) { returned = cukvashe_retail_mac_des_init_no_tables((void *)contexts[6],
    key, CUKVASHE_RETAIL_MAC_DES_KEY_SIZE, 1); }
static void call_cmac_tdes_ede2_init_no_tables(void) { returned = cukvashe_cmac_tdes_ede2_init_no_tables((void *)contexts[7],
    key, CUKVASHE_CMAC_TDES_EDE2_KEY_SIZE); }
static void call_cmac_tdes_ede3_init_no_tables(void) { returned = cukvashe_cmac_tdes_ede3_init_no_tables((void *)contexts[8],
    key, CUKVASHE_CMAC_TDES_EDE3_KEY_SIZE); }
static void call_cbc_mac_des_update(void) { returned = cukvashe_cbc_mac_des_update((void *)contexts[3], blocks,
    8 * count); }
static void call_cbc_mac_tdes_ede2_update(void) { returned = cukvashe_cbc_mac_tdes_ede2_update((void *)contexts[4],
    blocks, 8 * count); }
static void call_cbc_mac_tdes_ede3_update(void) { returned = cukvashe_cbc_mac_tdes_ede3_update((void *)contexts[5],
    blocks, 8 * count); }
static void call_retail_mac_des_update(void) { returned = cukvashe_retail_mac_des_update((void *)contexts[6], blocks,
    8 * count); }
static void call_cmac_tdes_ede2_update(void) { returned = cukvashe_cmac_tdes_ede2_update((void *)contexts[7], blocks,
    8 * count); }
static void call_cmac_tdes_ede3_update(void) { returned = cukvashe_cmac_tdes_ede3_update((void *)contexts[8], blocks,
    8 * count); }
static void call_cbc_mac_des_final(void) { returned = cukvashe_cbc_mac_des_final((void *)contexts[3],
    (void *)outputs[0]); }
static void call_cbc_mac_tdes_ede2_final(void) { returned = cukvashe_cbc_mac_tdes_ede2_final((void *)contexts[4],
    (void *)outputs[0]); }
static void call_cbc_mac_tdes_ede3_final(void) { returned = cukvashe_cbc_mac_tdes_ede3_final((void *)contexts[5],
    (void *)outputs[0]); }
static void call_retail_mac_des_final(void) { returned = cukvashe_retail_mac_des_final((void *)contexts[6],
    (void *)outputs[0]); }
static void call_cmac_tdes_ede2_final(void) { returned = cukvashe_cmac_tdes_ede2_final((void *)contexts[7],
    (void *)outputs[0]); }
static void call_cmac_tdes_ede3_final(void) { returned = cukvashe_cmac_tdes_ede3_final((void *)contexts[8],
    (void *)outputs[0]); }
static void call_cbc_mac_des_verify(void) { returned = cukvashe_cbc_mac_des_verify((void *)contexts[3], blocks, 8); }
static void call_cbc_mac_tdes_ede2_verify(void) { returned = cukvashe_cbc_mac_tdes_ede2_verify((void *)contexts[4],
    blocks, 8); }
static void call_cbc_mac_tdes_ede3_verify(void) { returned = cukvashe_cbc_mac_tdes_ede3_verify((void *)contexts[5],
    blocks, 8); }
static void call_retail_mac_des_verify(void) { returned = cukvashe_retail_mac_des_verify((void *)contexts[6], blocks,
    8); }
static void call_cmac_tdes_ede2_verify(void) { returned = cukvashe_cmac_tdes_ede2_verify((void *)contexts[7], blocks,
    8); }
static void call_cmac_tdes_ede3_verify(void) { returned = cukvashe_cmac_tdes_ede3_verify((void *)contexts[8], blocks,
    8); }
static void call_cbc_mac_des_is_tag(void) { returned = cukvashe_cbc_mac_des_is_tag((void *)contexts[3], blocks, 8); }
static void call_cbc_mac_tdes_ede2_is_tag(void) { returned = cukvashe_cbc_mac_tdes_ede2_is_tag((void *)contexts[4],
    blocks, 8); }
static void call_cbc_mac_tdes_ede3_is_tag(void) { returned = cukvashe_cbc_mac_tdes_ede3_is_tag((void *)contexts[5],
    blocks, 8); }
static void call_retail_mac_des_is_tag(void) { returned = cukvashe_retail_mac_des_is_tag((void *)contexts[6], blocks,
    8); }
static void call_cmac_tdes_ede2_is_tag(void) { returned = cukvashe_cmac_tdes_ede2_is_tag((void *)contexts[7], blocks,
    8); }
static void call_cmac_tdes_ede3_is_tag(void) { returned = cukvashe_cmac_tdes_ede3_is_tag((void *)contexts[8], blocks,
    8); }
static void call_cbc_mac_des_macs(void) { returned = cukvashe_cbc_mac_des_macs(key, CUKVASHE_CBC_MAC_DES_KEY_SIZE, 1,
    messages, (void *)outputs[0], 8 * count, count); }
static void call_cbc_mac_des_macs_each(void) { returned = cukvashe_cbc_mac_des_macs_each(keys,
    CUKVASHE_CBC_MAC_DES_KEY_SIZE * count, 1, messages, (void *)outputs[0], 8 * count, count); }
static void call_cbc_mac_tdes_ede2_macs(void) { returned = cukvashe_cbc_mac_tdes_ede2_macs(key,
    CUKVASHE_CBC_MAC_TDES_EDE2_KEY_SIZE, 1, messages, (void *)outputs[0], 8 * count, count); }
static void call_cbc_mac_tdes_ede2_macs_each(void) { returned = cukvashe_cbc_mac_tdes_ede2_macs_each(keys,
    CUKVASHE_CBC_MAC_TDES_EDE2_KEY_SIZE * count, 1, messages, (void *)outputs[0], 8 * count, count); }
static void call_cbc_mac_tdes_ede3_macs(void) { returned = cukvashe_cbc_mac_tdes_ede3_macs(key,
    CUKVASHE_CBC_MAC_TDES_EDE3_KEY_SIZE, 1, messages, (void *)outputs[0], 8 * count, count); }
static void call_cbc_mac_tdes_ede3_macs_each(void) { returned = cukvashe_cbc_mac_tdes_ede3_macs_each(keys,
    CUKVASHE_CBC_MAC_TDES_EDE3_KEY_SIZE * count, 1, messages, (void *)outputs[0], 8 * count, count); }
static void call_retail_mac_des_macs(void) { returned = cukvashe_retail_mac_des_macs(key,
    CUKVASHE_RETAIL_MAC_DES_KEY_SIZE, 1, messages, (void *)outputs[0], 8 * count, count); }
static void call_retail_mac_des_macs_each(void) { returned = cukvashe_retail_mac_des_macs_each(keys,
    CUKVASHE_RETAIL_MAC_DES_KEY_SIZE * count, 1, messages, (void *)outputs[0], 8 * count, count); }
static void call_cmac_tdes_ede2_macs(void) { returned = cukvashe_cmac_tdes_ede2_macs(key,
    CUKVASHE_CMAC_TDES_EDE2_KEY_SIZE, messages, (void *)outputs[0], 8 * count, count); }
static void call_cmac_tdes_ede2_macs_each(void) { returned = cukvashe_cmac_tdes_ede2_macs_each(keys,
    CUKVASHE_CMAC_TDES_EDE2_KEY_SIZE * count, messages, (void *)outputs[0], 8 * count, count); }
static void call_cmac_tdes_ede3_macs(void) { returned = cukvashe_cmac_tdes_ede3_macs(key,
    CUKVASHE_CMAC_TDES_EDE3_KEY_SIZE, messages, (void *)outputs[0], 8 * count, count); }
static void call_cmac_tdes_ede3_macs_each(void) { returned = cukvashe_cmac_tdes_ede3_macs_each(keys,
    CUKVASHE_CMAC_TDES_EDE3_KEY_SIZE * count, messages, (void *)outputs[0], 8 * count, count); }
static void call_compare_tags(void) { returned = cukvashe_compare_tags(blocks, 8 * count, blocks, 8 * count,
    (void *)outputs[0], count); }
static void call_des_check_value(void) { returned = cukvashe_des_check_value(key, CUKVASHE_DES_KEY_SIZE,
    (void *)outputs[0]); }
static void call_tdes_ede2_check_value(void) { returned = cukvashe_tdes_ede2_check_value(key,
    CUKVASHE_TDES_EDE2_KEY_SIZE, (void *)outputs[0]); }
static void call_tdes_ede3_check_value(void) { returned = cukvashe_tdes_ede3_check_value(key,
    CUKVASHE_TDES_EDE3_KEY_SIZE, (void *)outputs[0]); }
static void call_key_check_value(void) { returned = cukvashe_key_check_value(key, 24, (void *)outputs[0]); }
static void call_short_key_check_value(void) { returned = cukvashe_short_key_check_value(key, 24, (void *)outputs[0]); }
static void call_des_check_values(void) { returned = cukvashe_des_check_values(keys, CUKVASHE_DES_KEY_SIZE * count,
    (void *)outputs[0], 3 * count, count); }
static void call_tdes_ede2_check_values(void) { returned = cukvashe_tdes_ede2_check_values(keys,
    CUKVASHE_TDES_EDE2_KEY_SIZE * count, (void *)outputs[0], 3 * count, count); }
static void call_tdes_ede3_check_values(void) { returned = cukvashe_tdes_ede3_check_values(keys,
    CUKVASHE_TDES_EDE3_KEY_SIZE * count, (void *)outputs[0], 3 * count, count); }
static void call_combine_8(void) { returned = cukvashe_combine_8(key, others, others, 8, 1, (void *)outputs[0]); }
static void call_combine_16(void) { returned = cukvashe_combine_16(key, others, others, 16, 1, (void *)outputs[0]); }
static void call_combine_24(void) { returned = cukvashe_combine_24(key, others, others, 24, 1, (void *)outputs[0]); }
static void call_dukpt_is_usable(void) { returned = cukvashe_dukpt_is_usable(serial); }
static void call_dukpt_next_serial(void) { returned = cukvashe_dukpt_next_serial(serial, (void *)outputs[0]); }
static void call_dukpt_initial_key(void) { cukvashe_dukpt_initial_key(key, serial, (void *)outputs[0]); }
static void call_dukpt_transaction_key(void) { cukvashe_dukpt_transaction_key(key, serial, (void *)outputs[0]); }
static void call_dukpt_transaction_keys_from_base(void) { returned = cukvashe_dukpt_transaction_keys_from_base(key,
    blocks, 10 * count, (void *)outputs[0], 16 * count, count); }
static void call_dukpt_pin_key(void) { cukvashe_dukpt_pin_key(key, (void *)outputs[0]); }
static void call_dukpt_mac_key(void) { cukvashe_dukpt_mac_key(key, true, (void *)outputs[0]); }
static void call_dukpt_data_key(void) { cukvashe_dukpt_data_key(key, true, (void *)outputs[0]); }
static void call_dukpt_data_variant(void) { cukvashe_dukpt_data_variant(key, true, (void *)outputs[0]); }
static void call_dukpt_terminal_init(void) { cukvashe_dukpt_terminal_init(&terminal, key, serial); }
static void call_dukpt_terminal_next_key(void) { returned = cukvashe_dukpt_terminal_next_key(&terminal,
    (void *)outputs[0], (void *)outputs[1]); }
static void call_pin_encode_0(void) { returned = cukvashe_pin_encode_0(pin_digits, 12, "4012345678909", 13,
    (void *)outputs[0]); }
static void call_pin_encode_1(void) { returned = cukvashe_pin_encode_1(pin_digits, 12, fill, (void *)outputs[0]); }
static void call_pin_encode_2(void) { returned = cukvashe_pin_encode_2(pin_digits, 12, (void *)outputs[0]); }
static void call_pin_encode_3(void) { returned = cukvashe_pin_encode_3(pin_digits, 12, "4012345678909", 13, fill,
    (void *)outputs[0]); }
static void call_pin_decode_0(void) { returned = cukvashe_pin_decode_0(sent, "4012345678909", 13, (void *)outputs[0]); }
static void call_pin_decode_1(void) { returned = cukvashe_pin_decode_1(sent + 8, (void *)outputs[0]); }
static void call_pin_decode_2(void) { returned = cukvashe_pin_decode_2(sent, (void *)outputs[0]); }
static void call_pin_decode_3(void) { returned = cukvashe_pin_decode_3(sent, "4012345678909", 13, (void *)outputs[0]); }
static void call_pin_translate_to_0(void) { returned = cukvashe_pin_translate_to_0(&translations[0], sent,
    (void *)outputs[0]); }
static void call_pin_translate_to_1(void) { returned = cukvashe_pin_translate_to_1(&translations[1], sent + 8,
    (void *)outputs[0]); }
static void call_pin_translate_to_3(void) { returned = cukvashe_pin_translate_to_3(&translations[0], sent,
    (void *)outputs[0]); }
static void call_pvv(void) { returned = cukvashe_pvv(key, "4012345678909", 13, 1, pin_digits, 12, (void *)outputs[0]); }
static void call_pvv_verify(void) { returned = cukvashe_pvv_verify(key, "4012345678909", 13, 1, pin_digits, 12,
    pin_digits, 4); }
static void call_pvv_is_pin(void) { returned = cukvashe_pvv_is_pin(key, "4012345678909", 13, 1, pin_digits, 12,
    pin_digits, 4); }
static void call_decimal_table_init(void) { returned = cukvashe_decimal_table_init((void *)outputs[0],
    "0123456789012345", 16); }
static void call_decimal_table_init_any(void) { returned = cukvashe_decimal_table_init_any((void *)outputs[0],
    "0000000000000000", 16); }
static void call_natural_pin(void) { returned = cukvashe_natural_pin(key, 24, &table, blocks, 12, (void *)outputs[0]); }
static void call_pin_offset(void) { returned = cukvashe_pin_offset(key, 24, &table, blocks, pin_digits, 12,
    (void *)outputs[0]); }
static void call_pin_offset_verify(void) { returned = cukvashe_pin_offset_verify(key, 24, &table, blocks, pin_digits,
    12, pin_digits, 12); }
static void call_pin_offset_is_pin(void) { returned = cukvashe_pin_offset_is_pin(key, 24, &table, blocks, pin_digits,
    12, pin_digits, 12); }
static void call_cvv(void) { returned = cukvashe_cvv(key, "4012345678909", 13, "8701", 4, "101", 3,
    (void *)outputs[0]); }
static void call_emv_card_key(void) { returned = cukvashe_emv_card_key(key, "4012345678909", 13, "00", 2,
    (void *)outputs[0]); }
static void call_emv_card_key_b(void) { returned = cukvashe_emv_card_key_b(key, "6304000000000000001", 19, "00", 2,
    (void *)outputs[0]); }
static void call_emv_application_key(void) { cukvashe_emv_application_key(key, blocks, (void *)outputs[0]); }
static void call_emv_session_key(void) { cukvashe_emv_session_key(key, sent, (void *)outputs[0]); }
static void call_emv_application_cryptogram(void) { cukvashe_emv_application_cryptogram(key, blocks, sizeof blocks,
    (void *)outputs[0]); }
static void call_emv_response_1(void) { cukvashe_emv_response_1(key, blocks, blocks, (void *)outputs[0]); }
static void call_emv_response_2(void) { returned = cukvashe_emv_response_2(key, blocks, blocks, blocks, 8,
    (void *)outputs[0]); }
static void call_key_block_unwrap(void) { returned = cukvashe_key_block_unwrap(key, 24, key_block, key_block_length,
    (void *)outputs[0], (void *)outputs[1], (void *)outputs[2]); }
static void call_key_block_wrap(void) { returned = cukvashe_key_block_wrap(&parts, key_block, sizeof key_block,
    &key_block_length); }
static void call_key_block_header(void) { returned = cukvashe_key_block_header(key_block, key_block_length,
    (void *)outputs[0]); }
static void call_key_block_context(void) { returned = cukvashe_key_block_context(key_block, key_block_length,
    (void *)outputs[0]); }
static void call_key_block_optional_block(void) { returned = cukvashe_key_block_optional_block(key_block,
    key_block_length, 0, (void *)outputs[0], (void *)outputs[1], (void *)outputs[2]); }
static void call_pbkdf2(void) { returned = cukvashe_pbkdf2(CUKVASHE_SHA256, 2, others, sizeof others, blocks, 8,
    (void *)outputs[0], 24); }
static void call_bytes_to_key(void) { returned = cukvashe_bytes_to_key(CUKVASHE_SHA256, others, sizeof others, blocks,
    8, (void *)outputs[0], 24); }
static void call_des_open_salted(void) { returned = cukvashe_des_open_salted(CUKVASHE_SHA1, 2, others, sizeof others,
    salted, sizeof salted, (void *)outputs[0], sizeof salted, (void *)outputs[1]); }
static void call_tdes_ede2_open_salted(void) { returned = cukvashe_tdes_ede2_open_salted(CUKVASHE_MD5, 0, others,
    sizeof others, salted, sizeof salted, (void *)outputs[0], sizeof salted, (void *)outputs[1]); }
static void call_tdes_ede3_open_salted(void) { returned = cukvashe_tdes_ede3_open_salted(CUKVASHE_SHA256, 0, others,
    sizeof others, salted, sizeof salted, (void *)outputs[0], sizeof salted, (void *)outputs[1]); }
static void call_mysql_decrypt_values(void) { returned = cukvashe_mysql_decrypt_values(others, sizeof others, column,
    9 * count, nines, count, (void *)outputs[0], (void *)outputs[1], (void *)outputs[2]); }
static void call_mysql_decrypt_values_by_file(void) { returned = cukvashe_mysql_decrypt_values_by_file((const uint8_t *)"9 key\n",
    6, column, 9 * count, nines, count, (void *)outputs[0], (void *)outputs[1], (void *)outputs[2]); }
static void call_pgcrypto_decrypt_values(void) { returned = cukvashe_pgcrypto_decrypt_values("3des", 4, key, 24, blocks,
    8, blocks, 8 * count, eights, count, (void *)outputs[0], (void *)outputs[1], (void *)outputs[2]); }
static void call_mysql_encrypt_values(void) { returned = cukvashe_mysql_encrypt_values(others, sizeof others, 127,
    blocks, 8 * count, eights, count, (void *)outputs[0], 17 * count); }
static void call_pgcrypto_encrypt_values(void) { returned = cukvashe_pgcrypto_encrypt_values("3des", 4, key, 24, blocks,
    8, blocks, 8 * count, eights, count, (void *)outputs[0], 16 * count); }
static void call_pbe_key(void) { returned = cukvashe_pbe_key("PBEWithMD5AndTripleDES", 22, 2, others, sizeof others,
    blocks, 8, (void *)outputs[0], 32); }
static void call_jasypt_decrypt_values(void) { returned = cukvashe_jasypt_decrypt_values("PBEWithMD5AndDES", 16, 2,
    others, sizeof others, blocks, 8 * count, eights, count, (void *)outputs[0], (void *)outputs[1],
    (void *)outputs[2]); }
static void call_jasypt_encrypt_values(void) { returned = cukvashe_jasypt_encrypt_values("PBEWithMD5AndDES", 16, 2,
    others, sizeof others, blocks, 8 * count, blocks, 8 * count, eights, count, (void *)outputs[0], 32 * count); }
static void call_des_size(void) { returned = cukvashe_des_size(); }
static void call_tdes_ede2_size(void) { returned = cukvashe_tdes_ede2_size(); }
static void call_tdes_ede3_size(void) { returned = cukvashe_tdes_ede3_size(); }
static void call_stream_size(void) { returned = cukvashe_stream_size(); }
static void call_cbc_mac_des_size(void) { returned = cukvashe_cbc_mac_des_size(); }
static void call_cbc_mac_tdes_ede2_size(void) { returned = cukvashe_cbc_mac_tdes_ede2_size(); }
static void call_cbc_mac_tdes_ede3_size(void) { returned = cukvashe_cbc_mac_tdes_ede3_size(); }
static void call_retail_mac_des_size(void) { returned = cukvashe_retail_mac_des_size(); }
static void call_cmac_tdes_ede2_size(void) { returned = cukvashe_cmac_tdes_ede2_size(); }
static void call_cmac_tdes_ede3_size(void) { returned = cukvashe_cmac_tdes_ede3_size(); }
static void call_message_size(void) { returned = cukvashe_message_size(); }
static void call_dukpt_terminal_size(void) { returned = cukvashe_dukpt_terminal_size(); }
static void call_pin_translation_size(void) { returned = cukvashe_pin_translation_size(); }
static void call_decimal_table_size(void) { returned = cukvashe_decimal_table_size(); }
static void call_key_block_fields_size(void) { returned = cukvashe_key_block_fields_size(); }
static void call_key_block_parts_size(void) { returned = cukvashe_key_block_parts_size(); }
static void call_version_major(void) { returned = cukvashe_version_major(); }
static void call_version_minor(void) { returned = cukvashe_version_minor(); }
static void call_version_patch(void) { returned = cukvashe_version_patch(); }
static void call_block_size(void) { returned = cukvashe_block_size(); }
static void call_tag_size(void) { returned = cukvashe_tag_size(); }
static void call_des_key_size(void) { returned = cukvashe_des_key_size(); }
static void call_tdes_ede2_key_size(void) { returned = cukvashe_tdes_ede2_key_size(); }
static void call_tdes_ede3_key_size(void) { returned = cukvashe_tdes_ede3_key_size(); }
static void call_cbc_mac_des_key_size(void) { returned = cukvashe_cbc_mac_des_key_size(); }
static void call_cbc_mac_tdes_ede2_key_size(void) { returned = cukvashe_cbc_mac_tdes_ede2_key_size(); }
static void call_cbc_mac_tdes_ede3_key_size(void) { returned = cukvashe_cbc_mac_tdes_ede3_key_size(); }
static void call_retail_mac_des_key_size(void) { returned = cukvashe_retail_mac_des_key_size(); }
static void call_cmac_tdes_ede2_key_size(void) { returned = cukvashe_cmac_tdes_ede2_key_size(); }
static void call_cmac_tdes_ede3_key_size(void) { returned = cukvashe_cmac_tdes_ede3_key_size(); }
static void call_check_value_size(void) { returned = cukvashe_check_value_size(); }
static void call_short_check_value_size(void) { returned = cukvashe_short_check_value_size(); }
static void call_dukpt_key_size(void) { returned = cukvashe_dukpt_key_size(); }
static void call_dukpt_serial_size(void) { returned = cukvashe_dukpt_serial_size(); }
static void call_fill_size(void) { returned = cukvashe_fill_size(); }
static void call_pin_size(void) { returned = cukvashe_pin_size(); }
static void call_cvv_size(void) { returned = cukvashe_cvv_size(); }
static void call_pvv_size(void) { returned = cukvashe_pvv_size(); }
static void call_key_data_size(void) { returned = cukvashe_key_data_size(); }
static void call_key_block_size(void) { returned = cukvashe_key_block_size(); }
static void call_pkcs7(void) { returned = cukvashe_pkcs7(); }
static void call_iso7816(void) { returned = cukvashe_iso7816(); }
static void call_md5(void) { returned = cukvashe_md5(); }
static void call_sha1(void) { returned = cukvashe_sha1(); }
static void call_sha256(void) { returned = cukvashe_sha256(); }
static void call_ctr(void) { returned = cukvashe_ctr(); }
static void call_ofb(void) { returned = cukvashe_ofb(); }
static void call_cfb1(void) { returned = cukvashe_cfb1(); }
static void call_cfb8(void) { returned = cukvashe_cfb8(); }
static void call_cfb64(void) { returned = cukvashe_cfb64(); }
static void call_mac_padding_1(void) { returned = cukvashe_mac_padding_1(); }
static void call_mac_padding_2(void) { returned = cukvashe_mac_padding_2(); }

/* The name of each call, the most that it uses of the stack, whether it wipes that, and whether it takes a list, and a context. */
static const struct call calls[] = {
    {"is_supported", call_is_supported, 6000, 0, 0, 0},
    {"version", call_version, 6000, 0, 0, 0},
    {"strerror", call_strerror, 6000, 0, 0, 0},
    {"wipe", call_wipe, 6000, 0, 0, 0},
    {"des_init", call_des_init, 6000, 1, 0, 1},
    {"tdes_ede2_init", call_tdes_ede2_init, 6000, 1, 0, 1},
    {"tdes_ede3_init", call_tdes_ede3_init, 6000, 1, 0, 1},
    {"des_init_no_tables", call_des_init_no_tables, 6000, 1, 0, 1},
    {"tdes_ede2_init_no_tables", call_tdes_ede2_init_no_tables, 6000, 1, 0, 1},
    {"tdes_ede3_init_no_tables", call_tdes_ede3_init_no_tables, 6000, 1, 0, 1},
    {"des_encrypt_ecb", call_des_encrypt_ecb, 27000, 0, 1, 1},
    {"des_decrypt_ecb", call_des_decrypt_ecb, 27000, 0, 1, 1},
    {"des_encrypt_ecb_to", call_des_encrypt_ecb_to, 27000, 0, 1, 1},
    {"des_decrypt_ecb_to", call_des_decrypt_ecb_to, 27000, 0, 1, 1},
    {"tdes_ede2_encrypt_ecb", call_tdes_ede2_encrypt_ecb, 27000, 0, 1, 1},
    {"tdes_ede2_decrypt_ecb", call_tdes_ede2_decrypt_ecb, 27000, 0, 1, 1},
    {"tdes_ede2_encrypt_ecb_to", call_tdes_ede2_encrypt_ecb_to, 27000, 0, 1, 1},
    {"tdes_ede2_decrypt_ecb_to", call_tdes_ede2_decrypt_ecb_to, 27000, 0, 1, 1},
    {"tdes_ede3_encrypt_ecb", call_tdes_ede3_encrypt_ecb, 27000, 0, 1, 1},
    {"tdes_ede3_decrypt_ecb", call_tdes_ede3_decrypt_ecb, 27000, 0, 1, 1},
    {"tdes_ede3_encrypt_ecb_to", call_tdes_ede3_encrypt_ecb_to, 27000, 0, 1, 1},
    {"tdes_ede3_decrypt_ecb_to", call_tdes_ede3_decrypt_ecb_to, 27000, 0, 1, 1},
    {"des_encrypt_cbc", call_des_encrypt_cbc, 27000, 0, 1, 1},
    {"des_decrypt_cbc", call_des_decrypt_cbc, 27000, 0, 1, 1},
    {"des_encrypt_cbc_to", call_des_encrypt_cbc_to, 27000, 0, 1, 1},
    {"des_decrypt_cbc_to", call_des_decrypt_cbc_to, 27000, 0, 1, 1},
    {"tdes_ede2_encrypt_cbc", call_tdes_ede2_encrypt_cbc, 27000, 0, 1, 1},
    {"tdes_ede2_decrypt_cbc", call_tdes_ede2_decrypt_cbc, 27000, 0, 1, 1},
    {"tdes_ede2_encrypt_cbc_to", call_tdes_ede2_encrypt_cbc_to, 27000, 0, 1, 1},
    {"tdes_ede2_decrypt_cbc_to", call_tdes_ede2_decrypt_cbc_to, 27000, 0, 1, 1},
    {"tdes_ede3_encrypt_cbc", call_tdes_ede3_encrypt_cbc, 27000, 0, 1, 1},
    {"tdes_ede3_decrypt_cbc", call_tdes_ede3_decrypt_cbc, 27000, 0, 1, 1},
    {"tdes_ede3_encrypt_cbc_to", call_tdes_ede3_encrypt_cbc_to, 27000, 0, 1, 1},
    {"tdes_ede3_decrypt_cbc_to", call_tdes_ede3_decrypt_cbc_to, 27000, 0, 1, 1},
    {"des_encrypt_mode", call_des_encrypt_mode, 32000, 0, 1, 1},
    {"des_decrypt_mode", call_des_decrypt_mode, 32000, 0, 1, 1},
    {"tdes_ede2_encrypt_mode", call_tdes_ede2_encrypt_mode, 32000, 0, 1, 1},
    {"tdes_ede2_decrypt_mode", call_tdes_ede2_decrypt_mode, 32000, 0, 1, 1},
    {"tdes_ede3_encrypt_mode", call_tdes_ede3_encrypt_mode, 32000, 0, 1, 1},
    {"tdes_ede3_decrypt_mode", call_tdes_ede3_decrypt_mode, 32000, 0, 1, 1},
    {"stream_begin", call_stream_begin, 6000, 0, 0, 1},
    {"stream_begin_ctr_at", call_stream_begin_ctr_at, 6000, 0, 0, 1},
    {"des_encrypt_stream", call_des_encrypt_stream, 32000, 0, 1, 1},
    {"des_decrypt_stream", call_des_decrypt_stream, 32000, 0, 1, 1},
    {"tdes_ede2_encrypt_stream", call_tdes_ede2_encrypt_stream, 32000, 0, 1, 1},
    {"tdes_ede2_decrypt_stream", call_tdes_ede2_decrypt_stream, 32000, 0, 1, 1},
    {"tdes_ede3_encrypt_stream", call_tdes_ede3_encrypt_stream, 32000, 0, 1, 1},
    {"tdes_ede3_decrypt_stream", call_tdes_ede3_decrypt_stream, 32000, 0, 1, 1},
    {"des_encrypt_stream_bits", call_des_encrypt_stream_bits, 32000, 0, 1, 1},
    {"des_decrypt_stream_bits", call_des_decrypt_stream_bits, 32000, 0, 1, 1},
    {"tdes_ede2_encrypt_stream_bits", call_tdes_ede2_encrypt_stream_bits, 32000, 0, 1, 1},
    {"tdes_ede2_decrypt_stream_bits", call_tdes_ede2_decrypt_stream_bits, 32000, 0, 1, 1},
    {"tdes_ede3_encrypt_stream_bits", call_tdes_ede3_encrypt_stream_bits, 32000, 0, 1, 1},
    {"tdes_ede3_decrypt_stream_bits", call_tdes_ede3_decrypt_stream_bits, 32000, 0, 1, 1},
    {"stream_position", call_stream_position, 6000, 0, 0, 1},
    {"cms_wrap_key", call_cms_wrap_key, 7000, 1, 0, 0},
    {"cms_unwrap_key", call_cms_unwrap_key, 7000, 1, 0, 0},
    {"tkw_wrap_key", call_tkw_wrap_key, 6000, 1, 0, 0},
    {"tkw_unwrap_key", call_tkw_unwrap_key, 6000, 1, 0, 0},
    {"des_encrypt_each", call_des_encrypt_each, 27000, 1, 1, 0},
    {"des_decrypt_each", call_des_decrypt_each, 27000, 1, 1, 0},
    {"tdes_ede2_encrypt_each", call_tdes_ede2_encrypt_each, 27000, 1, 1, 0},
    {"tdes_ede2_decrypt_each", call_tdes_ede2_decrypt_each, 27000, 1, 1, 0},
    {"tdes_ede3_encrypt_each", call_tdes_ede3_encrypt_each, 27000, 1, 1, 0},
    {"tdes_ede3_decrypt_each", call_tdes_ede3_decrypt_each, 27000, 1, 1, 0},
    {"des_encrypt_cbc_records", call_des_encrypt_cbc_records, 66000, 0, 1, 1},
    {"des_decrypt_cbc_records", call_des_decrypt_cbc_records, 66000, 0, 1, 1},
    {"tdes_ede2_encrypt_cbc_records", call_tdes_ede2_encrypt_cbc_records, 66000, 0, 1, 1},
    {"tdes_ede2_decrypt_cbc_records", call_tdes_ede2_decrypt_cbc_records, 66000, 0, 1, 1},
    {"tdes_ede3_encrypt_cbc_records", call_tdes_ede3_encrypt_cbc_records, 66000, 0, 1, 1},
    {"tdes_ede3_decrypt_cbc_records", call_tdes_ede3_decrypt_cbc_records, 66000, 0, 1, 1},
    {"pad", call_pad, 6000, 0, 0, 0},
    {"unpad", call_unpad, 6000, 0, 0, 0},
    {"weak_key_test", call_weak_key_test, 6000, 1, 0, 0},
    {"set_odd_parity", call_set_odd_parity, 6000, 1, 0, 0},
    {"equal_but_parity", call_equal_but_parity, 6000, 1, 0, 0},
    {"cbc_mac_des_init", call_cbc_mac_des_init, 6000, 1, 0, 1},
    {"cbc_mac_tdes_ede2_init", call_cbc_mac_tdes_ede2_init, 6000, 1, 0, 1},
    {"cbc_mac_tdes_ede3_init", call_cbc_mac_tdes_ede3_init, 6000, 1, 0, 1},
    {"retail_mac_des_init", call_retail_mac_des_init, 6000, 1, 0, 1},
    {"cmac_tdes_ede2_init", call_cmac_tdes_ede2_init, 6000, 1, 0, 1},
    {"cmac_tdes_ede3_init", call_cmac_tdes_ede3_init, 6000, 1, 0, 1},
    {"cbc_mac_des_init_no_tables", call_cbc_mac_des_init_no_tables, 6000, 1, 0, 1},
    {"cbc_mac_tdes_ede2_init_no_tables", call_cbc_mac_tdes_ede2_init_no_tables, 6000, 1, 0, 1},
    {"cbc_mac_tdes_ede3_init_no_tables", call_cbc_mac_tdes_ede3_init_no_tables, 6000, 1, 0, 1},
    {"retail_mac_des_init_no_tables", call_retail_mac_des_init_no_tables, 6000, 1, 0, 1},
    {"cmac_tdes_ede2_init_no_tables", call_cmac_tdes_ede2_init_no_tables, 6000, 1, 0, 1},
    {"cmac_tdes_ede3_init_no_tables", call_cmac_tdes_ede3_init_no_tables, 6000, 1, 0, 1},
    {"cbc_mac_des_update", call_cbc_mac_des_update, 6000, 0, 1, 1},
    {"cbc_mac_tdes_ede2_update", call_cbc_mac_tdes_ede2_update, 6000, 0, 1, 1},
    {"cbc_mac_tdes_ede3_update", call_cbc_mac_tdes_ede3_update, 6000, 0, 1, 1},
    {"retail_mac_des_update", call_retail_mac_des_update, 6000, 0, 1, 1},
    {"cmac_tdes_ede2_update", call_cmac_tdes_ede2_update, 6000, 0, 1, 1},
    {"cmac_tdes_ede3_update", call_cmac_tdes_ede3_update, 6000, 0, 1, 1},
    {"cbc_mac_des_final", call_cbc_mac_des_final, 6000, 0, 0, 1},
    {"cbc_mac_tdes_ede2_final", call_cbc_mac_tdes_ede2_final, 6000, 0, 0, 1},
    {"cbc_mac_tdes_ede3_final", call_cbc_mac_tdes_ede3_final, 6000, 0, 0, 1},
    {"retail_mac_des_final", call_retail_mac_des_final, 6000, 0, 0, 1},
    {"cmac_tdes_ede2_final", call_cmac_tdes_ede2_final, 6000, 0, 0, 1},
    {"cmac_tdes_ede3_final", call_cmac_tdes_ede3_final, 6000, 0, 0, 1},
    {"cbc_mac_des_verify", call_cbc_mac_des_verify, 6000, 0, 0, 1},
    {"cbc_mac_tdes_ede2_verify", call_cbc_mac_tdes_ede2_verify, 6000, 0, 0, 1},
    {"cbc_mac_tdes_ede3_verify", call_cbc_mac_tdes_ede3_verify, 6000, 0, 0, 1},
    {"retail_mac_des_verify", call_retail_mac_des_verify, 6000, 0, 0, 1},
    {"cmac_tdes_ede2_verify", call_cmac_tdes_ede2_verify, 6000, 0, 0, 1},
    {"cmac_tdes_ede3_verify", call_cmac_tdes_ede3_verify, 6000, 0, 0, 1},
    {"cbc_mac_des_is_tag", call_cbc_mac_des_is_tag, 6000, 0, 0, 1},
    {"cbc_mac_tdes_ede2_is_tag", call_cbc_mac_tdes_ede2_is_tag, 6000, 0, 0, 1},
    {"cbc_mac_tdes_ede3_is_tag", call_cbc_mac_tdes_ede3_is_tag, 6000, 0, 0, 1},
    {"retail_mac_des_is_tag", call_retail_mac_des_is_tag, 6000, 0, 0, 1},
    {"cmac_tdes_ede2_is_tag", call_cmac_tdes_ede2_is_tag, 6000, 0, 0, 1},
    {"cmac_tdes_ede3_is_tag", call_cmac_tdes_ede3_is_tag, 6000, 0, 0, 1},
    {"cbc_mac_des_macs", call_cbc_mac_des_macs, 46000, 1, 1, 0},
    {"cbc_mac_des_macs_each", call_cbc_mac_des_macs_each, 46000, 1, 1, 0},
    {"cbc_mac_tdes_ede2_macs", call_cbc_mac_tdes_ede2_macs, 46000, 1, 1, 0},
    {"cbc_mac_tdes_ede2_macs_each", call_cbc_mac_tdes_ede2_macs_each, 46000, 1, 1, 0},
    {"cbc_mac_tdes_ede3_macs", call_cbc_mac_tdes_ede3_macs, 46000, 1, 1, 0},
    {"cbc_mac_tdes_ede3_macs_each", call_cbc_mac_tdes_ede3_macs_each, 46000, 1, 1, 0},
    {"retail_mac_des_macs", call_retail_mac_des_macs, 46000, 1, 1, 0},
    {"retail_mac_des_macs_each", call_retail_mac_des_macs_each, 46000, 1, 1, 0},
    {"cmac_tdes_ede2_macs", call_cmac_tdes_ede2_macs, 46000, 1, 1, 0},
    {"cmac_tdes_ede2_macs_each", call_cmac_tdes_ede2_macs_each, 46000, 1, 1, 0},
    {"cmac_tdes_ede3_macs", call_cmac_tdes_ede3_macs, 46000, 1, 1, 0},
    {"cmac_tdes_ede3_macs_each", call_cmac_tdes_ede3_macs_each, 46000, 1, 1, 0},
    {"compare_tags", call_compare_tags, 6000, 0, 1, 0},
    {"des_check_value", call_des_check_value, 6000, 1, 0, 0},
    {"tdes_ede2_check_value", call_tdes_ede2_check_value, 6000, 1, 0, 0},
    {"tdes_ede3_check_value", call_tdes_ede3_check_value, 6000, 1, 0, 0},
    {"key_check_value", call_key_check_value, 6000, 1, 0, 0},
    {"short_key_check_value", call_short_key_check_value, 6000, 1, 0, 0},
    {"des_check_values", call_des_check_values, 27000, 1, 1, 0},
    {"tdes_ede2_check_values", call_tdes_ede2_check_values, 27000, 1, 1, 0},
    {"tdes_ede3_check_values", call_tdes_ede3_check_values, 27000, 1, 1, 0},
    {"combine_8", call_combine_8, 6000, 1, 0, 0},
    {"combine_16", call_combine_16, 6000, 1, 0, 0},
    {"combine_24", call_combine_24, 6000, 1, 0, 0},
    {"dukpt_is_usable", call_dukpt_is_usable, 6000, 0, 0, 0},
    {"dukpt_next_serial", call_dukpt_next_serial, 6000, 0, 0, 0},
    {"dukpt_initial_key", call_dukpt_initial_key, 6000, 1, 0, 0},
    {"dukpt_transaction_key", call_dukpt_transaction_key, 6000, 1, 0, 0},
    {"dukpt_transaction_keys_from_base", call_dukpt_transaction_keys_from_base, 46000, 1, 1, 0},
    {"dukpt_pin_key", call_dukpt_pin_key, 6000, 1, 0, 0},
    {"dukpt_mac_key", call_dukpt_mac_key, 6000, 1, 0, 0},
    {"dukpt_data_key", call_dukpt_data_key, 6000, 1, 0, 0},
    {"dukpt_data_variant", call_dukpt_data_variant, 6000, 1, 0, 0},
    {"dukpt_terminal_init", call_dukpt_terminal_init, 6000, 1, 0, 0},
    {"dukpt_terminal_next_key", call_dukpt_terminal_next_key, 6000, 1, 0, 0},
    {"pin_encode_0", call_pin_encode_0, 6000, 1, 0, 0},
    {"pin_encode_1", call_pin_encode_1, 6000, 1, 0, 0},
    {"pin_encode_2", call_pin_encode_2, 6000, 1, 0, 0},
    {"pin_encode_3", call_pin_encode_3, 6000, 1, 0, 0},
    {"pin_decode_0", call_pin_decode_0, 6000, 1, 0, 0},
    {"pin_decode_1", call_pin_decode_1, 6000, 1, 0, 0},
    {"pin_decode_2", call_pin_decode_2, 6000, 1, 0, 0},
    {"pin_decode_3", call_pin_decode_3, 6000, 1, 0, 0},
    {"pin_translate_to_0", call_pin_translate_to_0, 6000, 1, 0, 0},
    {"pin_translate_to_1", call_pin_translate_to_1, 6000, 1, 0, 0},
    {"pin_translate_to_3", call_pin_translate_to_3, 6000, 1, 0, 0},
    {"pvv", call_pvv, 6000, 1, 0, 0},
    {"pvv_verify", call_pvv_verify, 6000, 1, 0, 0},
    {"pvv_is_pin", call_pvv_is_pin, 6000, 1, 0, 0},
    {"decimal_table_init", call_decimal_table_init, 6000, 0, 0, 0},
    {"decimal_table_init_any", call_decimal_table_init_any, 6000, 0, 0, 0},
    {"natural_pin", call_natural_pin, 6000, 1, 0, 0},
    {"pin_offset", call_pin_offset, 6000, 1, 0, 0},
    {"pin_offset_verify", call_pin_offset_verify, 6000, 1, 0, 0},
    {"pin_offset_is_pin", call_pin_offset_is_pin, 6000, 1, 0, 0},
    {"cvv", call_cvv, 6000, 1, 0, 0},
    {"emv_card_key", call_emv_card_key, 6000, 1, 0, 0},
    {"emv_card_key_b", call_emv_card_key_b, 6000, 1, 0, 0},
    {"emv_application_key", call_emv_application_key, 6000, 1, 0, 0},
    {"emv_session_key", call_emv_session_key, 6000, 1, 0, 0},
    {"emv_application_cryptogram", call_emv_application_cryptogram, 6000, 1, 0, 0},
    {"emv_response_1", call_emv_response_1, 6000, 1, 0, 0},
    {"emv_response_2", call_emv_response_2, 6000, 1, 0, 0},
    {"key_block_unwrap", call_key_block_unwrap, 27000, 1, 0, 0},
    {"key_block_wrap", call_key_block_wrap, 27000, 1, 0, 0},
    {"key_block_header", call_key_block_header, 27000, 0, 0, 0},
    {"key_block_context", call_key_block_context, 27000, 0, 0, 0},
    {"key_block_optional_block", call_key_block_optional_block, 27000, 0, 0, 0},
    {"pbkdf2", call_pbkdf2, 6000, 1, 0, 0},
    {"bytes_to_key", call_bytes_to_key, 6000, 1, 0, 0},
    {"des_open_salted", call_des_open_salted, 27000, 1, 0, 0},
    {"tdes_ede2_open_salted", call_tdes_ede2_open_salted, 27000, 1, 0, 0},
    {"tdes_ede3_open_salted", call_tdes_ede3_open_salted, 27000, 1, 0, 0},
    {"mysql_decrypt_values", call_mysql_decrypt_values, 46000, 1, 1, 0},
    {"mysql_decrypt_values_by_file", call_mysql_decrypt_values_by_file, 46000, 1, 1, 0},
    {"pgcrypto_decrypt_values", call_pgcrypto_decrypt_values, 46000, 1, 1, 0},
    {"mysql_encrypt_values", call_mysql_encrypt_values, 66000, 1, 1, 0},
    {"pgcrypto_encrypt_values", call_pgcrypto_encrypt_values, 66000, 1, 1, 0},
    {"pbe_key", call_pbe_key, 6000, 1, 0, 0},
    {"jasypt_decrypt_values", call_jasypt_decrypt_values, 46000, 1, 1, 0},
    {"jasypt_encrypt_values", call_jasypt_encrypt_values, 46000, 1, 1, 0},
    {"des_size", call_des_size, 6000, 0, 0, 0},
    {"tdes_ede2_size", call_tdes_ede2_size, 6000, 0, 0, 0},
    {"tdes_ede3_size", call_tdes_ede3_size, 6000, 0, 0, 0},
    {"stream_size", call_stream_size, 6000, 0, 0, 0},
    {"cbc_mac_des_size", call_cbc_mac_des_size, 6000, 0, 0, 0},
    {"cbc_mac_tdes_ede2_size", call_cbc_mac_tdes_ede2_size, 6000, 0, 0, 0},
    {"cbc_mac_tdes_ede3_size", call_cbc_mac_tdes_ede3_size, 6000, 0, 0, 0},
    {"retail_mac_des_size", call_retail_mac_des_size, 6000, 0, 0, 0},
    {"cmac_tdes_ede2_size", call_cmac_tdes_ede2_size, 6000, 0, 0, 0},
    {"cmac_tdes_ede3_size", call_cmac_tdes_ede3_size, 6000, 0, 0, 0},
    {"message_size", call_message_size, 6000, 0, 0, 0},
    {"dukpt_terminal_size", call_dukpt_terminal_size, 6000, 0, 0, 0},
    {"pin_translation_size", call_pin_translation_size, 6000, 0, 0, 0},
    {"decimal_table_size", call_decimal_table_size, 6000, 0, 0, 0},
    {"key_block_fields_size", call_key_block_fields_size, 27000, 0, 0, 0},
    {"key_block_parts_size", call_key_block_parts_size, 27000, 0, 0, 0},
    {"version_major", call_version_major, 6000, 0, 0, 0},
    {"version_minor", call_version_minor, 6000, 0, 0, 0},
    {"version_patch", call_version_patch, 6000, 0, 0, 0},
    {"block_size", call_block_size, 6000, 0, 0, 0},
    {"tag_size", call_tag_size, 6000, 0, 0, 0},
    {"des_key_size", call_des_key_size, 6000, 0, 0, 0},
    {"tdes_ede2_key_size", call_tdes_ede2_key_size, 6000, 0, 0, 0},
    {"tdes_ede3_key_size", call_tdes_ede3_key_size, 6000, 0, 0, 0},
    {"cbc_mac_des_key_size", call_cbc_mac_des_key_size, 6000, 0, 0, 0},
    {"cbc_mac_tdes_ede2_key_size", call_cbc_mac_tdes_ede2_key_size, 6000, 0, 0, 0},
    {"cbc_mac_tdes_ede3_key_size", call_cbc_mac_tdes_ede3_key_size, 6000, 0, 0, 0},
    {"retail_mac_des_key_size", call_retail_mac_des_key_size, 6000, 0, 0, 0},
    {"cmac_tdes_ede2_key_size", call_cmac_tdes_ede2_key_size, 6000, 0, 0, 0},
    {"cmac_tdes_ede3_key_size", call_cmac_tdes_ede3_key_size, 6000, 0, 0, 0},
    {"check_value_size", call_check_value_size, 6000, 0, 0, 0},
    {"short_check_value_size", call_short_check_value_size, 6000, 0, 0, 0},
    {"dukpt_key_size", call_dukpt_key_size, 6000, 0, 0, 0},
    {"dukpt_serial_size", call_dukpt_serial_size, 6000, 0, 0, 0},
    {"fill_size", call_fill_size, 6000, 0, 0, 0},
    {"pin_size", call_pin_size, 6000, 0, 0, 0},
    {"cvv_size", call_cvv_size, 6000, 0, 0, 0},
    {"pvv_size", call_pvv_size, 6000, 0, 0, 0},
    {"key_data_size", call_key_data_size, 6000, 0, 0, 0},
    {"key_block_size", call_key_block_size, 27000, 0, 0, 0},
    {"pkcs7", call_pkcs7, 6000, 0, 0, 0},
    {"iso7816", call_iso7816, 6000, 0, 0, 0},
    {"md5", call_md5, 6000, 0, 0, 0},
    {"sha1", call_sha1, 6000, 0, 0, 0},
    {"sha256", call_sha256, 6000, 0, 0, 0},
    {"ctr", call_ctr, 6000, 0, 0, 0},
    {"ofb", call_ofb, 6000, 0, 0, 0},
    {"cfb1", call_cfb1, 6000, 0, 0, 0},
    {"cfb8", call_cfb8, 6000, 0, 0, 0},
    {"cfb64", call_cfb64, 6000, 0, 0, 0},
    {"mac_padding_1", call_mac_padding_1, 6000, 0, 0, 0},
    {"mac_padding_2", call_mac_padding_2, 6000, 0, 0, 0},
};
