/* Each call of calls.c whose export has its arguments goes on to it with these in their order, and wipes. Made by bindings/describe. */
static void hands_all_on(void) {
  CHECK(cukvashe_weak_key_test((void *)(base + 0), 2) == STATUS);
  WAS_WIPED("unwiped", "weak_key_test", (uintptr_t)(void *)(base + 0), (uintptr_t)2);
  cukvashe_set_odd_parity((void *)(base + 0), 2);
  WAS_WIPED("unwiped", "set_odd_parity", (uintptr_t)(void *)(base + 0), (uintptr_t)2);
  CHECK(cukvashe_key_check_value((void *)(base + 0), 2, (void *)(base + 2)) == STATUS);
  WAS_WIPED("unwiped", "key_check_value", (uintptr_t)(void *)(base + 0), (uintptr_t)2, (uintptr_t)(void *)(base + 2));
  CHECK(cukvashe_short_key_check_value((void *)(base + 0), 2, (void *)(base + 2)) == STATUS);
  WAS_WIPED("unwiped", "short_key_check_value", (uintptr_t)(void *)(base + 0), (uintptr_t)2,
    (uintptr_t)(void *)(base + 2));
  cukvashe_dukpt_initial_key((void *)(base + 0), (void *)(base + 1), (void *)(base + 2));
  WAS_WIPED("unwiped", "dukpt_initial_key", (uintptr_t)(void *)(base + 0), (uintptr_t)(void *)(base + 1),
    (uintptr_t)(void *)(base + 2));
  cukvashe_dukpt_transaction_key((void *)(base + 0), (void *)(base + 1), (void *)(base + 2));
  WAS_WIPED("unwiped", "dukpt_transaction_key", (uintptr_t)(void *)(base + 0), (uintptr_t)(void *)(base + 1),
    (uintptr_t)(void *)(base + 2));
  cukvashe_dukpt_pin_key((void *)(base + 0), (void *)(base + 1));
  WAS_WIPED("unwiped", "dukpt_pin_key", (uintptr_t)(void *)(base + 0), (uintptr_t)(void *)(base + 1));
  cukvashe_dukpt_mac_key((void *)(base + 0), true, (void *)(base + 2));
  WAS_WIPED("unwiped", "dukpt_mac_key", (uintptr_t)(void *)(base + 0), (uintptr_t)true, (uintptr_t)(void *)(base + 2));
  cukvashe_dukpt_data_key((void *)(base + 0), true, (void *)(base + 2));
  WAS_WIPED("unwiped", "dukpt_data_key", (uintptr_t)(void *)(base + 0), (uintptr_t)true, (uintptr_t)(void *)(base + 2));
  cukvashe_dukpt_data_variant((void *)(base + 0), true, (void *)(base + 2));
  WAS_WIPED("unwiped", "dukpt_data_variant", (uintptr_t)(void *)(base + 0), (uintptr_t)true,
    (uintptr_t)(void *)(base + 2));
  cukvashe_dukpt_terminal_init((void *)(base + 0), (void *)(base + 1), (void *)(base + 2));
  WAS_WIPED("unwiped", "dukpt_terminal_init", (uintptr_t)(void *)(base + 0), (uintptr_t)(void *)(base + 1),
    (uintptr_t)(void *)(base + 2));
  CHECK(cukvashe_pin_encode_0((void *)(base + 0), 2, (void *)(base + 2), 4, (void *)(base + 4)) == STATUS);
  WAS_WIPED("unwiped", "pin_encode_0", (uintptr_t)(void *)(base + 0), (uintptr_t)2, (uintptr_t)(void *)(base + 2),
    (uintptr_t)4, (uintptr_t)(void *)(base + 4));
  CHECK(cukvashe_pin_encode_1((void *)(base + 0), 2, (void *)(base + 2), (void *)(base + 3)) == STATUS);
  WAS_WIPED("unwiped", "pin_encode_1", (uintptr_t)(void *)(base + 0), (uintptr_t)2, (uintptr_t)(void *)(base + 2),
    (uintptr_t)(void *)(base + 3));
  CHECK(cukvashe_pin_encode_2((void *)(base + 0), 2, (void *)(base + 2)) == STATUS);
  WAS_WIPED("unwiped", "pin_encode_2", (uintptr_t)(void *)(base + 0), (uintptr_t)2, (uintptr_t)(void *)(base + 2));
  CHECK(cukvashe_pin_encode_3((void *)(base + 0), 2, (void *)(base + 2), 4, (void *)(base + 4),
    (void *)(base + 5)) == STATUS);
  WAS_WIPED("unwiped", "pin_encode_3", (uintptr_t)(void *)(base + 0), (uintptr_t)2, (uintptr_t)(void *)(base + 2),
    (uintptr_t)4, (uintptr_t)(void *)(base + 4), (uintptr_t)(void *)(base + 5));
  CHECK(cukvashe_pin_decode_0((void *)(base + 0), (void *)(base + 1), 3, (void *)(base + 3)) == STATUS);
  WAS_WIPED("unwiped", "pin_decode_0", (uintptr_t)(void *)(base + 0), (uintptr_t)(void *)(base + 1), (uintptr_t)3,
    (uintptr_t)(void *)(base + 3));
  CHECK(cukvashe_pin_decode_1((void *)(base + 0), (void *)(base + 1)) == STATUS);
  WAS_WIPED("unwiped", "pin_decode_1", (uintptr_t)(void *)(base + 0), (uintptr_t)(void *)(base + 1));
  CHECK(cukvashe_pin_decode_2((void *)(base + 0), (void *)(base + 1)) == STATUS);
  WAS_WIPED("unwiped", "pin_decode_2", (uintptr_t)(void *)(base + 0), (uintptr_t)(void *)(base + 1));
  CHECK(cukvashe_pin_decode_3((void *)(base + 0), (void *)(base + 1), 3, (void *)(base + 3)) == STATUS);
  WAS_WIPED("unwiped", "pin_decode_3", (uintptr_t)(void *)(base + 0), (uintptr_t)(void *)(base + 1), (uintptr_t)3,
    (uintptr_t)(void *)(base + 3));
  CHECK(cukvashe_pvv((void *)(base + 0), (void *)(base + 1), 3, 4, (void *)(base + 4), 6,
    (void *)(base + 6)) == STATUS);
  WAS_WIPED("unwiped", "pvv", (uintptr_t)(void *)(base + 0), (uintptr_t)(void *)(base + 1), (uintptr_t)3, (uintptr_t)4,
    (uintptr_t)(void *)(base + 4), (uintptr_t)6, (uintptr_t)(void *)(base + 6));
  CHECK(cukvashe_pvv_verify((void *)(base + 0), (void *)(base + 1), 3, 4, (void *)(base + 4), 6, (void *)(base + 6),
    8) == STATUS);
  WAS_WIPED("unwiped", "pvv_verify", (uintptr_t)(void *)(base + 0), (uintptr_t)(void *)(base + 1), (uintptr_t)3,
    (uintptr_t)4, (uintptr_t)(void *)(base + 4), (uintptr_t)6, (uintptr_t)(void *)(base + 6), (uintptr_t)8);
  CHECK(cukvashe_natural_pin((void *)(base + 0), 2, (void *)(base + 2), (void *)(base + 3), 5,
    (void *)(base + 5)) == STATUS);
  WAS_WIPED("unwiped", "natural_pin", (uintptr_t)(void *)(base + 0), (uintptr_t)2, (uintptr_t)(void *)(base + 2),
    (uintptr_t)(void *)(base + 3), (uintptr_t)5, (uintptr_t)(void *)(base + 5));
  CHECK(cukvashe_pin_offset((void *)(base + 0), 2, (void *)(base + 2), (void *)(base + 3), (void *)(base + 4), 6,
    (void *)(base + 6)) == STATUS);
  WAS_WIPED("unwiped", "pin_offset", (uintptr_t)(void *)(base + 0), (uintptr_t)2, (uintptr_t)(void *)(base + 2),
    (uintptr_t)(void *)(base + 3), (uintptr_t)(void *)(base + 4), (uintptr_t)6, (uintptr_t)(void *)(base + 6));
  CHECK(cukvashe_pin_offset_verify((void *)(base + 0), 2, (void *)(base + 2), (void *)(base + 3), (void *)(base + 4), 6,
    (void *)(base + 6), 8) == STATUS);
  WAS_WIPED("unwiped", "pin_offset_verify", (uintptr_t)(void *)(base + 0), (uintptr_t)2, (uintptr_t)(void *)(base + 2),
    (uintptr_t)(void *)(base + 3), (uintptr_t)(void *)(base + 4), (uintptr_t)6, (uintptr_t)(void *)(base + 6),
    (uintptr_t)8);
  CHECK(cukvashe_cvv((void *)(base + 0), (void *)(base + 1), 3, (void *)(base + 3), 5, (void *)(base + 5), 7,
    (void *)(base + 7)) == STATUS);
  WAS_WIPED("unwiped", "cvv", (uintptr_t)(void *)(base + 0), (uintptr_t)(void *)(base + 1), (uintptr_t)3,
    (uintptr_t)(void *)(base + 3), (uintptr_t)5, (uintptr_t)(void *)(base + 5), (uintptr_t)7,
    (uintptr_t)(void *)(base + 7));
  CHECK(cukvashe_emv_card_key((void *)(base + 0), (void *)(base + 1), 3, (void *)(base + 3), 5,
    (void *)(base + 5)) == STATUS);
  WAS_WIPED("unwiped", "emv_card_key", (uintptr_t)(void *)(base + 0), (uintptr_t)(void *)(base + 1), (uintptr_t)3,
    (uintptr_t)(void *)(base + 3), (uintptr_t)5, (uintptr_t)(void *)(base + 5));
  CHECK(cukvashe_emv_card_key_b((void *)(base + 0), (void *)(base + 1), 3, (void *)(base + 3), 5,
    (void *)(base + 5)) == STATUS);
  WAS_WIPED("unwiped", "emv_card_key_b", (uintptr_t)(void *)(base + 0), (uintptr_t)(void *)(base + 1), (uintptr_t)3,
    (uintptr_t)(void *)(base + 3), (uintptr_t)5, (uintptr_t)(void *)(base + 5));
  cukvashe_emv_application_key((void *)(base + 0), (void *)(base + 1), (void *)(base + 2));
  WAS_WIPED("unwiped", "emv_application_key", (uintptr_t)(void *)(base + 0), (uintptr_t)(void *)(base + 1),
    (uintptr_t)(void *)(base + 2));
  cukvashe_emv_session_key((void *)(base + 0), (void *)(base + 1), (void *)(base + 2));
  WAS_WIPED("unwiped", "emv_session_key", (uintptr_t)(void *)(base + 0), (uintptr_t)(void *)(base + 1),
    (uintptr_t)(void *)(base + 2));
  cukvashe_emv_application_cryptogram((void *)(base + 0), (void *)(base + 1), 3, (void *)(base + 3));
  WAS_WIPED("unwiped", "emv_application_cryptogram", (uintptr_t)(void *)(base + 0), (uintptr_t)(void *)(base + 1),
    (uintptr_t)3, (uintptr_t)(void *)(base + 3));
  cukvashe_emv_response_1((void *)(base + 0), (void *)(base + 1), (void *)(base + 2), (void *)(base + 3));
  WAS_WIPED("unwiped", "emv_response_1", (uintptr_t)(void *)(base + 0), (uintptr_t)(void *)(base + 1),
    (uintptr_t)(void *)(base + 2), (uintptr_t)(void *)(base + 3));
  CHECK(cukvashe_emv_response_2((void *)(base + 0), (void *)(base + 1), (void *)(base + 2), (void *)(base + 3), 5,
    (void *)(base + 5)) == STATUS);
  WAS_WIPED("unwiped", "emv_response_2", (uintptr_t)(void *)(base + 0), (uintptr_t)(void *)(base + 1),
    (uintptr_t)(void *)(base + 2), (uintptr_t)(void *)(base + 3), (uintptr_t)5, (uintptr_t)(void *)(base + 5));
  CHECK(cukvashe_key_block_unwrap((void *)(base + 0), 2, (void *)(base + 2), 4, (void *)(base + 4), (void *)(base + 5),
    (void *)(base + 6)) == STATUS);
  WAS_WIPED("unwiped", "key_block_unwrap", (uintptr_t)(void *)(base + 0), (uintptr_t)2, (uintptr_t)(void *)(base + 2),
    (uintptr_t)4, (uintptr_t)(void *)(base + 4), (uintptr_t)(void *)(base + 5), (uintptr_t)(void *)(base + 6));
  CHECK(cukvashe_bytes_to_key(1, (void *)(base + 1), 3, (void *)(base + 3), 5, (void *)(base + 5), 7) == STATUS);
  WAS_WIPED("unwiped", "bytes_to_key", (uintptr_t)1, (uintptr_t)(void *)(base + 1), (uintptr_t)3,
    (uintptr_t)(void *)(base + 3), (uintptr_t)5, (uintptr_t)(void *)(base + 5), (uintptr_t)7);
  CHECK(cukvashe_pbe_key((void *)(base + 0), 2, 3, (void *)(base + 3), 5, (void *)(base + 5), 7, (void *)(base + 7),
    9) == STATUS);
  WAS_WIPED("unwiped", "pbe_key", (uintptr_t)(void *)(base + 0), (uintptr_t)2, (uintptr_t)3,
    (uintptr_t)(void *)(base + 3), (uintptr_t)5, (uintptr_t)(void *)(base + 5), (uintptr_t)7,
    (uintptr_t)(void *)(base + 7), (uintptr_t)9);
}
