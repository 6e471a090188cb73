/*
 * Under valgrind, with keys, vectors and data marked undefined: memcheck reports where an index or a branch depends on them.
 * `secret_indexes calls` runs the calls that must give no report; each other word runs one that must give one: `short`, a list that
 * goes by tables, and `rest`, a list whose rest does, `cbc` and `message`, of contexts with tables, which all read them so; `pin`, which
 * branches on whether all characters of a PIN are digits; `translation`, on whether a PIN block is right; `block`, on whether a MAC is;
 * `key`, where it is right, on the length of the key too; `unwrapped`, on whether a key was wrapped; `file`, on the padding of what is
 * opened under a password; `strings`, where each character of an encrypted string is looked up; `verification`, on whether a PIN is
 * right; and `planted`, a lookup here.
 */
#include "mac_calls.h"
#include <valgrind/memcheck.h>

/* Lists of which nothing goes by tables, by the header: their number of blocks, modulo 128, is 0 or at least 32. */
static const size_t whole[] = {0, 32, 33, 127, 128, 160, 255, 256, 288, 300, 384};

enum { MOST_BLOCKS = 384 };

static uint8_t key[24], iv[8], data[8 * MOST_BLOCKS], other[8 * MOST_BLOCKS];

static void hide(void *bytes, size_t count) {
  random_bytes((uint8_t *)bytes, count);
  (void)VALGRIND_MAKE_MEM_UNDEFINED(bytes, count);
}

static void lists_by(const struct path *path, const union context *context) {
  for (size_t i = 0; i < sizeof whole / sizeof *whole; i++) {
    size_t length = 8 * whole[i];
    hide(data, sizeof data);
    hide(iv, sizeof iv);
    CHECK(path->encrypt_ecb(context, data, length) == CUKVASHE_OK);
    CHECK(path->decrypt_ecb(context, data, length) == CUKVASHE_OK);
    CHECK(path->encrypt_ecb_to(context, data, other, length) == CUKVASHE_OK);
    CHECK(path->decrypt_ecb_to(context, other, data, length) == CUKVASHE_OK);
    CHECK(path->decrypt_cbc(context, iv, data, length) == CUKVASHE_OK);
    CHECK(path->decrypt_cbc_to(context, iv, data, other, length) == CUKVASHE_OK);
    CHECK(path->encrypt_mode(context, CUKVASHE_CTR, iv, data, length) == CUKVASHE_OK);
    CHECK(path->decrypt_mode(context, CUKVASHE_CFB64, iv, data, length) == CUKVASHE_OK);
  }
}

static void calls_of(const struct cipher *cipher) {
  union context context;
  hide(key, sizeof key);
  CHECK(cipher->init(&context, key, cipher->key_size) == CUKVASHE_OK);
  for (int path = 0; path < count_of_paths(); path++) lists_by(&cipher->paths[path], &context);
}

/* Whether a status that came of hidden bytes is this one: only here may a branch depend on it. */
static int is_status(int status, int wanted) {
  (void)VALGRIND_MAKE_MEM_DEFINED(&status, sizeof status);
  return status == wanted;
}

/* A tag is compared without a branch on its bytes. What comes before, the message's own tag, is made block by block, and reads
   tables: so nothing of key and message is hidden here. */
static void verifies(const struct mac *mac) {
  union mac_context context;
  uint8_t tag[8];
  random_bytes(key, sizeof key);
  random_bytes(iv, sizeof iv);
  (void)VALGRIND_MAKE_MEM_DEFINED(key, sizeof key);
  (void)VALGRIND_MAKE_MEM_DEFINED(iv, sizeof iv);
  CHECK(mac->init(&context, key, mac->key_size, CUKVASHE_MAC_PADDING_2) == CUKVASHE_OK);
  CHECK(mac->update(&context, iv, sizeof iv) == CUKVASHE_OK);
  CHECK(mac->final(&context, tag) == CUKVASHE_OK);
  (void)VALGRIND_MAKE_MEM_UNDEFINED(tag, sizeof tag);
  CHECK(is_status(mac->verify(&context, tag, sizeof tag), CUKVASHE_OK));
  CHECK(is_status(mac->verify(&context, tag, 4), CUKVASHE_OK));
  CHECK(is_status(mac->is_tag(&context, tag, sizeof tag), true));
  tag[7] ^= 1;
  CHECK(is_status(mac->verify(&context, tag, sizeof tag), CUKVASHE_ERR_TAG));
  CHECK(is_status(mac->is_tag(&context, tag, sizeof tag), false));
}

/* The bytes of a text for which a mode encrypts this many blocks, the last of them for a part of a segment if that has several bytes. */
static size_t bytes_for(int mode, size_t blocks) {
  if (mode == CUKVASHE_CFB1) return (blocks + 7) / 8;
  size_t segment = mode > CUKVASHE_CFB1 ? (size_t)(mode - CUKVASHE_CFB1) : 8;
  return blocks * segment - segment / 2;
}

/* Bytes in pieces by each mode, and some bits. What mode it is, and how many bytes, is no secret. */
static void streams_without_tables(const struct cipher *cipher, const struct path *path, const union context *context, size_t blocks) {
  static const int modes[] = {CUKVASHE_CTR, CUKVASHE_OFB, CUKVASHE_CFB1, CUKVASHE_CFB8, CUKVASHE_CFB1 + 5, CUKVASHE_CFB64};
  for (size_t i = 0; i < sizeof modes / sizeof *modes; i++) {
    size_t length = bytes_for(modes[i], blocks);
    cukvashe_stream stream;
    CHECK(cukvashe_stream_begin(&stream, modes[i], iv) == CUKVASHE_OK);
    CHECK(path->encrypt_stream(context, &stream, data, length) == CUKVASHE_OK);
    CHECK(path->decrypt_stream(context, &stream, data, length) == CUKVASHE_OK);
    CHECK(path->encrypt_mode(context, modes[i], iv, data, length) == CUKVASHE_OK);
    CHECK(path->decrypt_mode(context, modes[i], iv, data, length) == CUKVASHE_OK);
    if (modes[i] != CUKVASHE_CFB1) continue;
    CHECK(cipher->encrypt_bits(context, &stream, data, 13) == CUKVASHE_OK);
    CHECK(cipher->decrypt_bits(context, &stream, data, 13) == CUKVASHE_OK);
  }
}

/* Every call of contexts without tables, of lists of any length. */
static void calls_without_tables_of(const struct cipher *cipher) {
  static const size_t few[] = {1, 2, 3, 4, 5, 6, 7, 8, 9, 10, 11, 12, 20, 40, 257};
  union context context;
  hide(key, sizeof key);
  CHECK(cipher->init_no_tables(&context, key, cipher->key_size) == CUKVASHE_OK);
  for (int n = 0; n < count_of_paths(); n++) {
    const struct path *path = &cipher->paths[n];
    for (size_t i = 0; i < sizeof few / sizeof *few; i++) {
      size_t length = 8 * few[i];
      hide(data, sizeof data);
      hide(iv, sizeof iv);
      CHECK(path->encrypt_ecb(&context, data, length) == CUKVASHE_OK);
      CHECK(path->decrypt_ecb(&context, data, length) == CUKVASHE_OK);
      CHECK(path->encrypt_ecb_to(&context, data, other, length) == CUKVASHE_OK);
      CHECK(path->decrypt_ecb_to(&context, other, data, length) == CUKVASHE_OK);
      CHECK(path->encrypt_cbc(&context, iv, data, length) == CUKVASHE_OK);
      CHECK(path->decrypt_cbc(&context, iv, data, length) == CUKVASHE_OK);
      CHECK(path->encrypt_cbc_to(&context, iv, data, other, length) == CUKVASHE_OK);
      CHECK(path->decrypt_cbc_to(&context, iv, data, other, length) == CUKVASHE_OK);
      streams_without_tables(cipher, path, &context, few[i]);
    }
  }
}

/* A message in pieces. Its length is no secret. */
static void message_without_tables(const struct mac *mac, int method) {
  union mac_context context;
  uint8_t tag[8];
  hide(key, sizeof key);
  hide(data, sizeof data);
  CHECK(mac->init_no_tables(&context, key, mac->key_size, method) == CUKVASHE_OK);
  for (size_t length = 0; length < 20; length++) {
    CHECK(mac->update(&context, data, length) == CUKVASHE_OK);
    CHECK(mac->final(&context, tag) == CUKVASHE_OK);
    CHECK(is_status(mac->verify(&context, tag, sizeof tag), CUKVASHE_OK));
  }
}

/* Padding is written without a look at the bytes before it. Keys for PINs and for MACs are masks of a transaction's key. */
static void others(void) {
  size_t padded;
  hide(data, sizeof data);
  hide(other, sizeof other);
  CHECK(cukvashe_pad(data, 21, sizeof data, CUKVASHE_PKCS7, &padded) == CUKVASHE_OK);
  CHECK(cukvashe_pad(data, 21, sizeof data, CUKVASHE_ISO7816, &padded) == CUKVASHE_OK);
  cukvashe_wipe(data, sizeof data);
  hide(key, 16);
  cukvashe_set_odd_parity(key, 16);
  cukvashe_dukpt_pin_key(key, other);
  cukvashe_dukpt_mac_key(key, false, other);
  cukvashe_dukpt_mac_key(key, true, other);
  cukvashe_dukpt_data_variant(key, false, other);
  cukvashe_dukpt_data_variant(key, true, other);
}

/* Records, encrypted and decrypted, under a context that INIT makes. */
#define RECORDS(NAME, INIT, KEY_SIZE)                                                                                      \
  do {                                                                                                                     \
    cukvashe_##NAME context;                                                                                               \
    CHECK(cukvashe_##NAME##_##INIT(&context, keys, KEY_SIZE) == CUKVASHE_OK);                                              \
    CHECK(cukvashe_##NAME##_encrypt_cbc_records(&context, data, 8 * count, sizes, count, bytes, length) == CUKVASHE_OK);   \
    CHECK(cukvashe_##NAME##_decrypt_cbc_records(&context, data, 8 * count, sizes, count, bytes, length) == CUKVASHE_OK);   \
  } while (0)

/* Records of 0 to 3 blocks, and messages of 20 bytes, whose lengths are no secret. */
static void records_and_messages(uint8_t *keys, size_t count) {
  static uint8_t bytes[3 * 8 * MOST_BLOCKS];
  static size_t sizes[MOST_BLOCKS];
  static cukvashe_message messages[MOST_BLOCKS];
  hide(keys, 24 * MOST_BLOCKS);
  hide(data, sizeof data);
  hide(bytes, sizeof bytes);
  size_t length = 0;
  for (size_t i = 0; i < count; i++) {
    sizes[i] = (i + 1) % 4;
    length += 8 * sizes[i];
    messages[i].bytes = data + 8 * (i % 100);
    messages[i].length = 20;
  }
  RECORDS(des, init, 8);
  RECORDS(tdes_ede2, init, 16);
  RECORDS(tdes_ede3, init, 24);
  RECORDS(tdes_ede3, init_no_tables, 24);
  CHECK(cukvashe_cbc_mac_des_macs(keys, 8, CUKVASHE_MAC_PADDING_1, messages, other, 8 * count, count) == CUKVASHE_OK);
  CHECK(cukvashe_cbc_mac_tdes_ede2_macs(keys, 16, CUKVASHE_MAC_PADDING_2, messages, other, 8 * count, count) == CUKVASHE_OK);
  CHECK(cukvashe_cbc_mac_tdes_ede3_macs(keys, 24, CUKVASHE_MAC_PADDING_1, messages, other, 8 * count, count) == CUKVASHE_OK);
  CHECK(cukvashe_cbc_mac_des_macs_each(keys, 8 * count, CUKVASHE_MAC_PADDING_1, messages, other, 8 * count, count) == CUKVASHE_OK);
  CHECK(cukvashe_cbc_mac_tdes_ede2_macs_each(keys, 16 * count, CUKVASHE_MAC_PADDING_2, messages, other, 8 * count, count) == CUKVASHE_OK);
  CHECK(cukvashe_cbc_mac_tdes_ede3_macs_each(keys, 24 * count, CUKVASHE_MAC_PADDING_1, messages, other, 8 * count, count) == CUKVASHE_OK);
  CHECK(cukvashe_retail_mac_des_macs(keys, 16, CUKVASHE_MAC_PADDING_1, messages, other, 8 * count, count) == CUKVASHE_OK);
  CHECK(cukvashe_retail_mac_des_macs_each(keys, 16 * count, CUKVASHE_MAC_PADDING_2, messages, other, 8 * count, count) == CUKVASHE_OK);
  CHECK(cukvashe_cmac_tdes_ede2_macs(keys, 16, messages, other, 8 * count, count) == CUKVASHE_OK);
  CHECK(cukvashe_cmac_tdes_ede2_macs_each(keys, 16 * count, messages, other, 8 * count, count) == CUKVASHE_OK);
  CHECK(cukvashe_cmac_tdes_ede3_macs(keys, 24, messages, other, 8 * count, count) == CUKVASHE_OK);
  CHECK(cukvashe_cmac_tdes_ede3_macs_each(keys, 24 * count, messages, other, 8 * count, count) == CUKVASHE_OK);
  static bool right[MOST_BLOCKS];
  CHECK(cukvashe_compare_tags(data, 8 * count, other, 8 * count, right, count) == CUKVASHE_OK);
}

/* Lists of any length under keys of their own, check values, and keys of transactions. Key serial numbers are no secret. */
static void lists_of_keys(void) {
  static uint8_t keys[24 * MOST_BLOCKS], base[16];
  static const size_t lengths[] = {0, 1, 18, 19, 128, 129, 300};
  for (size_t i = 0; i < sizeof lengths / sizeof *lengths; i++) {
    size_t count = lengths[i];
    hide(keys, sizeof keys);
    hide(data, sizeof data);
    hide(base, sizeof base);
    CHECK(cukvashe_des_encrypt_each(keys, count, data, 8 * count) == CUKVASHE_OK);
    CHECK(cukvashe_des_decrypt_each(keys, count, data, 8 * count) == CUKVASHE_OK);
    CHECK(cukvashe_tdes_ede2_encrypt_each(keys, count, data, 8 * count) == CUKVASHE_OK);
    CHECK(cukvashe_tdes_ede2_decrypt_each(keys, count, data, 8 * count) == CUKVASHE_OK);
    CHECK(cukvashe_tdes_ede3_encrypt_each(keys, count, data, 8 * count) == CUKVASHE_OK);
    CHECK(cukvashe_tdes_ede3_decrypt_each(keys, count, data, 8 * count) == CUKVASHE_OK);
    CHECK(cukvashe_des_check_values(keys, 8 * count, data, 3 * count, count) == CUKVASHE_OK);
    CHECK(cukvashe_tdes_ede2_check_values(keys, 16 * count, data, 3 * count, count) == CUKVASHE_OK);
    CHECK(cukvashe_tdes_ede3_check_values(keys, 24 * count, data, 3 * count, count) == CUKVASHE_OK);
    for (size_t j = 0; j < sizeof data; j++) data[j] = (uint8_t)j;
    CHECK(cukvashe_dukpt_transaction_keys_from_base(base, data, 10 * count, keys, 16 * count, count) == CUKVASHE_OK);
    records_and_messages(keys, count);
  }
}

/* Check values, and the keys of a transaction, one by one. */
static void calls_of_one_key(void) {
  static const uint8_t serial[10] = {0xff, 0xff, 0x98, 0x76, 0x54, 0x32, 0x10, 0xef, 0xf8, 0x00};
  hide(key, sizeof key);
  CHECK(cukvashe_des_check_value(key, 8, data) == CUKVASHE_OK);
  CHECK(cukvashe_tdes_ede2_check_value(key, 16, data) == CUKVASHE_OK);
  CHECK(cukvashe_tdes_ede3_check_value(key, 24, data) == CUKVASHE_OK);
  cukvashe_dukpt_initial_key(key, serial, data);
  cukvashe_dukpt_transaction_key(data, serial, other);
  cukvashe_dukpt_data_key(other, false, data);
  cukvashe_dukpt_data_key(other, true, data);
  for (size_t length = 8; length <= 24; length += 8) {
    CHECK(cukvashe_key_check_value(key, length, data) == CUKVASHE_OK);
    CHECK(cukvashe_short_key_check_value(key, length, data) == CUKVASHE_OK);
  }
}

/* The first transactions of a terminal, whose key serial number is no secret. A branch depends on whether all future keys are zeros: one of
   ones, which is no secret, says that they are not. */
static void transactions_of_a_terminal(void) {
  static const uint8_t before[10] = {0xff, 0xff, 0x98, 0x76, 0x54, 0x32, 0x10, 0xe0, 0x00, 0x00};
  cukvashe_dukpt_terminal terminal;
  uint8_t serial[10];
  hide(key, sizeof key);
  cukvashe_dukpt_terminal_init(&terminal, key, before);
  memset(terminal.keys[20], 0xff, sizeof terminal.keys[20]);
  for (int i = 0; i < 40; i++) CHECK(cukvashe_dukpt_terminal_next_key(&terminal, serial, other) == CUKVASHE_OK);
}

/* Values that depend on the key, of a card, and of a PIN that is no secret here. */
static void values_of_cards(void) {
  static const char *const account = "4123456789012345";
  cukvashe_decimal_table table;
  char value[CUKVASHE_PVV_SIZE], pin[CUKVASHE_PIN_SIZE];
  hide(key, sizeof key);
  hide(data, 8);
  CHECK(cukvashe_cvv(key, account, 16, "8701", 4, "101", 3, value) == CUKVASHE_OK);
  CHECK(cukvashe_pvv(key, account, 16, 1, "1234", 4, value) == CUKVASHE_OK);
  CHECK(cukvashe_decimal_table_init(&table, "8351296477461538", 16) == CUKVASHE_OK);
  for (size_t length = 8; length <= 24; length += 8) {
    CHECK(cukvashe_natural_pin(key, length, &table, data, 12, pin) == CUKVASHE_OK);
    CHECK(cukvashe_pin_offset(key, length, &table, data, "123456", 6, pin) == CUKVASHE_OK);
  }
}

/* Keys of a card, cryptograms of hidden data, and responses. */
static void cryptograms_of_a_card(void) {
  static const uint8_t code[4] = {'0', '0'};
  uint8_t card[16], session[16];
  hide(key, sizeof key);
  hide(data, 100);
  CHECK(cukvashe_emv_card_key_b(key, "6304000000000000001", 19, "01", 2, card) == CUKVASHE_OK);
  CHECK(cukvashe_emv_card_key(key, "4123456789012345", 16, "01", 2, card) == CUKVASHE_OK);
  cukvashe_emv_application_key(card, data, session);
  cukvashe_emv_session_key(card, data, session);
  for (size_t length = 0; length < 20; length++) cukvashe_emv_application_cryptogram(session, data, length, other);
  cukvashe_emv_response_1(session, other, code, data);
  CHECK(cukvashe_emv_response_2(session, other, code, data, 8, iv) == CUKVASHE_OK);
}

/* Keys of hidden passwords of each length about that of a block of the hash functions. */
static void keys_of_passwords(void) {
  static const uint8_t salt[8] = {1, 2, 3, 4, 5, 6, 7, 8};
  static const size_t lengths[] = {0, 1, 55, 56, 63, 64, 65, 100};
  for (size_t i = 0; i < sizeof lengths / sizeof *lengths; i++) {
    hide(data, 100);
    CHECK(cukvashe_pbkdf2(CUKVASHE_SHA1, 2, data, lengths[i], salt, 8, other, 32) == CUKVASHE_OK);
    CHECK(cukvashe_pbkdf2(CUKVASHE_SHA256, 2, data, lengths[i], salt, 8, other, 33) == CUKVASHE_OK);
    for (int hash = CUKVASHE_MD5; hash <= CUKVASHE_SHA256; hash++)
      CHECK(cukvashe_bytes_to_key(hash, data, lengths[i], salt, 8, other, 32) == CUKVASHE_OK);
    CHECK(cukvashe_pbe_key("PBEWithMD5AndDES", 16, 2, data, lengths[i], salt, 8, other, 16) == CUKVASHE_OK);
    CHECK(cukvashe_pbe_key("PBEWithSHA1AndDES", 17, 2, data, lengths[i], salt, 8, other, 16) == CUKVASHE_OK);
    CHECK(cukvashe_pbe_key("PBEWithMD5AndTripleDES", 22, 2, data, lengths[i], salt, 8, other, 32) == CUKVASHE_OK);
  }
}

/* Hidden values of columns under hidden keys, alone and together, and one that is longer than what is read together. Without padding no
   branch depends on the texts. How long values are is no secret. */
static void columns(void) {
  static const char *const algorithms[] = {"des/pad:none", "des-ecb/pad:none", "3des/pad:none", "3des-ecb/pad:none"};
  static const size_t lengths[] = {8, 0, 24, 8 * 41, 16, 8 * 1100, 40};
  static uint8_t values[8 * 1200], texts[8 * 1200];
  enum { VALUES = sizeof lengths / sizeof *lengths };
  size_t text_lengths[VALUES];
  int statuses[VALUES];
  for (size_t i = 0; i < sizeof algorithms / sizeof *algorithms; i++)
    for (size_t count = 0; count <= VALUES; count++) {
      size_t length = 0;
      for (size_t k = 0; k < count; k++) length += lengths[k];
      hide(key, sizeof key);
      hide(iv, sizeof iv);
      hide(values, sizeof values);
      CHECK(cukvashe_pgcrypto_decrypt_values(algorithms[i], strlen(algorithms[i]), key, sizeof key, iv, sizeof iv, values, length, lengths,
                                             count, texts, text_lengths, statuses) == CUKVASHE_OK);
      hide(texts, sizeof texts);
      CHECK(cukvashe_pgcrypto_encrypt_values(algorithms[i], strlen(algorithms[i]), key, sizeof key, iv, sizeof iv, texts, length, lengths,
                                             count, values, length) == CUKVASHE_OK);
    }
}

/* Hidden texts that are padded under hidden keys. */
static void padded_columns(void) {
  static const size_t lengths[] = {7, 0, 8, 8 * 1100, 20};
  static uint8_t texts[8 * 1200], values[8 * 1200];
  enum { TEXTS = sizeof lengths / sizeof *lengths };
  size_t length = 0, mysql = 0, pgcrypto = 0;
  for (size_t k = 0; k < TEXTS; k++) {
    length += lengths[k];
    mysql += lengths[k] == 0 ? 0 : (lengths[k] / 8 + 1) * 8 + 1;
    pgcrypto += (lengths[k] / 8 + 1) * 8;
  }
  hide(key, sizeof key);
  hide(iv, sizeof iv);
  hide(texts, sizeof texts);
  CHECK(cukvashe_mysql_encrypt_values(key, sizeof key, 9, texts, length, lengths, TEXTS, values, mysql) == CUKVASHE_OK);
  CHECK(cukvashe_pgcrypto_encrypt_values("3des", 4, key, sizeof key, iv, sizeof iv, texts, length, lengths, TEXTS, values, pgcrypto) ==
        CUKVASHE_OK);
}

/* Strings of Jasypt of hidden texts under a hidden password: reported is where a character is looked up by what is encrypted, as 67 of these
   are, and nothing else. The salt is no secret. */
static void written_strings(void) {
  static const char *const algorithms[] = {"PBEWithMD5AndDES", "PBEWithMD5AndTripleDES"};
  static const size_t lengths[] = {13, 0, 17};
  static const uint8_t salts[3 * 8] = {1, 2, 3, 4, 5, 6, 7, 8, 9};
  uint8_t values[32 + 24 + 44];
  for (size_t i = 0; i < sizeof algorithms / sizeof *algorithms; i++) {
    hide(key, sizeof key);
    hide(data, 13 + 17);
    const unsigned before = VALGRIND_COUNT_ERRORS;
    CHECK(cukvashe_jasypt_encrypt_values(algorithms[i], strlen(algorithms[i]), 2, key, sizeof key, salts, sizeof salts, data, 13 + 17, lengths,
                                         3, values, sizeof values) == CUKVASHE_OK);
    CHECK(VALGRIND_COUNT_ERRORS == before + 67);
  }
  printf("one report of each character\n");
}

/* A key in a key block, under a hidden protection key. The block is no secret. */
static size_t make_block(int i, uint8_t protection[24], char *block, size_t capacity) {
  const size_t size = 8 + 8 * (size_t)(i / 4);
  const cukvashe_key_block_parts parts = {.protection = protection, .protection_length = i / 2 % 2 ? 16 : 24,
                                          .header = {i % 2 ? 'B' : 'C', "P0", 'T', 'E', "00", 'E'}, .key = key, .key_length = size,
                                          .padding = data, .padding_length = 30 - size};
  size_t length;
  hide(protection, 24);
  hide(key, sizeof key);
  hide(data, 22);
  CHECK(cukvashe_key_block_wrap(&parts, block, capacity, &length) == CUKVASHE_OK);
  (void)VALGRIND_MAKE_MEM_DEFINED(block, capacity);
  return length;
}

static void keys_in_key_blocks(void) {
  char block[100];
  uint8_t protection[24];
  for (int i = 0; i < 12; i++) (void)make_block(i, protection, block, sizeof block);
}

/* Hidden keys of some lengths, wrapped under hidden protection keys of both. */
static void wrapped_keys(void) {
  static const size_t lengths[] = {8, 16, 24, 40};
  for (size_t size = 16; size <= 24; size += 8)
    for (size_t i = 0; i < sizeof lengths / sizeof *lengths; i++) {
      size_t length;
      hide(key, sizeof key);
      hide(iv, sizeof iv);
      hide(data, 40);
      CHECK(cukvashe_cms_wrap_key(key, size, iv, data, lengths[i], other, sizeof other, &length) == CUKVASHE_OK);
      CHECK(cukvashe_tkw_wrap_key(key, size, data, lengths[i], other, sizeof other, &length) == CUKVASHE_OK);
    }
}

/* Encloses in place a vector, a key and its check, as the key wrap of CMS does (RFC 3217, 3.1). */
static void enclose(const struct path *path, const union context *context, uint8_t bytes[40]) {
  uint8_t chain[8], second[8] = {0x4a, 0xdd, 0xa2, 0x2c, 0x79, 0xe8, 0x21, 0x05};
  memcpy(chain, bytes, sizeof chain);
  CHECK(path->encrypt_cbc(context, chain, bytes + 8, 32) == CUKVASHE_OK);
  for (size_t i = 0; i < 20; i++) {
    const uint8_t byte = bytes[i];
    bytes[i] = bytes[39 - i];
    bytes[39 - i] = byte;
  }
  CHECK(path->encrypt_cbc(context, second, bytes, 40) == CUKVASHE_OK);
}

/* Transforms in place a check and a key, as TKW does (NIST SP 800-38F, 7). */
static void transform(const struct path *path, const union context *context, uint8_t bytes[28]) {
  for (size_t step = 0; step < 6 * 6; step++) {
    uint8_t block[8], *word = bytes + 4 + 4 * (step % 6);
    memcpy(block, bytes, 4);
    memcpy(block + 4, word, 4);
    CHECK(path->encrypt_ecb(context, block, sizeof block) == CUKVASHE_OK);
    block[3] ^= (uint8_t)(step + 1);
    memcpy(bytes, block, 4);
    memcpy(word, block + 4, 4);
  }
}

/* Wraps the 24 bytes at `data` under the key of `size` bytes at `key`, by ciphers alone, so that the check of the key can be wrong: it is in
   the bytes whose bits are set. Returns the length. EVP_BytesToKey hashes the 24 bytes, as a password and a salt. */
static size_t wrap_with_check(bool is_tkw, size_t size, unsigned wrong, uint8_t wrapped[40]) {
  const struct cipher *cipher = &ciphers[size == 16 ? EDE2 : EDE3];
  uint8_t *check = is_tkw ? wrapped : wrapped + 32;
  union context context;
  CHECK(cipher->init(&context, key, size) == CUKVASHE_OK);
  memcpy(wrapped, iv, sizeof iv);
  memcpy(wrapped + (is_tkw ? 4 : 8), data, 24);
  if (is_tkw) memset(check, 0xa6, 4);
  else CHECK(cukvashe_bytes_to_key(CUKVASHE_SHA1, data, 16, data + 16, 8, check, 8) == CUKVASHE_OK);
  for (unsigned place = 0; place < 8; place++)
    if (wrong >> place & 1) check[place] ^= 0x80;
  (is_tkw ? transform : enclose)(&cipher->paths[PUBLIC_PATH], &context, wrapped);
  return is_tkw ? 28 : 40;
}

/* The reports of one unwrapping under a hidden protection key. The check is wrong in the bytes whose bits are set, and of what is wrapped the
   bit of that number, if there is one, is changed. */
static unsigned reports_of_unwrapping(bool is_tkw, size_t size, unsigned wrong, size_t bit) {
  uint8_t wrapped[40];
  size_t key_length;
  random_bytes(key, sizeof key);
  random_bytes(data, 24);
  const size_t length = wrap_with_check(is_tkw, size, wrong, wrapped);
  const bool is_right = wrong == 0 && bit >= 8 * length;
  if (bit < 8 * length) wrapped[bit / 8] ^= (uint8_t)(1 << bit % 8);
  (void)VALGRIND_MAKE_MEM_UNDEFINED(key, sizeof key);
  const unsigned before = VALGRIND_COUNT_ERRORS;
  const int status = (is_tkw ? cukvashe_tkw_unwrap_key : cukvashe_cms_unwrap_key)(key, size, wrapped, length, other, 24, &key_length);
  const unsigned reports = VALGRIND_COUNT_ERRORS - before;
  CHECK(is_status(status, is_right ? CUKVASHE_OK : CUKVASHE_ERR_WRAPPED_KEY));
  return reports;
}

/* Whether something wraps a key decides a branch, whatever is wrong with it: as many reports for each changed bit, and for each byte of the
   check that alone is wrong. A comparison that ended early would end after the first byte, or at the last. */
static void unwrapped_keys(void) {
  enum { NO_BIT = 8 * 40 };
  for (int is_tkw = 0; is_tkw < 2; is_tkw++)
    for (size_t size = 16; size <= 24; size += 8) {
      const unsigned reports = reports_of_unwrapping(is_tkw, size, 1, NO_BIT);
      CHECK(reports > 0 && reports_of_unwrapping(is_tkw, size, 0, NO_BIT) > 0);
      for (unsigned place = 1; place < (is_tkw ? 4 : 8); place++)
        CHECK(reports_of_unwrapping(is_tkw, size, 1u << place, NO_BIT) == reports);
      for (size_t bit = 0; bit < 8 * 28; bit += 7) CHECK(reports_of_unwrapping(is_tkw, size, 0, bit) == reports);
    }
  printf("no report of the place of a changed bit\n");
}

/* Whether the MAC of a block is right decides a branch, which is reported, and nothing else does of a block whose MAC is wrong: of one
   that is right the length of the key decides more. */
static void opened_block(void) {
  for (int i = 0; i < 4; i++) {
    char block[100];
    uint8_t protection[24];
    size_t length = make_block(i, protection, block, sizeof block), key_length;
    cukvashe_key_block_fields read;
    const unsigned before = VALGRIND_COUNT_ERRORS;
    block[length - 1] = block[length - 1] == '0' ? '1' : '0';
    CHECK(is_status(cukvashe_key_block_unwrap(protection, i / 2 % 2 ? 16 : 24, block, length, &read, other, &key_length),
                    CUKVASHE_ERR_KEY_BLOCK_MAC));
    CHECK(VALGRIND_COUNT_ERRORS == before + 1);
  }
  printf("one report of each block\n");
}

/* Once the MAC is right, the length of the key decides more branches, and how many bytes are copied. How many reports that makes depends on
   this length alone: not on the version, the protection key, its length, the key or the padding. */
static void opened_key(void) {
  unsigned of_length[3] = {0, 0, 0};
  for (int i = 0; i < 24; i++) {
    char block[100];
    uint8_t protection[24];
    const size_t size = 8 + 8 * (size_t)(i % 12 / 4), length = make_block(i % 12, protection, block, sizeof block);
    size_t key_length;
    cukvashe_key_block_fields read;
    const unsigned before = VALGRIND_COUNT_ERRORS;
    CHECK(is_status(cukvashe_key_block_unwrap(protection, i / 2 % 2 ? 16 : 24, block, length, &read, other, &key_length), CUKVASHE_OK));
    const unsigned reports = VALGRIND_COUNT_ERRORS - before;
    (void)VALGRIND_MAKE_MEM_DEFINED(&key_length, sizeof key_length);
    (void)VALGRIND_MAKE_MEM_DEFINED(other, size);
    (void)VALGRIND_MAKE_MEM_DEFINED(key, size);
    CHECK(key_length == size && memcmp(other, key, size) == 0);
    if (i < 12 && i % 4 == 0) of_length[i / 4] = reports;
    CHECK(reports > 1 && reports == of_length[i % 12 / 4]);
  }
  printf("reports by the length of the key alone\n");
}

/* How the key of a file is derived: where there are no iterations, by no PBKDF2. */
struct derivation {
  int hash;
  size_t iterations;
};

enum { PASSWORD = 10 };

/* Writes to `data` a file of openssl enc, of `blocks` blocks, under the password of PASSWORD bytes at `key`. It ends with `padding` bytes
   of padding; 0 is no padding. Returns its length. */
static size_t make_file(int cipher, const struct derivation *by, size_t blocks, uint8_t padding) {
  const size_t size = ciphers[cipher].key_size, length = 8 * blocks;
  union context context;
  uint8_t both[32];
  memcpy(data, "Salted__saltsalt", 16);
  random_bytes(data + 16, length);
  for (size_t i = 1; i <= padding || i == 1; i++) data[16 + length - i] = padding;
  if (by->iterations == 0)
    CHECK(cukvashe_bytes_to_key(by->hash, key, PASSWORD, data + 8, 8, both, size + 8) == CUKVASHE_OK);
  else
    CHECK(cukvashe_pbkdf2(by->hash, by->iterations, key, PASSWORD, data + 8, 8, both, size + 8) == CUKVASHE_OK);
  CHECK(ciphers[cipher].init_no_tables(&context, both, size) == CUKVASHE_OK);
  CHECK(ciphers[cipher].paths[0].encrypt_cbc(&context, both + size, data + 16, length) == CUKVASHE_OK);
  return 16 + length;
}

/* The reports of an opening of that file, of which these bytes are hidden. */
static unsigned reports_of(int cipher, const struct derivation *by, size_t length, uint8_t padding, void *hidden, size_t count) {
  static int (*const opens[CIPHERS])(int, size_t, const uint8_t *, size_t, const uint8_t *, size_t, uint8_t *, size_t, size_t *) = {
      cukvashe_des_open_salted, cukvashe_tdes_ede2_open_salted, cukvashe_tdes_ede3_open_salted};
  const int wanted = padding == 0 ? CUKVASHE_ERR_PADDING : CUKVASHE_OK;
  size_t plain = 0;
  (void)VALGRIND_MAKE_MEM_UNDEFINED(hidden, count);
  const unsigned before = VALGRIND_COUNT_ERRORS;
  const int status = opens[cipher](by->hash, by->iterations, key, PASSWORD, data, length, other, sizeof other, &plain);
  const unsigned reports = VALGRIND_COUNT_ERRORS - before;
  CHECK(is_status(status, wanted));
  (void)VALGRIND_MAKE_MEM_DEFINED(&plain, sizeof plain);
  (void)VALGRIND_MAKE_MEM_DEFINED(hidden, count);
  CHECK(plain == (padding == 0 ? 0 : length - 16 - padding));
  return reports;
}

/* A hidden password gives the reports that the file's last block gives where nothing else is hidden, and no more. So they come of the
   padding, and none of the password, of what is derived from it, or of the rest of the plaintext. */
static void opened_file(void) {
  static const size_t lengths[] = {1, 2, 3, 12, 40, 257};
  static const struct derivation by[] = {
      {CUKVASHE_MD5, 0}, {CUKVASHE_SHA1, 0}, {CUKVASHE_SHA256, 0}, {CUKVASHE_SHA1, 2}, {CUKVASHE_SHA256, 2}};
  random_bytes(key, PASSWORD);
  for (int n = 0; n < CIPHERS; n++)
    for (size_t i = 0; i < sizeof by / sizeof *by; i++)
      for (size_t j = 0; j < sizeof lengths / sizeof *lengths; j++)
        for (uint8_t padding = 0; padding <= 8; padding++) {
          const size_t length = make_file(n, &by[i], lengths[j], padding);
          const unsigned reports = reports_of(n, &by[i], length, padding, key, PASSWORD);
          CHECK(reports > 0 && reports == reports_of(n, &by[i], length, padding, data + length - 8, 8));
        }
  printf("no report but of the padding\n");
}

/* The reports of one encoding of a PIN of `digits` digits, all hidden. At the place `letter`, if the PIN has it, a letter stands. */
static unsigned reports_of_pin(size_t digits, size_t letter) {
  char pin[] = "924681357024";
  if (letter < digits) pin[letter] = 'x';
  (void)VALGRIND_MAKE_MEM_UNDEFINED(pin, digits);
  const unsigned before = VALGRIND_COUNT_ERRORS;
  const int status = cukvashe_pin_encode_2(pin, digits, data);
  const unsigned reports = VALGRIND_COUNT_ERRORS - before;
  CHECK(is_status(status, letter < digits ? CUKVASHE_ERR_PIN_DIGIT : CUKVASHE_OK));
  return reports;
}

/* Whether a PIN has digits only decides a branch: as many reports for each length, and for a letter at each place. */
static void pin_of_a_card(void) {
  const unsigned reports = reports_of_pin(4, 12);
  CHECK(reports > 0);
  for (size_t digits = 4; digits <= 12; digits++)
    for (size_t letter = 0; letter <= digits; letter++) CHECK(reports_of_pin(digits, letter) == reports);
  printf("no report of the place of a letter\n");
}

/* Writes to `block` a PIN block of format 0, 1 or 3 under the key of 16 bytes at `key`: of a PIN of `digits` digits, or with a wrong first
   digit or of another format. */
static void make_pin_block(int format, size_t digits, const char *account, bool is_right, uint8_t block[8]) {
  static const char pin[] = "924681357024";
  static const uint8_t fill[10] = {10, 11, 12, 13, 14, 15, 10, 11, 12, 13};
  cukvashe_tdes_ede2 cipher;
  uint8_t transaction[10];
  random_bytes(key, 16);
  random_bytes(transaction, sizeof transaction);
  for (size_t i = 0; i < sizeof transaction; i++) transaction[i] &= 15;
  if (format == 0)
    CHECK(cukvashe_pin_encode_0(pin, digits, account, 12, block) == CUKVASHE_OK);
  else if (format == 1)
    CHECK(cukvashe_pin_encode_1(pin, digits, transaction, block) == CUKVASHE_OK);
  else
    CHECK(cukvashe_pin_encode_3(pin, digits, account, 12, fill, block) == CUKVASHE_OK);
  if (!is_right && digits % 2) block[1] |= 0xf0;
  if (!is_right && digits % 2 == 0) block[0] ^= 0x70;
  CHECK(cukvashe_tdes_ede2_init_no_tables(&cipher, key, 16) == CUKVASHE_OK);
  CHECK(cukvashe_tdes_ede2_encrypt_ecb(&cipher, block, 8) == CUKVASHE_OK);
}

/* The reports of one translation, of which both keys and the block are hidden. */
static unsigned reports_of_translation(int format, size_t digits, bool is_right, int to) {
  static const char account[] = "401234567890";
  static const uint8_t fill[10] = {10, 11, 12, 13, 14, 15, 15, 14, 13, 12};
  uint8_t block[8], outgoing[16], translated[8];
  const cukvashe_pin_translation by = {.incoming_key = key, .incoming_key_length = 16, .incoming_format = format,
                                       .outgoing_key = outgoing, .outgoing_key_length = 16, .account = account, .account_length = 12,
                                       .fill = fill};
  make_pin_block(format, digits, account, is_right, block);
  hide(outgoing, sizeof outgoing);
  (void)VALGRIND_MAKE_MEM_UNDEFINED(key, 16);
  (void)VALGRIND_MAKE_MEM_UNDEFINED(block, sizeof block);
  const unsigned before = VALGRIND_COUNT_ERRORS;
  int status;
  switch (to) {
    case 0: status = cukvashe_pin_translate_to_0(&by, block, translated); break;
    case 1: status = cukvashe_pin_translate_to_1(&by, block, translated); break;
    default: status = cukvashe_pin_translate_to_3(&by, block, translated); break;
  }
  const unsigned reports = VALGRIND_COUNT_ERRORS - before;
  CHECK(is_status(status, is_right ? CUKVASHE_OK : CUKVASHE_ERR_PIN_BLOCK));
  (void)VALGRIND_MAKE_MEM_DEFINED(key, 16);
  return reports;
}

/* Whether a block is right decides a branch, which is reported: as often for a PIN of each length, and for what is none. */
static void translations(void) {
  static const int formats[][2] = {{0, 0}, {0, 3}, {1, 0}, {1, 1}, {1, 3}, {3, 0}, {3, 3}};
  for (size_t i = 0; i < sizeof formats / sizeof *formats; i++) {
    const unsigned reports = reports_of_translation(formats[i][0], 4, true, formats[i][1]);
    CHECK(reports > 0);
    for (size_t digits = 4; digits <= 12; digits++)
      for (int is_right = 0; is_right < 2; is_right++)
        CHECK(reports_of_translation(formats[i][0], digits, is_right, formats[i][1]) == reports);
  }
  printf("no report of the length of a PIN\n");
}

/* The reports of one verification of a PIN of four digits by its value, of which the key, the PIN and the value are hidden. The value is
   wrong in the places whose bits are set. */
static unsigned reports_of_value(unsigned wrong) {
  static const char account[] = "4123456789012345";
  char pin[] = "9246", value[CUKVASHE_PVV_SIZE];
  random_bytes(key, 16);
  CHECK(cukvashe_pvv(key, account, 16, 1, pin, 4, value) == CUKVASHE_OK);
  for (int place = 0; place < 4; place++) value[place] ^= (char)(wrong >> place & 1);
  (void)VALGRIND_MAKE_MEM_UNDEFINED(key, 16);
  (void)VALGRIND_MAKE_MEM_UNDEFINED(pin, 4);
  (void)VALGRIND_MAKE_MEM_UNDEFINED(value, 4);
  const unsigned before = VALGRIND_COUNT_ERRORS;
  const bool is_pin = cukvashe_pvv_is_pin(key, account, 16, 1, pin, 4, value, 4); /* of the status that verify returns */
  const unsigned reports = VALGRIND_COUNT_ERRORS - before;
  CHECK(is_status(is_pin, wrong == 0));
  return reports;
}

/* The reports of one verification by an offset, of a PIN of `digits` digits, with hidden validation data; here the PIN is wrong. */
static unsigned reports_of_offset(size_t size, size_t digits, unsigned wrong) {
  char pin[] = "924681357024", offset[CUKVASHE_PIN_SIZE];
  cukvashe_decimal_table table;
  random_bytes(key, size);
  random_bytes(data, 8);
  CHECK(cukvashe_decimal_table_init(&table, "8351296477461538", 16) == CUKVASHE_OK);
  CHECK(cukvashe_pin_offset(key, size, &table, data, pin, digits, offset) == CUKVASHE_OK);
  for (size_t place = 0; place < digits; place++) pin[place] ^= (char)(wrong >> place & 1);
  (void)VALGRIND_MAKE_MEM_UNDEFINED(key, size);
  (void)VALGRIND_MAKE_MEM_UNDEFINED(data, 8);
  (void)VALGRIND_MAKE_MEM_UNDEFINED(pin, digits);
  (void)VALGRIND_MAKE_MEM_UNDEFINED(offset, digits);
  const unsigned before = VALGRIND_COUNT_ERRORS;
  const bool is_pin = cukvashe_pin_offset_is_pin(key, size, &table, data, pin, digits, offset, digits);
  const unsigned reports = VALGRIND_COUNT_ERRORS - before;
  CHECK(is_status(is_pin, wrong == 0));
  return reports;
}

/* As many reports as of a right PIN, whichever digits are wrong: one alone, or all from there on. And as many for each number of digits:
   what is computed of each decides no branch. */
static void verifications(void) {
  const unsigned of_value = reports_of_value(0), of_offset = reports_of_offset(8, 4, 0);
  for (unsigned wrong = 1; wrong < 16; wrong++) CHECK(reports_of_value(wrong) == of_value);
  for (size_t size = 8; size <= 24; size += 8)
    for (size_t digits = 4; digits <= 12; digits++) {
      const unsigned all = (1u << digits) - 1;
      CHECK(reports_of_offset(size, digits, 0) == of_offset);
      for (size_t place = 0; place < digits; place++) {
        CHECK(reports_of_offset(size, digits, 1u << place) == of_offset);
        CHECK(reports_of_offset(size, digits, all >> place << place) == of_offset);
      }
    }
  printf("no report of the place of a wrong digit\n");
}

static void list_of(size_t count) {
  union context context;
  hide(key, sizeof key);
  hide(data, sizeof data);
  CHECK(ciphers[DES].init(&context, key, 8) == CUKVASHE_OK);
  CHECK(cukvashe_des_encrypt_ecb(&context.des, data, 8 * count) == CUKVASHE_OK);
}

static void cbc_of_one(void) {
  union context context;
  hide(key, sizeof key);
  CHECK(ciphers[EDE3].init(&context, key, 24) == CUKVASHE_OK);
  CHECK(cukvashe_tdes_ede3_encrypt_cbc(&context.tdes_ede3, iv, data, 8) == CUKVASHE_OK);
}

static void message_of_two(void) {
  union mac_context context;
  hide(key, sizeof key);
  CHECK(macs[RETAIL_MAC].init(&context, key, 16, CUKVASHE_MAC_PADDING_2) == CUKVASHE_OK);
  CHECK(macs[RETAIL_MAC].update(&context, data, 16) == CUKVASHE_OK);
}

/* What is read has to be kept: valgrind leaves out a read that nothing uses. */
static void planted(void) {
  static volatile uint8_t table[256];
  hide(key, 1);
  data[0] = table[key[0]];
}

int main(int count, char **words) {
  CHECK(count == 2);
  if (strcmp(words[1], "calls") == 0) {
    for (int n = 0; n < CIPHERS; n++) calls_of(&ciphers[n]);
    for (int n = 0; n < CIPHERS; n++) calls_without_tables_of(&ciphers[n]);
    for (int n = 0; n < MACS; n++) verifies(&macs[n]);
    for (int n = 0; n < 2 * MACS; n++) message_without_tables(&macs[n / 2], n % 2 + 1);
    others();
    calls_of_one_key();
    transactions_of_a_terminal();
    values_of_cards();
    cryptograms_of_a_card();
    keys_in_key_blocks();
    wrapped_keys();
    keys_of_passwords();
    columns();
    padded_columns();
    lists_of_keys();
  } else if (strcmp(words[1], "short") == 0) {
    list_of(18);
  } else if (strcmp(words[1], "rest") == 0) {
    list_of(256 + 1);
  } else if (strcmp(words[1], "cbc") == 0) {
    cbc_of_one();
  } else if (strcmp(words[1], "message") == 0) {
    message_of_two();
  } else if (strcmp(words[1], "pin") == 0) {
    pin_of_a_card();
  } else if (strcmp(words[1], "translation") == 0) {
    translations();
  } else if (strcmp(words[1], "block") == 0) {
    opened_block();
  } else if (strcmp(words[1], "key") == 0) {
    opened_key();
  } else if (strcmp(words[1], "unwrapped") == 0) {
    unwrapped_keys();
  } else if (strcmp(words[1], "file") == 0) {
    opened_file();
  } else if (strcmp(words[1], "strings") == 0) {
    written_strings();
  } else if (strcmp(words[1], "verification") == 0) {
    verifications();
  } else {
    CHECK(strcmp(words[1], "planted") == 0);
    planted();
  }
  printf("secret indexes: %s, run by valgrind: %s, by %d of %d code paths\n", words[1], RUNNING_ON_VALGRIND ? "yes" : "no",
         count_of_paths(), (int)MOST_PATHS);
  return 0;
}
