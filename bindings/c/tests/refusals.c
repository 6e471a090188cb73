/* What is refused, and that nothing is changed then: every wrong length from 0 to 33, other padding methods, tags, contexts that no
   init of their type made; every status once, and its sentence; the header's numbers; null pointers where a length is 0. */
#include "mac_calls.h"
#include "numbers.h"
#include <limits.h>

enum { MOST = 33, PAINT = 0x77 };

/* The statuses that a call returned, or gave a value of a column. */
enum { LAST = CUKVASHE_ERR_OVERLAP };

static int was_returned[LAST + 1];

static int seen(int status) {
  CHECK(0 <= status && status <= LAST);
  was_returned[status] = 1;
  return status;
}

static int is_painted(const void *bytes, size_t count) {
  for (size_t i = 0; i < count; i++)
    if (((const uint8_t *)bytes)[i] != PAINT) return 0;
  return 1;
}

static void refuses_keys(const struct cipher *cipher) {
  uint8_t key[MOST], value[3];
  random_bytes(key, sizeof key);
  for (size_t length = 0; length <= MOST; length++) {
    union context context;
    int wanted = length == cipher->key_size ? CUKVASHE_OK : CUKVASHE_ERR_KEY_LENGTH;
    memset(&context, PAINT, sizeof context);
    memset(value, PAINT, sizeof value);
    CHECK(seen(cipher->init(&context, key, length)) == wanted);
    CHECK(is_painted(&context, sizeof context) == (wanted != CUKVASHE_OK));
    CHECK(is_painted((uint8_t *)&context + cipher->context_size, sizeof context - cipher->context_size));
    CHECK(cipher->check_value(key, length, value) == wanted && is_painted(value, 3) == (wanted != CUKVASHE_OK));
  }
  union context context;
  CHECK(cipher->init(&context, NULL, 0) == CUKVASHE_ERR_KEY_LENGTH);
  CHECK(cipher->check_value(NULL, 0, value) == CUKVASHE_ERR_KEY_LENGTH);
}

enum { BYTES = 8 * 600 + 8 };

/* One length by each call of a code path: at an error nothing is changed, and else all of it and nothing after it. */
static void takes_length(const struct path *path, const union context *context, size_t length, int wanted) {
  static uint8_t old[BYTES], data[BYTES];
  const size_t changed = wanted == CUKVASHE_OK ? length : 0;
  in_place *const in[] = {path->encrypt_ecb, path->decrypt_ecb};
  to_other *const to[] = {path->encrypt_ecb_to, path->decrypt_ecb_to};
  in_place_cbc *const in_cbc[] = {path->encrypt_cbc, path->decrypt_cbc};
  to_other_cbc *const to_cbc[] = {path->encrypt_cbc_to, path->decrypt_cbc_to};
  random_bytes(old, sizeof old);
  for (int call = 0; call < 8; call++) {
    uint8_t iv[8];
    memset(iv, PAINT, sizeof iv);
    memcpy(data, old, sizeof data);
    if (call == 2 || call == 3 || call > 5) memset(data, PAINT, sizeof data);
    switch (call / 2) {
      case 0: CHECK(seen(in[call % 2](context, data, length)) == wanted); break;
      case 1: CHECK(seen(to[call % 2](context, old, data, length)) == wanted); break;
      case 2: CHECK(seen(in_cbc[call % 2](context, iv, data, length)) == wanted); break;
      default: CHECK(seen(to_cbc[call % 2](context, iv, old, data, length)) == wanted); break;
    }
    const uint8_t *rest = data + changed;
    if (call / 2 % 2 == 0) CHECK(memcmp(rest, old + changed, sizeof data - changed) == 0);
    else CHECK(is_painted(rest, sizeof data - changed));
    CHECK(is_painted(iv, sizeof iv) == (call < 4 || changed == 0));
  }
}

static void takes_null(const struct path *path, const union context *context) {
  uint8_t iv[8];
  memset(iv, PAINT, sizeof iv);
  CHECK(path->encrypt_ecb(context, NULL, 0) == CUKVASHE_OK && path->decrypt_ecb(context, NULL, 0) == CUKVASHE_OK);
  CHECK(path->encrypt_ecb_to(context, NULL, NULL, 0) == CUKVASHE_OK);
  CHECK(path->decrypt_ecb_to(context, NULL, NULL, 0) == CUKVASHE_OK);
  CHECK(path->encrypt_cbc(context, iv, NULL, 0) == CUKVASHE_OK && path->decrypt_cbc(context, iv, NULL, 0) == CUKVASHE_OK);
  CHECK(path->encrypt_cbc_to(context, iv, NULL, NULL, 0) == CUKVASHE_OK);
  CHECK(path->decrypt_cbc_to(context, iv, NULL, NULL, 0) == CUKVASHE_OK);
  CHECK(is_painted(iv, sizeof iv));
}

static void takes_lengths(const struct cipher *cipher) {
  static const size_t blocks[] = {0, 1, 2, 3, 4, 18, 19, 31, 32, 127, 128, 129, 255, 256, 300, 600};
  uint8_t key[24];
  union context context;
  random_bytes(key, sizeof key);
  CHECK(cipher->init(&context, key, cipher->key_size) == CUKVASHE_OK);
  for (int n = 0; n < count_of_paths(); n++) {
    const struct path *path = &cipher->paths[n];
    for (size_t i = 0; i < sizeof blocks / sizeof *blocks; i++)
      for (size_t more = 0; more < 8; more++)
        takes_length(path, &context, 8 * blocks[i] + more, more == 0 ? CUKVASHE_OK : CUKVASHE_ERR_BLOCKS);
    takes_null(path, &context);
  }
}

/* Other key lengths, and else other methods, are refused, and the context stays. */
static void refuses_macs(const struct mac *mac) {
  static const int methods[] = {0, 3, 4, CUKVASHE_PKCS7, CUKVASHE_ISO7816, 257, 258, -1, INT_MAX, INT_MIN, INT_MIN + 1, INT_MIN + 2};
  uint8_t key[MOST], tag[MOST];
  union mac_context context;
  random_bytes(key, sizeof key);
  memset(&context, PAINT, sizeof context);
  for (size_t length = 0; length <= MOST; length++)
    if (length != mac->key_size) {
      CHECK(seen(mac->init(&context, key, length, CUKVASHE_MAC_PADDING_1)) == CUKVASHE_ERR_KEY_LENGTH);
      CHECK(seen(mac->init(&context, key, length, 3)) == CUKVASHE_ERR_KEY_LENGTH);
    }
  CHECK(mac->init(&context, NULL, 0, CUKVASHE_MAC_PADDING_2) == CUKVASHE_ERR_KEY_LENGTH);
  for (size_t i = 0; mac->is_padded && i < sizeof methods / sizeof *methods; i++)
    CHECK(seen(mac->init(&context, key, mac->key_size, methods[i])) == CUKVASHE_ERR_PADDING_METHOD);
  CHECK(is_painted(&context, sizeof context));
  CHECK(mac->init(&context, key, mac->key_size, CUKVASHE_MAC_PADDING_1) == CUKVASHE_OK);
  CHECK(is_painted((uint8_t *)&context + mac->context_size, sizeof context - mac->context_size));
  CHECK(mac->update(&context, NULL, 0) == CUKVASHE_OK);
  memset(tag, 0, sizeof tag);
  CHECK(mac->final(&context, tag) == CUKVASHE_OK);
  for (size_t length = 0; length <= MOST; length++) {
    int status = seen(mac->verify(&context, tag, length));
    CHECK(status == (4 <= length && length <= 8 ? CUKVASHE_OK : CUKVASHE_ERR_TAG));
    CHECK(mac->is_tag(&context, tag, length) == (status == CUKVASHE_OK));
  }
  CHECK(mac->verify(&context, NULL, 0) == CUKVASHE_ERR_TAG && !mac->is_tag(&context, NULL, 0));
  for (int bit = 0; bit < 64; bit++) {
    tag[bit / 8] ^= (uint8_t)(1 << bit % 8);
    CHECK(!mac->is_tag(&context, tag, 8) && mac->is_tag(&context, tag, 4) == (bit >= 32));
    tag[bit / 8] ^= (uint8_t)(1 << bit % 8);
  }
}

/* The calls of lists that have a count beside their lengths in bytes: two lists, or one. */
enum { MANY = 300 };

static uint8_t given[24 * MANY], made[24 * MANY];
static bool answers[24 * MANY];
static cukvashe_message messages[24 * MANY];

typedef int of_lists(size_t first, size_t second, size_t count);

#define LISTS(NAME, CALL)                                                                                             \
  static int NAME(size_t first, size_t second, size_t count) {                                                        \
    (void)second;                                                                                                     \
    return CALL;                                                                                                      \
  }
#define LISTS_OF_CIPHER(NAME, SIZE)                                                                                   \
  LISTS(NAME##_values, cukvashe_##NAME##_check_values(given, first, made, second, count))                             \
  LISTS(combine_##SIZE, cukvashe_combine_##SIZE(given, given + 1, given, first, count, made))
#define LISTS_OF_MAC(NAME, SIZE)                                                                                      \
  LISTS(NAME##_tags, cukvashe_##NAME##_macs(given, SIZE, CUKVASHE_MAC_PADDING_2, messages, made, first, count))       \
  LISTS(NAME##_each, cukvashe_##NAME##_macs_each(given, first, CUKVASHE_MAC_PADDING_2, messages, made, second, count))
#define LISTS_OF_CMAC(NAME, SIZE)                                                                                     \
  LISTS(NAME##_tags, cukvashe_##NAME##_macs(given, SIZE, messages, made, first, count))                               \
  LISTS(NAME##_each, cukvashe_##NAME##_macs_each(given, first, messages, made, second, count))

LISTS_OF_CIPHER(des, 8)
LISTS_OF_CIPHER(tdes_ede2, 16)
LISTS_OF_CIPHER(tdes_ede3, 24)
LISTS_OF_MAC(cbc_mac_des, 8)
LISTS_OF_MAC(cbc_mac_tdes_ede2, 16)
LISTS_OF_MAC(cbc_mac_tdes_ede3, 24)
LISTS_OF_MAC(retail_mac_des, 16)
LISTS_OF_CMAC(cmac_tdes_ede2, 16)
LISTS_OF_CMAC(cmac_tdes_ede3, 24)
LISTS(transactions, cukvashe_dukpt_transaction_keys_from_base(given, given, first, made, second, count))
LISTS(compared, cukvashe_compare_tags(given, first, given, second, answers, count))

/* Each with the sizes of its elements; 0 where there is no second list. */
static const struct {
  of_lists *call;
  size_t first, second;
} lists[] = {
    {des_values, 8, 3},           {tdes_ede2_values, 16, 3},      {tdes_ede3_values, 24, 3},
    {combine_8, 8, 0},            {combine_16, 16, 0},            {combine_24, 24, 0},
    {cbc_mac_des_tags, 8, 0},     {cbc_mac_tdes_ede2_tags, 8, 0}, {cbc_mac_tdes_ede3_tags, 8, 0},
    {retail_mac_des_tags, 8, 0},  {cmac_tdes_ede2_tags, 8, 0},    {cmac_tdes_ede3_tags, 8, 0},
    {cbc_mac_des_each, 8, 8},     {cbc_mac_tdes_ede2_each, 16, 8}, {cbc_mac_tdes_ede3_each, 24, 8},
    {retail_mac_des_each, 16, 8}, {cmac_tdes_ede2_each, 16, 8},   {cmac_tdes_ede3_each, 24, 8},
    {transactions, 10, 16},       {compared, 8, 8},
};

/* Bytes where a count is asked for, counts where bytes are, one more or less, and counts whose bytes are no number of 64 bits: refused,
   and nothing is changed. What agrees is taken. */
static void refuses_lists(void) {
  static const size_t counts[] = {1, 2, 128, 129, MANY};
  const size_t huge = (size_t)1 << 61;
  random_bytes(given, sizeof given);
  for (size_t n = 0; n < sizeof lists / sizeof *lists; n++)
    for (size_t i = 0; i < sizeof counts / sizeof *counts; i++) {
      const size_t count = counts[i], first = lists[n].first * count, second = lists[n].second * count;
      const size_t tried[][3] = {{count, count, count},      {first, second, first},        {count, count, first},
                                 {first, second, count + 1}, {first, second, count - 1},    {first + 1, second, count},
                                 {first - 1, second, count}, {first, second, count + huge}, {first, second, SIZE_MAX},
                                 {0, 0, huge},               {first, second, 0},            {SIZE_MAX, SIZE_MAX, count},
                                 {SIZE_MAX, SIZE_MAX, SIZE_MAX}};
      const size_t of_second[][3] = {{first, count, count}, {first, second + 1, count}, {first, second - 1, count},
                                     {first, 0, count},     {first, SIZE_MAX, count},   {first, second + huge, count}};
      memset(made, PAINT, sizeof made);
      memset(answers, true, sizeof answers);
      for (size_t at = 0; at < sizeof tried / sizeof *tried; at++)
        CHECK(seen(lists[n].call(tried[at][0], tried[at][1], tried[at][2])) == CUKVASHE_ERR_COUNTS);
      for (size_t at = 0; lists[n].second > 0 && at < sizeof of_second / sizeof *of_second; at++)
        CHECK(lists[n].call(of_second[at][0], of_second[at][1], of_second[at][2]) == CUKVASHE_ERR_COUNTS);
      CHECK(is_painted(made, sizeof made));
      for (size_t at = 0; at < sizeof answers; at++) CHECK(answers[at]);
      CHECK(lists[n].call(first, second, count) == CUKVASHE_OK);
    }
}

/* The key of all messages has the size of the MAC's keys; that is looked at before the counts. */
static void refuses_keys_of_messages(void) {
  for (size_t length = 0; length <= MOST; length++) {
    const int wanted = length == 16 ? CUKVASHE_ERR_COUNTS : CUKVASHE_ERR_KEY_LENGTH;
    CHECK(cukvashe_retail_mac_des_macs(given, length, 3, messages, made, 8, 2) == wanted);
    CHECK(cukvashe_cmac_tdes_ede2_macs(given, length, messages, made, 8, 2) == wanted);
  }
  CHECK(cukvashe_retail_mac_des_macs(given, 16, 3, messages, made, 16, 2) == CUKVASHE_ERR_PADDING_METHOD);
}

/* ---- Contexts that no init of their type made ---- */

typedef int records(const union context *, uint8_t *vectors, const size_t *counts, size_t count, uint8_t *bytes, size_t length);

#define RECORDS(name)                                                                                                 \
  static int name##_encrypt_records(const union context *context, uint8_t *vectors, const size_t *counts,             \
                                    size_t count, uint8_t *bytes, size_t length) {                                    \
    return cukvashe_##name##_encrypt_cbc_records(&context->name, vectors, 8 * count, counts, count, bytes, length);   \
  }                                                                                                                   \
  static int name##_decrypt_records(const union context *context, uint8_t *vectors, const size_t *counts,             \
                                    size_t count, uint8_t *bytes, size_t length) {                                    \
    return cukvashe_##name##_decrypt_cbc_records(&context->name, vectors, 8 * count, counts, count, bytes, length);   \
  }

RECORDS(des)
RECORDS(tdes_ede2)
RECORDS(tdes_ede3)

static records *const of_records[CIPHERS][2] = {{des_encrypt_records, des_decrypt_records},
                                                {tdes_ede2_encrypt_records, tdes_ede2_decrypt_records},
                                                {tdes_ede3_encrypt_records, tdes_ede3_decrypt_records}};

/* Space for a context of any type: the ciphers, and then the MACs. */
union memory {
  union context cipher;
  union mac_context mac;
  uint64_t words[sizeof(union mac_context) / 8];
};

enum { TYPES = CIPHERS + MACS };

/* The place of the mark: the last word of the cipher's, of the retail MAC's first. */
static size_t place_of(int type) {
  const int mac = type - CIPHERS;
  if (mac < 0) return ciphers[type].context_size / 8 - 1;
  return mac == RETAIL_MAC ? 16 : macs[mac].context_size / 8 - 5;
}

/* A context of a type under a key, and zeros after it. */
static void make(union memory *memory, int type, int has_no_tables) {
  uint8_t key[24];
  random_bytes(key, sizeof key);
  memset(memory, 0, sizeof *memory);
  if (type < CIPHERS) {
    const struct cipher *cipher = &ciphers[type];
    CHECK((has_no_tables ? cipher->init_no_tables : cipher->init)(&memory->cipher, key, cipher->key_size) == CUKVASHE_OK);
  } else {
    const struct mac *mac = &macs[type - CIPHERS];
    CHECK((has_no_tables ? mac->init_no_tables : mac->init)(&memory->mac, key, mac->key_size, CUKVASHE_MAC_PADDING_1) == CUKVASHE_OK);
  }
}

/* Each call of a cipher refuses it, also where another argument is wrong, and changes nothing. */
static void refuses_by_cipher(int n, const union memory *memory) {
  static const size_t lengths[] = {0, 8, 15, 8 * 40, 8 * 300}, counts[] = {1, 0, 1};
  uint8_t vectors[8 * 3], bytes[8 * 3];
  for (int path = 0; path < count_of_paths(); path++)
    for (size_t i = 0; i < sizeof lengths / sizeof *lengths; i++)
      takes_length(&ciphers[n].paths[path], &memory->cipher, lengths[i], CUKVASHE_ERR_CONTEXT);
  memset(vectors, PAINT, sizeof vectors);
  memset(bytes, PAINT, sizeof bytes);
  for (int call = 0; call < 2; call++)
    for (size_t count = 0; count <= 3; count++)
      for (size_t length = 0; length <= sizeof bytes; length++) {
        CHECK(seen(of_records[n][call](&memory->cipher, vectors, counts, count, bytes, length)) == CUKVASHE_ERR_CONTEXT);
        CHECK(is_painted(vectors, sizeof vectors) && is_painted(bytes, sizeof bytes));
      }
}

/* Each call of a MAC. */
static void refuses_by_mac(const struct mac *mac, const union memory *memory) {
  static const uint8_t message[17] = {0};
  union memory copy = *memory;
  uint8_t tag[9];
  memset(tag, PAINT, sizeof tag);
  for (size_t length = 0; length <= sizeof message; length++) {
    CHECK(seen(mac->update(&copy.mac, message, length)) == CUKVASHE_ERR_CONTEXT);
    CHECK(memcmp(&copy, memory, sizeof copy) == 0);
  }
  CHECK(seen(mac->final(&copy.mac, tag)) == CUKVASHE_ERR_CONTEXT && is_painted(tag, sizeof tag));
  for (size_t length = 0; length <= sizeof tag; length++)
    CHECK(seen(mac->verify(&copy.mac, tag, length)) == CUKVASHE_ERR_CONTEXT && !mac->is_tag(&copy.mac, tag, length));
  CHECK(memcmp(&copy, memory, sizeof copy) == 0);
}

static void refuses(int type, const union memory *memory) {
  if (type < CIPHERS) refuses_by_cipher(type, memory);
  else refuses_by_mac(&macs[type - CIPHERS], memory);
}

/* What no init wrote; a context of each other type; one of this type with the mark of another, or with a mark that is none. */
static void refuses_contexts(int type) {
  union memory memory, other, no_tables;
  const size_t place = place_of(type);
  static const int paints[] = {0, 1, PAINT, 0xff};
  for (size_t i = 0; i < sizeof paints / sizeof *paints; i++) {
    memset(&memory, paints[i], sizeof memory);
    refuses(type, &memory);
  }
  random_bytes((uint8_t *)&memory, sizeof memory);
  refuses(type, &memory);
  for (int has_no_tables = 0; has_no_tables < 2; has_no_tables++) {
    for (int stranger = 0; stranger < TYPES; stranger++) {
      if (stranger == type) continue;
      make(&other, stranger, has_no_tables);
      refuses(type, &other);
      make(&memory, type, has_no_tables);
      memory.words[place] = other.words[place_of(stranger)];
      refuses(type, &memory);
    }
    make(&memory, type, has_no_tables);
    make(&no_tables, type, !has_no_tables);
    for (int bit = 0; bit < 64; bit++) {
      memory.words[place] ^= (uint64_t)1 << bit;
      if (memory.words[place] != no_tables.words[place]) refuses(type, &memory);
      memory.words[place] ^= (uint64_t)1 << bit;
    }
  }
}

/* The statuses of the calls that have no context. What they are for is tested with the calls. */
static void returns_statuses(void) {
  static const uint8_t key[16] = {0}, fill[10] = {0};
  static const char *const account = "4012345678909";
  uint8_t serial[10], made[16], block[8] = {0x14, 0x12, 0x34};
  char text[13];
  size_t length;
  cukvashe_des context;
  CHECK(cukvashe_des_init(&context, key, 8) == CUKVASHE_OK);
  CHECK(seen(cukvashe_weak_key_test(key, 8)) == CUKVASHE_ERR_WEAK_KEY);
  memset(serial, 0xff, sizeof serial);
  CHECK(seen(cukvashe_dukpt_next_serial(serial, made)) == CUKVASHE_ERR_NO_SERIAL);
  CHECK(seen(cukvashe_pin_decode_0(block, account, 13, text)) == CUKVASHE_ERR_FORMAT);
  CHECK(seen(cukvashe_pin_encode_0("123", 3, account, 13, block)) == CUKVASHE_ERR_PIN_LENGTH);
  CHECK(seen(cukvashe_pin_encode_0("123a", 4, account, 13, block)) == CUKVASHE_ERR_PIN_DIGIT);
  CHECK(seen(cukvashe_pin_encode_0("1234", 4, account, 7, block)) == CUKVASHE_ERR_ACCOUNT_LENGTH);
  CHECK(seen(cukvashe_pin_encode_0("1234", 4, "401234567890a", 13, block)) == CUKVASHE_ERR_ACCOUNT_DIGIT);
  CHECK(seen(cukvashe_pin_encode_3("1234", 4, account, 13, fill, block)) == CUKVASHE_ERR_FILL);
  CHECK(seen(cukvashe_cvv(key, account, 13, "870", 3, "101", 3, text)) == CUKVASHE_ERR_EXPIRY_LENGTH);
  CHECK(seen(cukvashe_cvv(key, account, 13, "870a", 4, "101", 3, text)) == CUKVASHE_ERR_EXPIRY_DIGIT);
  CHECK(seen(cukvashe_cvv(key, account, 13, "8701", 4, "10", 2, text)) == CUKVASHE_ERR_SERVICE_LENGTH);
  CHECK(seen(cukvashe_cvv(key, account, 13, "8701", 4, "10a", 3, text)) == CUKVASHE_ERR_SERVICE_DIGIT);
  CHECK(seen(cukvashe_unpad(block, 0, CUKVASHE_PKCS7, &length)) == CUKVASHE_ERR_PADDING);
  CHECK(seen(cukvashe_pad(block, 8, 8, CUKVASHE_PKCS7, &length)) == CUKVASHE_ERR_CAPACITY);
  CHECK(seen(cukvashe_des_decrypt_cbc_records(&context, made, 0, &length, 0, block, 8)) == CUKVASHE_ERR_COUNTS);
  CHECK(seen(cukvashe_des_encrypt_each(key, 8, block, 8)) == CUKVASHE_ERR_COUNTS);
  CHECK(seen(cukvashe_des_encrypt_each(key, 1, block, 1)) == CUKVASHE_ERR_BLOCKS);
}

/* Those of PIN verification, translation and card cryptograms. */
static void returns_statuses_of_pins_and_cards(void) {
  static const uint8_t key[16] = {0}, bytes[9] = {0};
  static const char *const account = "4012345678909";
  uint8_t made[16], block[8] = {0};
  char text[13];
  cukvashe_decimal_table table;
  cukvashe_pin_translation by = {.incoming_key = key, .incoming_key_length = 16, .outgoing_key = key, .outgoing_key_length = 16,
                                 .account = account, .account_length = 13};
  CHECK(seen(cukvashe_pvv(key, account, 13, 0, "1234", 4, text)) == CUKVASHE_ERR_KEY_INDEX);
  CHECK(seen(cukvashe_pvv_verify(key, account, 13, 1, "1234", 4, "", 0)) == CUKVASHE_ERR_WRONG_PIN);
  CHECK(seen(cukvashe_decimal_table_init(&table, "0", 1)) == CUKVASHE_ERR_TABLE_LENGTH);
  CHECK(seen(cukvashe_decimal_table_init(&table, "012345678901234a", 16)) == CUKVASHE_ERR_TABLE_DIGIT);
  CHECK(seen(cukvashe_decimal_table_init(&table, "0101010101010101", 16)) == CUKVASHE_ERR_TABLE_VARIETY);
  CHECK(seen(cukvashe_pin_translate_to_0(&by, block, made)) == CUKVASHE_ERR_PIN_BLOCK);
  by.incoming_format = 2;
  CHECK(seen(cukvashe_pin_translate_to_0(&by, block, made)) == CUKVASHE_ERR_FORMATS);
  CHECK(seen(cukvashe_emv_card_key(key, account, 13, "0", 1, made)) == CUKVASHE_ERR_SEQUENCE_LENGTH);
  CHECK(seen(cukvashe_emv_card_key(key, account, 13, "0a", 2, made)) == CUKVASHE_ERR_SEQUENCE_DIGIT);
  CHECK(seen(cukvashe_emv_response_2(key, block, bytes, bytes, 9, made)) == CUKVASHE_ERR_DATA_LENGTH);
}

/* Those of streams. */
static void returns_statuses_of_streams(void) {
  static const uint8_t zeros[24] = {0};
  cukvashe_tdes_ede3 context;
  cukvashe_stream stream = {{0}};
  uint8_t data[8] = {0};
  CHECK(cukvashe_tdes_ede3_init(&context, zeros, sizeof zeros) == CUKVASHE_OK);
  CHECK(seen(cukvashe_stream_begin(&stream, 0, zeros)) == CUKVASHE_ERR_MODE);
  CHECK(seen(cukvashe_tdes_ede3_encrypt_stream(&context, &stream, data, sizeof data)) == CUKVASHE_ERR_STREAM);
}

/* Those of key wraps. */
static void returns_statuses_of_key_wraps(void) {
  static const uint8_t key[16] = {0}, wrapped[24] = {0};
  uint8_t made[8];
  size_t length;
  CHECK(seen(cukvashe_cms_unwrap_key(key, 16, wrapped, 23, made, 8, &length)) == CUKVASHE_ERR_WRAPPED_LENGTH);
  CHECK(seen(cukvashe_cms_unwrap_key(key, 16, wrapped, 24, made, 8, &length)) == CUKVASHE_ERR_WRAPPED_KEY);
  CHECK(seen(cukvashe_cms_unwrap_key(key, 16, wrapped, 24, (void *)wrapped, 8, &length)) == CUKVASHE_ERR_OVERLAP);
}

/* Those of columns. */
static void returns_statuses_of_columns(void) {
  static const uint8_t value[8] = {0};
  static const size_t length = 8;
  uint8_t text[8];
  size_t text_length;
  int of_value;
  CHECK(seen(cukvashe_mysql_decrypt_values(value, 8, value, 8, &length, 1, text, &text_length, &of_value)) == CUKVASHE_ERR_VALUES);
  CHECK(seen(of_value) == CUKVASHE_ERR_NOT_ENCRYPTED);
  CHECK(seen(cukvashe_pgcrypto_decrypt_values("aes", 3, value, 8, value, 8, value, 8, &length, 1, text, &text_length, &of_value)) ==
        CUKVASHE_ERR_ALGORITHM);
  CHECK(seen(cukvashe_jasypt_decrypt_values("PBEWithMD5AndDES", 16, 1, value, 8, value, 8, &length, 1, text, &text_length, &of_value)) ==
        CUKVASHE_ERR_VALUES);
  CHECK(seen(of_value) == CUKVASHE_ERR_BASE64);
  CHECK(seen(cukvashe_mysql_encrypt_values(value, 8, 10, value, 8, &length, 1, text, 8)) == CUKVASHE_ERR_KEY_NUMBER);
}

/* Those of key blocks. */
static void returns_statuses_of_key_blocks(void) {
  static const uint8_t key[16] = {0};
  cukvashe_key_block_fields header;
  cukvashe_key_block_parts parts = {.protection = key, .protection_length = 16, .header = {'A', "P0", 'T', 'E', "00", 'E'},
                                    .key = key, .key_length = 16, .padding = key, .padding_length = 6};
  uint8_t opened[24];
  char name[3], text[100], block[] = "B0080P0TE00E000094B420079CC80BA3461F86FE26EFC4A3B8E4FA4C5F5341176EED7B727B8A248E";
  size_t length;
  CHECK(seen(cukvashe_key_block_unwrap(key, 8, block, 80, &header, opened, &length)) == CUKVASHE_ERR_PROTECTION_KEY_LENGTH);
  CHECK(seen(cukvashe_key_block_unwrap(key, 16, block, 79, &header, opened, &length)) == CUKVASHE_ERR_KEY_BLOCK_LENGTH);
  CHECK(seen(cukvashe_key_block_unwrap(key, 16, block, 80, &header, opened, &length)) == CUKVASHE_ERR_KEY_BLOCK_MAC);
  CHECK(seen(cukvashe_key_block_wrap(&parts, text, 100, &length)) == CUKVASHE_ERR_VERSION);
  parts.header.version = 'B';
  parts.padding_length = 7;
  CHECK(seen(cukvashe_key_block_wrap(&parts, text, 100, &length)) == CUKVASHE_ERR_PADDING_LENGTH);
  parts.header.mode = ' ';
  CHECK(seen(cukvashe_key_block_wrap(&parts, text, 100, &length)) == CUKVASHE_ERR_HEADER);
  parts.optional = "x";
  parts.optional_length = 1;
  CHECK(seen(cukvashe_key_block_wrap(&parts, text, 100, &length)) == CUKVASHE_ERR_OPTIONAL_BLOCK);
  CHECK(seen(cukvashe_key_block_optional_block(block, 80, 0, name, &length, &length)) == CUKVASHE_ERR_NO_OPTIONAL_BLOCK);
  block[0] = 'C';
  CHECK(seen(cukvashe_key_block_header(block, 80, &header)) == CUKVASHE_ERR_KEY_DATA_LENGTH);
  block[0] = 'B';
  block[79] = 'e';
  CHECK(seen(cukvashe_key_block_unwrap(key, 16, block, 80, &header, opened, &length)) == CUKVASHE_ERR_KEY_BLOCK_DIGIT);
}

/* Those of passwords. */
static void returns_statuses_of_passwords(void) {
  static const uint8_t bytes[] = "Salted__1234567";
  uint8_t key[24], plain[8];
  size_t length;
  CHECK(seen(cukvashe_pbkdf2(CUKVASHE_MD5, 1, bytes, 8, bytes, 8, key, 24)) == CUKVASHE_ERR_HASH);
  CHECK(seen(cukvashe_pbkdf2(CUKVASHE_SHA1, 0, bytes, 8, bytes, 8, key, 24)) == CUKVASHE_ERR_ITERATIONS);
  CHECK(seen(cukvashe_des_open_salted(CUKVASHE_MD5, 0, bytes, 8, bytes, 7, plain, 8, &length)) == CUKVASHE_ERR_NOT_SALTED);
  CHECK(seen(cukvashe_des_open_salted(CUKVASHE_MD5, 0, bytes, 8, bytes, 15, plain, 8, &length)) == CUKVASHE_ERR_SALT_LENGTH);
}

/* Words that the sentence of each status has. */
static const char *const words[] = {
    "success", "key does not have a length", "multiple of 8", "key is weak", "padding method is not one", "tag is not that",
    "no next key serial number", "first digit of the PIN block", "PIN does not have 4 to 12 digits", "character of the PIN",
    "account number does not have 8 to 19 digits", "character of the account number", "fill digit",
    "expiry date does not have four digits", "character of the expiry date", "service code does not have three digits",
    "character of the service code", "do not end with the padding", "too small for all",
    "numbers of elements do not agree", "index of the key pair", "table does not have sixteen digits", "character of the decimalization",
    "fewer than eight different digits", "PIN is wrong", "no translation of PIN blocks", "PIN block is not one of its format",
    "sequence number does not have two digits", "character of the sequence number", "more than 8 bytes",
    "protection key does not have", "key block is not as long as its header says", "version of the key block", "header does not end with",
    "optional blocks can't be read", "encrypted key data do not have", "0 to 9 or A to F", "MAC is not that of the key block",
    "padding of the key", "no optional block at this place", "hash function is not one", "number of iterations", "do not begin with Salted__",
    "end within the salt, or it does not have 0 or 8 bytes", "context is not one", "mode is not one", "stream is not one",
    "wrapped key does not have 24 bytes", "no key wrapped under", "none that MySQL encrypted", "some values can't be read",
    "algorithm is not one", "is not Base64", "has no key of that number", "overlaps what it reads",
};

/* Every status was returned by some call, and has a sentence of its own; other numbers have one sentence. */
static void has_sentences(void) {
  static const int others[] = {LAST + 1, -1, INT_MIN, INT_MAX, 256, 65536};
  const char *unknown = cukvashe_strerror(LAST + 1);
  CHECK(strstr(unknown, "no status") != NULL);
  for (int status = 0; status <= LAST; status++) {
    const char *sentence = cukvashe_strerror(status);
    CHECK(was_returned[status]);
    CHECK(strstr(sentence, words[status]) != NULL && strcmp(sentence, unknown) != 0);
    for (int other = 0; other < status; other++) CHECK(strcmp(sentence, cukvashe_strerror(other)) != 0);
  }
  for (size_t i = 0; i < sizeof others / sizeof *others; i++) CHECK(cukvashe_strerror(others[i]) == unknown);
}

/* A context stands where words do, and so do the library's: one of bytes could stand at any address. */
#define IS_ALIGNED(name)                                                            \
  do {                                                                              \
    struct after_a_byte {                                                           \
      char byte;                                                                    \
      cukvashe_##name context;                                                      \
    };                                                                              \
    CHECK(offsetof(struct after_a_byte, context) == sizeof(uint64_t));              \
    CHECK(sizeof ((cukvashe_##name *)0)->words[0] == sizeof(uint64_t));             \
  } while (0)

static void has_words(void) {
  IS_ALIGNED(des);
  IS_ALIGNED(tdes_ede2);
  IS_ALIGNED(tdes_ede3);
  IS_ALIGNED(stream);
  IS_ALIGNED(cbc_mac_des);
  IS_ALIGNED(cbc_mac_tdes_ede2);
  IS_ALIGNED(cbc_mac_tdes_ede3);
  IS_ALIGNED(retail_mac_des);
  IS_ALIGNED(cmac_tdes_ede2);
  IS_ALIGNED(cmac_tdes_ede3);
}

/* The numbers are part of the interface: programs that were built with others would go wrong. */
static void has_numbers(void) {
  const int statuses[] = {
      CUKVASHE_OK, CUKVASHE_ERR_KEY_LENGTH, CUKVASHE_ERR_BLOCKS, CUKVASHE_ERR_WEAK_KEY, CUKVASHE_ERR_PADDING_METHOD,
      CUKVASHE_ERR_TAG, CUKVASHE_ERR_NO_SERIAL, CUKVASHE_ERR_FORMAT, CUKVASHE_ERR_PIN_LENGTH, CUKVASHE_ERR_PIN_DIGIT,
      CUKVASHE_ERR_ACCOUNT_LENGTH, CUKVASHE_ERR_ACCOUNT_DIGIT, CUKVASHE_ERR_FILL, CUKVASHE_ERR_EXPIRY_LENGTH,
      CUKVASHE_ERR_EXPIRY_DIGIT, CUKVASHE_ERR_SERVICE_LENGTH, CUKVASHE_ERR_SERVICE_DIGIT, CUKVASHE_ERR_PADDING,
      CUKVASHE_ERR_CAPACITY, CUKVASHE_ERR_COUNTS, CUKVASHE_ERR_KEY_INDEX, CUKVASHE_ERR_TABLE_LENGTH,
      CUKVASHE_ERR_TABLE_DIGIT, CUKVASHE_ERR_TABLE_VARIETY, CUKVASHE_ERR_WRONG_PIN, CUKVASHE_ERR_FORMATS,
      CUKVASHE_ERR_PIN_BLOCK, CUKVASHE_ERR_SEQUENCE_LENGTH, CUKVASHE_ERR_SEQUENCE_DIGIT, CUKVASHE_ERR_DATA_LENGTH,
      CUKVASHE_ERR_PROTECTION_KEY_LENGTH, CUKVASHE_ERR_KEY_BLOCK_LENGTH, CUKVASHE_ERR_VERSION, CUKVASHE_ERR_HEADER,
      CUKVASHE_ERR_OPTIONAL_BLOCK, CUKVASHE_ERR_KEY_DATA_LENGTH, CUKVASHE_ERR_KEY_BLOCK_DIGIT,
      CUKVASHE_ERR_KEY_BLOCK_MAC, CUKVASHE_ERR_PADDING_LENGTH, CUKVASHE_ERR_NO_OPTIONAL_BLOCK, CUKVASHE_ERR_HASH,
      CUKVASHE_ERR_ITERATIONS, CUKVASHE_ERR_NOT_SALTED, CUKVASHE_ERR_SALT_LENGTH, CUKVASHE_ERR_CONTEXT,
      CUKVASHE_ERR_MODE, CUKVASHE_ERR_STREAM, CUKVASHE_ERR_WRAPPED_LENGTH, CUKVASHE_ERR_WRAPPED_KEY,
      CUKVASHE_ERR_NOT_ENCRYPTED, CUKVASHE_ERR_VALUES, CUKVASHE_ERR_ALGORITHM, CUKVASHE_ERR_BASE64,
      CUKVASHE_ERR_KEY_NUMBER, CUKVASHE_ERR_OVERLAP};
  CHECK(sizeof statuses / sizeof *statuses == LAST + 1);
  for (int i = 0; i <= LAST; i++) CHECK(statuses[i] == i);
  CHECK(CUKVASHE_BLOCK_SIZE == 8 && CUKVASHE_TAG_SIZE == 8);
  CHECK(CUKVASHE_DES_KEY_SIZE == 8 && CUKVASHE_TDES_EDE2_KEY_SIZE == 16 && CUKVASHE_TDES_EDE3_KEY_SIZE == 24);
  CHECK(CUKVASHE_CBC_MAC_DES_KEY_SIZE == 8 && CUKVASHE_CBC_MAC_TDES_EDE2_KEY_SIZE == 16);
  CHECK(CUKVASHE_CBC_MAC_TDES_EDE3_KEY_SIZE == 24 && CUKVASHE_RETAIL_MAC_DES_KEY_SIZE == 16);
  CHECK(CUKVASHE_CMAC_TDES_EDE2_KEY_SIZE == 16 && CUKVASHE_CMAC_TDES_EDE3_KEY_SIZE == 24);
  CHECK(CUKVASHE_SHORT_CHECK_VALUE_SIZE == 2 && CUKVASHE_PVV_SIZE == 5);
  CHECK(CUKVASHE_CHECK_VALUE_SIZE == 3 && CUKVASHE_DUKPT_KEY_SIZE == 16 && CUKVASHE_DUKPT_SERIAL_SIZE == 10);
  CHECK(CUKVASHE_FILL_SIZE == 10 && CUKVASHE_PIN_SIZE == 13 && CUKVASHE_CVV_SIZE == 4);
  CHECK(CUKVASHE_KEY_DATA_SIZE == 32 && CUKVASHE_KEY_BLOCK_SIZE == 10000);
  CHECK(CUKVASHE_PKCS7 == 11 && CUKVASHE_ISO7816 == 12);
  CHECK(CUKVASHE_MD5 == 21 && CUKVASHE_SHA1 == 22 && CUKVASHE_SHA256 == 23);
  CHECK(CUKVASHE_CTR == 31 && CUKVASHE_OFB == 32 && CUKVASHE_CFB1 == 40 && CUKVASHE_CFB8 == 41 && CUKVASHE_CFB64 == 48);
  CHECK(CUKVASHE_MAC_PADDING_1 == 1 && CUKVASHE_MAC_PADDING_2 == 2);
  CHECK(sizeof(cukvashe_des) == 136 && sizeof(cukvashe_tdes_ede2) == 264 && sizeof(cukvashe_tdes_ede3) == 392);
  CHECK(sizeof(cukvashe_stream) == 32);
  CHECK(sizeof(cukvashe_cbc_mac_des) == 168 && sizeof(cukvashe_cbc_mac_tdes_ede2) == 296);
  CHECK(sizeof(cukvashe_cbc_mac_tdes_ede3) == 424 && sizeof(cukvashe_retail_mac_des) == 304);
  CHECK(sizeof(cukvashe_cmac_tdes_ede2) == 296 && sizeof(cukvashe_cmac_tdes_ede3) == 424);
  CHECK(sizeof(cukvashe_dukpt_terminal) == 346 && sizeof(cukvashe_decimal_table) == 16);
  CHECK(strcmp(cukvashe_version(), CUKVASHE_VERSION) == 0);
  gives_numbers();
}

/* All of a buffer, a part of it, nothing, and a long one. */
static void wipes(void) {
  static uint8_t many[100000];
  uint8_t bytes[40];
  for (size_t size = 0; size <= MOST; size++) {
    memset(bytes, PAINT, sizeof bytes);
    cukvashe_wipe(bytes + 3, size);
    for (size_t i = 0; i < sizeof bytes; i++) CHECK(bytes[i] == (3 <= i && i < 3 + size ? 0 : PAINT));
  }
  cukvashe_wipe(NULL, 0);
  memset(many, PAINT, sizeof many);
  cukvashe_wipe(many, sizeof many);
  for (size_t i = 0; i < sizeof many; i++) CHECK(many[i] == 0);
}

int main(void) {
  for (int n = 0; n < CIPHERS; n++) {
    refuses_keys(&ciphers[n]);
    takes_lengths(&ciphers[n]);
  }
  for (int n = 0; n < MACS; n++) refuses_macs(&macs[n]);
  refuses_lists();
  refuses_keys_of_messages();
  for (int type = 0; type < TYPES; type++) refuses_contexts(type);
  returns_statuses();
  returns_statuses_of_pins_and_cards();
  returns_statuses_of_key_blocks();
  returns_statuses_of_streams();
  returns_statuses_of_key_wraps();
  returns_statuses_of_columns();
  returns_statuses_of_passwords();
  has_sentences();
  has_numbers();
  has_words();
  wipes();
  printf("refusals: every length from 0 to %d, contexts of all types, every status and its sentence, every number of the header\n", MOST);
  return 0;
}
