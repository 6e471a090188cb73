/* Wrong PINs, and translations of structs in which something is left out; known calls are in known.c. */
#include "digits.h"

/* The status of a verification. The answer beside it is true for the right PIN alone. */
static int value_status(const uint8_t key[16], const char *of, size_t of_length, int index, const char *pin, size_t length,
                        const char *value, size_t value_length) {
  const int status = cukvashe_pvv_verify(key, of, of_length, index, pin, length, value, value_length);
  CHECK(cukvashe_pvv_is_pin(key, of, of_length, index, pin, length, value, value_length) == (status == CUKVASHE_OK));
  return status;
}

static int offset_status(const uint8_t *key, size_t size, const cukvashe_decimal_table *table, const uint8_t data[8], const char *pin,
                         size_t length, const char *offset, size_t offset_length) {
  const int status = cukvashe_pin_offset_verify(key, size, table, data, pin, length, offset, offset_length);
  CHECK(cukvashe_pin_offset_is_pin(key, size, table, data, pin, length, offset, offset_length) == (status == CUKVASHE_OK));
  return status;
}

/* Each other character of a value is refused. */
static void refuses_values(void) {
  static const char of[] = "4123456789012345";
  uint8_t key[16];
  char other[CUKVASHE_PVV_SIZE] = "1894";
  put(key, base_key);
  CHECK(value_status(key, TEXT(of), 1, TEXT("1234"), other, 4) == CUKVASHE_OK);
  for (int place = 0; place < 4; place++)
    for (int turned = 1; turned < 256; turned++) {
      other[place] = (char)(other[place] ^ turned);
      CHECK(value_status(key, TEXT(of), 1, TEXT("1234"), other, 4) == CUKVASHE_ERR_WRONG_PIN);
      other[place] = (char)(other[place] ^ turned);
    }
}

static const uint8_t validation[8] = {0x41, 0x23, 0x45, 0x67, 0x89, 0x01, 0x23, 0x45};

static cukvashe_decimal_table table_of(const char *digits) {
  cukvashe_decimal_table table;
  CHECK(cukvashe_decimal_table_init(&table, TEXT(digits)) == CUKVASHE_OK);
  CHECK(memcmp(&table, digits, 16) == 0);
  return table;
}

/* PINs and their offsets from the natural PIN 062053731020 of the pair and the plain table. */
static const char *const offsets[][2] = {
    {"0620", "0000"}, {"062053731020", "000000000000"}, {"9519", "9999"}, {"17316", "11111"}};

/* Each other digit of the PIN, and of the offset, is refused. */
static void verifies_by_offsets(void) {
  const cukvashe_decimal_table table = table_of("0123456789012345");
  uint8_t key[16];
  char other[CUKVASHE_PIN_SIZE];
  put(key, base_key);
  for (size_t i = 0; i < sizeof offsets / sizeof *offsets; i++) {
    const char *pin = offsets[i][0], *offset = offsets[i][1];
    const size_t length = strlen(pin);
    CHECK(offset_status(key, 16, &table, validation, TEXT(pin), TEXT(offset)) == CUKVASHE_OK);
    for (size_t place = 0; place < length; place++)
      for (int more = 1; more < 10; more++) {
        memcpy(other, pin, length);
        other[place] = (char)('0' + (other[place] - '0' + more) % 10);
        CHECK(offset_status(key, 16, &table, validation, other, length, offset, length) == CUKVASHE_ERR_WRONG_PIN);
        memcpy(other, offset, length);
        other[place] = (char)('0' + (other[place] - '0' + more) % 10);
        CHECK(offset_status(key, 16, &table, validation, pin, length, other, length) == CUKVASHE_ERR_WRONG_PIN);
      }
  }
}

/* A block of the PIN 1234 of format 0, and one of format 1. */
static const char of_0[] = "c03d21cdbcb0c58b", of_1[] = "646855a2370347d8";
static const uint8_t fill[10] = {10, 11, 12, 13, 14, 15, 10, 11, 12, 13};

/* The status of each of the three translations; after an error nothing is written. */
static void refuses_fields(const cukvashe_pin_translation *by, const uint8_t block[8], int to_0, int to_1, int to_3) {
  uint8_t translated[8];
  memset(translated, PAINTED, sizeof translated);
  CHECK(cukvashe_pin_translate_to_0(by, block, translated) == to_0 && is_kept(translated, 8) == (to_0 != CUKVASHE_OK));
  memset(translated, PAINTED, sizeof translated);
  CHECK(cukvashe_pin_translate_to_1(by, block, translated) == to_1 && is_kept(translated, 8) == (to_1 != CUKVASHE_OK));
  memset(translated, PAINTED, sizeof translated);
  CHECK(cukvashe_pin_translate_to_3(by, block, translated) == to_3 && is_kept(translated, 8) == (to_3 != CUKVASHE_OK));
}

/* What is left out of a struct is zero. A format that was forgotten is 0, and refused where the block is of another. */
static void refuses_fields_left_out(void) {
  enum { FORMATS = CUKVASHE_ERR_FORMATS, KEY = CUKVASHE_ERR_KEY_LENGTH, ACCOUNT = CUKVASHE_ERR_ACCOUNT_LENGTH };
  enum { FILL = CUKVASHE_ERR_FILL, BLOCK = CUKVASHE_ERR_PIN_BLOCK, OK = CUKVASHE_OK };
  const cukvashe_pin_translation nothing = {0};
  uint8_t key[16], zero[8], one[8];
  put(key, base_key);
  put(zero, of_0);
  put(one, of_1);
  const cukvashe_pin_translation from_0 = {.incoming_key = key, .incoming_key_length = 16, .outgoing_key = key,
                                           .outgoing_key_length = 16, .account = account, .account_length = strlen(account),
                                           .fill = fill};
  cukvashe_pin_translation by = from_0;
  refuses_fields(&nothing, zero, KEY, FORMATS, KEY);
  refuses_fields(&by, zero, OK, FORMATS, OK);
  refuses_fields(&by, one, BLOCK, FORMATS, BLOCK);
  by.fill = NULL;
  refuses_fields(&by, zero, OK, FORMATS, FILL);
  by.account = NULL;
  by.account_length = 0;
  refuses_fields(&by, zero, ACCOUNT, FORMATS, ACCOUNT);
  by.incoming_format = 1;
  refuses_fields(&by, one, ACCOUNT, OK, ACCOUNT);
  refuses_fields(&by, zero, ACCOUNT, BLOCK, ACCOUNT);
  by.incoming_key = NULL;
  by.incoming_key_length = 0;
  refuses_fields(&by, one, KEY, KEY, KEY);
  by = from_0;
  by.incoming_format = 1;
  by.outgoing_key = NULL;
  by.outgoing_key_length = 0;
  refuses_fields(&by, one, KEY, KEY, KEY);
  for (int format = -1; format < 260; format++) {
    by = from_0;
    by.incoming_format = format;
    const int wanted = format == 0 || format == 3 ? BLOCK : format == 1 ? OK : FORMATS;
    refuses_fields(&by, one, wanted, format == 1 ? OK : FORMATS, wanted);
  }
}

int main(void) {
  refuses_values();
  verifies_by_offsets();
  refuses_fields_left_out();
  printf("pins: each other digit of a value and an offset, and fields that are left out\n");
  return 0;
}
