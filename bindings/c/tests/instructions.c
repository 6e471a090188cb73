/*
 * Under callgrind: how many instructions a call takes on right input, and on wrong. Each count is dumped under the name of its group, of
 * which `test` compares the least and the most. `instructions translation` translates PIN blocks, `decode` decodes them, `key` opens key
 * blocks, and `planted` encrypts more for right input, which must be seen.
 */
#include "digits.h"
#include <valgrind/callgrind.h>

/* Counts the instructions of a call, which must end with this status, in the group of a number. */
#define COUNT(group, status, call)                                                                                    \
  do {                                                                                                                \
    char name[20];                                                                                                    \
    snprintf(name, sizeof name, "%d", (int)(group));                                                                  \
    CALLGRIND_ZERO_STATS;                                                                                             \
    const int ended = call;                                                                                           \
    CALLGRIND_DUMP_STATS_AT(name);                                                                                    \
    CHECK(ended == (status));                                                                                         \
  } while (0)

static const uint8_t fill[10] = {10, 11, 12, 13, 14, 15, 10, 11, 12, 13};

/* What is wrong with a PIN block, if anything is: a digit of its PIN, its first digit, its length, a fill digit. Format 1 has none. */
enum { RIGHT, DIGIT, FORMAT, LENGTH, FILL, KINDS };

static void spoil(int kind, uint8_t block[8]) {
  if (kind == DIGIT) block[1] |= 0xf0;
  if (kind == FORMAT) block[0] ^= 0x70;
  if (kind == LENGTH) block[0] &= 0xf0;
  if (kind == FILL) block[7] ^= 0x08;
}

/* A PIN block of a PIN of `digits` digits. */
static void encode(int format, size_t digits, int kind, uint8_t block[8]) {
  static const char pin[] = "924681357024";
  int status;
  switch (format) {
    case 0: status = cukvashe_pin_encode_0(pin, digits, TEXT(account), block); break;
    case 1: status = cukvashe_pin_encode_1(pin, digits, fill, block); break;
    case 2: status = cukvashe_pin_encode_2(pin, digits, block); break;
    default: status = cukvashe_pin_encode_3(pin, digits, TEXT(account), fill, block); break;
  }
  CHECK(status == CUKVASHE_OK);
  spoil(kind, block);
}

/* One of format 0, 1 or 3, under a key. */
static void make_block(int format, size_t digits, int kind, const uint8_t *key, size_t size, uint8_t block[8]) {
  const struct cipher *cipher = &ciphers[size / 8 - 1];
  union context context;
  encode(format, digits, kind, block);
  CHECK(cipher->init(&context, key, size) == CUKVASHE_OK);
  CHECK(cipher->paths[PUBLIC_PATH].encrypt_ecb(&context, block, 8) == CUKVASHE_OK);
}

/* A group for each format and size of keys, to format 0, to format 3 and to format 1. */
static void translate(int format, size_t size, size_t digits, int kind) {
  const int group = 100 * format + (int)size, status = kind == RIGHT ? CUKVASHE_OK : CUKVASHE_ERR_PIN_BLOCK;
  uint8_t key[24], other[24], block[8], translated[8];
  random_bytes(key, sizeof key);
  random_bytes(other, sizeof other);
  const cukvashe_pin_translation by = {.incoming_key = key, .incoming_key_length = size, .incoming_format = format,
                                       .outgoing_key = other, .outgoing_key_length = size, .account = account,
                                       .account_length = strlen(account), .fill = fill};
  make_block(format, digits, kind, key, size, block);
  COUNT(group, status, cukvashe_pin_translate_to_0(&by, block, translated));
  COUNT(group + 1, status, cukvashe_pin_translate_to_3(&by, block, translated));
  if (format == 1) COUNT(group + 2, status, cukvashe_pin_translate_to_1(&by, block, translated));
}

static void translations(void) {
  static const int formats[] = {0, 1, 3};
  for (int i = 0; i < 27 * KINDS; i++) {
    const int format = formats[i % 3], kind = i / 27;
    for (size_t size = 8; size <= 24; size += 8)
      if (format != 1 || kind != FILL) translate(format, size, 4 + (size_t)(i / 3 % 9), kind);
  }
}

static int decode(int format, const uint8_t block[8], char pin[CUKVASHE_PIN_SIZE]) {
  switch (format) {
    case 0: return cukvashe_pin_decode_0(block, TEXT(account), pin);
    case 1: return cukvashe_pin_decode_1(block, pin);
    case 2: return cukvashe_pin_decode_2(block, pin);
    default: return cukvashe_pin_decode_3(block, TEXT(account), pin);
  }
}

/* A group for each format: of wrong blocks, whose faults are told when all digits were looked at. */
static void decodings(void) {
  static const int statuses[KINDS] = {0, CUKVASHE_ERR_PIN_DIGIT, CUKVASHE_ERR_FORMAT, CUKVASHE_ERR_PIN_LENGTH, CUKVASHE_ERR_FILL};
  for (int format = 0; format < 4; format++)
    for (int kind = DIGIT; kind < KINDS; kind++)
      for (size_t digits = 4; digits <= 12 && (format != 1 || kind != FILL); digits++) {
        char pin[CUKVASHE_PIN_SIZE];
        uint8_t block[8];
        encode(format, digits, kind, block);
        COUNT(format, statuses[kind], decode(format, block, pin));
      }
}

/* A group for each version. */
static void open_block(char version, size_t size, bool is_right) {
  cukvashe_key_block_fields read;
  uint8_t protection[24], key[24];
  char block[100];
  size_t length;
  const cukvashe_key_block_parts parts = {.protection = protection, .protection_length = 24,
                                          .header = {version, "P0", 'T', 'E', "00", 'E'}, .key = key, .key_length = size,
                                          .padding = key, .padding_length = 30 - size};
  random_bytes(protection, sizeof protection);
  random_bytes(key, sizeof key);
  CHECK(cukvashe_key_block_wrap(&parts, block, sizeof block, &length) == CUKVASHE_OK);
  if (!is_right) block[length - 1] = block[length - 1] == '0' ? '1' : '0';
  COUNT(version, is_right ? CUKVASHE_OK : CUKVASHE_ERR_KEY_BLOCK_MAC,
        cukvashe_key_block_unwrap(protection, 24, block, length, &read, key, &length));
}

static void open_blocks(void) {
  for (int i = 0; i < 48; i++) open_block(i % 2 ? 'B' : 'C', 8 + 8 * (size_t)(i % 3), i / 6 % 2);
}

static void planted(void) {
  uint8_t key[8] = {0}, block[8] = {0};
  cukvashe_des context;
  CHECK(cukvashe_des_init_no_tables(&context, key, 8) == CUKVASHE_OK);
  for (size_t length = 0; length <= 8; length += 8) COUNT(0, CUKVASHE_OK, cukvashe_des_encrypt_ecb(&context, block, length));
}

int main(int count, char **words) {
  CHECK(count == 2);
  if (strcmp(words[1], "translation") == 0) {
    translations();
  } else if (strcmp(words[1], "decode") == 0) {
    decodings();
  } else if (strcmp(words[1], "key") == 0) {
    open_blocks();
  } else {
    CHECK(strcmp(words[1], "planted") == 0);
    planted();
  }
  return 0;
}
