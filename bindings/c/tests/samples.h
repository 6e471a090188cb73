/* What calls take that bindings/describe makes: of stack.c in calls.h, of orders.c in orders.h. */
#ifndef SAMPLES_H
#define SAMPLES_H

#include "check.h"

enum { LIST = 300 };

/* What calls take, and the buffers that they write: `outputs`. */
static uint8_t key[24], keys[24 * LIST], others[100], blocks[8 * LIST], salted[8 * LIST] = "Salted__";
static uint64_t contexts[9][64], outputs[3][32 * LIST / 8];
static const char pin_digits[] = "123456789012";
static uint8_t sent[16]; /* PIN blocks of formats 0 and 1 that are encrypted under the key, so that they are translated */
static const uint8_t serial[10] = {0xff, 0xff, 0x98, 0x76, 0x54, 0x32, 0x10, 0xef, 0xf8};
static const uint8_t fill[10] = {10, 11, 12, 13, 14, 15, 10, 11, 12, 13};
static cukvashe_stream streams[3]; /* of CTR, CFB1 and CFB64 */
static cukvashe_dukpt_terminal terminal;
static cukvashe_decimal_table table;
static cukvashe_message messages[LIST];
static char optional[9888], key_block[CUKVASHE_KEY_BLOCK_SIZE];
static cukvashe_key_block_parts parts = {.protection = key, .protection_length = 24, .header = {'B', "P0", 'T', 'E', "00", 'E'},
                                         .optional = optional, .key = key, .key_length = 24, .padding = blocks, .padding_length = 6};
static const cukvashe_pin_translation translations[] = {
    {key, 24, 0, key, 24, "4012345678909", 13, fill},
    {key, 24, 1, key, 24, NULL, 0, NULL},
};
static uint8_t column[9 * LIST]; /* values of MySQL, of one block each, under key 9 */
static size_t ones[LIST], eights[LIST], nines[LIST], key_block_length, count;

/* What a call returns. */
static volatile int returned;

static void make_samples(void) {
  random_bytes(key, sizeof key);
  random_bytes(keys, sizeof keys);
  random_bytes(others, sizeof others);
  for (size_t i = 0; i < LIST; i++) {
    ones[i] = 1;
    eights[i] = 8;
    nines[i] = 9;
    column[9 * i] = 128 + 9;
    messages[i].bytes = blocks;
    messages[i].length = 20;
  }
  for (int i = 0; i < 3; i++)
    CHECK(cukvashe_stream_begin(&streams[i], (const int[]){CUKVASHE_CTR, CUKVASHE_CFB1, CUKVASHE_CFB64}[i], key) == CUKVASHE_OK);
  CHECK(cukvashe_pin_encode_0("1234", 4, "4012345678909", 13, sent) == CUKVASHE_OK);
  CHECK(cukvashe_pin_encode_1("1234", 4, (const uint8_t[10]){0}, sent + 8) == CUKVASHE_OK);
  CHECK(cukvashe_decimal_table_init(&table, "0123456789012345", 16) == CUKVASHE_OK);
  CHECK(cukvashe_tdes_ede3_init((void *)contexts[2], key, sizeof key) == CUKVASHE_OK);
  CHECK(cukvashe_tdes_ede3_encrypt_ecb((void *)contexts[2], sent, sizeof sent) == CUKVASHE_OK);
}

#endif
