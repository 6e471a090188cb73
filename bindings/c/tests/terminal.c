/* The terminal's side of DUKPT: the keys of all its transactions beside the host's, and that a key is in the state no more once it
   was given. */
#include "digits.h"

enum { TRANSACTIONS = 1048575, BATCH = 4096 };

/* Key serial number and key, as published (ANSI X9.24-1:2009, Annex A). */
static const char *const first_keys[4][2] = {
    {"ffff9876543210e00001", "042666b49184cfa368de9628d0397bc9"},
    {"ffff9876543210e00002", "c46551cef9fd24b0aa9ad834130d3bc7"},
    {"ffff9876543210e00003", "0df3d9422aca56e547676d07ad6badfa"},
    {"ffff9876543210e00004", "279c0f6aeed0be652b2c733e1383ae91"},
};

static void begin(cukvashe_dukpt_terminal *terminal, const char *serial_digits) {
  uint8_t base[16], serial[10], initial[16];
  put(base, base_key);
  put(serial, serial_digits);
  cukvashe_dukpt_initial_key(base, serial, initial);
  cukvashe_dukpt_terminal_init(terminal, initial, serial);
}

static void answers_published_keys(void) {
  cukvashe_dukpt_terminal terminal, other;
  uint8_t serial[10], key[16];
  CHECK(sizeof terminal == 346);
  begin(&terminal, "ffff9876543210e00000");
  CHECK(are(terminal.serial, 10, "ffff9876543210e00000"));
  begin(&other, "ffff9876543210fabcde"); /* the counter plays no part */
  CHECK(memcmp(&terminal, &other, sizeof terminal) == 0);
  for (int i = 0; i < 4; i++) {
    CHECK(cukvashe_dukpt_terminal_next_key(&terminal, serial, key) == CUKVASHE_OK);
    CHECK(are(serial, 10, first_keys[i][0]) && are(key, 16, first_keys[i][1]));
    CHECK(memcmp(serial, terminal.serial, sizeof serial) == 0);
  }
}

static int has_key(const cukvashe_dukpt_terminal *terminal, const uint8_t key[16]) {
  for (int i = 0; i < 21; i++)
    if (memcmp(terminal->keys[i], key, 16) == 0) return 1;
  return 0;
}

/* The next transactions of a terminal, at most `count`; how many there were. */
static size_t take(cukvashe_dukpt_terminal *terminal, uint8_t *serials, uint8_t *keys, size_t count) {
  size_t i = 0;
  while (i < count && cukvashe_dukpt_terminal_next_key(terminal, serials + 10 * i, keys + 16 * i) == CUKVASHE_OK) {
    CHECK(!has_key(terminal, keys + 16 * i));
    i++;
  }
  return i;
}

/* A terminal without a key for a next transaction says so, and nothing is changed. */
static void refuses(cukvashe_dukpt_terminal *terminal) {
  const cukvashe_dukpt_terminal last = *terminal;
  uint8_t serial[10], key[16];
  memset(serial, PAINTED, sizeof serial);
  memset(key, PAINTED, sizeof key);
  CHECK(cukvashe_dukpt_terminal_next_key(terminal, serial, key) == CUKVASHE_ERR_NO_SERIAL);
  CHECK(is_kept(serial, sizeof serial) && is_kept(key, sizeof key));
  CHECK(memcmp(terminal, &last, sizeof last) == 0);
}

/* A state that was never initialised or was wiped is refused, and one that has lost its keys alone. */
static void refuses_zeros(void) {
  cukvashe_dukpt_terminal terminal;
  memset(&terminal, 0, sizeof terminal);
  refuses(&terminal);
  begin(&terminal, "ffff9876543210e00000");
  cukvashe_wipe(terminal.keys, sizeof terminal.keys);
  refuses(&terminal);
}

/* One future key is enough, whichever byte of it is not zero. */
static void takes_one_future_key(void) {
  cukvashe_dukpt_terminal terminal, all;
  uint8_t serial[10], key[16];
  begin(&all, "ffff9876543210e00000");
  for (size_t i = 0; i < sizeof all.keys; i++) {
    memcpy(terminal.serial, all.serial, sizeof terminal.serial);
    memset(terminal.keys, 0, sizeof terminal.keys);
    terminal.keys[i / 16][i % 16] = 1;
    CHECK(cukvashe_dukpt_terminal_next_key(&terminal, serial, key) == CUKVASHE_OK);
  }
  memset(terminal.keys, 0, sizeof terminal.keys);
  memcpy(terminal.serial, all.serial, sizeof terminal.serial);
  for (int i = 0; i < 21; i++)
    if (are(all.keys[i], 16, first_keys[0][1])) memcpy(terminal.keys[i], all.keys[i], 16);
  CHECK(cukvashe_dukpt_terminal_next_key(&terminal, serial, key) == CUKVASHE_OK);
  CHECK(are(serial, 10, first_keys[0][0]) && are(key, 16, first_keys[0][1]));
}

/* The host makes the keys of the same key serial numbers from the base key. A copy of the state goes on as the state does. */
static void answers_as_the_host(void) {
  static uint8_t serials[10 * BATCH], keys[16 * BATCH], wanted[16 * BATCH];
  uint8_t base[16], before[10], next[10];
  cukvashe_dukpt_terminal terminal, copy;
  size_t all = 0, count;
  put(base, base_key);
  begin(&terminal, "ffff9876543210e00000");
  put(before, "ffff9876543210e00000");
  while ((count = take(&terminal, serials, keys, BATCH)) > 0) {
    for (size_t i = 0; i < count; i++) {
      CHECK(cukvashe_dukpt_next_serial(before, next) == CUKVASHE_OK && memcmp(next, serials + 10 * i, 10) == 0);
      memcpy(before, next, sizeof before);
    }
    CHECK(cukvashe_dukpt_transaction_keys_from_base(base, serials, 10 * count, wanted, 16 * count, count) == CUKVASHE_OK);
    CHECK(memcmp(keys, wanted, 16 * count) == 0);
    all += count;
    copy = terminal;
    terminal = copy;
  }
  CHECK(all == TRANSACTIONS);
  CHECK(are(terminal.serial, 10, "ffff9876543210fff800"));
  refuses(&terminal);
}

int main(void) {
  answers_published_keys();
  refuses_zeros();
  takes_one_future_key();
  answers_as_the_host();
  printf("terminal: the keys of %d transactions, beside the host's\n", (int)TRANSACTIONS);
  return 0;
}
