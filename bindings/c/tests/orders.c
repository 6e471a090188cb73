/* The order of errors: each call with each two faults returns the error that the header names first. orders.h has the calls and their faults. */
#include "samples.h"

enum { MOST_FAULTS = 10 };

/* A call by its name, with the faults that it is told to have, and the statuses of these, up to one that is CUKVASHE_OK. */
struct order {
  const char *name;
  int (*call)(const bool *has);
  int statuses[MOST_FAULTS];
};

/* Arguments with a fault. */
static const uint64_t no_words[64];
static const uint8_t *const no_bytes = (const uint8_t *)no_words;
static const size_t no_counts[LIST];
static const uint8_t last_serial[10] = {255, 255, 255, 255, 255, 255, 255, 255, 255, 255};
static const uint8_t no_format[8] = {0x94, 0x12, 0x34, 255, 255, 255, 255, 255}, no_digits[10] = {16};
static const cukvashe_key_block_fields no_version = {'X', "P0", 'T', ' ', "00", 'E'}, no_mode = {'B', "P0", 'T', ' ', "00", 'E'};

/* The key block with a fault and the faults that are found after it. */
enum fault { VERSION, HEADER, OPTIONAL_BLOCK, KEY_DATA_LENGTH, KEY_BLOCK_DIGIT, KEY_BLOCK_MAC, FAULTS };

static const char *block_with(enum fault fault) {
  static char changed[FAULTS][CUKVASHE_KEY_BLOCK_SIZE];
  char *block = changed[fault], *last = block + key_block_length - 1;
  memcpy(block, key_block, key_block_length);
  *last = fault < KEY_BLOCK_MAC ? 'e' : *last == '0' ? '1' : '0';
  if (fault == KEY_DATA_LENGTH) block[0] = 'C';
  if (fault <= OPTIONAL_BLOCK) block[13] = '1';
  if (fault <= HEADER) block[14] = 'x';
  if (fault == VERSION) block[0] = 'X';
  return block;
}

#include "orders.h"

static size_t pairs;

static size_t count_of_faults(const struct order *order) {
  size_t faults = 0;
  while (faults < MOST_FAULTS && order->statuses[faults] != CUKVASHE_OK) faults++;
  return faults;
}

/* What a call returns with two faults, or with one of them twice. */
static int returned_with(const struct order *order, size_t one, size_t other) {
  bool has[MOST_FAULTS] = {false};
  has[one] = has[other] = true;
  return order->call(has);
}

static void returns_the_first(const struct order *order) {
  const size_t faults = count_of_faults(order);
  for (size_t one = 0; one < faults; one++)
    for (size_t other = one; other < faults; other++) {
      const int status = returned_with(order, one, other);
      if (status != order->statuses[one])
        printf("orders: %s returns %d for %d and %d\n", order->name, status, order->statuses[one], order->statuses[other]);
      CHECK(status == order->statuses[one]);
      pairs += other > one;
    }
}

int main(void) {
  static const bool none[MOST_FAULTS];
  const size_t calls = sizeof orders / sizeof *orders;
  make_samples();
  count = 2;
  for (size_t i = 0; i < calls; i++)
    if (strstr(orders[i].name, "_init") || strcmp(orders[i].name, "key_block_wrap") == 0) CHECK(orders[i].call(none) == CUKVASHE_OK);
  for (size_t i = 0; i < calls; i++) returns_the_first(&orders[i]);
  CHECK(pairs > 350);
  printf("orders: %zu calls with each fault, and with %zu pairs of faults\n", calls, pairs);
  return 0;
}
