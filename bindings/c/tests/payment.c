/* The counters of transactions, the first bytes of PIN blocks, and texts of each length that is taken; known calls are in known.c. */
#include "digits.h"

static void set_counter(uint8_t serial[10], uint32_t counter) {
  serial[7] = (uint8_t)((serial[7] & 0xe0) | counter >> 16);
  serial[8] = (uint8_t)(counter >> 8);
  serial[9] = (uint8_t)counter;
}

static int ones_of(uint32_t word) {
  int ones = 0;
  for (; word; word >>= 1) ones += (int)(word & 1);
  return ones;
}

/* The counters that a transaction has, in order, are those that are usable: not 0, and at most ten one bits (ANSI X9.24-1:2009).
   Whatever the other bits are, they have no part in it. */
static void counts_transactions(void) {
  uint8_t serial[10], next[10], other[10];
  uint32_t last = 0;
  put(serial, "ffff9876543210e00000");
  memset(other, 0, sizeof other);
  for (uint32_t counter = 0; counter < 1 << 21; counter++) {
    int wanted = counter != 0 && ones_of(counter) <= 10;
    set_counter(serial, counter);
    set_counter(other, counter);
    CHECK(cukvashe_dukpt_is_usable(serial) == wanted && cukvashe_dukpt_is_usable(other) == wanted);
    if (!wanted) continue;
    set_counter(serial, last);
    CHECK(cukvashe_dukpt_next_serial(serial, next) == CUKVASHE_OK);
    set_counter(serial, counter);
    CHECK(memcmp(next, serial, sizeof next) == 0);
    last = counter;
  }
  CHECK(last == 0x1ff800);
  set_counter(serial, last);
  memset(next, 0x77, sizeof next);
  CHECK(cukvashe_dukpt_next_serial(serial, next) == CUKVASHE_ERR_NO_SERIAL && are(next, 10, "77777777777777777777"));
}

static const char zeros[] = "0000000000000";

static int decoded(int format, const uint8_t block[8], const char *of, char *pin) {
  if (format == 1) return cukvashe_pin_decode_1(block, pin);
  if (format == 2) return cukvashe_pin_decode_2(block, pin);
  return (format == 0 ? cukvashe_pin_decode_0 : cukvashe_pin_decode_3)(block, TEXT(of), pin);
}

/* Blocks of format 0 of PINs of 4 to 12 digits, with each of the 256 first bytes: the right one alone is accepted. With a longer
 * length fill is read as a digit, and with a shorter one a digit as fill. */
static void reads_first_bytes(void) {
  static const char digits[] = "123456789012";
  uint8_t block[8];
  char pin[CUKVASHE_PIN_SIZE];
  for (size_t right = 4; right <= 12; right++)
    for (unsigned first = 0; first < 256; first++) {
      size_t said = first % 16;
      int wanted = first / 16 != 0         ? CUKVASHE_ERR_FORMAT
                   : said < 4 || said > 12 ? CUKVASHE_ERR_PIN_LENGTH
                   : said > right          ? CUKVASHE_ERR_PIN_DIGIT
                   : said < right          ? CUKVASHE_ERR_FILL
                                           : CUKVASHE_OK;
      CHECK(cukvashe_pin_encode_0(digits, right, TEXT(account), block) == CUKVASHE_OK && block[0] == right);
      block[0] = (uint8_t)first;
      memset(pin, 0x77, sizeof pin);
      CHECK(cukvashe_pin_decode_0(block, TEXT(account), pin) == wanted);
      CHECK(wanted == CUKVASHE_OK ? strlen(pin) == right && memcmp(pin, digits, right) == 0 : pin[0] == 0x77);
    }
}

/* The fault of a block of these first two digits, with twelve decimal digits and two digits 15 after them, in the format of this
 * number, of which format 1 alone is filled with any digit. */
static int fault_of(unsigned first, unsigned format) {
  unsigned length = first % 16;
  if (first / 16 != format) return CUKVASHE_ERR_FORMAT;
  if (length < 4 || length > 12) return CUKVASHE_ERR_PIN_LENGTH;
  return format != 1 && length < 12 ? CUKVASHE_ERR_FILL : CUKVASHE_OK;
}

static void reads_first_bytes_of_each_format(void) {
  static const int formats[] = {0, 1, 2, 3};
  uint8_t block[8];
  char pin[CUKVASHE_PIN_SIZE];
  put(block, "00123456789012ff");
  for (unsigned first = 0; first < 256; first++) {
    block[0] = (uint8_t)first;
    for (int i = 0; i < 4; i++)
      CHECK(decoded(formats[i], block, zeros, pin) == fault_of(first, (unsigned)formats[i]));
  }
}

/* No more characters are looked at than the length says. */
static void takes_lengths(void) {
  char digits[20], value[CUKVASHE_CVV_SIZE];
  uint8_t key[16], fill[10], block[8];
  put(key, base_key);
  memset(fill, 10, sizeof fill);
  memset(digits, 'x', sizeof digits);
  for (size_t n = 1; n <= 19; n++) {
    digits[n - 1] = '7';
    if (n >= 4 && n <= 12) {
      CHECK(cukvashe_pin_encode_0(digits, n, TEXT(account), block) == CUKVASHE_OK);
      CHECK(cukvashe_pin_encode_1(digits, n, fill, block) == CUKVASHE_OK);
      CHECK(cukvashe_pin_encode_2(digits, n, block) == CUKVASHE_OK);
      CHECK(cukvashe_pin_encode_3(digits, n, TEXT(account), fill, block) == CUKVASHE_OK);
    }
    if (n >= 8) CHECK(cukvashe_pin_encode_0(TEXT("1234"), digits, n, block) == CUKVASHE_OK);
    if (n >= 8) CHECK(cukvashe_pin_encode_3(TEXT("1234"), digits, n, fill, block) == CUKVASHE_OK);
    if (n >= 12) CHECK(cukvashe_cvv(key, digits, n, TEXT("8701"), TEXT("101"), value) == CUKVASHE_OK);
  }
}

int main(void) {
  counts_transactions();
  reads_first_bytes();
  reads_first_bytes_of_each_format();
  takes_lengths();
  printf("payment: the counters of transactions, the first bytes of PIN blocks, lengths of texts\n");
  return 0;
}
