/* What the tests of payment calls share: bytes as hexadecimal digits, texts, and PINs as the calls write them. */
#ifndef DIGITS_H
#define DIGITS_H

#include "check.h"

/* The bytes of digits. */
static inline void put(uint8_t *bytes, const char *digits) {
  for (unsigned value; sscanf(digits, "%2x", &value) == 1; digits += 2) *bytes++ = (uint8_t)value;
}

static inline int are(const uint8_t *bytes, size_t count, const char *digits) {
  uint8_t wanted[24];
  put(wanted, digits);
  return strlen(digits) == 2 * count && memcmp(bytes, wanted, count) == 0;
}

static const char base_key[] = "0123456789abcdeffedcba9876543210";

static const char account[] = "4012345678909"; /* its twelve digits before the last: 401234567890 */

/* A text and its length, the two arguments of a call. */
#define TEXT(text) (text), strlen(text)

/* What a call wrote: the digits, and zeros after them. */
static inline int is_pin(const char pin[CUKVASHE_PIN_SIZE], const char *digits) {
  char wanted[CUKVASHE_PIN_SIZE] = {0};
  memcpy(wanted, digits, strlen(digits));
  return memcmp(pin, wanted, sizeof wanted) == 0;
}

/* Nothing was written over bytes that were painted. */
enum { PAINTED = 0x77 };

static inline int is_kept(const void *bytes, size_t count) {
  for (size_t i = 0; i < count; i++)
    if (((const uint8_t *)bytes)[i] != PAINTED) return 0;
  return 1;
}

#endif
