/* Padding: each method at each length and capacity, beside the rule of its standard; every last byte, and every byte of the padding. */
#include "check.h"
#include <limits.h>

enum { MOST = 24, BUFFER_SIZE = 40, PAINT = 0x77 };

static const int methods[2] = {CUKVASHE_PKCS7, CUKVASHE_ISO7816};

/* The byte at a place of the padding of 1 to 8 bytes: its length (RFC 5652, 6.3), or 80 in hexadecimal digits and zeros after it
   (ISO/IEC 7816-4). */
static uint8_t padding_byte(int method, size_t padding, size_t place) {
  if (method == CUKVASHE_PKCS7) return (uint8_t)padding;
  return place == 0 ? 0x80 : 0;
}

/* Nothing but the padding is written, and nothing at all if the buffer is too small for it. */
static void pads(int method, size_t length, size_t capacity) {
  uint8_t buffer[BUFFER_SIZE], old[BUFFER_SIZE];
  const size_t padding = 8 - length % 8, end = length + padding;
  size_t padded = PAINT;
  random_bytes(old, sizeof old);
  memcpy(buffer, old, sizeof buffer);
  int status = cukvashe_pad(buffer, length, capacity, method, &padded);
  if (end > capacity) {
    CHECK(status == CUKVASHE_ERR_CAPACITY && padded == PAINT && memcmp(buffer, old, sizeof old) == 0);
    return;
  }
  CHECK(status == CUKVASHE_OK && padded == end && memcmp(buffer, old, length) == 0);
  for (size_t i = 0; i < padding; i++) CHECK(buffer[length + i] == padding_byte(method, padding, i));
  CHECK(memcmp(buffer + end, old + end, sizeof old - end) == 0);
}

static void refused(const uint8_t *buffer, size_t length, int method, int wanted) {
  size_t unpadded = PAINT;
  CHECK(cukvashe_unpad(buffer, length, method, &unpadded) == wanted && unpadded == PAINT);
}

/* Whether the last block, of which the first bytes are not looked at by the rule, ends with some padding of the method; and the
   bytes before it. */
static int has_padding(int method, const uint8_t block[8], size_t *before) {
  for (size_t padding = 1; padding <= 8; padding++) {
    size_t same = 0;
    while (same < padding && block[8 - padding + same] == padding_byte(method, padding, same)) same++;
    *before = 8 - padding;
    if (same == padding) return 1;
  }
  return 0;
}

static void is_unpadded(const uint8_t *buffer, size_t length, int method) {
  size_t before, unpadded;
  if (!has_padding(method, buffer + length - 8, &before)) {
    refused(buffer, length, method, CUKVASHE_ERR_PADDING);
    return;
  }
  CHECK(cukvashe_unpad(buffer, length, method, &unpadded) == CUKVASHE_OK && unpadded == length - 8 + before);
}

/* What was padded is unpadded; with any other byte at any place of the last block it is what the rule says. */
static void unpads(int method, size_t length) {
  uint8_t buffer[BUFFER_SIZE];
  size_t padded, unpadded = PAINT;
  random_bytes(buffer, sizeof buffer);
  CHECK(cukvashe_pad(buffer, length, sizeof buffer, method, &padded) == CUKVASHE_OK);
  CHECK(cukvashe_unpad(buffer, padded, method, &unpadded) == CUKVASHE_OK && unpadded == length);
  for (size_t place = padded - 8; place < padded; place++) {
    uint8_t old = buffer[place];
    for (int byte = 0; byte < 256; byte++) {
      buffer[place] = (uint8_t)byte;
      is_unpadded(buffer, padded, method);
    }
    buffer[place] = old;
  }
}

/* Lengths that are no whole blocks, no bytes at all, and other methods; one method's padding is not the other's. */
static void refuses(void) {
  static const int others[] = {0, CUKVASHE_MAC_PADDING_1, CUKVASHE_MAC_PADDING_2, 3, 10, 13, 267, -1, INT_MAX, INT_MIN, INT_MIN + CUKVASHE_PKCS7};
  static const uint8_t zeros[8] = {0};
  uint8_t buffer[BUFFER_SIZE];
  size_t padded = PAINT;
  memset(buffer, 1, sizeof buffer);
  for (int i = 0; i < 2; i++) {
    for (size_t length = 0; length <= 33; length++)
      if (length % 8 != 0) refused(buffer, length, methods[i], CUKVASHE_ERR_BLOCKS);
    refused(buffer, 0, methods[i], CUKVASHE_ERR_PADDING);
    refused(NULL, 0, methods[i], CUKVASHE_ERR_PADDING);
    refused(zeros, 8, methods[i], CUKVASHE_ERR_PADDING);
    CHECK(cukvashe_pad(NULL, 0, 0, methods[i], &padded) == CUKVASHE_ERR_CAPACITY && padded == PAINT);
    CHECK(cukvashe_pad(buffer, SIZE_MAX, BUFFER_SIZE, methods[i], &padded) == CUKVASHE_ERR_CAPACITY && padded == PAINT);
    CHECK(cukvashe_pad(buffer, SIZE_MAX - 7, BUFFER_SIZE, methods[i], &padded) == CUKVASHE_ERR_CAPACITY && padded == PAINT);
  }
  refused(buffer, 8, CUKVASHE_ISO7816, CUKVASHE_ERR_PADDING);
  memset(buffer, 0x80, sizeof buffer);
  refused(buffer, 8, CUKVASHE_PKCS7, CUKVASHE_ERR_PADDING);
  for (size_t i = 0; i < sizeof others / sizeof *others; i++) {
    refused(buffer, 8, others[i], CUKVASHE_ERR_PADDING_METHOD);
    refused(buffer, 7, others[i], CUKVASHE_ERR_PADDING_METHOD);
    refused(NULL, 0, others[i], CUKVASHE_ERR_PADDING_METHOD);
    CHECK(cukvashe_pad(buffer, 3, BUFFER_SIZE, others[i], &padded) == CUKVASHE_ERR_PADDING_METHOD && padded == PAINT);
    CHECK(cukvashe_pad(buffer, 3, 3, others[i], &padded) == CUKVASHE_ERR_PADDING_METHOD && padded == PAINT);
  }
  for (size_t i = 0; i < sizeof buffer; i++) CHECK(buffer[i] == 0x80);
}

int main(void) {
  for (int i = 0; i < 2; i++)
    for (size_t length = 0; length <= MOST; length++) {
      for (size_t capacity = 0; capacity <= BUFFER_SIZE; capacity++) pads(methods[i], length, capacity);
      unpads(methods[i], length);
    }
  refuses();
  printf("padding: both methods, lengths up to %d, capacities up to %d, every byte of the last block\n", MOST, BUFFER_SIZE);
  return 0;
}
