/* Decrypts many records in one call: each has an initialization vector and a length of its own. Short records are decrypted
   several times as fast as by a call for each. */
#include <cukvashe_des.h>
#include <stdio.h>

enum { RECORDS = 3, LENGTH = 56 };

/* Record k has counts[k] blocks of 8 bytes. `length` is the number of bytes of all; if that is not 8 times the sum of the
   counts, nothing is decrypted (CUKVASHE_ERR_COUNTS). */
static int decrypt(const uint8_t key[24], uint8_t *vectors, const size_t *counts, size_t records, uint8_t *bytes,
                   size_t length) {
  cukvashe_tdes_ede3 context;
  int status = cukvashe_tdes_ede3_init(&context, key, 24);
  if (status == CUKVASHE_OK)
    status = cukvashe_tdes_ede3_decrypt_cbc_records(&context, vectors, 8 * records, counts, records, bytes, length);
  cukvashe_wipe(&context, sizeof context);
  return status;
}

int main(void) {
  /* A published key. Yours is in a file that only you may read (records.c). */
  static const uint8_t key[24] = {0x01, 0x23, 0x45, 0x67, 0x89, 0xab, 0xcd, 0xef, 0x23, 0x45, 0x67, 0x89,
                                  0xab, 0xcd, 0xef, 0x01, 0x45, 0x67, 0x89, 0xab, 0xcd, 0xef, 0x01, 0x23};
  static const size_t counts[RECORDS] = {4, 2, 1};
  uint8_t vectors[8 * RECORDS] = {0x12, 0x34, 0x56, 0x78, 0x90, 0xab, 0xcd, 0xef, 0xfe, 0xdc, 0xba, 0x09,
                                  0x87, 0x65, 0x43, 0x21, 0x88, 0x99, 0xaa, 0xbb, 0xcc, 0xdd, 0xee, 0xff};
  uint8_t bytes[LENGTH] = {0x38, 0x41, 0x3d, 0x4b, 0xa2, 0x32, 0x5c, 0xf1, 0x14, 0x1f, 0x70, 0x74, 0x71, 0xac,
                           0x2c, 0xed, 0x57, 0xdb, 0x53, 0x0f, 0x01, 0x23, 0xb5, 0xac, 0xdd, 0xa7, 0x7e, 0xbd,
                           0xe0, 0xc6, 0x36, 0x14, 0xf4, 0xe1, 0x36, 0x8d, 0x45, 0xce, 0x08, 0x3b, 0xb3, 0x1f,
                           0x4f, 0x57, 0x72, 0xa4, 0x9f, 0x89, 0xcf, 0xc4, 0x46, 0x26, 0xac, 0x11, 0x69, 0x56};
  size_t length, begin = 0;
  int status = decrypt(key, vectors, counts, RECORDS, bytes, sizeof bytes);
  for (size_t record = 0; status == CUKVASHE_OK && record < RECORDS; begin += 8 * counts[record++]) {
    status = cukvashe_unpad(bytes + begin, 8 * counts[record], CUKVASHE_PKCS7, &length); /* no other call does it */
    if (status == CUKVASHE_OK) printf("%.*s\n", (int)length, (const char *)bytes + begin);
  }
  if (status != CUKVASHE_OK) fprintf(stderr, "%s\n", cukvashe_strerror(status));
  return status == CUKVASHE_OK ? 0 : 1;
}

// The records are three of examples/data/records.csv, which OpenSSL encrypted.
// $ cc examples/c/many_records.c -Ibindings/c bindings/out/lib/libcukvashe_des.a -o example
// $ ./example
// The qufck brown fox jump
// Now is the time
// No
