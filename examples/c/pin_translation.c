/* Translates a PIN block from a terminal's key (TPK) to that of a zone (ZPK). The PIN does not come out. */
#include <cukvashe_des.h>
#include <stdio.h>
#include <string.h>

int main(void) {
  /* Published keys. Yours are in files that only you may read (records.c), or in a security module. */
  static const uint8_t terminal[16] = {0x01, 0x23, 0x45, 0x67, 0x89, 0xab, 0xcd, 0xef,
                                       0xfe, 0xdc, 0xba, 0x98, 0x76, 0x54, 0x32, 0x10};
  static const uint8_t zone[16] = {0x89, 0xe8, 0x8c, 0xf7, 0x93, 0x14, 0x44, 0xf3,
                                   0x34, 0xbd, 0x75, 0x47, 0xfc, 0x3f, 0x38, 0x0c};
  static const char *const account = "4012345678909";
  static const uint8_t block[8] = {0xc0, 0x3d, 0x21, 0xcd, 0xbc, 0xb0, 0xc5, 0x8b};
  /* Each key by its name, so that none stands in the other's place. What you leave out is 0 or null, and refused if needed. */
  const cukvashe_pin_translation translation = {
      .incoming_key = terminal, .incoming_key_length = sizeof terminal, .incoming_format = 0,
      .outgoing_key = zone, .outgoing_key_length = sizeof zone,
      .account = account, .account_length = strlen(account),
  };
  uint8_t translated[8];
  int status = cukvashe_pin_translate_to_0(&translation, block, translated);
  for (int at = 0; status == CUKVASHE_OK && at < 8; at++) printf("%02x", translated[at]);
  printf("%s\n", status == CUKVASHE_OK ? "" : cukvashe_strerror(status));
  return status == CUKVASHE_OK ? 0 : 1;
}

// OpenSSL's -des-ede-ecb decrypts the block to 041274edcba9876f, and encrypts that under the other key.
// $ cc examples/c/pin_translation.c -Ibindings/c bindings/out/lib/libcukvashe_des.a -o example
// $ ./example
// 8856db66d89e9eff
