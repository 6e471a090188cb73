/* Verifies the retail MAC of a message that comes in pieces (ISO/IEC 9797-1, MAC algorithm 3; ANSI X9.19). */
#include <cukvashe_des.h>
#include <stdio.h>
#include <string.h>

static bool accepts(const uint8_t key[16], const char *const *pieces, size_t count, const uint8_t tag[8]) {
  cukvashe_retail_mac_des mac;
  /* Take the sender's padding method, 1 (zeros) or 2. With the other one a right tag is refused. */
  int status = cukvashe_retail_mac_des_init(&mac, key, 16, CUKVASHE_MAC_PADDING_2);
  for (size_t at = 0; status == CUKVASHE_OK && at < count; at++)
    status = cukvashe_retail_mac_des_update(&mac, (const uint8_t *)pieces[at], strlen(pieces[at]));
  /* The 8 is the length that both sides agreed on, not the one that was sent: the first 4 to 7 bytes of a tag are taken too.
     Never compare tags by memcmp. */
  bool is_right = status == CUKVASHE_OK && cukvashe_retail_mac_des_is_tag(&mac, tag, 8);
  cukvashe_wipe(&mac, sizeof mac);
  return is_right;
}

int main(void) {
  /* A published key. Yours is in a file that only you may read (records.c), or in a security module. */
  static const uint8_t key[16] = {0x01, 0x23, 0x45, 0x67, 0x89, 0xab, 0xcd, 0xef,
                                  0xfe, 0xdc, 0xba, 0x98, 0x76, 0x54, 0x32, 0x10};
  static const char *const pieces[] = {"Now is the time", " for it"}, *const changed[] = {"Now is the time", " for me"};
  uint8_t tag[8] = {0x5a, 0x69, 0x2c, 0xe6, 0x4f, 0x40, 0x41, 0x45};
  printf("the message: %s\n", accepts(key, pieces, 2, tag) ? "accepted" : "refused");
  printf("another message: %s\n", accepts(key, changed, 2, tag) ? "accepted" : "refused");
  tag[7] ^= 1;
  printf("another tag: %s\n", accepts(key, pieces, 2, tag) ? "accepted" : "refused");
  return 0;
}

// The tag is OpenSSL's: `openssl enc -des-cbc` of the padded message under the first half of the key, then the last block
// decrypted under the second half, and encrypted under the first, both by -des-ecb.
// $ cc examples/c/retail_mac.c -Ibindings/c bindings/out/lib/libcukvashe_des.a -o example
// $ ./example
// the message: accepted
// another message: refused
// another tag: refused
