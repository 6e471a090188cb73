/* Verifies the card verification values (CVV, CVC) of a card: that of the magnetic stripe, and the one that is printed (CVV2). */
#include <cukvashe_des.h>
#include <stdio.h>
#include <string.h>

/* The expiry date is in the issuer's order, here year and month. Count the wrong values of each card: there are only 1000. */
static bool is_right(const uint8_t key[16], const char *account, const char *expiry, const char *service, const char *sent) {
  char value[CUKVASHE_CVV_SIZE];
  int status = cukvashe_cvv(key, account, strlen(account), expiry, strlen(expiry), service, strlen(service), value);
  bool is_value = status == CUKVASHE_OK && strcmp(value, sent) == 0;
  cukvashe_wipe(value, sizeof value);
  return is_value;
}

int main(void) {
  /* A published key pair (CVK). Yours is in a file that only you may read (records.c), or in a security module. */
  static const uint8_t key[16] = {0x01, 0x23, 0x45, 0x67, 0x89, 0xab, 0xcd, 0xef,
                                  0xfe, 0xdc, 0xba, 0x98, 0x76, 0x54, 0x32, 0x10};
  static const char *const account = "4123456789012345";
  /* The service code of the stripe is the card's; the printed value has 000, that of the chip (iCVV) 999. */
  printf("561 of the stripe: %s\n", is_right(key, account, "8701", "101", "561") ? "right" : "wrong");
  printf("636 printed: %s\n", is_right(key, account, "8701", "000", "636") ? "right" : "wrong");
  printf("561 printed: %s\n", is_right(key, account, "8701", "000", "561") ? "right" : "wrong");
  return 0;
}

// 561 is a published value. OpenSSL makes both: -des-ecb encrypts 4123456789012345 under the first key, and -des-ede-ecb that,
// xored with 8701101000000000, under the pair, to 5b614982e03c97dd. With 8701000000000000 it is 6c3e6395546c275a.
// $ cc examples/c/card_verification.c -Ibindings/c bindings/out/lib/libcukvashe_des.a -o example
// $ ./example
// 561 of the stripe: right
// 636 printed: right
// 561 printed: wrong
