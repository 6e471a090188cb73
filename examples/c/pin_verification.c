/* Verifies a PIN that the host does not keep, by its PIN verification value (PVV). */
#include <cukvashe_des.h>
#include <stdio.h>
#include <string.h>

/* The value was made under a pair of keys; `index`, 1 to 6, says under which of yours. Count the wrong PINs of each card:
   with unlimited guesses the value reveals the PIN. */
static bool is_right(const uint8_t key[16], int index, const char *account, const char *pin, const char value[4]) {
  return cukvashe_pvv_is_pin(key, account, strlen(account), index, pin, strlen(pin), value, 4);
}

int main(void) {
  /* A published key pair. Yours is in a file that only you may read (records.c), or in a security module. */
  static const uint8_t key[16] = {0x01, 0x23, 0x45, 0x67, 0x89, 0xab, 0xcd, 0xef,
                                  0xfe, 0xdc, 0xba, 0x98, 0x76, 0x54, 0x32, 0x10};
  static const char *const account = "4123456789012345";
  printf("1234: %s\n", is_right(key, 1, account, "1234", "1894") ? "right" : "wrong");
  printf("1235: %s\n", is_right(key, 1, account, "1235", "1894") ? "right" : "wrong");
  return 0;
}

// The block 45678901234 1 1234 has the last eleven digits of the account number before its check digit, the index and the PIN.
// OpenSSL's -des-ede-ecb makes 189e41aca69078e5 of it: the first four decimal digits are 1894.
// $ cc examples/c/pin_verification.c -Ibindings/c bindings/out/lib/libcukvashe_des.a -o example
// $ ./example
// 1234: right
// 1235: wrong
