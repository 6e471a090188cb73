/* DUKPT at the host: makes the PIN key of a transaction from the base derivation key (BDK) and the key serial number (KSN),
   and a PIN block of format 0 under it. */
#include <cukvashe_des.h>
#include <stdio.h>
#include <string.h>

static bool make_pin_key(const uint8_t base[16], const uint8_t serial[10], uint8_t key[16]) {
  uint8_t initial[16], transaction[16];
  /* No transaction has this counter. With 0 the transaction's key would be the terminal's initial key. */
  if (!cukvashe_dukpt_is_usable(serial)) return false;
  cukvashe_dukpt_initial_key(base, serial, initial);
  cukvashe_dukpt_transaction_key(initial, serial, transaction);
  cukvashe_dukpt_pin_key(transaction, key);
  cukvashe_wipe(initial, sizeof initial);
  cukvashe_wipe(transaction, sizeof transaction);
  return true;
}

static int encrypt_pin(const uint8_t key[16], const char *pin, const char *account, uint8_t block[8]) {
  cukvashe_tdes_ede2 context;
  int status = cukvashe_pin_encode_0(pin, strlen(pin), account, strlen(account), block);
  if (status == CUKVASHE_OK) status = cukvashe_tdes_ede2_init(&context, key, 16);
  if (status == CUKVASHE_OK) status = cukvashe_tdes_ede2_encrypt_ecb(&context, block, 8);
  cukvashe_wipe(&context, sizeof context);
  return status;
}

int main(void) {
  /* Published values. Your base key makes the keys of all terminals: keep it in a security module. */
  static const uint8_t base[16] = {0x01, 0x23, 0x45, 0x67, 0x89, 0xab, 0xcd, 0xef,
                                   0xfe, 0xdc, 0xba, 0x98, 0x76, 0x54, 0x32, 0x10};
  static const uint8_t serial[10] = {0xff, 0xff, 0x98, 0x76, 0x54, 0x32, 0x10, 0xe0, 0x00, 0x01};
  uint8_t key[16], block[8];
  if (!make_pin_key(base, serial, key)) {
    fprintf(stderr, "no transaction has this key serial number\n");
    return 1;
  }
  int status = encrypt_pin(key, "1234", "4012345678909", block);
  cukvashe_wipe(key, sizeof key);
  for (int at = 0; status == CUKVASHE_OK && at < 8; at++) printf("%02x", block[at]);
  printf("%s\n", status == CUKVASHE_OK ? "" : cukvashe_strerror(status));
  return status == CUKVASHE_OK ? 0 : 1;
}

// ANSI X9.24-1:2009, Annex A, has these values.
// $ cc examples/c/pin_key.c -Ibindings/c bindings/out/lib/libcukvashe_des.a -o example
// $ ./example
// 1b9c1845eb993a7a
