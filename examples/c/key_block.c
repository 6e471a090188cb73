/* Takes a PIN key out of a key block (TR-31, ANSI X9.143), and looks at the header before it uses the key. */
#include <cukvashe_des.h>
#include <stdio.h>
#include <string.h>

/* Says what is wrong, or nothing. The header is authenticated with the key, but no call compares it with the key's length
   or with what you do. */
static const char *take_pin_key(const uint8_t protection[16], const char *block, uint8_t key[24], size_t *key_length) {
  cukvashe_key_block_fields header;
  int status = cukvashe_key_block_unwrap(protection, 16, block, strlen(block), &header, key, key_length);
  if (status != CUKVASHE_OK) return cukvashe_strerror(status);
  /* A key that encrypts PIN blocks by triple DES. If its version begins with c, it is a component of a key, not the key. */
  if (strcmp(header.usage, "P0") == 0 && header.algorithm == 'T' && header.mode == 'E' && header.key_version[0] != 'c' &&
      *key_length >= 16)
    return NULL;
  cukvashe_wipe(key, 24);
  return "the key is not one that encrypts PIN blocks";
}

int main(void) {
  /* A published protection key (KBPK). Yours is in a file that only you may read, or in a security module. */
  static const uint8_t protection[16] = {0xdd, 0x75, 0x15, 0xf2, 0xbf, 0xc1, 0x7f, 0x85,
                                         0xce, 0x48, 0xf3, 0xca, 0x25, 0xcb, 0x21, 0xf6};
  static const char *const blocks[] = {
      "B0080P0TE00E000094B420079CC80BA3461F86FE26EFC4A3B8E4FA4C5F5341176EED7B727B8A248E",
      "B0080D0TB00E0000683635CF870E200549B4D6184DE572754C155E7DA8801A3579B3462A5E142EE3",
      "B0080P0TE00E000094B420079CC80BA3461F86FE26EFC4A3B8E4FA4C5F5341176EED7B727B8A248F",
  };
  for (int at = 0; at < 3; at++) {
    uint8_t key[24], value[3];
    size_t length;
    const char *fault = take_pin_key(protection, blocks[at], key, &length);
    if (fault != NULL) printf("%s\n", fault);
    else if (cukvashe_key_check_value(key, length, value) == CUKVASHE_OK)
      printf("a PIN key of %d bytes, with check value %02x%02x%02x\n", (int)length, value[0], value[1], value[2]);
    cukvashe_wipe(key, sizeof key);
  }
  return 0;
}

// The first block is a published one. The second has the same key for data (D0), made with CMAC and TripleDES of the package
// `cryptography` for Python. In the third the last digit was changed. The check value is OpenSSL's, of zeros by -des-ede-ecb.
// $ cc examples/c/key_block.c -Ibindings/c bindings/out/lib/libcukvashe_des.a -o example
// $ ./example
// a PIN key of 16 bytes, with check value 57c409
// the key is not one that encrypts PIN blocks
// the MAC is not that of the key block
