/* Decrypts a file of old records. Each is an initialization vector of 8 bytes, and 32 bytes of ciphertext: triple DES with
   three keys in CBC mode, padded by PKCS#7. */
#include <cukvashe_des.h>
#include <stdio.h>
#include <string.h>

enum { SIZE = 32 }; /* the bytes of a ciphertext: yours may have another size */

/* The key is 48 hexadecimal digits in a file. On the command line every user of the machine could read it. */
static bool read_key(const char *name, uint8_t key[24]) {
  char digits[50] = "";
  unsigned byte;
  FILE *file = fopen(name, "r");
  if (file == NULL) return false;
  setbuf(file, NULL); /* so that no buffer keeps the key */
  bool is_key = fscanf(file, "%49[0-9a-fA-F]", digits) == 1 && strlen(digits) == 48;
  for (int at = 0; is_key && at < 24 && sscanf(digits + 2 * at, "%2x", &byte) == 1; at++) key[at] = (uint8_t)byte;
  cukvashe_wipe(digits, sizeof digits);
  fclose(file);
  return is_key;
}

int main(int argc, char **argv) {
  uint8_t key[24], record[8 + SIZE], *data = record + 8;
  size_t count = 0, length;
  cukvashe_tdes_ede3 context;
  FILE *file = argc == 3 ? fopen(argv[2], "rb") : NULL;
  if (file == NULL || !read_key(argv[1], key)) {
    fprintf(stderr, "give a file with the 48 hexadecimal digits of a key, and a file of records\n");
    return 1;
  }
  int status = cukvashe_tdes_ede3_init(&context, key, sizeof key);
  cukvashe_wipe(key, sizeof key);
  while (status == CUKVASHE_OK && (count = fread(record, 1, sizeof record, file)) == sizeof record) {
    status = cukvashe_tdes_ede3_decrypt_cbc(&context, record, data, SIZE); /* the vector becomes the last block */
    if (status == CUKVASHE_OK) status = cukvashe_unpad(data, SIZE, CUKVASHE_PKCS7, &length);
    if (status != CUKVASHE_OK) break;
    fwrite(data, 1, length, stdout);
    putchar('\n');
  }
  cukvashe_wipe(&context, sizeof context);
  fclose(file);
  if (status != CUKVASHE_OK) fprintf(stderr, "%s\n", cukvashe_strerror(status));
  else if (count != 0) fprintf(stderr, "the file ends within a record\n");
  return status == CUKVASHE_OK && count == 0 ? 0 : 1;
}

// NIST SP 800-67, Appendix B, has the key. OpenSSL encrypted the records: see examples/data/by_openssl.
// $ cc examples/c/records.c -Ibindings/c bindings/out/lib/libcukvashe_des.a -o example
// $ ./example examples/data/key examples/data/records
// The qufck brown fox jump
// Now is the time for all men
// Account 4012345678909, 25.00
