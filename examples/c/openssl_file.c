/* Opens a file that `openssl enc -des3 -pbkdf2` wrote under a password. */
#include <cukvashe_des.h>
#include <stdio.h>
#include <string.h>

/* For a file that was written without -pbkdf2 and without -iter take 0 iterations, not 1; from before OpenSSL 1.1.0 also
   CUKVASHE_MD5. docs/CUKVASHE.md has a table of OpenSSL's options. */
enum { HASH = CUKVASHE_SHA256, ITERATIONS = 10000 };

static uint8_t bytes[1 << 20], plain[sizeof bytes]; /* for files below 1 MiB */

int main(int argc, char **argv) {
  char password[1024];
  size_t length;
  /* The password is the first line of a file: on the command line every user of the machine could read it. */
  FILE *secret = argc == 3 ? fopen(argv[1], "r") : NULL, *file = argc == 3 ? fopen(argv[2], "rb") : NULL;
  if (secret != NULL) setbuf(secret, NULL); /* so that no buffer keeps it */
  if (secret == NULL || file == NULL || fgets(password, sizeof password, secret) == NULL) {
    fprintf(stderr, "give the file of a password, and a file\n");
    return 1;
  }
  length = fread(bytes, 1, sizeof bytes, file);
  fclose(secret);
  fclose(file);
  int status = CUKVASHE_ERR_CAPACITY;
  if (length < sizeof bytes)
    status = cukvashe_tdes_ede3_open_salted(HASH, ITERATIONS, (const uint8_t *)password, strcspn(password, "\n"), bytes,
                                            length, plain, sizeof plain, &length);
  cukvashe_wipe(password, sizeof password);
  /* A wrong password is CUKVASHE_ERR_PADDING, but for one in 256: then the status is CUKVASHE_OK, and the bytes are wrong. */
  if (status == CUKVASHE_OK) fwrite(plain, 1, length, stdout);
  else fprintf(stderr, "%s\n", cukvashe_strerror(status));
  return status == CUKVASHE_OK ? 0 : 1;
}

// OpenSSL 3 wrote the file: see examples/data/by_openssl.
// $ cc examples/c/openssl_file.c -Ibindings/c bindings/out/lib/libcukvashe_des.a -o example
// $ ./example examples/data/password examples/data/salted && echo
// Now is the time
