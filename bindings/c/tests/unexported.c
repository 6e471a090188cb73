/*
 * Under valgrind, with keys, vectors and blocks marked undefined: no index and no branch of some calls that the header does not have
 * depends on them. `unexported calls` must give no report, `unexported control` one, of a branch here.
 */
#include "check.h"
#include <stdint.h>
#include <valgrind/memcheck.h>

void spread_des_encrypt(const uint8_t *key, uint8_t *blocks, size_t count);
void spread_des_decrypt(const uint8_t *key, uint8_t *blocks, size_t count);
void spread_des_decrypt_cbc(const uint8_t *key, const uint8_t *iv, uint8_t *blocks, size_t count);
void spread_tdes_ede3_encrypt(const uint8_t *key, uint8_t *blocks, size_t count);
void spread_tdes_ede3_decrypt(const uint8_t *key, uint8_t *blocks, size_t count);
void spread_tdes_ede3_decrypt_cbc(const uint8_t *key, const uint8_t *iv, uint8_t *blocks, size_t count);
void no_tables_des(const uint8_t *key, uint8_t *blocks, size_t count);
void no_tables_tdes_ede3(const uint8_t *key, uint8_t *blocks, size_t count);
void many_des(const uint8_t *key, const uint8_t *iv, uint8_t *blocks, size_t count);
void many_tdes_ede3(const uint8_t *key, const uint8_t *iv, uint8_t *blocks, size_t count);
void modes_des(const uint8_t *key, const uint8_t *iv, uint8_t *bytes, size_t length);
void modes_tdes_ede3(const uint8_t *key, const uint8_t *iv, uint8_t *bytes, size_t length);
void streams_tdes_ede3(const uint8_t *key, const uint8_t *iv, uint8_t *bytes, size_t length);

int main(int arguments, char **words) {
  static uint8_t key[24], vector[8], blocks[8 * LONGEST];
  CHECK(arguments == 2);
  (void)VALGRIND_MAKE_MEM_UNDEFINED(key, sizeof key);
  (void)VALGRIND_MAKE_MEM_UNDEFINED(vector, sizeof vector);
  (void)VALGRIND_MAKE_MEM_UNDEFINED(blocks, sizeof blocks);
  for (int i = 0; i < COUNTS; i++) {
    spread_des_encrypt(key, blocks, counts[i]);
    spread_des_decrypt(key, blocks, counts[i]);
    spread_des_decrypt_cbc(key, vector, blocks, counts[i]);
    spread_tdes_ede3_encrypt(key, blocks, counts[i]);
    spread_tdes_ede3_decrypt(key, blocks, counts[i]);
    spread_tdes_ede3_decrypt_cbc(key, vector, blocks, counts[i]);
    no_tables_des(key, blocks, counts[i]);
    no_tables_tdes_ede3(key, blocks, counts[i]);
  }
  for (size_t count = 0; count <= 12; count++) {
    many_des(key, vector, blocks, count);
    many_tdes_ede3(key, vector, blocks, count);
  }
  for (size_t length = 0; length <= 100; length += 5) {
    modes_des(key, vector, blocks, length);
    modes_tdes_ede3(key, vector, blocks, length);
    streams_tdes_ede3(key, vector, blocks, length);
  }
  if (strcmp(words[1], "control") == 0 && blocks[0] > key[0]) puts("more");
  printf("secret indexes: calls that the header does not have, %s, run by valgrind: %s\n", words[1], RUNNING_ON_VALGRIND ? "yes" : "no");
  return 0;
}
