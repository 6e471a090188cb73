/* The cases of a file of known answers (`crates/des_tests/known_answers.txt`, which says what its lines are). */
#ifndef CASES_H
#define CASES_H

#include "check.h"
#include <inttypes.h>

enum { CASE_BLOCKS = 8 };

/* `cipher` is OTHER_CIPHER for the EEE forms, which the library does not have. */
enum { OTHER_CIPHER = -1 };

struct known_case {
  int cipher, is_cbc;
  uint8_t key[24], vector[8], plain[8 * CASE_BLOCKS], answer[8 * CASE_BLOCKS];
  size_t count;
};

/* The bytes of digits; how many. */
static size_t put_digits(uint8_t *bytes, const char *digits) {
  size_t count = strlen(digits) / 16;
  for (size_t i = 0; i < count; i++) {
    uint64_t word;
    CHECK(sscanf(digits + 16 * i, "%16" SCNx64, &word) == 1);
    put_word(bytes + 8 * i, word);
  }
  return 8 * count;
}

static void put_cipher(struct known_case *known, const char *name) {
  static const char *const names[CIPHERS] = {"des", "ede2", "ede3"};
  size_t length = strcspn(name, "-");
  known->is_cbc = strcmp(name + length, "-cbc") == 0;
  CHECK(known->is_cbc || name[length] == 0);
  for (known->cipher = 0; known->cipher < CIPHERS; known->cipher++)
    if (strlen(names[known->cipher]) == length && memcmp(name, names[known->cipher], length) == 0) return;
  CHECK(strncmp(name, "eee", 3) == 0);
  known->cipher = OTHER_CIPHER;
}

static void put_blocks(struct known_case *known, const char *plain, const char *answer) {
  CHECK(known->count < CASE_BLOCKS);
  CHECK(put_digits(known->plain + 8 * known->count, plain) == 8);
  CHECK(put_digits(known->answer + 8 * known->count, answer) == 8);
  known->count++;
}

/* Takes a line to the case that it begins or goes on with; one that it begins follows what was read before it. */
static void put_line(struct known_case *known, const char *line) {
  char cipher[17], key[49], plain[17], answer[17], vector[17];
  if (line[0] == ' ') {
    CHECK(sscanf(line, "%16s %16s", plain, answer) == 2);
    put_blocks(known, plain, answer);
    return;
  }
  int words = sscanf(line, "%16s %48s %16s %16s %16s", cipher, key, plain, answer, vector);
  put_cipher(known, cipher);
  CHECK(words == 4 + known->is_cbc);
  size_t size = put_digits(known->key, key);
  CHECK(known->cipher == OTHER_CIPHER || size == ciphers[known->cipher].key_size);
  known->count = 0;
  put_blocks(known, plain, answer);
  if (known->is_cbc) CHECK(put_digits(known->vector, vector) == 8);
}

/* Takes each case of a file to a test; how many. */
static int each_case(const char *path, void (*test)(const struct known_case *)) {
  struct known_case known;
  char line[200];
  int lines = 0, cases = 0;
  FILE *file = fopen(path, "r");
  CHECK(file != NULL);
  memset(&known, 0, sizeof known);
  known.cipher = OTHER_CIPHER;
  for (;;) {
    char *read = fgets(line, sizeof line, file);
    if (read && (line[0] == '#' || line[0] == '\n')) continue;
    if ((!read || line[0] != ' ') && known.cipher != OTHER_CIPHER) {
      test(&known);
      cases++;
    }
    if (!read) break;
    CHECK(lines++ > 0 || line[0] != ' ');
    put_line(&known, line);
  }
  CHECK(cases > 30);
  fclose(file);
  return cases;
}

#endif
