/* MACs: published values, cut at every place, and the tags of a file, which is the argument. */
#include "mac_calls.h"
#include <inttypes.h>

/* Under a context: a tag, each of its lengths, each bit of it turned, and lengths that no tag has. */
static void verifies(const struct mac *mac, const union mac_context *context, const uint8_t wanted[8]) {
  uint8_t tag[9];
  memcpy(tag, wanted, 8);
  tag[8] = 0;
  for (size_t length = 0; length <= 9; length++)
    CHECK(mac->verify(context, tag, length) == (length >= 4 && length <= 8 ? CUKVASHE_OK : CUKVASHE_ERR_TAG));
  for (int bit = 0; bit < 64; bit++) {
    tag[bit / 8] ^= (uint8_t)(1 << bit % 8);
    CHECK(mac->verify(context, tag, 8) == CUKVASHE_ERR_TAG);
    CHECK(mac->verify(context, tag, 4) == (bit < 32 ? CUKVASHE_ERR_TAG : CUKVASHE_OK));
    tag[bit / 8] ^= (uint8_t)(1 << bit % 8);
  }
}

/* A message under a key has the tag, in one piece, byte by byte, and cut at every place; a copy goes on by itself. */
static void answers(const struct mac *mac, const uint64_t *key_words, int method, const void *message, size_t length,
                    uint64_t word) {
  const uint8_t *bytes = (const uint8_t *)message;
  uint8_t key[24], wanted[8], tag[8];
  union mac_context context, copy;
  put_words(key, key_words, 3);
  put_word(wanted, word);
  for (size_t cut = 0; cut <= length; cut++) {
    CHECK(mac->init(&context, key, mac->key_size, method) == CUKVASHE_OK);
    CHECK(mac->update(&context, bytes, cut) == CUKVASHE_OK);
    memcpy(&copy, &context, mac->context_size);
    CHECK(mac->final(&context, tag) == CUKVASHE_OK);
    CHECK(mac->update(&context, bytes + cut, length - cut) == CUKVASHE_OK);
    memset(tag, 0, sizeof tag);
    CHECK(mac->final(&context, tag) == CUKVASHE_OK);
    CHECK(memcmp(tag, wanted, 8) == 0);
    verifies(mac, &context, wanted);
    for (size_t i = cut; i < length; i++) CHECK(mac->update(&copy, bytes + i, 1) == CUKVASHE_OK);
    CHECK(mac->update(&copy, NULL, 0) == CUKVASHE_OK);
    CHECK(mac->final(&copy, tag) == CUKVASHE_OK);
    CHECK(memcmp(tag, wanted, 8) == 0);
  }
}

/* FIPS 81's text under its key, by both paddings: tags of algorithms 1 and 3 over DES. Over triple DES, OpenSSL's last block, with
   P the padded text: openssl enc -des-ede-cbc -nopad -K K -iv 0000000000000000 <P, and the same of des-ede3-cbc. */
static void answers_padded(void) {
  static const struct {
    const char *message;
    int method;
    uint64_t tags[4];
  } rows[] = {
      {"Now is the time for all ", 1, {0x70a30640cc76dd8b, 0x93462a6db9b4a4d1, 0xb2fbd705b999b15d, 0xa1c72e74ea3fa9b6}},
      {"Now is the time for all ", 2, {0x10e1f0f108341b6d, 0x805036d50bb76107, 0xa80d295fd425cd2a, 0xe9086230ca3be796}},
      {"Now is the time for it", 1, {0xe45b3ad2b7cc0856, 0x9a23873acc66738f, 0x0bdc3636e02830e0, 0x2e2b1428cc78254f}},
      {"Now is the time for it", 2, {0xa924c72136149211, 0x083cc246761f3410, 0x714c1fdd3d964730, 0x5a692ce64f404145}},
      {"", 1, {0xd5d44ff720683d0d, 0x08d7b4fb629d0885, 0x3fd539e3abeb8b5b, 0x08d7b4fb629d0885}},
      {"", 2, {0xcaee534c523e1e79, 0xf1fbcf2a56d19ba7, 0x0191eb44920ffe18, 0xf1fbcf2a56d19ba7}},
  };
  static const uint64_t key[3] = {0x0123456789abcdef, 0xfedcba9876543210, 0x89abcdef01234567};
  for (size_t i = 0; i < sizeof rows / sizeof *rows; i++)
    for (int n = CBC_MAC_DES; n <= RETAIL_MAC; n++)
      answers(&macs[n], key, rows[i].method, rows[i].message, strlen(rows[i].message), rows[i].tags[n]);
}

/* The examples of CMAC over triple DES that go with NIST SP 800-38B. */
static void answers_cmac(void) {
  static const uint64_t three[3] = {0x8aa83bf8cbda1062, 0x0bc1bf19fbb6cd58, 0xbc313d4a371ca8b5};
  static const uint64_t two[3] = {0x4cf15134a2850dd5, 0x8a3d10ba80570d38, 0};
  static const uint64_t words[4] = {0x6bc1bee22e409f96, 0xe93d7e117393172a, 0xae2d8a571e03ac9c, 0x9eb76fac45af8e51};
  static const struct {
    size_t length;
    uint64_t three, two;
  } rows[] = {
      {0, 0xb7a688e122ffaf95, 0xbd2ebf9a3ba00361},
      {8, 0x8e8f293136283797, 0x4ff2ab813c53ce83},
      {20, 0x743ddbe0ce2dc2ed, 0x62dd1b471902bd4e},
      {32, 0x33e6b1092400eae5, 0x31b1e431dabc4eb8},
  };
  /* OpenSSL's, as are those above. With K the digits of the key, those of a key of two parts with the first part after them
     again: printf '%s' MESSAGE | openssl mac -cipher DES-EDE3-CBC -macopt hexkey:K CMAC */
  static const char record[] = "Record 1: 100.00 EUR to account 4711....";
  static const char sentence[] = "Now is the time for all good men to come to the aid of their country.";
  uint8_t message[32];
  for (int i = 0; i < 4; i++) put_word(message + 8 * i, words[i]);
  for (size_t i = 0; i < sizeof rows / sizeof *rows; i++) {
    answers(&macs[CMAC_EDE3], three, 0, message, rows[i].length, rows[i].three);
    answers(&macs[CMAC_EDE2], two, 0, message, rows[i].length, rows[i].two);
  }
  answers(&macs[CMAC_EDE3], three, 0, record, strlen(record), 0x8a096b3807b964d0);
  answers(&macs[CMAC_EDE2], two, 0, record, strlen(record), 0xc013629346d8e09d);
  answers(&macs[CMAC_EDE3], three, 0, sentence, strlen(sentence), 0x75e5a4017f74163f);
  answers(&macs[CMAC_EDE2], two, 0, sentence, strlen(sentence), 0xd1983582ce4ca75d);
}

/* A line of the file (`bindings/known_macs.txt`, which says what its lines are), by a context with tables and by one without. */
static void answers_line(const char *line) {
  static uint8_t message[8 * LONGEST + 8];
  char name[25], padding[2], digits[49];
  uint8_t key[24], wanted[8];
  uint64_t word;
  size_t length;
  int n = 0;
  CHECK(sscanf(line, "%24s %1s %48s %zu %16" SCNx64, name, padding, digits, &length, &word) == 5 && length <= sizeof message);
  put_word(wanted, word);
  while (strcmp(macs[n].name, name) != 0) CHECK(++n < MACS);
  CHECK(strlen(digits) == 2 * macs[n].key_size && (padding[0] == '-') == !macs[n].is_padded);
  for (size_t i = 0; i < macs[n].key_size; i += 8) {
    CHECK(sscanf(digits + 2 * i, "%16" SCNx64, &word) == 1);
    put_word(key + i, word);
  }
  for (size_t i = 0; i < length; i++) message[i] = (uint8_t)(i % 251);
  const int method = macs[n].is_padded ? padding[0] - '0' : 0;
  is_mac(&macs[n], macs[n].init, key, method, message, length, wanted);
  is_mac(&macs[n], macs[n].init_no_tables, key, method, message, length, wanted);
}

/* How many lines the file has. */
static int answers_file(const char *path) {
  char line[200];
  int lines = 0;
  FILE *file = fopen(path, "r");
  CHECK(file != NULL);
  while (fgets(line, sizeof line, file)) {
    if (line[0] == '#' || line[0] == '\n') continue;
    answers_line(line);
    lines++;
  }
  fclose(file);
  CHECK(lines > 100);
  return lines;
}

int main(int count, char **words) {
  CHECK(count == 2);
  answers_padded();
  answers_cmac();
  int lines = answers_file(words[1]);
  printf("macs: published values at every cut, and %d of the file, each by a context with tables and one without\n", lines);
  return 0;
}
