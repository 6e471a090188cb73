/*
 * Nanoseconds of processor time beside OpenSSL's own, in turns, the least of many: an update of a length in bytes in a
 * message that goes on, and a whole message from its key on. At last the table of docs/reference/figures.txt.
 *
 *   benchmark FOLDER CONFIGURATION TURNS
 */
#define _POSIX_C_SOURCE 200809L
#include "common.h"
#include <stdbool.h>
#include <time.h>

enum { MOST = 1 << 20 };

static uint8_t input[MOST], output[MOST + 16];
static const uint8_t key[24] = "a key of 24 bytes, any", vector[8] = "vector";

static double now(void) {
  struct timespec time;
  clock_gettime(CLOCK_THREAD_CPUTIME_ID, &time);
  return 1e9 * (double)time.tv_sec + (double)time.tv_nsec;
}

static void update(EVP_CIPHER_CTX *context, int length) {
  int made;
  EVP_CipherUpdate(context, output, &made, input, length);
}

static void message(EVP_CIPHER_CTX *context, int length) {
  int made;
  EVP_CipherInit_ex2(context, NULL, key, vector, -1, NULL);
  EVP_CipherUpdate(context, output, &made, input, length);
  EVP_CipherFinal_ex(context, output + made, &made);
}

typedef void work(EVP_CIPHER_CTX *context, int length);

/* The time of one call, over some 300 microseconds. */
static double time_of(work *run, EVP_CIPHER_CTX *context, int length) {
  const long batch = 20000 / (3 * length + 50) + 1;
  const double start = now();
  double end;
  long calls = 0;
  do {
    for (long i = 0; i < batch; i++) run(context, length);
    calls += batch;
    end = now();
  } while (end - start < 3e5);
  return (end - start) / (double)calls;
}

/* What is timed: updates of a length, or messages, by a cipher in a direction. */
struct row {
  const char *name;
  int encrypts, length;
  work *run;
  EVP_CIPHER_CTX *context[2];
  double least[2];
};

enum { ROWS = 2000 };

static struct row rows[ROWS];
static size_t count_of_rows;

static EVP_CIPHER_CTX *context_of(OSSL_LIB_CTX *library, const char *name, int encrypts) {
  EVP_CIPHER *cipher = EVP_CIPHER_fetch(library, name, NULL);
  EVP_CIPHER_CTX *context = EVP_CIPHER_CTX_new();
  CHECK(EVP_CipherInit_ex2(context, cipher, key, vector, encrypts, NULL) == 1);
  CHECK(EVP_CIPHER_CTX_set_padding(context, 0) == 1);
  EVP_CIPHER_free(cipher);
  return context;
}

static void add_row(OSSL_LIB_CTX *const libraries[2], const char *name, int encrypts, int length, work *run) {
  CHECK(count_of_rows < ROWS);
  struct row *row = &rows[count_of_rows++];
  *row = (struct row){name, encrypts, length, run, {NULL, NULL}, {1e99, 1e99}};
  EACH(who) row->context[who] = context_of(libraries[who], name, encrypts);
}

static void add_rows(OSSL_LIB_CTX *const libraries[2]) {
  static const int lengths[] = {8, 16, 24, 32, 64, 120, 128, 136, 192, 256, 512, 1024, 1032, 2048, 2056, 8192, 65536, MOST};
  for (size_t number = 0; number < CIPHERS; number++)
    for (int encrypts = 0; encrypts < 2; encrypts++)
      for (size_t i = 0; i < COUNT(lengths) && (size_t)lengths[i] * blocks_of_eight(ciphers[number]) <= MOST; i++) {
        add_row(libraries, ciphers[number], encrypts, lengths[i], update);
        if (lengths[i] <= 2048) add_row(libraries, ciphers[number], encrypts, lengths[i], message);
      }
}

static void time_row(struct row *row) {
  EACH(who) {
    const double time = time_of(row->run, row->context[who], row->length);
    if (time < row->least[who]) row->least[who] = time;
  }
}

/* How many times as fast as OpenSSL's own the provider is. */
static double times_of(const struct row *row) { return row->least[THEIRS] / row->least[OURS]; }

static void print_row(const struct row *row) {
  printf("%-13s %s %-8s %8d bytes: %11.1f ns, OpenSSL %11.1f ns, times %5.2f\n", row->name,
         row->encrypts ? "encrypt" : "decrypt", row->run == update ? "update" : "message", row->length, row->least[OURS],
         row->least[THEIRS], times_of(row));
}

static double times_of_update(const char *name, int encrypts, int length) {
  for (size_t i = 0; i < count_of_rows; i++) {
    const struct row *row = &rows[i];
    if (row->run == update && row->encrypts == encrypts && row->length == length && strcmp(row->name, name) == 0)
      return times_of(row);
  }
  CHECK(!"a row of the table was not timed");
  return 0;
}

static void print_table(void) {
  static const int lengths[] = {8, 16, 64, 256, 1024, 2048, 8192, MOST};
  static const struct {
    const char *name;
    int encrypts;
  } chosen[] = {{"DES-EDE3-CBC", 0}, {"DES-EDE3-CBC", 1}, {"DES-EDE3-ECB", 0}, {"DES-CBC", 0}};
  printf("\nOpenSSL: %s\n\n[openssl]\ntimes as fast as OpenSSL's own", OpenSSL_version(OPENSSL_VERSION_STRING));
  printf(" | 8 bytes | 16 | 64 | 256 | 1024 | 2048 | 8192 | 1 MiB\n");
  for (size_t i = 0; i < COUNT(chosen); i++) {
    printf("%s, %s", chosen[i].name, chosen[i].encrypts ? "encryption" : "decryption");
    for (size_t k = 0; k < COUNT(lengths); k++)
      printf(" | %.3f", times_of_update(chosen[i].name, chosen[i].encrypts, lengths[k]));
    printf("\n");
  }
}

static bool is_long_decryption(const struct row *row) {
  return row->length == 8192 && !row->encrypts && strncmp(row->name, "DES-EDE3", 8) == 0;
}

int main(int count, char **words) {
  CHECK(count == 4);
  OSSL_LIB_CTX *const libraries[2] = {ours_by(words[1], words[2]), theirs()};
  const long turns = strtol(words[3], NULL, 10);
  double slowest = 1e99, at_8_KiB = 1e99;
  add_rows(libraries);
  /* Turn by turn, so that a time in which the processor is slow for others' sake falls on all rows, and on none alone. An update
     of a mebibyte takes so long that every tenth turn does. */
  for (long turn = 0; turn < turns; turn++)
    for (size_t i = 0; i < count_of_rows; i++)
      if (rows[i].length < MOST || turn % 10 == 0) time_row(&rows[i]);
  for (size_t i = 0; i < count_of_rows; i++) {
    print_row(&rows[i]);
    if (rows[i].run == update && times_of(&rows[i]) < slowest) slowest = times_of(&rows[i]);
    if (is_long_decryption(&rows[i]) && times_of(&rows[i]) < at_8_KiB) at_8_KiB = times_of(&rows[i]);
  }
  printf("updates: at least %.2f times as fast; decryption of EDE3 at 8 KiB: at least %.1f times\n", slowest, at_8_KiB);
  print_table();
  for (size_t i = 0; i < count_of_rows; i++) EACH(who) EVP_CIPHER_CTX_free(rows[i].context[who]);
  drop_libraries(libraries[OURS], libraries[THEIRS]);
  return 0;
}
