/*
 * Nanoseconds for a block, a message or a key of lists of short messages, 256 at once: by batches of 128, by those of 256 if the
 * processor has them, and by a peer one at a time. The peer is OpenSSL's own functions of DES, called with nothing around them, or,
 * if OpenSSL has no such call, this library's call of one. Then lists of few blocks, by contexts with and without tables, beside OpenSSL
 * and libgcrypt; threads, by the clock on the wall; and PBKDF2 beside OpenSSL's. The least of many short runs counts; an empty cell is a
 * call that there is not.
 *
 *   benchmark_lists [RUNS]
 */
#define OPENSSL_SUPPRESS_DEPRECATED
#include "benchmark.h"
#include <openssl/des.h>
#include <openssl/evp.h>
#include <pthread.h>
#include <string.h>
#ifdef HAS_GCRYPT
#include <gcrypt.h>
#endif

enum { COUNT = 256, RECORD = 8, LENGTH = 64, MOST = 1 << 20, MOST_THREADS = 4 };

static bool is_v3;
static uint8_t keys[COUNT * 24], vectors[COUNT * 8], blocks[COUNT * RECORD * 8], texts[COUNT * LENGTH], tags[COUNT * 8];
static uint8_t serials[COUNT * 10], transaction_keys[COUNT * 16], list[MOST];
static size_t counts[COUNT];
static cukvashe_message messages[COUNT];
static cukvashe_des des, no_tables_des;
static cukvashe_tdes_ede3 ede3, no_tables_ede3;
static DES_key_schedule schedules[3];

static void check(int status) {
  if (status) fail(cukvashe_strerror(status));
}

/* Which call is timed: of a single DES or of EDE3, by batches of 128 or 256. */
struct of {
  bool is_triple, is_wide;
};

/* The call of an export of lists, by width. */
#define BY_WIDTH(OF, CALL, ...) \
  check((OF)->is_wide ? cukvashe_wide_##CALL(__VA_ARGS__) : cukvashe_internal_##CALL(__VA_ARGS__))

static size_t key_size_of(const struct of *of) { return of->is_triple ? 24 : 8; }

static DES_cblock *block_at(size_t k) { return (DES_cblock *)(blocks + 8 * k); }
static DES_cblock *key_at(size_t k) { return (DES_cblock *)(keys + 8 * k); }

/* A key for each of 256 blocks: what it takes to set up each key and encrypt one block. */
static void each_key(void *state, size_t bytes) {
  const struct of *of = (const struct of *)state;
  (void)bytes;
  BY_WIDTH(of, encrypt_each, key_size_of(of), keys, key_size_of(of) * COUNT, blocks, COUNT);
}

static void openssl_each_key(void *state, size_t bytes) {
  const struct of *of = (const struct of *)state;
  (void)bytes;
  for (size_t k = 0; k < COUNT; k++) {
    const size_t parts = of->is_triple ? 3 : 1;
    for (size_t part = 0; part < parts; part++) DES_set_key_unchecked(key_at(parts * k + part), &schedules[part]);
    if (of->is_triple)
      DES_ecb3_encrypt(block_at(k), block_at(k), &schedules[0], &schedules[1], &schedules[2], DES_ENCRYPT);
    else
      DES_ecb_encrypt(block_at(k), block_at(k), &schedules[0], DES_ENCRYPT);
  }
}

/* CBC encryption of 256 records of eight blocks under one key. */
static void records(void *state, size_t bytes) {
  const struct of *of = (const struct of *)state;
  (void)bytes;
  if (of->is_triple)
    BY_WIDTH(of, encrypt_cbc_records, WORDS_OF(ede3), vectors, COUNT, counts, COUNT, blocks, COUNT * RECORD, 8 * COUNT * RECORD);
  else
    BY_WIDTH(of, encrypt_cbc_records, WORDS_OF(des), vectors, COUNT, counts, COUNT, blocks, COUNT * RECORD, 8 * COUNT * RECORD);
}

static void openssl_records(void *state, size_t bytes) {
  const struct of *of = (const struct of *)state;
  (void)bytes;
  for (size_t k = 0; k < COUNT; k++) {
    uint8_t *record = blocks + 8 * RECORD * k;
    DES_cblock *vector = (DES_cblock *)(vectors + 8 * k);
    if (of->is_triple)
      DES_ede3_cbc_encrypt(record, record, 8 * RECORD, &schedules[0], &schedules[1], &schedules[2], vector, DES_ENCRYPT);
    else
      DES_ncbc_encrypt(record, record, 8 * RECORD, &schedules[0], vector, DES_ENCRYPT);
  }
}

/* The MACs of 256 messages of 64 bytes, each under a key of its own. */
static void retail_macs(void *state, size_t bytes) {
  const struct of *of = (const struct of *)state;
  (void)bytes;
  BY_WIDTH(of, macs_each, ALGORITHM_RETAIL_MAC, 2, 16, keys, 16 * COUNT, messages, COUNT, tags, COUNT);
}

static void one_retail_mac(void *state, size_t bytes) {
  (void)state, (void)bytes;
  for (size_t k = 0; k < COUNT; k++) {
    cukvashe_retail_mac_des mac;
    check(cukvashe_retail_mac_des_init(&mac, keys + 16 * k, 16, 2));
    check(cukvashe_retail_mac_des_update(&mac, messages[k].bytes, messages[k].length));
    check(cukvashe_retail_mac_des_final(&mac, tags + 8 * k));
  }
}

/* The keys of 256 transactions from one base key. */
static void transactions(void *state, size_t bytes) {
  const struct of *of = (const struct of *)state;
  (void)bytes;
  BY_WIDTH(of, dukpt_transaction_keys, keys, serials, COUNT, transaction_keys, COUNT);
}

static void one_transaction(void *state, size_t bytes) {
  uint8_t initial[16];
  (void)state, (void)bytes;
  for (size_t k = 0; k < COUNT; k++) {
    cukvashe_dukpt_initial_key(keys, serials + 10 * k, initial);
    cukvashe_dukpt_transaction_key(initial, serials + 10 * k, transaction_keys + 16 * k);
  }
}

/* The cells of a row by both widths and a peer: nanoseconds for one of `parts` parts. */
static void row_of(const char *what, call *by_batches, call *by_peer, bool is_triple, size_t parts) {
  struct of narrow = {is_triple, false}, wide = {is_triple, true};
  struct timed timed[] = {{"", by_batches, &narrow, 0}, {"", is_v3 ? by_batches : NULL, &wide, 0}, {"", by_peer, &narrow, 0}};
  time_all(timed, COUNT_OF(timed), 0);
  printf("%s", what);
  for (size_t n = 0; n < COUNT_OF(timed); n++) cell(&timed[n], parts);
  printf("\n");
  fflush(stdout);
}

static void rows_of_messages(void) {
  begin_table("many", "ns | 128 together | 256 together | one at a time");
  row_of("a block and its key, DES", each_key, openssl_each_key, false, COUNT);
  row_of("a block and its key, triple DES", each_key, openssl_each_key, true, COUNT);
  row_of("a block of records of 8 blocks, CBC encryption, DES", records, openssl_records, false, COUNT * RECORD);
  row_of("a block of records of 8 blocks, CBC encryption, triple DES", records, openssl_records, true, COUNT * RECORD);
  row_of("a retail MAC of 64 bytes and its key", retail_macs, one_retail_mac, false, COUNT);
  row_of("a transaction's key from the base key", transactions, one_transaction, false, COUNT);
}

/* Lists of few blocks, by contexts of one kind or the other, and by peers. */
static void with_tables_ede3(void *state, size_t bytes) {
  (void)state;
  check(cukvashe_tdes_ede3_decrypt_cbc(&ede3, vectors, list, bytes));
}

static void no_tables_ede3_list(void *state, size_t bytes) {
  (void)state;
  check(cukvashe_tdes_ede3_decrypt_cbc(&no_tables_ede3, vectors, list, bytes));
}

static void no_tables_des_list(void *state, size_t bytes) {
  (void)state;
  check(cukvashe_des_decrypt_cbc(&no_tables_des, vectors, list, bytes));
}

static void with_tables_des(void *state, size_t bytes) {
  (void)state;
  check(cukvashe_des_decrypt_cbc(&des, vectors, list, bytes));
}

static void blocks_one_by_one(void *state, size_t bytes) {
  (void)state;
  for (size_t from = 0; from < bytes; from += 8) check(cukvashe_tdes_ede3_decrypt_cbc(&ede3, vectors, list + from, 8));
}

static void des_one_by_one(void *state, size_t bytes) {
  (void)state;
  for (size_t from = 0; from < bytes; from += 8) check(cukvashe_des_decrypt_cbc(&des, vectors, list + from, 8));
}

static void openssl_ede3(void *state, size_t bytes) {
  (void)state;
  DES_ede3_cbc_encrypt(list, list, (long)bytes, &schedules[0], &schedules[1], &schedules[2], (DES_cblock *)vectors, DES_DECRYPT);
}

static void openssl_des(void *state, size_t bytes) {
  (void)state;
  DES_ncbc_encrypt(list, list, (long)bytes, &schedules[0], (DES_cblock *)vectors, DES_DECRYPT);
}

#ifdef HAS_GCRYPT
static void gcrypt_call(void *state, size_t bytes) {
  if (gcry_cipher_decrypt(*(gcry_cipher_hd_t *)state, list, bytes, NULL, 0)) fail("gcry_cipher_decrypt");
}

static gcry_cipher_hd_t gcrypt_of(bool is_triple) {
  gcry_cipher_hd_t handle;
  if (gcry_cipher_open(&handle, is_triple ? GCRY_CIPHER_3DES : GCRY_CIPHER_DES, GCRY_CIPHER_MODE_CBC, 0) ||
      gcry_cipher_setkey(handle, keys, is_triple ? 24 : 8) || gcry_cipher_setiv(handle, vectors, 8))
    fail("gcry_cipher_open");
  return handle;
}
#endif

static void rows_of_few(const char *what, bool is_triple) {
  static const size_t sizes[] = {1, 3, 8, 16, 31, 40};
  struct timed timed[] = {{"with tables", is_triple ? with_tables_ede3 : with_tables_des, NULL, 0},
                          {"without tables", is_triple ? no_tables_ede3_list : no_tables_des_list, NULL, 0},
                          {"with tables, one call for each block", is_triple ? blocks_one_by_one : des_one_by_one, NULL, 0},
                          {"OpenSSL's own functions", is_triple ? openssl_ede3 : openssl_des, NULL, 0},
                          {"libgcrypt", NULL, NULL, 0}};
#ifdef HAS_GCRYPT
  gcry_cipher_hd_t handle = gcrypt_of(is_triple);
  timed[4].call = gcrypt_call;
  timed[4].state = &handle;
#endif
  rows_by_size(what, timed, COUNT_OF(timed), sizes, COUNT_OF(sizes));
#ifdef HAS_GCRYPT
  gcry_cipher_close(handle);
#endif
}

/* A list of 1 MiB, divided among threads: the time on the wall. */
struct part {
  uint8_t *from;
  size_t length;
};

static void *decrypt_part(void *state) {
  const struct part *part = (const struct part *)state;
  check(cukvashe_tdes_ede3_decrypt_ecb(&ede3, part->from, part->length));
  return NULL;
}

static double wall(void) {
  struct timespec t;
  clock_gettime(CLOCK_MONOTONIC, &t);
  return (double)t.tv_sec * 1e9 + (double)t.tv_nsec;
}

static double threads_take(size_t count) {
  pthread_t threads[MOST_THREADS];
  struct part parts[MOST_THREADS];
  const double start = wall();
  for (size_t k = 0; k < count; k++) {
    parts[k] = (struct part){list + MOST / count * k, MOST / count};
    if (pthread_create(&threads[k], NULL, decrypt_part, &parts[k])) fail("pthread_create");
  }
  for (size_t k = 0; k < count; k++)
    if (pthread_join(threads[k], NULL)) fail("pthread_join");
  return wall() - start;
}

static void rows_of_threads(void) {
  static const size_t threads[] = {1, 2, 4};
  double least[] = {1e18, 1e18, 1e18};
  for (int run = 0; run < 4 * runs; run++)
    for (size_t i = 0; i < COUNT_OF(threads); i++) {
      double time = threads_take(threads[i]);
      if (time < least[i]) least[i] = time;
    }
  begin_table("threads", "threads | of the time of one");
  for (size_t i = 0; i < COUNT_OF(threads); i++) printf("%zu | %.3f\n", threads[i], least[i] / least[0]);
}

/* A key of 24 bytes by PBKDF2, of a password and a salt of eight bytes. */
enum { ITERATIONS = 1000 };

static const char password[] = "password";

static void pbkdf2(void *state, size_t bytes) {
  uint8_t key[24];
  (void)bytes;
  check(cukvashe_pbkdf2(*(const int *)state, ITERATIONS, (const uint8_t *)password, 8, vectors, 8, key, sizeof key));
}

static void openssl_pbkdf2(void *state, size_t bytes) {
  const EVP_MD *hash = *(const int *)state == CUKVASHE_SHA1 ? EVP_sha1() : EVP_sha256();
  uint8_t key[24];
  (void)bytes;
  if (!PKCS5_PBKDF2_HMAC(password, 8, vectors, 8, ITERATIONS, hash, sizeof key, key)) fail("PKCS5_PBKDF2_HMAC");
}

static void row_of_pbkdf2(const char *name, int hash) {
  struct timed timed[] = {{"", pbkdf2, &hash, 0}, {"", openssl_pbkdf2, &hash, 0}};
  time_all(timed, COUNT_OF(timed), 0);
  printf("%s | %.3f\n", name, timed[0].least / timed[1].least);
}

static void prepare(void) {
  for (size_t i = 0; i < sizeof keys; i++) keys[i] = (uint8_t)(17 * i * i + 59 * i + 3);
  for (size_t i = 0; i < sizeof texts; i++) texts[i] = (uint8_t)(31 * i + i / 64);
  for (size_t k = 0; k < COUNT; k++) {
    counts[k] = RECORD;
    messages[k] = (cukvashe_message){texts + LENGTH * k, LENGTH};
    memcpy(serials + 10 * k, "\xff\xff\x98\x76\x54\x32\x10\xe0\x00", 9);
    serials[10 * k + 8] = (uint8_t)(k >> 3);
    serials[10 * k + 9] = (uint8_t)(37 * k | 1);
  }
  for (size_t part = 0; part < 3; part++) DES_set_key_unchecked(key_at(part), &schedules[part]);
  check(cukvashe_des_init(&des, keys, 8));
  check(cukvashe_tdes_ede3_init(&ede3, keys, 24));
  check(cukvashe_des_init_no_tables(&no_tables_des, keys, 8));
  check(cukvashe_tdes_ede3_init_no_tables(&no_tables_ede3, keys, 24));
}

int main(int count, char **words) {
  const struct processor processor = cukvashe_internal_processor();
  (void)count;
  words_after_runs(words);
  is_v3 = cukvashe_internal_is_v3(&processor);
#ifdef HAS_GCRYPT
  gcry_check_version(NULL);
  gcry_control(GCRYCTL_INITIALIZATION_FINISHED, 0);
#endif
  prepare();
  begin_table("short-lists", "ns per block, CBC decryption | | 1 block | 3 | 8 | 16 | 31 | 40");
  rows_of_few("DES", false);
  rows_of_few("triple DES", true);
  rows_of_messages();
  rows_of_threads();
  begin_table("pbkdf2", "PBKDF2, a key of 24 bytes | of the time of OpenSSL's");
  row_of_pbkdf2("SHA-1", CUKVASHE_SHA1);
  row_of_pbkdf2("SHA-256", CUKVASHE_SHA256);
  return 0;
}
