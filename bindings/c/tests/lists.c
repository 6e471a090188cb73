/* Calls for lists, of keys, records and messages, beside the calls of one, in lists of many lengths; at published values; and that
   numbers of elements which do not agree are refused, also by the calls that the library hides. */
#include "mac_calls.h"

enum { PAINT = 0xa5, MORE = 24 };

typedef int of_each(const uint8_t *keys, size_t count, uint8_t *blocks, size_t length);
typedef int of_values(const uint8_t *keys, size_t keys_length, uint8_t *values, size_t values_length, size_t count);

/* The calls of a cipher. */
struct lists {
  of_each *encrypt_each, *decrypt_each;
  of_values *check_values;
};

static const struct lists lists[CIPHERS] = {
    {cukvashe_des_encrypt_each, cukvashe_des_decrypt_each, cukvashe_des_check_values},
    {cukvashe_tdes_ede2_encrypt_each, cukvashe_tdes_ede2_decrypt_each, cukvashe_tdes_ede2_check_values},
    {cukvashe_tdes_ede3_encrypt_each, cukvashe_tdes_ede3_decrypt_each, cukvashe_tdes_ede3_check_values},
};

/* What is written stands after `MORE` bytes and before as many, which stay. */
static uint8_t keys[24 * LONGEST], plain[8 * LONGEST], answers[8 * LONGEST], buffer[MORE + 16 * LONGEST + MORE];

static uint8_t *put(const uint8_t *bytes, size_t length) {
  memset(buffer, PAINT, sizeof buffer);
  if (length > 0) memcpy(buffer + MORE, bytes, length);
  return buffer + MORE;
}

static int is(const uint8_t *wanted, size_t length) {
  for (size_t i = 0; i < sizeof buffer; i++)
    if ((i < MORE || i >= MORE + length) && buffer[i] != PAINT) return 0;
  return memcmp(buffer + MORE, wanted, length) == 0;
}

/* Each block, by a context of its key. */
static void put_answers(const struct cipher *cipher, size_t count) {
  union context context;
  random_bytes(keys, sizeof keys);
  random_bytes(plain, sizeof plain);
  memcpy(answers, plain, sizeof answers);
  for (size_t i = 0; i < count; i++) {
    CHECK(cipher->init(&context, keys + cipher->key_size * i, cipher->key_size) == CUKVASHE_OK);
    CHECK(cipher->paths[PUBLIC_PATH].encrypt_ecb(&context, answers + 8 * i, 8) == CUKVASHE_OK);
  }
}

static void answers_each(int n, size_t count) {
  uint8_t values[3 * LONGEST];
  const struct cipher *cipher = &ciphers[n];
  put_answers(cipher, count);
  CHECK(lists[n].encrypt_each(keys, count, put(plain, 8 * count), 8 * count) == CUKVASHE_OK && is(answers, 8 * count));
  CHECK(lists[n].decrypt_each(keys, count, put(answers, 8 * count), 8 * count) == CUKVASHE_OK && is(plain, 8 * count));
  for (size_t i = 0; i < count; i++)
    CHECK(cipher->check_value(keys + cipher->key_size * i, cipher->key_size, values + 3 * i) == CUKVASHE_OK);
  CHECK(lists[n].check_values(keys, cipher->key_size * count, put(plain, 3 * count), 3 * count, count) == CUKVASHE_OK);
  CHECK(is(values, 3 * count));
}

/* What must come of a number of elements and a length in bytes. */
static int status_of(size_t count, size_t length) {
  if (length % 8 != 0) return CUKVASHE_ERR_BLOCKS;
  return count == length / 8 ? CUKVASHE_OK : CUKVASHE_ERR_COUNTS;
}

/* Counts and lengths that do not agree, with no memory after the keys: none of it is read, and no block is changed. */
static void refuses_each(int n, size_t count) {
  const size_t length = 8 * count;
  const size_t given[][2] = {{count, count},        {length, length},       {length, count},     {count, length + 1},
                             {count, length + 7},   {count, length + 8},    {count + 1, length}, {2 * count, length},
                             {count, SIZE_MAX},     {count, SIZE_MAX - 7},  {0, length},         {count, 0},
                             {SIZE_MAX, length},    {count + ((size_t)1 << 61), length}};
  uint8_t *ending = (uint8_t *)malloc(ciphers[n].key_size * count);
  random_bytes(plain, sizeof plain);
  if (count > 0) memcpy(ending, keys, ciphers[n].key_size * count);
  for (size_t i = 0; i < sizeof given / sizeof *given; i++) {
    int status = status_of(given[i][0], given[i][1]);
    if (status == CUKVASHE_OK) continue;
    CHECK(lists[n].encrypt_each(ending, given[i][0], put(plain, length), given[i][1]) == status && is(plain, length));
    CHECK(lists[n].decrypt_each(ending, given[i][0], put(plain, length), given[i][1]) == status && is(plain, length));
  }
  free(ending);
}

/* The key of NIST Special Publication 800-67, appendix B, and its first block, at places of a list of others. */
static void answers_known_blocks(void) {
  const uint64_t parts[3] = {0x0123456789abcdef, 0x23456789abcdef01, 0x456789abcdef0123};
  static const size_t places[] = {0, 1, 63, 64, 127, 128, 255, 256, 299};
  uint8_t block[8], answer[8], value[3] = {0x4e, 0xba, 0x73};
  put_word(block, 0x5468652071756663);
  put_word(answer, 0xa826fd8ce53b855f);
  for (size_t i = 0; i < sizeof places / sizeof *places; i++) {
    random_bytes(keys, sizeof keys);
    put_words(keys + 24 * places[i], parts, 3);
    random_bytes(plain, sizeof plain);
    memcpy(plain + 8 * places[i], block, 8);
    CHECK(cukvashe_tdes_ede3_encrypt_each(keys, 300, plain, 2400) == CUKVASHE_OK);
    CHECK(memcmp(plain + 8 * places[i], answer, 8) == 0);
    CHECK(cukvashe_tdes_ede3_decrypt_each(keys, 300, plain, 2400) == CUKVASHE_OK);
    CHECK(memcmp(plain + 8 * places[i], block, 8) == 0);
    CHECK(cukvashe_tdes_ede3_check_values(keys, 7200, plain, 900, 300) == CUKVASHE_OK);
    CHECK(memcmp(plain + 3 * places[i], value, 3) == 0);
  }
}

static void nothing_of_nothing(void) {
  static const uint8_t base[16] = {0};
  for (int n = 0; n < CIPHERS; n++) {
    CHECK(lists[n].encrypt_each(NULL, 0, NULL, 0) == CUKVASHE_OK);
    CHECK(lists[n].decrypt_each(NULL, 0, NULL, 0) == CUKVASHE_OK);
    CHECK(lists[n].check_values(NULL, 0, NULL, 0, 0) == CUKVASHE_OK);
  }
  CHECK(cukvashe_dukpt_transaction_keys_from_base(base, NULL, 0, NULL, 0, 0) == CUKVASHE_OK);
  CHECK(cukvashe_compare_tags(NULL, 0, NULL, 0, NULL, 0) == CUKVASHE_OK);
}

/* Transactions of random terminals, some of them with counters that have any number of ones, beside the calls of one. */
static void answers_transactions(size_t count) {
  static uint8_t serials[10 * LONGEST], wanted[16 * LONGEST];
  uint8_t base[16], initial[16];
  random_bytes(base, sizeof base);
  random_bytes(serials, sizeof serials);
  for (size_t i = 0; i < count; i++) {
    if (i % 3 == 0) memset(serials + 10 * i + 7, i % 2 ? 0xff : 0, 3);
    cukvashe_dukpt_initial_key(base, serials + 10 * i, initial);
    cukvashe_dukpt_transaction_key(initial, serials + 10 * i, wanted + 16 * i);
  }
  put(wanted, 0);
  CHECK(cukvashe_dukpt_transaction_keys_from_base(base, serials, 10 * count, buffer + MORE, 16 * count, count) == CUKVASHE_OK);
  CHECK(is(wanted, 16 * count));
}

/* The transactions of ANSI X9.24-1:2009, Annex A.4, with counters 1, 2 and eff800, and their keys. */
static void answers_known_transactions(void) {
  static const uint8_t serials[3][10] = {{0xff, 0xff, 0x98, 0x76, 0x54, 0x32, 0x10, 0xe0, 0x00, 0x01},
                                         {0xff, 0xff, 0x98, 0x76, 0x54, 0x32, 0x10, 0xe0, 0x00, 0x02},
                                         {0xff, 0xff, 0x98, 0x76, 0x54, 0x32, 0x10, 0xef, 0xf8, 0x00}};
  static const uint64_t words[6] = {0x042666b49184cfa3, 0x68de9628d0397bc9, 0xc46551cef9fd24b0,
                                    0xaa9ad834130d3bc7, 0xf9cdfebf4f5b1d9e, 0xb3ec12454527e176};
  static const uint64_t base_words[2] = {0x0123456789abcdef, 0xfedcba9876543210};
  uint8_t base[16], made[48], wanted[48];
  put_words(base, base_words, 2);
  put_words(wanted, words, 6);
  CHECK(cukvashe_dukpt_transaction_keys_from_base(base, serials[0], sizeof serials, made, sizeof made, 3) == CUKVASHE_OK);
  CHECK(memcmp(made, wanted, sizeof made) == 0);
}

/* Records of 0 to 4 blocks, and one of 40. */
static size_t sizes[LONGEST];

static size_t put_sizes(size_t count) {
  size_t sum = 0;
  for (size_t i = 0; i < count; i++) {
    sizes[i] = i == count / 2 ? 40 : random_word() % 5;
    if (sum + sizes[i] > LONGEST) sizes[i] = 0;
    sum += sizes[i];
  }
  return sum;
}

/* Under one key, from `vectors`; `next` are the vectors that the calls of one record leave. */
static uint8_t vectors[8 * LONGEST], next[8 * LONGEST], left[8 * LONGEST];

#define RECORDS(name)                                                                                                 \
  static int name##_encrypt_records(size_t size, const size_t *counts, size_t count, size_t length) {                 \
    return cukvashe_##name##_encrypt_cbc_records(&chaining.name, left, size, counts, count, buffer + MORE, length);   \
  }                                                                                                                   \
  static int name##_decrypt_records(size_t size, const size_t *counts, size_t count, size_t length) {                 \
    return cukvashe_##name##_decrypt_cbc_records(&chaining.name, left, size, counts, count, buffer + MORE, length);   \
  }

static union context chaining;

RECORDS(des)
RECORDS(tdes_ede2)
RECORDS(tdes_ede3)

typedef int of_records(size_t vectors_length, const size_t *counts, size_t count, size_t length);

static of_records *const records[CIPHERS][2] = {
    {des_encrypt_records, des_decrypt_records},
    {tdes_ede2_encrypt_records, tdes_ede2_decrypt_records},
    {tdes_ede3_encrypt_records, tdes_ede3_decrypt_records},
};

/* Each record by the call of one. */
static void put_records(const struct cipher *cipher, size_t count) {
  size_t at = 0;
  random_bytes(keys, cipher->key_size);
  random_bytes(plain, sizeof plain);
  random_bytes(vectors, sizeof vectors);
  CHECK(cipher->init(&chaining, keys, cipher->key_size) == CUKVASHE_OK);
  memcpy(answers, plain, sizeof answers);
  memcpy(next, vectors, sizeof next);
  for (size_t i = 0; i < count; at += 8 * sizes[i++])
    CHECK(cipher->paths[PUBLIC_PATH].encrypt_cbc(&chaining, next + 8 * i, answers + at, 8 * sizes[i]) == CUKVASHE_OK);
}

static void answers_records(int n, size_t count) {
  size_t length = 8 * put_sizes(count);
  put_records(&ciphers[n], count);
  put(plain, length);
  memcpy(left, vectors, sizeof left);
  CHECK(records[n][0](8 * count, sizes, count, length) == CUKVASHE_OK && is(answers, length) && memcmp(left, next, 8 * count) == 0);
  memcpy(left, vectors, sizeof left);
  CHECK(records[n][1](8 * count, sizes, count, length) == CUKVASHE_OK && is(plain, length) && memcmp(left, next, 8 * count) == 0);
}

/* No block and no vector is changed by either call. */
static void refuses_record_of(int n, const size_t *counts, size_t count, size_t length, size_t given, int status) {
  memcpy(left, vectors, sizeof left);
  put(plain, length);
  for (int call = 0; call < 2; call++) CHECK(records[n][call](8 * count, counts, count, given) == status);
  CHECK(is(plain, length) && memcmp(left, vectors, sizeof left) == 0);
}

/* A number of records and a length of their vectors that do not agree, with no memory after the counts: none of it is read. */
static void refuses_vectors(int n, size_t count) {
  const size_t length = 8 * put_sizes(count), huge = (size_t)1 << 61;
  const size_t given[][2] = {{8 * count, 8 * count}, {8 * count, count * sizeof(size_t)}, {count, count}, {8 * count, count + 1},
                             {8 * count + 8, count}, {8 * count + 1, count},              {0, count},     {8 * count, count + huge},
                             {SIZE_MAX, count},      {8 * count, SIZE_MAX}};
  size_t *ending = (size_t *)malloc(count * sizeof *ending);
  if (count > 0) memcpy(ending, sizes, count * sizeof *ending);
  put_records(&ciphers[n], count);
  memcpy(left, vectors, sizeof left);
  put(plain, length);
  for (size_t i = 0; i < sizeof given / sizeof *given; i++)
    for (int call = 0; call < 2 && (given[i][0] % 8 != 0 || given[i][0] / 8 != given[i][1]); call++)
      CHECK(records[n][call](given[i][0], ending, given[i][1], length) == CUKVASHE_ERR_COUNTS);
  CHECK(is(plain, length) && memcmp(left, vectors, sizeof left) == 0);
  free(ending);
}

/* Counts of blocks with a length in blocks, lengths in bytes for counts, and others that do not agree. */
static void refuses_records(int n, size_t count) {
  static size_t lengths[LONGEST];
  const size_t blocks = put_sizes(count), length = 8 * blocks;
  put_records(&ciphers[n], count);
  for (size_t i = 0; i < count; i++) lengths[i] = 8 * sizes[i];
  for (size_t more = 1; more < 8; more++)
    refuses_record_of(n, sizes, count, length, length + more, CUKVASHE_ERR_BLOCKS);
  refuses_record_of(n, sizes, count, length, length + 8, CUKVASHE_ERR_COUNTS);
  if (count == 0) return;
  refuses_record_of(n, sizes, count, length, blocks, blocks % 8 ? CUKVASHE_ERR_BLOCKS : CUKVASHE_ERR_COUNTS);
  refuses_record_of(n, lengths, count, length, length, CUKVASHE_ERR_COUNTS);
  refuses_record_of(n, lengths, count, length, blocks, blocks % 8 ? CUKVASHE_ERR_BLOCKS : CUKVASHE_ERR_COUNTS);
  refuses_record_of(n, sizes, count, length, 0, CUKVASHE_ERR_COUNTS);
  refuses_record_of(n, sizes, 0, length, length, CUKVASHE_ERR_COUNTS);
  sizes[0] += 1;
  refuses_record_of(n, sizes, count, length, length, CUKVASHE_ERR_COUNTS);
  sizes[0] += ((size_t)1 << 61) - 1; /* eight times as much is the length again, in 64 bits */
  refuses_record_of(n, sizes, count, length, length, CUKVASHE_ERR_COUNTS);
  sizes[0] -= (size_t)1 << 61;
  if (count < 2) return;
  sizes[0] += sizes[1] + 1; /* the sum is the right one, in 64 bits */
  sizes[1] = SIZE_MAX;
  refuses_record_of(n, sizes, count, length, length, CUKVASHE_ERR_COUNTS);
}

typedef int macs_of(const uint8_t *keys, size_t keys_length, int method, const cukvashe_message *messages, uint8_t *tags,
                    size_t tags_length, size_t count);

/* CMAC takes no padding method. */
#define CMACS(name)                                                                                                   \
  static int name##_macs(const uint8_t *key, size_t key_length, int method, const cukvashe_message *messages,         \
                         uint8_t *tags, size_t tags_length, size_t count) {                                           \
    (void)method;                                                                                                     \
    return cukvashe_##name##_macs(key, key_length, messages, tags, tags_length, count);                               \
  }                                                                                                                   \
  static int name##_macs_each(const uint8_t *keys, size_t keys_length, int method, const cukvashe_message *messages,  \
                              uint8_t *tags, size_t tags_length, size_t count) {                                      \
    (void)method;                                                                                                     \
    return cukvashe_##name##_macs_each(keys, keys_length, messages, tags, tags_length, count);                        \
  }

CMACS(cmac_tdes_ede2)
CMACS(cmac_tdes_ede3)

/* In the order of `macs`: the calls under one key, and under a key for each message. */
static macs_of *const tags_of[MACS][2] = {
    {cukvashe_cbc_mac_des_macs, cukvashe_cbc_mac_des_macs_each},
    {cukvashe_cbc_mac_tdes_ede2_macs, cukvashe_cbc_mac_tdes_ede2_macs_each},
    {cukvashe_cbc_mac_tdes_ede3_macs, cukvashe_cbc_mac_tdes_ede3_macs_each},
    {cukvashe_retail_mac_des_macs, cukvashe_retail_mac_des_macs_each},
    {cmac_tdes_ede2_macs, cmac_tdes_ede2_macs_each},
    {cmac_tdes_ede3_macs, cmac_tdes_ede3_macs_each},
};

/* The tag of each message by the calls of one, under the first key or each under the key at its place. */
static uint8_t tags[8 * LONGEST];

static void put_tags(const struct mac *mac, int each, int method, const cukvashe_message *messages, size_t count) {
  union mac_context context;
  for (size_t i = 0; i < count; i++) {
    CHECK(mac->init(&context, keys + (each ? mac->key_size * i : 0), mac->key_size, method) == CUKVASHE_OK);
    CHECK(mac->update(&context, messages[i].bytes, messages[i].length) == CUKVASHE_OK);
    CHECK(mac->final(&context, tags + 8 * i) == CUKVASHE_OK);
  }
}

static cukvashe_message messages[LONGEST];

/* Keys, and messages of 0 to 40 bytes at any address. */
static void put_messages(size_t count) {
  random_bytes(keys, sizeof keys);
  random_bytes(plain, sizeof plain);
  for (size_t i = 0; i < count; i++) {
    messages[i].length = random_word() % 41;
    messages[i].bytes = messages[i].length ? plain + random_word() % (sizeof plain - 40) : NULL;
  }
}

static void answers_macs(size_t count) {
  put_messages(count);
  for (int n = 0; n < MACS; n++)
    for (int method = 1; method <= 1 + macs[n].is_padded; method++)
      for (int each = 0; each < 2; each++) {
        macs_of *call = tags_of[n][each];
        const size_t size = macs[n].key_size * (each ? count : 1);
        put_tags(&macs[n], each, method, messages, count);
        CHECK(call(keys, size, method, messages, put(plain, 0), 8 * count, count) == CUKVASHE_OK && is(tags, 8 * count));
        if (!macs[n].is_padded) continue;
        CHECK(call(keys, size, 0, messages, put(plain, 0), 8 * count, count) == CUKVASHE_ERR_PADDING_METHOD && is(plain, 0));
        CHECK(call(keys, size, 3, messages, put(plain, 0), 8 * count, count) == CUKVASHE_ERR_PADDING_METHOD && is(plain, 0));
      }
}

/* Tags of which some have one bit that is wrong, at any place of them. */
static void put_expected(size_t count) {
  random_bytes(plain, sizeof plain);
  memcpy(tags, plain, 8 * count);
  for (size_t i = 0; i < count; i++)
    if (i % 3 > 0) tags[8 * i + i / 3 % 8] ^= (uint8_t)(1 << i / 24 % 8);
}

static void verifies_tags(size_t count) {
  static bool right[LONGEST + 2];
  put_expected(count);
  memset(right, true, sizeof right);
  CHECK(cukvashe_compare_tags(tags, 8 * count, plain, 8 * count, right + 1, count) == CUKVASHE_OK);
  for (size_t i = 0; i < count; i++) CHECK(right[i + 1] == (i % 3 == 0));
  memset(right, false, sizeof right);
  CHECK(cukvashe_compare_tags(plain, 8 * count, tags, 8 * count, right + 1, count) == CUKVASHE_OK);
  for (size_t i = 0; i < count; i++) CHECK(right[i + 1] == (i % 3 == 0));
  CHECK(!right[0] && !right[count + 1]);
}

#ifdef FORCED
/* The exports of each width, over which keys and blocks, or values, have numbers of their own. */
#define EACH(width) {cukvashe_##width##_encrypt_each, cukvashe_##width##_decrypt_each},
#define RECORDS_OF(width) {cukvashe_##width##_encrypt_cbc_records, cukvashe_##width##_decrypt_cbc_records},
#define VALUES(width) cukvashe_##width##_check_values,
#define TRANSACTIONS(width) cukvashe_##width##_dukpt_transaction_keys,
#define TAGS(width) cukvashe_##width##_macs,
#define TAGS_EACH(width) cukvashe_##width##_macs_each,

static __typeof__(cukvashe_internal_encrypt_each) *const each_by[][2] = {EACH_WIDTH(EACH)};
static __typeof__(cukvashe_internal_encrypt_cbc_records) *const records_by[][2] = {EACH_WIDTH(RECORDS_OF)};
static __typeof__(cukvashe_internal_check_values) *const values_by[] = {EACH_WIDTH(VALUES)};
static __typeof__(cukvashe_internal_dukpt_transaction_keys) *const transactions_by[] = {EACH_WIDTH(TRANSACTIONS)};
static __typeof__(cukvashe_internal_macs) *const tags_by[] = {EACH_WIDTH(TAGS)};
static __typeof__(cukvashe_internal_macs_each) *const tags_each_by[] = {EACH_WIDTH(TAGS_EACH)};

/* Each width at each length. */
static void answers_by_width(int width, int n, size_t count) {
  const size_t size = ciphers[n].key_size;
  put_answers(&ciphers[n], count);
  CHECK(each_by[width][0](size, keys, size * count, put(plain, 8 * count), count) == CUKVASHE_OK && is(answers, 8 * count));
  CHECK(each_by[width][1](size, keys, size * count, put(answers, 8 * count), count) == CUKVASHE_OK && is(plain, 8 * count));
}

/* The records of `sizes`, in `blocks` blocks, encrypted or decrypted. */
static int recorded(int width, int n, int decrypts, size_t count, size_t blocks) {
  const uint64_t *context = chaining.tdes_ede3.words; /* the longest, which begins where the others do */
  memcpy(left, vectors, sizeof left);
  return records_by[width][decrypts](context, ciphers[n].context_size / 8, left, count, sizes, count, buffer + MORE, blocks, 8 * blocks);
}

static void records_by_width(int width, int n, size_t count) {
  const size_t blocks = put_sizes(count), length = 8 * blocks;
  put_records(&ciphers[n], count);
  put(plain, length);
  CHECK(recorded(width, n, 0, count, blocks) == CUKVASHE_OK && is(answers, length) && memcmp(left, next, 8 * count) == 0);
  CHECK(recorded(width, n, 1, count, blocks) == CUKVASHE_OK && is(plain, length) && memcmp(left, next, 8 * count) == 0);
}

static void values_by_width(int width, int n, size_t count) {
  static uint8_t values[3 * LONGEST];
  const size_t size = ciphers[n].key_size;
  random_bytes(keys, sizeof keys);
  for (size_t i = 0; i < count; i++) CHECK(ciphers[n].check_value(keys + size * i, size, values + 3 * i) == CUKVASHE_OK);
  CHECK(values_by[width](size, keys, size * count, put(plain, 0), count) == CUKVASHE_OK && is(values, 3 * count));
}

static void transactions_by_width(int width, size_t count) {
  static uint8_t wanted[16 * LONGEST];
  uint8_t initial[16];
  random_bytes(keys, sizeof keys);
  for (size_t i = 0; i < count; i++) {
    cukvashe_dukpt_initial_key(keys, keys + 10 * i, initial);
    cukvashe_dukpt_transaction_key(initial, keys + 10 * i, wanted + 16 * i);
  }
  CHECK(transactions_by[width](keys, keys, count, put(plain, 0), count) == CUKVASHE_OK && is(wanted, 16 * count));
}

/* The tags of a width, of counts that may differ: `first` keys, of those under one none, and `second` tags. */
static int tagged(int width, int n, int each, uint32_t padding, size_t first, size_t count, uint8_t *made, size_t second) {
  static const uint32_t algorithms[MACS] = {ALGORITHM_CBC_MAC,    ALGORITHM_CBC_MAC, ALGORITHM_CBC_MAC,
                                            ALGORITHM_RETAIL_MAC, ALGORITHM_CMAC,    ALGORITHM_CMAC};
  const size_t size = macs[n].key_size;
  const uint32_t method = macs[n].is_padded ? padding : CUKVASHE_MAC_PADDING_2;
  if (!each) return tags_by[width](algorithms[n], method, keys, size, messages, count, made, second);
  return tags_each_by[width](algorithms[n], method, size, keys, size * first, messages, count, made, second);
}

static void tags_by_width(int width, size_t count) {
  put_messages(count);
  for (int n = 0; n < MACS; n++)
    for (int each = 0; each < 2; each++) {
      put_tags(&macs[n], each, 2, messages, count);
      CHECK(tagged(width, n, each, 2, count, count, put(plain, 0), count) == CUKVASHE_OK && is(tags, 8 * count));
    }
}

/* Lists that differ in length: nothing is changed. */
static void refuses_counts_of_tags(int width, size_t first, size_t second) {
  for (int n = 0; n < MACS; n++)
    for (int each = 0; each < 2; each++) {
      CHECK(tagged(width, n, each, 1, first, first, put(plain, 0), second) == CUKVASHE_ERR_COUNTS && is(plain, 0));
      if (each) CHECK(tagged(width, n, each, 1, first, second, buffer, second) == CUKVASHE_ERR_COUNTS && is(plain, 0));
    }
}

/* Tags, those that are expected, and answers: of three lists one is longer. */
static void refuses_counts_of_answers(size_t first, size_t second) {
  static bool right[LONGEST];
  put_expected(first > second ? first : second);
  for (size_t i = 0; i < LONGEST; i++) right[i] = i % 3 == 1;
  CHECK(cukvashe_internal_compare_tags(tags, first, plain, second, right, second) == CUKVASHE_ERR_COUNTS);
  CHECK(cukvashe_internal_compare_tags(tags, second, plain, first, right, second) == CUKVASHE_ERR_COUNTS);
  CHECK(cukvashe_internal_compare_tags(tags, second, plain, second, right, first) == CUKVASHE_ERR_COUNTS);
  for (size_t i = 0; i < LONGEST; i++) CHECK(right[i] == (i % 3 == 1));
}

static void refuses_counts(size_t first, size_t second) {
  refuses_counts_of_answers(first, second);
  for (int width = 0; width < count_of_paths() - 1; width++) {
    for (int n = 0; n < CIPHERS; n++) {
      const size_t size = ciphers[n].key_size;
      for (int call = 0; call < 2; call++) {
        int status = each_by[width][call](size, keys, size * first, put(plain, 8 * second), second);
        CHECK(status == CUKVASHE_ERR_COUNTS && is(plain, 8 * second));
      }
      int status = values_by[width](size, keys, size * first, put(plain, 3 * second), second);
      CHECK(status == CUKVASHE_ERR_COUNTS && is(plain, 3 * second));
    }
    CHECK(transactions_by[width](keys, plain, first, put(keys, 16 * second), second) == CUKVASHE_ERR_COUNTS);
    CHECK(is(keys, 16 * second));
    refuses_counts_of_tags(width, first, second);
  }
}

static void by_hidden_calls(void) {
  for (int n = 0; n < CIPHERS; n++)
    for (int width = 0; width < count_of_paths() - 1; width++)
      for (int i = 0; i < COUNTS; i++) {
        answers_by_width(width, n, counts[i]);
        values_by_width(width, n, counts[i]);
        records_by_width(width, n, counts[i]);
      }
  for (int width = 0; width < count_of_paths() - 1; width++)
    for (int i = 0; i < COUNTS; i++) {
      transactions_by_width(width, counts[i]);
      tags_by_width(width, counts[i]);
    }
  for (size_t more = 1; more < 3; more++)
    for (int i = 0; i < COUNTS && counts[i] + more < LONGEST; i++) {
      refuses_counts(counts[i], counts[i] + more);
      refuses_counts(counts[i] + more, counts[i]);
    }
}
#else
static void by_hidden_calls(void) {}
#endif

int main(void) {
  for (int i = 0; i < COUNTS; i++) {
    for (int n = 0; n < CIPHERS; n++) {
      answers_each(n, counts[i]);
      refuses_each(n, counts[i]);
      answers_records(n, counts[i]);
      refuses_records(n, counts[i]);
      refuses_vectors(n, counts[i]);
    }
    answers_transactions(counts[i]);
    answers_macs(counts[i]);
    verifies_tags(counts[i]);
  }
  answers_known_blocks();
  answers_known_transactions();
  nothing_of_nothing();
  by_hidden_calls();
  printf("lists: keys for each block, check values, transactions, records, MACs and their verification, in lists of %d lengths, by %d code "
         "paths\n",
         (int)COUNTS, count_of_paths());
  return 0;
}
