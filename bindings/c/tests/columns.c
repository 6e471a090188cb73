/* Columns: what MariaDB 10.11 and PostgreSQL 15 with pgcrypto encrypted, read and written, strings of Jasypt 1.9.3 and its keys; a column of
   values of all lengths, read in one call as each is by itself, and one of texts, written and read back; what can't be read, at its place;
   and what is refused, with nothing written. */
#include "digits.h"

enum { MOST = 40, VALUES = 3000, PAINT = 0x77 };

/* `des_encrypt(TEXT, KEY)` of MariaDB, and `des_encrypt(TEXT, NUMBER)` if its key file has the key at that number. */
static const struct {
  const char *key;
  size_t number;
  const char *text, *value;
} mariadb[] = {
    {"secret key", 127, "4111111111111111", "ff761ce2f3fceddd8a59a88a58a8c312f3722aed0d3ffc72c8"},
    {"secret key", 127, "12345678", "ffa3b355af8c509a975b3c4bb286b70d4c"},
    {"secret key", 127, "", ""},
    {"k", 127, "abcdefg", "fff0f19fad283c9714"},
    {"k", 127, "abcdefgh", "ff0cec8a9d3373ae6bfa4d2eb4055de21b"},
    {"k", 127, "xxxxxxxxxxxxxxxxxxxx", "ff02731a6a0a4cf8035bdf098ebb4fe2938bed7dc10b8aabdc"},
    {"another key", 1, "abc", "81fdbfe045c327a5f2"},
    {"key_zero", 0, "abc", "809370f9100e6cabca"},
};

/* Files of keys, as MariaDB reads them, and whether `des_encrypt('abc', NUMBER)` gives the value of that number. */
#define ZERO "809370f9100e6cabca"
#define ONE "81fdbfe045c327a5f2"
static const struct {
  const char *file, *value;
  int status;
} files[] = {
    {"0 key_zero\n1 another key\n", ZERO, CUKVASHE_OK},
    {"0 key_zero\n1 another key\n", ONE, CUKVASHE_OK},
    {"1another key\n", ONE, CUKVASHE_OK},
    {"# keys\n\n1\t\v\f\xa0 another key \x01\x9d\x7f\r\n", ONE, CUKVASHE_OK},
    {"1 a\n1 another key\n1\n1 \t \n", ONE, CUKVASHE_OK},
    {"1 another key\n1 a\n", ONE, CUKVASHE_ERR_PADDING},
    {"0 another key\n1 key_zero\n", ONE, CUKVASHE_ERR_PADDING},
    {"0 key_zero\n1 another key", ONE, CUKVASHE_ERR_KEY_NUMBER},
    {" 1 another key\n", ONE, CUKVASHE_ERR_KEY_NUMBER},
    {"#1 another key\n", ONE, CUKVASHE_ERR_KEY_NUMBER},
    {"2 another key\n", ONE, CUKVASHE_ERR_KEY_NUMBER},
    {"", ONE, CUKVASHE_ERR_KEY_NUMBER},
    {"0 a\n1 a\n9 a\n", "fff0f19fad283c9714", CUKVASHE_ERR_KEY_NUMBER},
    {"0 a\n1 a\n9 a\n", "8a" "f0f19fad283c9714", CUKVASHE_ERR_KEY_NUMBER},
    {"1 another key\n", "01fdbfe045c327a5f2", CUKVASHE_ERR_NOT_ENCRYPTED},
    {"", "ff00", CUKVASHE_ERR_NOT_ENCRYPTED},
};

/* `encrypt(TEXT, KEY, ALGORITHM)` of pgcrypto, and `encrypt_iv` with a vector. */
static const struct {
  const char *algorithm, *key, *iv, *text, *value;
} pgcrypto[] = {
    {"3des", "0123456789abcdef01234567", "", "hello world", "5548aa9afc0bf656bae4a844accf0674"},
    {"3DES-ECB", "0123456789abcdef01234567", "", "hello world", "5548aa9afc0bf6569d9d5e0d89ab4535"},
    {"3des-cbc/pad:pkcs", "0123456789abcdef", "", "hello world", "5edd30c020f618ff180b53afd62efef9"},
    {"3des", "short key", "", "hello world", "ce1252c01a55ff49ca7c3db7617f8e96"},
    {"3des", "kkkkkkkkkkkkkkkkkkkkkkkkkkkkkk", "", "hello world", "14f1dc714b9a4453af5180b08e561e04"},
    {"3des", "0123456789abcdef01234567", "12345678", "hello world", "90aaa5a2eb3a74905ebbd8bc8355164f"},
    {"des", "01234567", "", "hello world", "9a02b43b244034e9c9c44c1d26b778af"},
    {"des-cbc", "123456789", "", "hello world", "28dba02eb5f6dd4778407276c7967fb2"},
    {"des", "1234", "", "hello world", "a158a37495c57fa513fb8177bff54c46"},
    {"des", "01234567", "1234", "hello world", "71696c4b5f4e3176f806b75d4508f5a9"},
    {"des-ecb/pad:none", "01234567", "", "hello wo", "9a02b43b244034e9"},
    {"des", "01234567", "", "", "08bb5db6b37c06d7"},
};

/* What Jasypt encrypted under the password `secret`, by 1,000 iterations: a salt of 8 bytes, and then "jdbc password 1". */
static const struct {
  const char *algorithm;
  int is_des;
  const char *value;
} jasypt[] = {
    {"PBEWithMD5AndDES", 1, "5c52371a4387baf694ade1cf64b0059fecf1f35fa913e8cd"},
    {"PBEWithMD5AndTripleDES", 0, "fb7e11044d3b2ed10df365bb7fa516687b6d7effe419226f"},
    {"pbewithsha1anddesede", 0, "00ced7c2c3b3c5f9450cc36f093266e5c8d9b8b65afc611f"},
};

/* Strings that Jasypt wrote under the password `secret`, some as settings have them. */
static const struct {
  const char *algorithm;
  size_t iterations;
  const char *value, *text;
} strings[] = {
    {"PBEWithMD5AndDES", 1000, "XFI3GkOHuvaUreHPZLAFn+zx81+pE+jN", "jdbc password 1"},
    {"PBEWithMD5AndDES", 1000, "ENC(E8KS1uHg38AwBs7/kCY4gRlOIlkMWvhQuAAdn411wkE=)", "sixteen bytes ok"},
    {"PBEWithMD5AndTripleDES", 1000, "\tENC(+34RBE07LtEN82W7f6UWaHttfv/kGSJv)\n", "jdbc password 1"},
    {"PBEWithMD5AndTripleDES", 2, "CS2Fej3yp1hhDZ58maRj1Q==", ""},
    {"pbewithsha1anddesede", 1000, "ENC( AM7XwsOzxflFDMNvCTJm\r\n 5cjZ uLZa/GEf )", "jdbc password 1"},
    {"PBEWithSHA1AndDESede", 3, "UoVwmpBYVVj69/ioeARjnQ==", "abc"},
};

/* Columns that Jasypt wrote, string by string, from these salts. */
static const struct {
  const char *algorithm;
  size_t iterations;
  const char *salts, *texts;
  size_t lengths[2], count;
  const char *values;
} written[] = {
    {"PBEWithMD5AndDES", 1000, "5c52371a4387baf613c292d6e1e0dfc0", "jdbc password 1sixteen bytes ok", {15, 16}, 2,
     "XFI3GkOHuvaUreHPZLAFn+zx81+pE+jNE8KS1uHg38AwBs7/kCY4gRlOIlkMWvhQuAAdn411wkE="},
    {"PBEWithMD5AndTripleDES", 1000, "fb7e11044d3b2ed1", "jdbc password 1", {15}, 1, "+34RBE07LtEN82W7f6UWaHttfv/kGSJv"},
    {"PBEWithMD5AndTripleDES", 2, "092d857a3df2a758", "", {0}, 1, "CS2Fej3yp1hhDZ58maRj1Q=="},
    {"pbewithsha1anddesede", 1000, "00ced7c2c3b3c5f9", "jdbc password 1", {15}, 1, "AM7XwsOzxflFDMNvCTJm5cjZuLZa/GEf"},
    {"PBEWithSHA1AndDESede", 3, "5285709a90585558", "abc", {3}, 1, "UoVwmpBYVVj69/ioeARjnQ=="},
};

/* What one call gives of one value. */
static void reads(int status, const char *text, const uint8_t *texts, size_t text_length, int of_value, size_t length) {
  CHECK(status == CUKVASHE_OK && of_value == CUKVASHE_OK && text_length == strlen(text));
  CHECK(memcmp(texts, text, text_length) == 0);
  for (size_t i = text_length; i < length; i++) CHECK(texts[i] == 0);
}

static void reads_known_values(void) {
  for (size_t i = 0; i < sizeof mariadb / sizeof *mariadb; i++) {
    uint8_t value[MOST], texts[MOST];
    size_t length = strlen(mariadb[i].value) / 2, text_length;
    int of_value = PAINT, status;
    memset(texts, PAINT, sizeof texts);
    put(value, mariadb[i].value);
    status = cukvashe_mysql_decrypt_values((const uint8_t *)mariadb[i].key, strlen(mariadb[i].key), value, length, &length, 1, texts,
                                           &text_length, &of_value);
    reads(status, mariadb[i].text, texts, text_length, of_value, length);
  }
  for (size_t i = 0; i < sizeof pgcrypto / sizeof *pgcrypto; i++) {
    uint8_t value[MOST], texts[MOST];
    size_t length = strlen(pgcrypto[i].value) / 2, text_length;
    int of_value = PAINT, status;
    memset(texts, PAINT, sizeof texts);
    put(value, pgcrypto[i].value);
    status = cukvashe_pgcrypto_decrypt_values(TEXT(pgcrypto[i].algorithm), (const uint8_t *)pgcrypto[i].key, strlen(pgcrypto[i].key),
                                              (const uint8_t *)pgcrypto[i].iv, strlen(pgcrypto[i].iv), value, length, &length, 1, texts,
                                              &text_length, &of_value);
    reads(status, pgcrypto[i].text, texts, text_length, of_value, length);
  }
}

static int read_jasypt(const char *algorithm, size_t iterations, const void *bytes, size_t length, const size_t *sizes, size_t count,
                       uint8_t *out, size_t *out_lengths, int *out_statuses) {
  return cukvashe_jasypt_decrypt_values(TEXT(algorithm), iterations, (const uint8_t *)"secret", 6, bytes, length, sizes, count, out,
                                        out_lengths, out_statuses);
}

static void reads_strings_of_jasypt(void) {
  static const char column[] = "XFI3GkOHuvaUreHPZLAFn+zx81+pE+jN" /* its text */
                               "XFI3GkOHug=="                     /* a part of its salt */
                               "XFI3GkOHuvY="                     /* its salt alone */
                               "XFI3GkOHuvY=XFI3"                 /* padding within */
                               "XFI3GkOHuvaUreHPZLAFnA=="         /* another block behind the salt */
                               "XFI3GkOHuvaUreHPZLAFn+zx"         /* no whole blocks */
                               "XFI3GkOHuvaUreHPZLAFn"            /* a group cut off */
                               "XFI3GkOHuvaUreHPZLAFn+zx81+pE+jM" /* another last bit */
                               "(XFI3GkOHuvZ)";                   /* no ENC */
  static const size_t sizes[] = {32, 12, 12, 16, 24, 24, 21, 32, 0, 13};
  static const int expected[] = {CUKVASHE_OK,         CUKVASHE_ERR_SALT_LENGTH, CUKVASHE_ERR_BLOCKS,  CUKVASHE_ERR_BASE64,
                                 CUKVASHE_ERR_PADDING, CUKVASHE_ERR_BLOCKS,      CUKVASHE_ERR_BASE64, CUKVASHE_ERR_PADDING,
                                 CUKVASHE_ERR_SALT_LENGTH, CUKVASHE_ERR_BASE64};
  enum { COUNT = sizeof sizes / sizeof *sizes };
  uint8_t read[sizeof column];
  size_t read_lengths[COUNT];
  int of_values[COUNT];
  for (size_t i = 0; i < sizeof strings / sizeof *strings; i++) {
    uint8_t one[80];
    size_t length = strlen(strings[i].value), text_length;
    int of_value = PAINT, status;
    memset(one, PAINT, sizeof one);
    status = read_jasypt(strings[i].algorithm, strings[i].iterations, strings[i].value, length, &length, 1, one, &text_length, &of_value);
    reads(status, strings[i].text, one, text_length, of_value, length);
    CHECK(one[length] == PAINT);
  }
  memset(read, PAINT, sizeof read);
  CHECK(read_jasypt("PBEWithMD5AndDES", 1000, column, sizeof column - 1, sizes, COUNT, read, read_lengths, of_values) ==
        CUKVASHE_ERR_VALUES);
  for (size_t k = 0; k < COUNT; k++) CHECK(of_values[k] == expected[k] && read_lengths[k] == (k == 0 ? 15 : 0));
  CHECK(memcmp(read, "jdbc password 1", 15) == 0 && read[sizeof column - 1] == PAINT);
  for (size_t i = 15; i < sizeof column - 1; i++) CHECK(read[i] == 0);
}

/* What one call writes, as long as the known value. */
static void writes(int status, const char *known, const uint8_t *bytes) {
  uint8_t value[64];
  size_t length = strlen(known) / 2;
  put(value, known);
  CHECK(status == CUKVASHE_OK && memcmp(bytes, value, length) == 0 && bytes[length] == PAINT);
}

static void writes_known_values(void) {
  for (size_t i = 0; i < sizeof mariadb / sizeof *mariadb; i++) {
    uint8_t bytes[MOST];
    const size_t length = strlen(mariadb[i].text);
    memset(bytes, PAINT, sizeof bytes);
    writes(cukvashe_mysql_encrypt_values((const uint8_t *)mariadb[i].key, strlen(mariadb[i].key), mariadb[i].number,
                                         (const uint8_t *)mariadb[i].text, length, &length, 1, bytes, strlen(mariadb[i].value) / 2),
           mariadb[i].value, bytes);
  }
  for (size_t i = 0; i < sizeof pgcrypto / sizeof *pgcrypto; i++) {
    uint8_t bytes[MOST];
    const size_t length = strlen(pgcrypto[i].text);
    memset(bytes, PAINT, sizeof bytes);
    writes(cukvashe_pgcrypto_encrypt_values(TEXT(pgcrypto[i].algorithm), (const uint8_t *)pgcrypto[i].key, strlen(pgcrypto[i].key),
                                            (const uint8_t *)pgcrypto[i].iv, strlen(pgcrypto[i].iv), (const uint8_t *)pgcrypto[i].text,
                                            length, &length, 1, bytes, strlen(pgcrypto[i].value) / 2),
           pgcrypto[i].value, bytes);
  }
}

static int write_jasypt(const char *algorithm, size_t iterations, const uint8_t *salts, size_t salts_length, const void *bytes, size_t length,
                        const size_t *sizes, size_t count, void *out, size_t out_length) {
  return cukvashe_jasypt_encrypt_values(TEXT(algorithm), iterations, (const uint8_t *)"secret", 6, salts, salts_length, bytes, length, sizes,
                                        count, out, out_length);
}

static void writes_strings_of_jasypt(void) {
  for (size_t i = 0; i < sizeof written / sizeof *written; i++) {
    uint8_t salts[16], bytes[2 * MOST];
    const size_t length = strlen(written[i].values);
    put(salts, written[i].salts);
    memset(bytes, PAINT, sizeof bytes);
    CHECK(write_jasypt(written[i].algorithm, written[i].iterations, salts, 8 * written[i].count, written[i].texts, strlen(written[i].texts),
                       written[i].lengths, written[i].count, bytes, length) == CUKVASHE_OK);
    CHECK(memcmp(bytes, written[i].values, length) == 0 && bytes[length] == PAINT);
  }
}

/* A column of what MariaDB wrote under one key: each value by CBC from zeros, whatever stands before it. */
static void writes_a_known_column(void) {
  static const size_t sizes[] = {7, 0, 8, 20};
  uint8_t bytes[64];
  memset(bytes, PAINT, sizeof bytes);
  writes(cukvashe_mysql_encrypt_values((const uint8_t *)"k", 1, 127, (const uint8_t *)"abcdefgabcdefghxxxxxxxxxxxxxxxxxxxx", 35, sizes, 4, bytes,
                                       51),
         "fff0f19fad283c9714"
         "ff0cec8a9d3373ae6bfa4d2eb4055de21b"
         "ff02731a6a0a4cf8035bdf098ebb4fe2938bed7dc10b8aabdc",
         bytes);
}

static int read_by_file(const char *file, size_t file_length, const char *digits, uint8_t *texts, size_t *text_length, int *of_value) {
  uint8_t value[MOST];
  const size_t length = strlen(digits) / 2;
  put(value, digits);
  memset(texts, PAINT, MOST);
  return cukvashe_mysql_decrypt_values_by_file((const uint8_t *)file, file_length, value, length, &length, 1, texts, text_length, of_value);
}

/* Values under the keys of files; and a line that is longer than the 1,022 bytes that the server reads of it: what follows is a line. */
static void reads_key_files(void) {
  static const char last[] = "1 another key\n";
  char file[2 * 1022];
  uint8_t texts[MOST];
  size_t text_length;
  int of_value, status;
  for (size_t i = 0; i < sizeof files / sizeof *files; i++) {
    status = read_by_file(files[i].file, strlen(files[i].file), files[i].value, texts, &text_length, &of_value);
    if (files[i].status == CUKVASHE_OK) {
      reads(status, "abc", texts, text_length, of_value, 9);
      continue;
    }
    CHECK(status == CUKVASHE_ERR_VALUES && of_value == files[i].status && text_length == 0);
    for (size_t k = 0; k < strlen(files[i].value) / 2; k++) CHECK(texts[k] == 0);
  }
  for (size_t length = 1021; length <= 1023; length++) {
    memset(file, 'x', length);
    memcpy(file, "0 ", 2);
    memcpy(file + length, last, sizeof last - 1);
    status = read_by_file(file, length + sizeof last - 1, ONE, texts, &text_length, &of_value);
    CHECK(of_value == (length == 1022 ? CUKVASHE_OK : CUKVASHE_ERR_KEY_NUMBER));
    CHECK(status == (length == 1022 ? CUKVASHE_OK : CUKVASHE_ERR_VALUES));
  }
  status = cukvashe_mysql_decrypt_values_by_file(NULL, 0, NULL, 0, NULL, 0, NULL, NULL, NULL);
  CHECK(status == CUKVASHE_OK);
}

static void derives_keys(void) {
  for (size_t i = 0; i < sizeof jasypt / sizeof *jasypt; i++) {
    uint8_t value[24], key[32], *data = value + 8;
    size_t key_size = jasypt[i].is_des ? 8 : 24, length;
    put(value, jasypt[i].value);
    CHECK(cukvashe_pbe_key(TEXT(jasypt[i].algorithm), 1000, (const uint8_t *)"secret", 6, value, 8, key, key_size + 8) == CUKVASHE_OK);
    if (jasypt[i].is_des) {
      cukvashe_des context;
      CHECK(cukvashe_des_init(&context, key, 8) == CUKVASHE_OK);
      CHECK(cukvashe_des_decrypt_cbc(&context, key + 8, data, 16) == CUKVASHE_OK);
    } else {
      cukvashe_tdes_ede3 context;
      CHECK(cukvashe_tdes_ede3_init(&context, key, 24) == CUKVASHE_OK);
      CHECK(cukvashe_tdes_ede3_decrypt_cbc(&context, key + 24, data, 16) == CUKVASHE_OK);
    }
    CHECK(cukvashe_unpad(data, 16, CUKVASHE_PKCS7, &length) == CUKVASHE_OK);
    CHECK(length == 15 && memcmp(data, "jdbc password 1", length) == 0);
  }
}

/* A column of random bytes, of which the server would take some for ciphertext, some with a wrong last byte, and some for none. */
static uint8_t values[VALUES * MOST], texts[VALUES * MOST], text[MOST];

static size_t lengths[VALUES], text_lengths[VALUES];

static int statuses[VALUES];

static int read_mysql(const uint8_t *bytes, size_t length, const size_t *sizes, size_t count, uint8_t *out, size_t *out_lengths,
                      int *out_statuses) {
  return cukvashe_mysql_decrypt_values((const uint8_t *)"secret key", 10, bytes, length, sizes, count, out, out_lengths, out_statuses);
}

/* Under eight of ten keys, so that values beside each other are under different ones, and some under none. */
static int read_mysql_by_file(const uint8_t *bytes, size_t length, const size_t *sizes, size_t count, uint8_t *out, size_t *out_lengths,
                              int *out_statuses) {
  static const char keys[] = "0 a\n1 b\n2 c\n3 d\n4 e\n5 f\n6 g\n9 h\n";
  return cukvashe_mysql_decrypt_values_by_file((const uint8_t *)keys, sizeof keys - 1, bytes, length, sizes, count, out, out_lengths,
                                               out_statuses);
}

static int read_pgcrypto(const uint8_t *bytes, size_t length, const size_t *sizes, size_t count, uint8_t *out, size_t *out_lengths,
                         int *out_statuses) {
  return cukvashe_pgcrypto_decrypt_values(TEXT("des"), (const uint8_t *)"01234567", 8, (const uint8_t *)"vector", 6, bytes, length, sizes,
                                          count, out, out_lengths, out_statuses);
}

typedef int reader(const uint8_t *, size_t, const size_t *, size_t, uint8_t *, size_t *, int *);

/* Each value is read in a column as by itself, whatever stands beside it, and what can't be read leaves the others as they are. */
static void reads_each_by_itself(reader *read, size_t past, uint8_t mask) {
  static const size_t counts[] = {0, 1, 2, 31, 200, VALUES};
  for (size_t n = 0; n < sizeof counts / sizeof *counts; n++) {
    size_t length = 0, place = 0, unread = 0;
    int status;
    for (size_t k = 0; k < counts[n]; k++) length += lengths[k] = k % 7 == 0 ? k % MOST : 8 * (k % 4) + past;
    random_bytes(values, length);
    for (size_t k = 0; k < counts[n]; place += lengths[k++])
      if (lengths[k] != 0 && k % 5 != 0) values[place] = (uint8_t)((values[place] & mask) | 0x80);
    memset(texts, PAINT, sizeof texts);
    status = read(values, length, lengths, counts[n], texts, text_lengths, statuses);
    place = 0;
    for (size_t k = 0; k < counts[n]; place += lengths[k++]) {
      size_t text_length;
      int of_value, of_call = read(values + place, lengths[k], &lengths[k], 1, text, &text_length, &of_value);
      CHECK(of_call == (of_value == CUKVASHE_OK ? CUKVASHE_OK : CUKVASHE_ERR_VALUES));
      CHECK(of_value == statuses[k] && text_length == text_lengths[k]);
      CHECK(memcmp(text, texts + place, lengths[k]) == 0);
      unread += of_value != CUKVASHE_OK;
    }
    CHECK(status == (unread == 0 ? CUKVASHE_OK : CUKVASHE_ERR_VALUES));
    CHECK(texts[length] == PAINT);
  }
}

static int write_mysql(const uint8_t *bytes, size_t length, const size_t *sizes, size_t count, uint8_t *out, size_t out_length) {
  return cukvashe_mysql_encrypt_values((const uint8_t *)"secret key", 10, 127, bytes, length, sizes, count, out, out_length);
}

static int write_pgcrypto(const uint8_t *bytes, size_t length, const size_t *sizes, size_t count, uint8_t *out, size_t out_length) {
  return cukvashe_pgcrypto_encrypt_values(TEXT("des"), (const uint8_t *)"01234567", 8, (const uint8_t *)"vector", 6, bytes, length, sizes,
                                          count, out, out_length);
}

/* As `read_pgcrypto`, each block by itself. */
static int read_blocks(const uint8_t *bytes, size_t length, const size_t *sizes, size_t count, uint8_t *out, size_t *out_lengths,
                       int *out_statuses) {
  return cukvashe_pgcrypto_decrypt_values(TEXT("3des-ecb/pad:none"), (const uint8_t *)"0123456789", 10, NULL, 0, bytes, length, sizes, count,
                                          out, out_lengths, out_statuses);
}

static int write_blocks(const uint8_t *bytes, size_t length, const size_t *sizes, size_t count, uint8_t *out, size_t out_length) {
  return cukvashe_pgcrypto_encrypt_values(TEXT("3des-ecb/pad:none"), (const uint8_t *)"0123456789", 10, NULL, 0, bytes, length, sizes, count,
                                          out, out_length);
}

/* Strings of Jasypt, whose salts are alike here. */
static uint8_t salts[8 * VALUES];

static int read_strings(const uint8_t *bytes, size_t length, const size_t *sizes, size_t count, uint8_t *out, size_t *out_lengths,
                        int *out_statuses) {
  return read_jasypt("PBEWithMD5AndTripleDES", 1, bytes, length, sizes, count, out, out_lengths, out_statuses);
}

static int write_strings(const uint8_t *bytes, size_t length, const size_t *sizes, size_t count, uint8_t *out, size_t out_length) {
  return write_jasypt("PBEWithMD5AndTripleDES", 1, salts, 8 * count, bytes, length, sizes, count, out, out_length);
}

typedef int writer(const uint8_t *, size_t, const size_t *, size_t, uint8_t *, size_t);

/* How many bytes the value of a text has. */
typedef size_t sizer(size_t);

static size_t mysql_size(size_t length) { return length == 0 ? 0 : (length / 8 + 1) * 8 + 1; }

static size_t pgcrypto_size(size_t length) { return (length / 8 + 1) * 8; }

static size_t blocks_size(size_t length) { return length; }

static size_t string_size(size_t length) { return ((length / 8 + 2) * 8 + 2) / 3 * 4; }

/* Each text of a column, of whole units, is written as by itself, and read back. Two texts have more bytes than the library takes at a time. */
static void writes_each_by_itself(writer *write, reader *read, sizer *size, size_t unit) {
  static const size_t counts[] = {0, 1, 2, 31, 200, VALUES};
  static uint8_t column[2 * VALUES * MOST], back[2 * VALUES * MOST], alone[13000];
  static size_t sizes[VALUES];
  for (size_t n = 0; n < sizeof counts / sizeof *counts; n++) {
    const size_t count = counts[n];
    size_t length = 0, capacity = 0, from = 0, place = 0;
    for (size_t k = 0; k < count; k++) {
      lengths[k] = k == 20 ? 9000 : k == 30 ? 8192 : k % 7 == 0 ? 0 : k % 31 / unit * unit;
      length += lengths[k];
      capacity += sizes[k] = size(lengths[k]);
    }
    random_bytes(values, length);
    memset(column, PAINT, sizeof column);
    CHECK(write(values, length, lengths, count, column, capacity) == CUKVASHE_OK);
    CHECK(column[capacity] == PAINT);
    for (size_t k = 0; k < count; from += lengths[k], place += sizes[k++]) {
      CHECK(write(values + from, lengths[k], &lengths[k], 1, alone, sizes[k]) == CUKVASHE_OK);
      CHECK(memcmp(alone, column + place, sizes[k]) == 0);
    }
    CHECK(read(column, capacity, sizes, count, back, text_lengths, statuses) == CUKVASHE_OK);
    from = place = 0;
    for (size_t k = 0; k < count; from += lengths[k], place += sizes[k++]) {
      CHECK(text_lengths[k] == lengths[k]);
      CHECK(memcmp(back + place, values + from, lengths[k]) == 0);
    }
  }
}

/* The buffer stays as it is. */
static void stays(int status, int expected) {
  CHECK(status == expected);
  for (size_t i = 0; i < sizeof text; i++) CHECK(text[i] == PAINT);
}

static void refuses_to_write(void) {
  static const size_t two[] = {9, 8};
  const uint8_t *key = (const uint8_t *)"01234567";
  memset(text, PAINT, sizeof text);
  for (size_t number = 10; number <= 128; number += number == 10 ? 116 : 2)
    stays(cukvashe_mysql_encrypt_values(key, 8, number, values, 17, two, 2, text, 34), CUKVASHE_ERR_KEY_NUMBER);
  stays(cukvashe_mysql_encrypt_values(key, 8, (size_t)-1, values, 17, two, 2, text, 34), CUKVASHE_ERR_KEY_NUMBER);
  stays(write_mysql(values, 16, two, 2, text, 34), CUKVASHE_ERR_COUNTS);
  stays(write_mysql(values, 18, two, 2, text, 34), CUKVASHE_ERR_COUNTS);
  stays(write_mysql(values, 17, two, 2, text, 33), CUKVASHE_ERR_COUNTS);
  stays(write_mysql(values, 17, two, 2, text, 35), CUKVASHE_ERR_COUNTS);
  stays(write_pgcrypto(values, 16, two, 2, text, 32), CUKVASHE_ERR_COUNTS);
  stays(write_pgcrypto(values, 17, two, 2, text, 31), CUKVASHE_ERR_COUNTS);
  stays(write_pgcrypto(values, 17, two, 2, text, 33), CUKVASHE_ERR_COUNTS);
  stays(write_blocks(values, 17, two, 2, text, 17), CUKVASHE_ERR_BLOCKS);
  stays(cukvashe_pgcrypto_encrypt_values(TEXT("aes"), key, 8, key, 8, values, 17, two, 2, text, 32), CUKVASHE_ERR_ALGORITHM);
  stays(write_jasypt("PBEWithMD5AndRC2", 0, salts, 8, values, 9, two, 1, text, 33), CUKVASHE_ERR_ALGORITHM);
  stays(write_jasypt("PBEWithMD5AndDES", 0, salts, 8, values, 9, two, 1, text, 33), CUKVASHE_ERR_ITERATIONS);
  stays(write_jasypt("PBEWithMD5AndDES", (size_t)1 << 32, salts, 8, values, 9, two, 1, text, 32), CUKVASHE_ERR_ITERATIONS);
  for (size_t off = 0; off < 3; off += 2) {
    stays(write_jasypt("PBEWithMD5AndDES", 1, salts, 7 + off, values, 9, two, 1, text, 32), CUKVASHE_ERR_COUNTS);
    stays(write_jasypt("PBEWithMD5AndDES", 1, salts, 8, values, 8 + off, two, 1, text, 32), CUKVASHE_ERR_COUNTS);
    stays(write_jasypt("PBEWithMD5AndDES", 1, salts, 8, values, 9, two, 1, text, 31 + off), CUKVASHE_ERR_COUNTS);
  }
}

/* An error of the arguments: nothing is written. */
static void refuses(void) {
  static const size_t three[] = {9, 9, 9};
  uint8_t key[32];
  int status;
  memset(texts, PAINT, sizeof texts);
  memset(statuses, PAINT, sizeof statuses);
  memset(text_lengths, PAINT, sizeof text_lengths);
  memset(key, PAINT, sizeof key);
  CHECK(read_mysql(values, 26, three, 3, texts, text_lengths, statuses) == CUKVASHE_ERR_COUNTS);
  CHECK(read_mysql(values, 28, three, 3, texts, text_lengths, statuses) == CUKVASHE_ERR_COUNTS);
  CHECK(read_mysql_by_file(values, 26, three, 3, texts, text_lengths, statuses) == CUKVASHE_ERR_COUNTS);
  CHECK(read_mysql_by_file(values, 28, three, 3, texts, text_lengths, statuses) == CUKVASHE_ERR_COUNTS);
  CHECK(read_pgcrypto(values, 26, three, 3, texts, text_lengths, statuses) == CUKVASHE_ERR_COUNTS);
  status = cukvashe_pgcrypto_decrypt_values(TEXT("aes"), key, 8, key, 8, values, 27, three, 3, texts, text_lengths, statuses);
  CHECK(status == CUKVASHE_ERR_ALGORITHM);
  CHECK(read_jasypt("PBEWithMD5AndRC2", 0, values, 26, three, 3, texts, text_lengths, statuses) == CUKVASHE_ERR_ALGORITHM);
  CHECK(read_jasypt("PBEWithMD5AndDES", 0, values, 26, three, 3, texts, text_lengths, statuses) == CUKVASHE_ERR_ITERATIONS);
  CHECK(read_jasypt("PBEWithMD5AndDES", (size_t)1 << 32, values, 27, three, 3, texts, text_lengths, statuses) == CUKVASHE_ERR_ITERATIONS);
  CHECK(read_jasypt("PBEWithMD5AndDES", 1, values, 26, three, 3, texts, text_lengths, statuses) == CUKVASHE_ERR_COUNTS);
  CHECK(cukvashe_pbe_key(TEXT("PBEWithMD5AndRC2"), 1, key, 8, key, 8, key, 16) == CUKVASHE_ERR_ALGORITHM);
  CHECK(cukvashe_pbe_key(TEXT("PBEWithMD5AndDES"), 1, key, 8, key, 8, key, 32) == CUKVASHE_ERR_KEY_LENGTH);
  CHECK(cukvashe_pbe_key(TEXT("PBEWithMD5AndDES"), 0, key, 8, key, 8, key, 16) == CUKVASHE_ERR_ITERATIONS);
  CHECK(cukvashe_pbe_key(TEXT("PBEWithMD5AndTripleDES"), 1, key, 8, key, 7, key, 32) == CUKVASHE_ERR_SALT_LENGTH);
  for (size_t i = 0; i < sizeof key; i++) CHECK(key[i] == PAINT);
  for (size_t i = 0; i < 27; i++) CHECK(texts[i] == PAINT);
  for (size_t k = 0; k < 3; k++) CHECK(statuses[k] == (int)0x77777777 && memcmp(&text_lengths[k], texts, sizeof *text_lengths) == 0);
}

int main(void) {
  reads_known_values();
  reads_key_files();
  reads_strings_of_jasypt();
  writes_known_values();
  writes_strings_of_jasypt();
  writes_a_known_column();
  derives_keys();
  reads_each_by_itself(read_mysql, 1, 0xff);
  reads_each_by_itself(read_mysql_by_file, 1, 0x8f);
  reads_each_by_itself(read_pgcrypto, 0, 0xff);
  writes_each_by_itself(write_mysql, read_mysql, mysql_size, 1);
  writes_each_by_itself(write_pgcrypto, read_pgcrypto, pgcrypto_size, 1);
  writes_each_by_itself(write_blocks, read_blocks, blocks_size, 8);
  writes_each_by_itself(write_strings, read_strings, string_size, 1);
  refuses();
  refuses_to_write();
  printf("columns: %zu values of MariaDB, %zu of pgcrypto, %zu strings and %zu keys of Jasypt; columns of up to %d values\n",
         sizeof mariadb / sizeof *mariadb, sizeof pgcrypto / sizeof *pgcrypto, sizeof strings / sizeof *strings,
         sizeof jasypt / sizeof *jasypt, VALUES);
  return 0;
}
