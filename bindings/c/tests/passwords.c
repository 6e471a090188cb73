/* What `openssl enc` wrote, into buffers of its size, and each fault by the least wrong input; known calls are in known.c. With names of
   files, `passwords CIPHER HASH ITERATIONS PASSWORD FILE PLAIN`, it opens the file, and compares. */
#include "digits.h"

static const char salt_digits[] = "0123456789abcdef";

typedef int open_salted(int hash, size_t iterations, const uint8_t *password, size_t password_length, const uint8_t *bytes,
                        size_t length, uint8_t *plain, size_t capacity, size_t *plain_length);

/* Files of `openssl enc -CIPHER -S 0123456789ABCDEF -pass pass:secret`, whose beginning Salted__ and the salt is put before them where
   OpenSSL leaves it out, of the first bytes of the text. */
static const char text[] = "Now is the time for all good men to come to the aid";

static const struct {
  open_salted *open;
  int hash;
  size_t iterations, length;
  const char *encrypted;
} files[] = {
    {cukvashe_des_open_salted, CUKVASHE_MD5, 0, 0, "f495a996951221e7"},
    {cukvashe_des_open_salted, CUKVASHE_SHA1, 0, 7, "05d041900411a87f"},
    {cukvashe_des_open_salted, CUKVASHE_SHA256, 0, 8, "6e025eb2d48753b41ed1f6bd139057c3"},
    {cukvashe_des_open_salted, CUKVASHE_SHA1, 10, 23, "48c0d01ce855b9f14ea7e97d430b7c4af948b98a17870803"},
    {cukvashe_des_open_salted, CUKVASHE_SHA256, 10000, 51,
     "574e0786560fedd80cf8d6b242ce05a4e2f279f608e624ed6cb88816ccd6d32bb80d288e1064009191cff5244a6f257e24b30263f5653b06"},
    {cukvashe_tdes_ede2_open_salted, CUKVASHE_MD5, 0, 0, "39222c48f928c759"},
    {cukvashe_tdes_ede2_open_salted, CUKVASHE_SHA1, 0, 7, "ba3c62b93e33f275"},
    {cukvashe_tdes_ede2_open_salted, CUKVASHE_SHA256, 0, 8, "7acb011cc3310a03ceeecfd486d193a7"},
    {cukvashe_tdes_ede2_open_salted, CUKVASHE_SHA1, 10, 23, "e343c11c7b758cb7db2cf5437ce24996fded4959a349ec94"},
    {cukvashe_tdes_ede2_open_salted, CUKVASHE_SHA256, 10000, 51,
     "8432a96600858ac7cbe9df3b2d95f7e8d100285f2e2b8c9a4ac6ff01994651884e0abbd21a22a75892c8ad7a890a2a5fe1c755d3d1130dac"},
    {cukvashe_tdes_ede3_open_salted, CUKVASHE_MD5, 0, 0, "7ab89c16c5e3c8d4"},
    {cukvashe_tdes_ede3_open_salted, CUKVASHE_SHA1, 0, 7, "b690bc2ca698d190"},
    {cukvashe_tdes_ede3_open_salted, CUKVASHE_SHA256, 0, 8, "ad295497d9157ea3743a7672497e8b5b"},
    {cukvashe_tdes_ede3_open_salted, CUKVASHE_SHA1, 10, 23, "59b2273678be21f77d761d7f788e025c18d3ecda56906ea9"},
    {cukvashe_tdes_ede3_open_salted, CUKVASHE_SHA256, 10000, 51,
     "e9d6420dfde6f76f5525aeb07fae131c14079b19c0aeaf97c48e8da2f131be1a9b8d44c026b2f2c6206066867f0c8ac93628f139cc769a0d"},
};

enum { FILES = sizeof files / sizeof *files, MOST = 96 };

/* The bytes of a file, and how many they are. */
static size_t put_file(int i, uint8_t file[MOST]) {
  memcpy(file, "Salted__", 8);
  put(file + 8, salt_digits);
  put(file + 16, files[i].encrypted);
  return 16 + strlen(files[i].encrypted) / 2;
}

/* The plaintext is written into a buffer of this capacity, and nothing after it. */
static int opens(int i, const uint8_t *file, size_t length, size_t capacity) {
  uint8_t plain[MOST];
  size_t plain_length = 0;
  memset(plain, PAINTED, sizeof plain);
  return files[i].open(files[i].hash, files[i].iterations, (const uint8_t *)"secret", 6, file, length, plain, capacity, &plain_length) ==
             CUKVASHE_OK &&
         plain_length == files[i].length && memcmp(plain, text, plain_length) == 0 &&
         is_kept(plain + plain_length, sizeof plain - plain_length);
}

static void refuses(int i, int hash, size_t iterations, const char *password, const uint8_t *file, size_t length, size_t capacity,
                    int status) {
  uint8_t plain[MOST];
  size_t plain_length;
  memset(plain, PAINTED, sizeof plain);
  memset(&plain_length, PAINTED, sizeof plain_length);
  CHECK(files[i].open(hash, iterations, (const uint8_t *)password, strlen(password), file, length, plain, capacity, &plain_length) ==
        status);
  CHECK(is_kept(plain, sizeof plain) && is_kept(&plain_length, sizeof plain_length));
}

static void opens_files(void) {
  uint8_t file[MOST];
  for (int i = 0; i < FILES; i++) {
    const size_t length = put_file(i, file);
    CHECK(opens(i, file, length, MOST) && opens(i, file, length, length - 16) && opens(i, file, length, files[i].length));
    if (files[i].length > 0)
      refuses(i, files[i].hash, files[i].iterations, "secret", file, length, files[i].length - 1, CUKVASHE_ERR_CAPACITY);
  }
}

static void refuses_files(void) {
  uint8_t file[MOST];
  for (int i = 0; i < FILES; i++) {
    const int hash = files[i].hash;
    const size_t length = put_file(i, file), iterations = files[i].iterations;
    if (iterations > 100) continue; /* the same faults, and slow */
    for (size_t cut = 0; cut < length; cut++)
      refuses(i, hash, iterations, "secret", file, cut, MOST,
              cut < 8    ? CUKVASHE_ERR_NOT_SALTED
              : cut < 16 ? CUKVASHE_ERR_SALT_LENGTH
              : cut % 8  ? CUKVASHE_ERR_BLOCKS
                         : CUKVASHE_ERR_PADDING);
    refuses(i, hash, iterations, "secret", NULL, 0, 0, CUKVASHE_ERR_NOT_SALTED);
    for (size_t place = 0; place < 8; place++) {
      file[place] ^= 0x20;
      refuses(i, hash, iterations, "secret", file, length, MOST, CUKVASHE_ERR_NOT_SALTED);
      file[place] ^= 0x20;
    }
    refuses(i, 0, 0, "secret", file, 0, MOST, CUKVASHE_ERR_HASH);
    refuses(i, CUKVASHE_PKCS7, 0, "secret", file, length, MOST, CUKVASHE_ERR_HASH);
    refuses(i, -1, iterations, "secret", file, length, MOST, CUKVASHE_ERR_HASH);
    refuses(i, CUKVASHE_MD5, 1, "secret", file, length, MOST, CUKVASHE_ERR_HASH);
    refuses(i, CUKVASHE_SHA1, (size_t)1 << 32, "secret", file, length, MOST, CUKVASHE_ERR_ITERATIONS);
    refuses(i, CUKVASHE_SHA256, (size_t)-1, "secret", file, length, MOST, CUKVASHE_ERR_ITERATIONS);
    file[length - 1] ^= 1; /* another last block, whose padding is none */
    refuses(i, hash, iterations, "secret", file, length, MOST, CUKVASHE_ERR_PADDING);
  }
}

/* Of wrong passwords about one in 256 is not refused, and no other. */
static void refuses_most_passwords(void) {
  uint8_t file[MOST], plain[MOST];
  int accepted = 0;
  const size_t length = put_file(0, file);
  for (int i = 0; i < 4000; i++) {
    char password[8];
    size_t plain_length;
    snprintf(password, sizeof password, "%06d", i);
    accepted += files[0].open(files[0].hash, files[0].iterations, (const uint8_t *)password, 6, file, length, plain, MOST,
                              &plain_length) == CUKVASHE_OK;
  }
  CHECK(3 < accepted && accepted < 40);
}

static void refuses_derivations(void) {
  static const int wrong[] = {0, 1, CUKVASHE_MD5, CUKVASHE_PKCS7, CUKVASHE_SHA256 + 1, -1, 256 + CUKVASHE_SHA1};
  uint8_t key[24], salt[8] = {0};
  memset(key, PAINTED, sizeof key);
  for (size_t i = 0; i < sizeof wrong / sizeof *wrong; i++) {
    CHECK(cukvashe_pbkdf2(wrong[i], 0, salt, 8, salt, 8, key, 24) == CUKVASHE_ERR_HASH && is_kept(key, 24));
    if (wrong[i] != CUKVASHE_MD5)
      CHECK(cukvashe_bytes_to_key(wrong[i], salt, 8, salt, 8, key, 24) == CUKVASHE_ERR_HASH && is_kept(key, 24));
  }
  CHECK(cukvashe_pbkdf2(CUKVASHE_SHA1, 0, salt, 8, salt, 8, key, 24) == CUKVASHE_ERR_ITERATIONS && is_kept(key, 24));
  CHECK(cukvashe_pbkdf2(CUKVASHE_SHA256, (size_t)1 << 32, salt, 8, salt, 8, key, 24) == CUKVASHE_ERR_ITERATIONS && is_kept(key, 24));
  CHECK(cukvashe_pbkdf2(CUKVASHE_SHA256, ((size_t)1 << 32) + 1, salt, 8, salt, 8, key, 24) == CUKVASHE_ERR_ITERATIONS);
  CHECK(is_kept(key, 24));
  CHECK(cukvashe_pbkdf2(CUKVASHE_SHA256, 1, NULL, 0, NULL, 0, NULL, 0) == CUKVASHE_OK);
  CHECK(cukvashe_bytes_to_key(CUKVASHE_MD5, NULL, 0, NULL, 0, NULL, 0) == CUKVASHE_OK);
}

/* PBKDF2 takes a salt of any length. */
static void takes_salts(void) {
  uint8_t key[32], salt[17] = "Salted__saltsalt";
  for (size_t length = 0; length <= sizeof salt; length++)
    CHECK(cukvashe_pbkdf2(CUKVASHE_SHA1, 1, salt, 6, salt, length, key, 32) == CUKVASHE_OK);
}

static size_t read_file(const char *name, uint8_t *bytes, size_t capacity) {
  FILE *file = fopen(name, "rb");
  CHECK(file != NULL);
  const size_t length = fread(bytes, 1, capacity, file);
  CHECK(length < capacity && fclose(file) == 0);
  return length;
}

/* Opens a file of `openssl enc`. */
static void opens_file(char **words) {
  enum { CAPACITY = 1 << 20 };
  static uint8_t file[CAPACITY], plain[CAPACITY], wanted[CAPACITY];
  open_salted *const open = strcmp(words[0], "des-cbc") == 0       ? cukvashe_des_open_salted
                            : strcmp(words[0], "des-ede-cbc") == 0 ? cukvashe_tdes_ede2_open_salted
                                                                   : cukvashe_tdes_ede3_open_salted;
  const int hash = strcmp(words[1], "md5") == 0 ? CUKVASHE_MD5 : strcmp(words[1], "sha1") == 0 ? CUKVASHE_SHA1 : CUKVASHE_SHA256;
  const size_t length = read_file(words[4], file, CAPACITY), wanted_length = read_file(words[5], wanted, CAPACITY);
  size_t plain_length;
  CHECK(open(hash, strtoul(words[2], NULL, 10), (const uint8_t *)words[3], strlen(words[3]), file, length, plain, length - 16,
             &plain_length) == CUKVASHE_OK);
  CHECK(plain_length == wanted_length && memcmp(plain, wanted, plain_length) == 0);
}

int main(int count, char **words) {
  if (count == 7) {
    opens_file(words + 1);
    return 0;
  }
  CHECK(count == 1);
  opens_files();
  refuses_files();
  refuses_most_passwords();
  refuses_derivations();
  takes_salts();
  printf("passwords: %d files of `openssl enc`, and each fault\n", (int)FILES);
  return 0;
}
