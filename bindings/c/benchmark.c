/*
 * Nanoseconds for a block of 8 bytes of one call on a message, beside OpenSSL's EVP and libgcrypt: DES and triple DES (EDE, three parts),
 * each block by itself (ECB), chained (CBC), and triple DES by the modes without padding. With the word `paths`, nanoseconds for a block of
 * lists about as long as a batch, by each of the code paths that the library chooses from. Keys are set before the clock runs, which is
 * that of the process; the least of many short runs counts. An empty cell is a code path that there is not.
 *
 *   benchmark [RUNS] [paths]
 */
#include "benchmark.h"
#include <openssl/evp.h>
#include <openssl/provider.h>
#include <string.h>
#ifdef HAS_GCRYPT
#include <gcrypt.h>
#endif

enum { MOST = 8192 };

static uint8_t message[MOST], key[24], iv[8];
static bool is_v3;

/* Which call is timed, and by which code path. */
struct mode {
  int is_triple, is_cbc, encrypts;
  int stream; /* the number of a mode without padding, or 0 */
};

enum path { PUBLIC, ONE_BY_ONE, NARROW, WIDE };

struct ours {
  struct mode mode;
  enum path path;
};

/* Pieces that are too short for a batch. */
enum { FEW = 8 * 18 };

/* The data as the exports take them: blocks, and the number of bytes. */
#define DATA data, length / CUKVASHE_BLOCK_SIZE, length

/* The calls of a cipher: ECB and CBC, encryption and decryption, by one code path or another if there are several. */
#define CALLS(name)                                                                                            \
  static cukvashe_##name name##_context;                                                                       \
  static int name##_ecb(const struct ours *by, uint8_t *data, size_t length) {                                 \
    const cukvashe_##name *c = &name##_context;                                                                \
    if (by->path == NARROW)                                                                                    \
      return by->mode.encrypts ? cukvashe_internal_encrypt_ecb(WORDS_OF(*c), DATA)                             \
                               : cukvashe_internal_decrypt_ecb(WORDS_OF(*c), DATA);                            \
    if (by->path == WIDE)                                                                                      \
      return by->mode.encrypts ? cukvashe_wide_encrypt_ecb(WORDS_OF(*c), DATA)                                 \
                               : cukvashe_wide_decrypt_ecb(WORDS_OF(*c), DATA);                                \
    return by->mode.encrypts ? cukvashe_##name##_encrypt_ecb(c, data, length)                                  \
                             : cukvashe_##name##_decrypt_ecb(c, data, length);                                 \
  }                                                                                                            \
  static int name##_cbc(const struct ours *by, uint8_t *data, size_t length) {                                 \
    const cukvashe_##name *c = &name##_context;                                                                \
    if (by->mode.encrypts) return cukvashe_##name##_encrypt_cbc(c, iv, data, length);                          \
    if (by->path == NARROW) return cukvashe_internal_decrypt_cbc(WORDS_OF(*c), iv, DATA);                      \
    if (by->path == WIDE) return cukvashe_wide_decrypt_cbc(WORDS_OF(*c), iv, DATA);                            \
    return cukvashe_##name##_decrypt_cbc(c, iv, data, length);                                                 \
  }                                                                                                            \
  static int name##_stream(const struct ours *by, uint8_t *data, size_t length) {                              \
    return (by->mode.encrypts ? cukvashe_##name##_encrypt_mode : cukvashe_##name##_decrypt_mode)(              \
        &name##_context, by->mode.stream, iv, data, length);                                                   \
  }                                                                                                            \
  static void name##_call(void *state, size_t bytes) {                                                         \
    const struct ours *by = (const struct ours *)state;                                                        \
    int (*const call)(const struct ours *, uint8_t *, size_t) =                                                \
        by->mode.stream ? name##_stream : by->mode.is_cbc ? name##_cbc : name##_ecb;                           \
    const size_t most = by->path == ONE_BY_ONE ? FEW : bytes;                                                  \
    for (size_t from = 0; from < bytes; from += most) {                                                        \
      size_t length = bytes - from < most ? bytes - from : most;                                               \
      if (call(by, message + from, length)) fail(#name);                                                       \
    }                                                                                                          \
  }

CALLS(des)
CALLS(tdes_ede3)

static void openssl_call(void *state, size_t bytes) {
  int count;
  if (!EVP_CipherUpdate((EVP_CIPHER_CTX *)state, message, &count, message, (int)bytes)) fail("EVP_CipherUpdate");
}

/* OpenSSL's name of a mode; it has no CTR of DES. */
static const char *openssl_name(const struct mode *mode) {
  static const char *names[2][2] = {{"DES-ECB", "DES-CBC"}, {"DES-EDE3", "DES-EDE3-CBC"}};
  switch (mode->stream) {
  case 0: return names[mode->is_triple][mode->is_cbc];
  case CUKVASHE_OFB: return "DES-EDE3-OFB";
  case CUKVASHE_CFB64: return "DES-EDE3-CFB";
  case CUKVASHE_CFB8: return "DES-EDE3-CFB8";
  default: return NULL;
  }
}

static EVP_CIPHER_CTX *openssl_of(const struct mode *mode) {
  EVP_CIPHER *cipher = EVP_CIPHER_fetch(NULL, openssl_name(mode), NULL);
  EVP_CIPHER_CTX *state = EVP_CIPHER_CTX_new();
  if (!cipher || !state || !EVP_CipherInit_ex(state, cipher, NULL, key, iv, mode->encrypts)) fail("EVP_CipherInit_ex");
  EVP_CIPHER_CTX_set_padding(state, 0);
  EVP_CIPHER_free(cipher);
  return state;
}

#ifdef HAS_GCRYPT
struct gcrypt {
  gcry_cipher_hd_t handle;
  int encrypts;
};

static void gcrypt_call(void *state, size_t bytes) {
  struct gcrypt *by = (struct gcrypt *)state;
  if (by->encrypts ? gcry_cipher_encrypt(by->handle, message, bytes, NULL, 0)
                   : gcry_cipher_decrypt(by->handle, message, bytes, NULL, 0))
    fail("gcry_cipher");
}

static int gcrypt_mode(const struct mode *mode) {
  switch (mode->stream) {
  case CUKVASHE_CTR: return GCRY_CIPHER_MODE_CTR;
  case CUKVASHE_OFB: return GCRY_CIPHER_MODE_OFB;
  case CUKVASHE_CFB64: return GCRY_CIPHER_MODE_CFB;
  case CUKVASHE_CFB8: return GCRY_CIPHER_MODE_CFB8;
  default: return mode->is_cbc ? GCRY_CIPHER_MODE_CBC : GCRY_CIPHER_MODE_ECB;
  }
}

static struct gcrypt gcrypt_of(const struct mode *mode) {
  struct gcrypt made = {NULL, mode->encrypts};
  if (gcry_cipher_open(&made.handle, mode->is_triple ? GCRY_CIPHER_3DES : GCRY_CIPHER_DES, gcrypt_mode(mode), 0) ||
      gcry_cipher_setkey(made.handle, key, mode->is_triple ? 24 : 8) ||
      (mode->stream == CUKVASHE_CTR && gcry_cipher_setctr(made.handle, iv, 8)) ||
      ((mode->is_cbc || mode->stream) && mode->stream != CUKVASHE_CTR && gcry_cipher_setiv(made.handle, iv, 8)))
    fail("gcry_cipher_open");
  return made;
}
#endif

/* Rows of messages of some lengths, by this library and its peers. */
static void messages(const char *what, struct mode mode) {
  static const size_t sizes[] = {1, 17, 32, 128, 1024};
  struct ours ours = {mode, PUBLIC};
  EVP_CIPHER_CTX *openssl = openssl_name(&mode) ? openssl_of(&mode) : NULL;
  struct timed timed[3] = {{"Cukvashe", mode.is_triple ? tdes_ede3_call : des_call, &ours, 0},
                           {"OpenSSL", openssl ? openssl_call : NULL, openssl, 0},
                           {"libgcrypt", NULL, NULL, 0}};
#ifdef HAS_GCRYPT
  struct gcrypt gcrypt = gcrypt_of(&mode);
  timed[2].call = gcrypt_call;
  timed[2].state = &gcrypt;
#endif
  rows_by_size(what, timed, 3, sizes, COUNT_OF(sizes));
  EVP_CIPHER_CTX_free(openssl);
#ifdef HAS_GCRYPT
  gcry_cipher_close(gcrypt.handle);
#endif
}

/* Rows of lists about as long as a batch, by each code path. */
static void paths(const char *what, struct mode mode) {
  static const size_t sizes[] = {31, 32, 33, 64, 127, 128, 129, 159, 160, 256, 257, 287, 288, 300};
  struct ours ours[] = {{mode, PUBLIC}, {mode, ONE_BY_ONE}, {mode, NARROW}, {mode, WIDE}};
  call *const by = mode.is_triple ? tdes_ede3_call : des_call;
  struct timed timed[] = {{"the call", by, &ours[PUBLIC], 0},
                          {"few at a time, by tables", by, &ours[ONE_BY_ONE], 0},
                          {"128 at a time", by, &ours[NARROW], 0},
                          {"256 at a time", is_v3 ? by : NULL, &ours[WIDE], 0}};
  rows_by_size(what, timed, COUNT_OF(timed), sizes, COUNT_OF(sizes));
}

int main(int count, char **words) {
  OSSL_PROVIDER *legacy = OSSL_PROVIDER_load(NULL, "legacy"), *usual = OSSL_PROVIDER_load(NULL, "default");
  const struct processor processor = cukvashe_internal_processor();
  char **rest = words_after_runs(words);
  (void)count;
  is_v3 = cukvashe_internal_is_v3(&processor);
  if (!legacy || !usual) fail("OpenSSL's providers default and legacy");
  for (size_t i = 0; i < sizeof key; i++) key[i] = (uint8_t)(17 * i * i + 59 * i + 3);
  if (cukvashe_des_init(&des_context, key, 8) || cukvashe_tdes_ede3_init(&tdes_ede3_context, key, 24)) fail("init");
  if (rest[0] && strcmp(rest[0], "paths") == 0) {
    begin_table("paths", "ns per block | | 31 blocks | 32 | 33 | 64 | 127 | 128 | 129 | 159 | 160 | 256 | 257 | 287 | 288 | 300");
    paths("DES, ECB", (struct mode){0, 0, 1, 0});
    paths("DES, CBC decryption", (struct mode){0, 1, 0, 0});
    paths("triple DES, ECB", (struct mode){1, 0, 1, 0});
    paths("triple DES, CBC decryption", (struct mode){1, 1, 0, 0});
    return 0;
  }
  printf("OpenSSL: %s\n", OpenSSL_version(OPENSSL_VERSION_STRING));
#ifdef HAS_GCRYPT
  printf("libgcrypt: %s\n", gcry_check_version(NULL));
  gcry_control(GCRYCTL_INITIALIZATION_FINISHED, 0);
#endif
  begin_table("lengths", "ns per block | | 8 bytes | 136 | 256 | 1024 | 8192");
  messages("DES, ECB", (struct mode){0, 0, 1, 0});
  messages("triple DES, ECB", (struct mode){1, 0, 1, 0});
  messages("triple DES, CBC encryption", (struct mode){1, 1, 1, 0});
  messages("triple DES, CBC decryption", (struct mode){1, 1, 0, 0});
  begin_table("modes", "ns per block, triple DES | | 8 bytes | 136 | 256 | 1024 | 8192");
  messages("CTR", (struct mode){1, 0, 1, CUKVASHE_CTR});
  messages("OFB", (struct mode){1, 0, 1, CUKVASHE_OFB});
  messages("CFB of 64 bits, encryption", (struct mode){1, 0, 1, CUKVASHE_CFB64});
  messages("CFB of 64 bits, decryption", (struct mode){1, 0, 0, CUKVASHE_CFB64});
  messages("CFB of 8 bits, encryption", (struct mode){1, 0, 1, CUKVASHE_CFB8});
  messages("CFB of 8 bits, decryption", (struct mode){1, 0, 0, CUKVASHE_CFB8});
  return 0;
}
