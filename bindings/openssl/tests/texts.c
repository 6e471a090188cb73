/*
 * What `openssl enc` does, in one program and so at every length: a text goes through a BIO, 8 KiB at a time or in smaller
 * pieces. The provider and OpenSSL's own write the same, each reads what the other wrote, and what was cut or spoilt ends
 * alike.
 *
 *   texts FOLDER CONFIGURATION SEED
 */
#include "common.h"
#include <openssl/bio.h>

enum { AT_ONCE = 8192, LONGEST = 65536 + 32 };

/* A cipher of both, and the key and vector of a text. */
struct work {
  EVP_CIPHER *cipher[2];
  uint8_t key[24], vector[8];
  bool is_stream;
};

/* What came of a text: its length, whether the last block was in order, and the error if not. */
struct result {
  uint8_t bytes[LONGEST];
  size_t length;
  int flushed;
  unsigned long error;
};

static struct result sealed[2], opened[2];
static uint8_t text[LONGEST];
static size_t texts, refused;

static void run(const struct work *work, int who, int encrypts, const uint8_t *bytes, size_t length, struct result *made) {
  BIO *chain = BIO_new(BIO_f_cipher()), *memory = BIO_new(BIO_s_mem());
  EVP_CIPHER_CTX *context;
  const bool in_pieces = once_in(2);
  char *data;
  CHECK(BIO_get_cipher_ctx(chain, &context) == 1);
  CHECK(EVP_CipherInit_ex(context, work->cipher[who], NULL, NULL, NULL, encrypts) == 1);
  CHECK(EVP_CipherInit_ex(context, NULL, NULL, work->key, work->vector, encrypts) == 1);
  chain = BIO_push(chain, memory);
  for (size_t done = 0, piece; done < length; done += piece) {
    piece = in_pieces ? 1 + below(700) : AT_ONCE;
    if (piece > length - done) piece = length - done;
    CHECK(BIO_write(chain, bytes + done, (int)piece) == (int)piece);
  }
  ERR_clear_error();
  made->flushed = (int)BIO_flush(chain);
  made->error = error_of_call();
  made->length = (size_t)BIO_get_mem_data(memory, &data);
  CHECK(made->length <= LONGEST);
  memcpy(made->bytes, data, made->length);
  BIO_free_all(chain);
}

static bool are_bytes(const struct result *made, const uint8_t *bytes, size_t length) {
  return made->length == length && memcmp(made->bytes, bytes, length) == 0;
}

static void ends_alike(const struct result made[2]) {
  CHECK(made[OURS].flushed == made[THEIRS].flushed && made[OURS].error == made[THEIRS].error);
  CHECK(are_bytes(&made[OURS], made[THEIRS].bytes, made[THEIRS].length));
  refused += made[THEIRS].flushed != 1;
}

/* What each makes of a text that the other wrote, whole, cut at any place, and with one of its last bytes spoilt. A stream takes all. */
static void compare(struct work *work, size_t length) {
  struct result *written = &sealed[below(2)];
  random_bytes(work->key, sizeof work->key);
  random_bytes(work->vector, sizeof work->vector);
  random_bytes(text, length);
  EACH(who) run(work, who, 1, text, length, &sealed[who]);
  ends_alike(sealed);
  CHECK(sealed[OURS].flushed == 1 && sealed[OURS].length == (work->is_stream ? length : length / 8 * 8 + 8));
  EACH(who) run(work, who, 0, sealed[1 - who].bytes, sealed[1 - who].length, &opened[who]);
  EACH(who) CHECK(opened[who].flushed == 1 && are_bytes(&opened[who], text, length));
  texts++;
  if (written->length < 8) return;
  const size_t cut = once_in(2) ? below(written->length) : written->length - 8;
  EACH(who) run(work, who, 0, written->bytes, cut, &opened[who]);
  ends_alike(opened);
  written->bytes[written->length - 1 - below(8)] ^= (uint8_t)(1 + below(255));
  EACH(who) run(work, who, 0, written->bytes, written->length, &opened[who]);
  ends_alike(opened);
}

int main(int count, char **words) {
  static const size_t around[] = {1024, 2048, 4096, 8192, 65536};
  CHECK(count == 4);
  OSSL_LIB_CTX *const libraries[2] = {ours_by(words[1], words[2]), theirs()};
  start_from(strtoull(words[3], NULL, 10));
  for (size_t number = 0; number < CIPHERS; number++) {
    struct work work;
    at_work = ciphers[number];
    EACH(who) CHECK((work.cipher[who] = EVP_CIPHER_fetch(libraries[who], at_work, NULL)) != NULL);
    CHECK(is_ours(EVP_CIPHER_get0_provider(work.cipher[OURS])) && !is_ours(EVP_CIPHER_get0_provider(work.cipher[THEIRS])));
    work.is_stream = EVP_CIPHER_get_block_size(work.cipher[THEIRS]) == 1;
    for (size_t length = 0; length <= 200; length++) compare(&work, length);
    const size_t slowness = work.is_stream ? 8 * blocks_of_eight(at_work) : 1;
    for (size_t i = 0; i < COUNT(around) && slowness * around[i] <= LONGEST; i++)
      for (size_t length = around[i] - 9; length <= around[i] + 9; length++) compare(&work, length);
    EACH(who) EVP_CIPHER_free(work.cipher[who]);
  }
  drop_libraries(libraries[OURS], libraries[THEIRS]);
  printf("as openssl enc: %zu texts both ways from seed %llu, %zu times refused alike when cut or spoilt\n", texts,
         (unsigned long long)seed, refused);
  return 0;
}
