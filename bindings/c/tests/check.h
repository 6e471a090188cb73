/* What the tests share: a check that says where it fails, the calls of each cipher in a table, words and random bytes. */
#ifndef CHECK_H
#define CHECK_H

#include <cukvashe_des.h>
#include <stdio.h>
#include <stdlib.h>
#include <string.h>

#define CHECK(holds)                                                                                                  \
  do {                                                                                                                \
    if (!(holds)) {                                                                                                   \
      fprintf(stderr, "%s:%d: %s\n", __FILE__, __LINE__, #holds);                                                     \
      exit(1);                                                                                                        \
    }                                                                                                                 \
  } while (0)

/* Any of the contexts. */
union context {
  cukvashe_des des;
  cukvashe_tdes_ede2 tdes_ede2;
  cukvashe_tdes_ede3 tdes_ede3;
};

typedef int in_place(const union context *, uint8_t *data, size_t length);
typedef int to_other(const union context *, const uint8_t *input, uint8_t *output, size_t length);
typedef int in_place_cbc(const union context *, uint8_t *iv, uint8_t *data, size_t length);
typedef int to_other_cbc(const union context *, uint8_t *iv, const uint8_t *input, uint8_t *output, size_t length);
typedef int whole_text(const union context *, int mode, const uint8_t *iv, uint8_t *data, size_t length);
typedef int next_bytes(const union context *, cukvashe_stream *, uint8_t *data, size_t length);

/* A code path of one cipher: the calls of the header, or those of one width. */
struct path {
  in_place *encrypt_ecb, *decrypt_ecb;
  to_other *encrypt_ecb_to, *decrypt_ecb_to;
  in_place_cbc *encrypt_cbc, *decrypt_cbc;
  to_other_cbc *encrypt_cbc_to, *decrypt_cbc_to;
  whole_text *encrypt_mode, *decrypt_mode;
  next_bytes *encrypt_stream, *decrypt_stream;
};

/* The header's calls of one cipher over the union. */
#define DEFINE_PUBLIC(name)                                                                                           \
  static int name##_init(union context *c, const uint8_t *key, size_t length) {                                       \
    return cukvashe_##name##_init(&c->name, key, length);                                                             \
  }                                                                                                                   \
  static int name##_init_no_tables(union context *c, const uint8_t *key, size_t length) {                             \
    return cukvashe_##name##_init_no_tables(&c->name, key, length);                                                   \
  }                                                                                                                   \
  static int name##_encrypt_ecb(const union context *c, uint8_t *data, size_t length) {                               \
    return cukvashe_##name##_encrypt_ecb(&c->name, data, length);                                                     \
  }                                                                                                                   \
  static int name##_decrypt_ecb(const union context *c, uint8_t *data, size_t length) {                               \
    return cukvashe_##name##_decrypt_ecb(&c->name, data, length);                                                     \
  }                                                                                                                   \
  static int name##_encrypt_ecb_to(const union context *c, const uint8_t *input, uint8_t *output, size_t length) {    \
    return cukvashe_##name##_encrypt_ecb_to(&c->name, input, output, length);                                         \
  }                                                                                                                   \
  static int name##_decrypt_ecb_to(const union context *c, const uint8_t *input, uint8_t *output, size_t length) {    \
    return cukvashe_##name##_decrypt_ecb_to(&c->name, input, output, length);                                         \
  }                                                                                                                   \
  static int name##_encrypt_cbc(const union context *c, uint8_t *iv, uint8_t *data, size_t length) {                  \
    return cukvashe_##name##_encrypt_cbc(&c->name, iv, data, length);                                                 \
  }                                                                                                                   \
  static int name##_decrypt_cbc(const union context *c, uint8_t *iv, uint8_t *data, size_t length) {                  \
    return cukvashe_##name##_decrypt_cbc(&c->name, iv, data, length);                                                 \
  }                                                                                                                   \
  static int name##_encrypt_cbc_to(const union context *c, uint8_t *iv, const uint8_t *input, uint8_t *output,        \
                                   size_t length) {                                                                   \
    return cukvashe_##name##_encrypt_cbc_to(&c->name, iv, input, output, length);                                     \
  }                                                                                                                   \
  static int name##_decrypt_cbc_to(const union context *c, uint8_t *iv, const uint8_t *input, uint8_t *output,        \
                                   size_t length) {                                                                   \
    return cukvashe_##name##_decrypt_cbc_to(&c->name, iv, input, output, length);                                     \
  }                                                                                                                   \
  static int name##_encrypt_mode(const union context *c, int mode, const uint8_t *iv, uint8_t *data, size_t length) { \
    return cukvashe_##name##_encrypt_mode(&c->name, mode, iv, data, length);                                          \
  }                                                                                                                   \
  static int name##_decrypt_mode(const union context *c, int mode, const uint8_t *iv, uint8_t *data, size_t length) { \
    return cukvashe_##name##_decrypt_mode(&c->name, mode, iv, data, length);                                          \
  }                                                                                                                   \
  static int name##_encrypt_stream(const union context *c, cukvashe_stream *stream, uint8_t *data, size_t length) {   \
    return cukvashe_##name##_encrypt_stream(&c->name, stream, data, length);                                          \
  }                                                                                                                   \
  static int name##_decrypt_stream(const union context *c, cukvashe_stream *stream, uint8_t *data, size_t length) {   \
    return cukvashe_##name##_decrypt_stream(&c->name, stream, data, length);                                          \
  }                                                                                                                   \
  static int name##_encrypt_bits(const union context *c, cukvashe_stream *stream, uint8_t *data, size_t bits) {       \
    return cukvashe_##name##_encrypt_stream_bits(&c->name, stream, data, bits);                                       \
  }                                                                                                                   \
  static int name##_decrypt_bits(const union context *c, cukvashe_stream *stream, uint8_t *data, size_t bits) {       \
    return cukvashe_##name##_decrypt_stream_bits(&c->name, stream, data, bits);                                       \
  }

#define PUBLIC(name)                                                                                                  \
  {                                                                                                                   \
    name##_encrypt_ecb, name##_decrypt_ecb, name##_encrypt_ecb_to, name##_decrypt_ecb_to, name##_encrypt_cbc,         \
        name##_decrypt_cbc, name##_encrypt_cbc_to, name##_decrypt_cbc_to, name##_encrypt_mode, name##_decrypt_mode,   \
        name##_encrypt_stream, name##_decrypt_stream                                                                  \
  }

DEFINE_PUBLIC(des)
DEFINE_PUBLIC(tdes_ede2)
DEFINE_PUBLIC(tdes_ede3)

#ifdef FORCED
/* Each width as well, whatever the length: names that the library hides. */
#include "../src/internal.h"

/* A context, and data in one buffer and in two, as an export takes them: blocks, and how many bytes they are. */
#define WORDS_OF(CONTEXT) (CONTEXT).words, sizeof(CONTEXT).words / sizeof *(CONTEXT).words
#define IN_PLACE data, length / CUKVASHE_BLOCK_SIZE, length
#define FROM_TO input, length / CUKVASHE_BLOCK_SIZE, output, length / CUKVASHE_BLOCK_SIZE, length

#define DEFINE_FORCED(name, width)                                                                                    \
  static int name##_##width##_encrypt_ecb(const union context *c, uint8_t *data, size_t length) {                     \
    return cukvashe_##width##_encrypt_ecb(WORDS_OF(c->name), IN_PLACE);                                               \
  }                                                                                                                   \
  static int name##_##width##_decrypt_ecb(const union context *c, uint8_t *data, size_t length) {                     \
    return cukvashe_##width##_decrypt_ecb(WORDS_OF(c->name), IN_PLACE);                                               \
  }                                                                                                                   \
  static int name##_##width##_encrypt_ecb_to(const union context *c, const uint8_t *input, uint8_t *output,           \
                                             size_t length) {                                                         \
    return cukvashe_##width##_encrypt_ecb_to(WORDS_OF(c->name), FROM_TO);                                             \
  }                                                                                                                   \
  static int name##_##width##_decrypt_ecb_to(const union context *c, const uint8_t *input, uint8_t *output,           \
                                             size_t length) {                                                         \
    return cukvashe_##width##_decrypt_ecb_to(WORDS_OF(c->name), FROM_TO);                                             \
  }                                                                                                                   \
  static int name##_##width##_decrypt_cbc(const union context *c, uint8_t *iv, uint8_t *data, size_t length) {        \
    return cukvashe_##width##_decrypt_cbc(WORDS_OF(c->name), iv, IN_PLACE);                                           \
  }                                                                                                                   \
  static int name##_##width##_decrypt_cbc_to(const union context *c, uint8_t *iv, const uint8_t *input,               \
                                             uint8_t *output, size_t length) {                                        \
    return cukvashe_##width##_decrypt_cbc_to(WORDS_OF(c->name), iv, FROM_TO);                                         \
  }                                                                                                                   \
  static int name##_##width##_encrypt_mode(const union context *c, int mode, const uint8_t *iv, uint8_t *data,        \
                                          size_t length) {                                                            \
    return cukvashe_##width##_encrypt_mode(WORDS_OF(c->name), (uint32_t)mode, iv, data, length);                      \
  }                                                                                                                   \
  static int name##_##width##_decrypt_mode(const union context *c, int mode, const uint8_t *iv, uint8_t *data,        \
                                          size_t length) {                                                            \
    return cukvashe_##width##_decrypt_mode(WORDS_OF(c->name), (uint32_t)mode, iv, data, length);                      \
  }                                                                                                                   \
  static int name##_##width##_encrypt_stream(const union context *c, cukvashe_stream *stream, uint8_t *data,          \
                                            size_t length) {                                                          \
    return cukvashe_##width##_encrypt_stream(WORDS_OF(c->name), stream, data, length);                                \
  }                                                                                                                   \
  static int name##_##width##_decrypt_stream(const union context *c, cukvashe_stream *stream, uint8_t *data,          \
                                            size_t length) {                                                          \
    return cukvashe_##width##_decrypt_stream(WORDS_OF(c->name), stream, data, length);                                \
  }

#define FORCED_PATH(name, width)                                                                                      \
  , {                                                                                                                 \
    name##_##width##_encrypt_ecb, name##_##width##_decrypt_ecb, name##_##width##_encrypt_ecb_to,                      \
        name##_##width##_decrypt_ecb_to, name##_encrypt_cbc, name##_##width##_decrypt_cbc, name##_encrypt_cbc_to,     \
        name##_##width##_decrypt_cbc_to, name##_##width##_encrypt_mode, name##_##width##_decrypt_mode,               \
        name##_##width##_encrypt_stream, name##_##width##_decrypt_stream                                              \
  }
#define DEFINE_WIDTH(width) DEFINE_FORCED(des, width) DEFINE_FORCED(tdes_ede2, width) DEFINE_FORCED(tdes_ede3, width)
#if HAS_WIDE
#define EACH_WIDTH(of_width) of_width(internal) of_width(wide)
#define PATHS(name) {PUBLIC(name) FORCED_PATH(name, internal) FORCED_PATH(name, wide)}
#else
#define EACH_WIDTH(of_width) of_width(internal)
#define PATHS(name) {PUBLIC(name) FORCED_PATH(name, internal)}
#endif

EACH_WIDTH(DEFINE_WIDTH)

enum { PUBLIC_PATH = 0, MOST_PATHS = 2 + HAS_WIDE };

/* How many code paths this processor has. */
static inline int count_of_paths(void) {
#if HAS_WIDE
  struct processor words = cukvashe_internal_processor();
  return cukvashe_internal_is_v3(&words) ? 3 : 2;
#else
  return 2;
#endif
}
#else
#define PATHS(name) {PUBLIC(name)}
enum { PUBLIC_PATH = 0, MOST_PATHS = 1 };

static inline int count_of_paths(void) { return 1; }
#endif

struct cipher {
  const char *name;
  size_t key_size, context_size;
  int (*init)(union context *, const uint8_t *key, size_t length);
  int (*init_no_tables)(union context *, const uint8_t *key, size_t length);
  int (*check_value)(const uint8_t *key, size_t length, uint8_t *value);
  next_bytes *encrypt_bits, *decrypt_bits;
  struct path paths[MOST_PATHS];
};

#define CIPHER(name, key_size)                                                                                        \
  {                                                                                                                   \
    #name, key_size, sizeof(cukvashe_##name), name##_init, name##_init_no_tables, cukvashe_##name##_check_value,      \
        name##_encrypt_bits, name##_decrypt_bits, PATHS(name)                                                         \
  }

enum { CIPHERS = 3, DES = 0, EDE2 = 1, EDE3 = 2 };

static const struct cipher ciphers[CIPHERS] = {
    CIPHER(des, CUKVASHE_DES_KEY_SIZE),
    CIPHER(tdes_ede2, CUKVASHE_TDES_EDE2_KEY_SIZE),
    CIPHER(tdes_ede3, CUKVASHE_TDES_EDE3_KEY_SIZE),
};

/* Lists in blocks: none, few, about a batch of 128 and one of 256, more, and what decides whether the rest goes one by one. */
static const size_t counts[] = {0, 1, 2, 18, 19, 20, 127, 128, 129, 146, 147, 148, 255, 256, 257, 274, 275, 276, 300, 600};

enum { COUNTS = sizeof counts / sizeof *counts, LONGEST = 600 };

/* The eight bytes of a word, the most significant first. */
static inline void put_word(uint8_t *bytes, uint64_t word) {
  for (int i = 0; i < 8; i++) bytes[i] = (uint8_t)(word >> (56 - 8 * i));
}

static inline void put_words(uint8_t *bytes, const uint64_t *words, size_t count) {
  for (size_t i = 0; i < count; i++) put_word(bytes + 8 * i, words[i]);
}

/* Splitmix64: the same numbers in each run. */
static uint64_t state = 1;

static inline uint64_t random_word(void) {
  uint64_t z = state += 0x9e3779b97f4a7c15;
  z = (z ^ (z >> 30)) * 0xbf58476d1ce4e5b9;
  z = (z ^ (z >> 27)) * 0x94d049bb133111eb;
  return z ^ (z >> 31);
}

static inline void random_bytes(uint8_t *bytes, size_t count) {
  for (size_t i = 0; i < count; i++) bytes[i] = (uint8_t)random_word();
}

#endif
