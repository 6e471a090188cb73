/* What the library's own C hands on: instead of the proved exports there are functions here that write down what they were given. So
   each call of the header is seen to take the right export with the right arguments, on a processor with the wide calls (`dispatch
   wide`) and on one without (`dispatch narrow`), which is asked once, and not before a call needs the answer; and to wipe the stack
   after it, where it is given or gives a key. The library's C is a part of this file, so that the compiler sees cukvashe_wipe where it
   is called, and could leave it out. */
#define _POSIX_C_SOURCE 200809L
#include "../src/cukvashe_des.c"
#include "../src/calls.c"
#include <limits.h>
#include <pthread.h>
#include <stdio.h>
#include <stdlib.h>

#define CHECK(holds)                                                                                                  \
  do {                                                                                                                \
    if (!(holds)) {                                                                                                   \
      fprintf(stderr, "%s:%d: %s\n", __FILE__, __LINE__, #holds);                                                     \
      exit(1);                                                                                                        \
    }                                                                                                                 \
  } while (0)

/* A call that was made: its name, and its arguments. */
struct call {
  const char *name;
  size_t size; /* of the arguments, in bytes */
  uintptr_t arguments[12];
};

static struct call last;
static int calls, wipes, questions, is_v2, is_v3;

/* A status that no call has: it must come back as it is. */
enum { STATUS = 4711 };

#if HAS_WIDE
struct processor cukvashe_internal_processor(void) {
  const struct processor words = {1, 2, 3, 4};
  questions++;
  return words;
}

static void are_those(const struct processor *words) {
  CHECK(words->leaf_1_ecx == 1 && words->leaf_7_ebx == 2 && words->leaf_80000001_ecx == 3 && words->xcr0 == 4);
}

bool cukvashe_internal_is_v2(const struct processor *words) {
  are_those(words);
  return is_v2;
}

bool cukvashe_internal_is_v3(const struct processor *words) {
  are_those(words);
  return is_v3;
}
#endif

/* It counts if it comes after the call. */
void cukvashe_internal_wipe_stack(size_t size) {
  CHECK(size > 0);
  wipes += calls;
}

#define A(POINTER) (uintptr_t)(POINTER)
#define ARGUMENTS(...) (const uintptr_t[]){__VA_ARGS__}, sizeof((const uintptr_t[]){__VA_ARGS__})

static int noted(const char *name, const uintptr_t *arguments, size_t size) {
  CHECK(size <= sizeof last.arguments);
  last.name = name;
  last.size = size;
  memcpy(last.arguments, arguments, size);
  calls++;
  return STATUS;
}

/* What a call answers that does not return a status. */
static bool answer;

#include "noted.h"

/* The one call that was made since the last check had this name and these arguments, and the stack was wiped so often. */
static void was(const char *width, const char *name, int wiped, const uintptr_t *arguments, size_t size) {
  char wanted[80];
  snprintf(wanted, sizeof wanted, "%s %s", width, name);
  CHECK(calls == 1 && strcmp(last.name, wanted) == 0);
  CHECK(last.size == size && memcmp(last.arguments, arguments, size) == 0);
  CHECK(wipes == wiped);
  calls = wipes = 0;
}

#define WAS(WIDTH, NAME, ...) was(WIDTH, NAME, 0, ARGUMENTS(__VA_ARGS__))
#define WAS_WIPED(WIDTH, NAME, ...) was(WIDTH, NAME, 1, ARGUMENTS(__VA_ARGS__))

static const char *width_of(size_t count) { return is_v3 && count > MOST_NARROW ? "wide" : "internal"; }

static const size_t sizes[1];
static const cukvashe_message messages[1];
static uint8_t iv[24], base[64], input[24], output[24];
static size_t number;
static cukvashe_stream stream;

/* The calls of a cipher; what the functions above are given is never read. */
#define CIPHER(NAME, WORDS, KEY_SIZE)                                                                                 \
  static cukvashe_##NAME NAME;                                                                                        \
  static void NAME##_of_length(size_t length) {                                                                       \
    const size_t blocks = length / 8;                                                                                 \
    const char *width = width_of(blocks);                                                                             \
    const uintptr_t context = A(NAME.words);                                                                          \
    CHECK(cukvashe_##NAME##_encrypt_ecb(&NAME, output, length) == STATUS);                                            \
    WAS(width, "encrypt_ecb", context, WORDS, A(output), blocks, length);                                             \
    CHECK(cukvashe_##NAME##_decrypt_ecb(&NAME, output, length) == STATUS);                                            \
    WAS(width, "decrypt_ecb", context, WORDS, A(output), blocks, length);                                             \
    CHECK(cukvashe_##NAME##_encrypt_ecb_to(&NAME, input, output, length) == STATUS);                                  \
    WAS(width, "encrypt_ecb_to", context, WORDS, A(input), blocks, A(output), blocks, length);                        \
    CHECK(cukvashe_##NAME##_decrypt_ecb_to(&NAME, input, output, length) == STATUS);                                  \
    WAS(width, "decrypt_ecb_to", context, WORDS, A(input), blocks, A(output), blocks, length);                        \
    CHECK(cukvashe_##NAME##_encrypt_cbc(&NAME, iv, output, length) == STATUS);                                        \
    WAS("internal", "encrypt_cbc", context, WORDS, A(iv), A(output), blocks, length);                                 \
    CHECK(cukvashe_##NAME##_decrypt_cbc(&NAME, iv, output, length) == STATUS);                                        \
    WAS(width, "decrypt_cbc", context, WORDS, A(iv), A(output), blocks, length);                                      \
    CHECK(cukvashe_##NAME##_encrypt_cbc_to(&NAME, iv, input, output, length) == STATUS);                              \
    WAS("internal", "encrypt_cbc_to", context, WORDS, A(iv), A(input), blocks, A(output), blocks, length);            \
    CHECK(cukvashe_##NAME##_decrypt_cbc_to(&NAME, iv, input, output, length) == STATUS);                              \
    WAS(width, "decrypt_cbc_to", context, WORDS, A(iv), A(input), blocks, A(output), blocks, length);                 \
    CHECK(cukvashe_##NAME##_encrypt_ecb_to(&NAME, output, output, length) == STATUS);                                 \
    WAS(width, "encrypt_ecb", context, WORDS, A(output), blocks, length);                                             \
    CHECK(cukvashe_##NAME##_decrypt_ecb_to(&NAME, output, output, length) == STATUS);                                 \
    WAS(width, "decrypt_ecb", context, WORDS, A(output), blocks, length);                                             \
    CHECK(cukvashe_##NAME##_encrypt_cbc_to(&NAME, iv, output, output, length) == STATUS);                             \
    WAS("internal", "encrypt_cbc", context, WORDS, A(iv), A(output), blocks, length);                                 \
    CHECK(cukvashe_##NAME##_decrypt_cbc_to(&NAME, iv, output, output, length) == STATUS);                             \
    WAS(width, "decrypt_cbc", context, WORDS, A(iv), A(output), blocks, length);                                      \
    CHECK(cukvashe_##NAME##_encrypt_mode(&NAME, 31, iv, output, length) == STATUS);                                   \
    WAS(width, "encrypt_mode", context, WORDS, 31, A(iv), A(output), length);                                         \
    CHECK(cukvashe_##NAME##_encrypt_mode(&NAME, 32, iv, output, length) == STATUS);                                   \
    WAS("internal", "encrypt_mode", context, WORDS, 32, A(iv), A(output), length);                                    \
    CHECK(cukvashe_##NAME##_encrypt_mode(&NAME, 48, iv, output, length) == STATUS);                                   \
    WAS("internal", "encrypt_mode", context, WORDS, 48, A(iv), A(output), length);                                    \
    CHECK(cukvashe_##NAME##_encrypt_stream(&NAME, &stream, output, length) == STATUS);                                \
    WAS(width, "encrypt_stream", context, WORDS, A(&stream), A(output), length);                                      \
    CHECK(cukvashe_##NAME##_encrypt_stream_bits(&NAME, &stream, output, length) == STATUS);                           \
    WAS("internal", "encrypt_stream_bits", context, WORDS, A(&stream), A(output),                                     \
        blocks + (length % 8 != 0), length);                                                                          \
    CHECK(cukvashe_##NAME##_decrypt_mode(&NAME, 31, iv, output, length) == STATUS);                                   \
    WAS(width, "decrypt_mode", context, WORDS, 31, A(iv), A(output), length);                                         \
    CHECK(cukvashe_##NAME##_decrypt_mode(&NAME, 32, iv, output, length) == STATUS);                                   \
    WAS("internal", "decrypt_mode", context, WORDS, 32, A(iv), A(output), length);                                    \
    CHECK(cukvashe_##NAME##_decrypt_mode(&NAME, 48, iv, output, length) == STATUS);                                   \
    WAS(width, "decrypt_mode", context, WORDS, 48, A(iv), A(output), length);                                         \
    CHECK(cukvashe_##NAME##_decrypt_stream(&NAME, &stream, output, length) == STATUS);                                \
    WAS(width, "decrypt_stream", context, WORDS, A(&stream), A(output), length);                                      \
    CHECK(cukvashe_##NAME##_decrypt_stream_bits(&NAME, &stream, output, length) == STATUS);                           \
    WAS("internal", "decrypt_stream_bits", context, WORDS, A(&stream), A(output),                                     \
        blocks + (length % 8 != 0), length);                                                                          \
  }                                                                                                                   \
  static void NAME##_of_records(size_t count, size_t length) {                                                        \
    const uintptr_t context = A(NAME.words);                                                                          \
    CHECK(cukvashe_##NAME##_encrypt_cbc_records(&NAME, iv, 8 * count, sizes, count, output, length) == STATUS);       \
    WAS(width_of(count), "encrypt_cbc_records", context, WORDS, A(iv), count, A(sizes), count, A(output), length / 8, \
        length);                                                                                                      \
    CHECK(cukvashe_##NAME##_decrypt_cbc_records(&NAME, iv, 8 * count, sizes, count, output, length) == STATUS);       \
    WAS(width_of(length / 8), "decrypt_cbc_records", context, WORDS, A(iv), count, A(sizes), count, A(output),        \
        length / 8, length);                                                                                          \
  }                                                                                                                   \
  static void NAME##_of_each(size_t count) {                                                                          \
    const char *width = width_of(count);                                                                              \
    CHECK(cukvashe_##NAME##_encrypt_each(input, count, output, 8 * count) == STATUS);                                 \
    WAS_WIPED(width, "encrypt_each", KEY_SIZE, A(input), KEY_SIZE * count, A(output), count);                         \
    CHECK(cukvashe_##NAME##_decrypt_each(input, count, output, 8 * count) == STATUS);                                 \
    WAS_WIPED(width, "decrypt_each", KEY_SIZE, A(input), KEY_SIZE * count, A(output), count);                         \
  }                                                                                                                   \
  static void NAME##_refuses_each(int status, size_t count, size_t length) {                                          \
    CHECK(cukvashe_##NAME##_encrypt_each(input, count, output, length) == status && calls == 0);                      \
    CHECK(cukvashe_##NAME##_decrypt_each(input, count, output, length) == status && calls == 0);                      \
  }                                                                                                                   \
  static void NAME##_refuses_records(size_t count, size_t length) {                                                   \
    const int status = CUKVASHE_ERR_COUNTS;                                                                           \
    CHECK(cukvashe_##NAME##_encrypt_cbc_records(&NAME, iv, 8 * count, sizes, count, output, length) == status);       \
    CHECK(cukvashe_##NAME##_decrypt_cbc_records(&NAME, iv, 8 * count, sizes, count, output, length) == status);       \
    CHECK(calls == 0);                                                                                                \
  }                                                                                                                   \
  static void NAME##_of_count(size_t count) {                                                                         \
    CHECK(cukvashe_##NAME##_check_values(input, KEY_SIZE * count, output, 3 * count, count) == STATUS);               \
    WAS_WIPED(width_of(count), "check_values", KEY_SIZE, A(input), KEY_SIZE * count, A(output), count);               \
  }                                                                                                                   \
  static void NAME##_refuses_count(size_t count, size_t more) {                                                       \
    const int status = CUKVASHE_ERR_COUNTS;                                                                           \
    CHECK(cukvashe_##NAME##_check_values(input, KEY_SIZE * count + more, output, 3 * count, count) == status);        \
    CHECK(cukvashe_##NAME##_check_values(input, KEY_SIZE * count, output, 3 * count + more, count) == status);        \
    CHECK(cukvashe_combine_##KEY_SIZE(base, iv, input, KEY_SIZE * count + more, count, output) == status);            \
    CHECK(calls == 0);                                                                                                \
  }                                                                                                                   \
  static void NAME##_of_key(void) {                                                                                   \
    CHECK(sizeof NAME == 8 * WORDS);                                                                                  \
    CHECK(cukvashe_##NAME##_init(&NAME, base, 5) == STATUS);                                                          \
    WAS_WIPED("internal", "init", A(NAME.words), WORDS, A(base), 5, false);                                           \
    CHECK(cukvashe_##NAME##_init_no_tables(&NAME, base, 5) == STATUS);                                                \
    WAS_WIPED("internal", "init", A(NAME.words), WORDS, A(base), 5, true);                                            \
    CHECK(cukvashe_##NAME##_check_value(base, 5, output) == STATUS);                                                  \
    WAS_WIPED("internal", "check_value", KEY_SIZE, A(base), 5, A(output));                                            \
    CHECK(cukvashe_##NAME##_open_salted(9, 10, base, 11, input, 12, output, 13, &number) == STATUS);                  \
    WAS_WIPED("internal", "open_salted", KEY_SIZE, 9, 10, A(base), 11, A(input), 12, A(output), 13, A(&number));      \
    CHECK(cukvashe_combine_##KEY_SIZE(base, iv, input, 5 * KEY_SIZE, 5, output) == STATUS);                           \
    WAS_WIPED("internal", "combine", A(base), KEY_SIZE, A(iv), KEY_SIZE, A(input), 5 * KEY_SIZE, A(output), KEY_SIZE);\
  }

CIPHER(des, 17, 8)
CIPHER(tdes_ede2, 33, 16)
CIPHER(tdes_ede3, 49, 24)

/* The calls of a MAC, with a padding method or without one. */
#define MAC_OF(NAME, ALGORITHM, WORDS, KEY_SIZE, METHOD, ...)                                                         \
  static cukvashe_##NAME NAME;                                                                                        \
  static void NAME##_of_message(void) {                                                                               \
    const uintptr_t context = A(NAME.words), message = A(NAME.words + WORDS);                                         \
    CHECK(sizeof NAME == 8 * (WORDS + 4));                                                                            \
    CHECK(cukvashe_##NAME##_init(&NAME, base, 5 __VA_ARGS__) == STATUS);                                              \
    WAS_WIPED("internal", "mac_init", ALGORITHM, context, WORDS, message, A(base), 5, METHOD, false);                 \
    CHECK(cukvashe_##NAME##_init_no_tables(&NAME, base, 5 __VA_ARGS__) == STATUS);                                    \
    WAS_WIPED("internal", "mac_init", ALGORITHM, context, WORDS, message, A(base), 5, METHOD, true);                  \
    CHECK(cukvashe_##NAME##_update(&NAME, input, 6) == STATUS);                                                       \
    WAS("internal", "mac_update", ALGORITHM, context, WORDS, message, A(input), 6);                                   \
    CHECK(cukvashe_##NAME##_final(&NAME, output) == STATUS);                                                          \
    WAS("internal", "mac_final", ALGORITHM, context, WORDS, message, A(output));                                      \
    CHECK(cukvashe_##NAME##_verify(&NAME, input, 6) == STATUS);                                                       \
    WAS("internal", "mac_verify", ALGORITHM, context, WORDS, message, A(input), 6);                                   \
    CHECK(!cukvashe_##NAME##_is_tag(&NAME, input, 6));                                                                \
    WAS("internal", "mac_verify", ALGORITHM, context, WORDS, message, A(input), 6);                                   \
  }
/* Whatever the padding method, if there is one. */
#define MACS_REFUSE(NAME, KEY_SIZE, ...)                                                                              \
  static void NAME##_refuses_count(size_t count, size_t more) {                                                       \
    const int status = CUKVASHE_ERR_COUNTS;                                                                           \
    const size_t keys = KEY_SIZE * count, tags = 8 * count;                                                           \
    CHECK(cukvashe_##NAME##_macs(base, KEY_SIZE, __VA_ARGS__ messages, output, tags + more, count) == status);        \
    CHECK(cukvashe_##NAME##_macs_each(base, keys + more, __VA_ARGS__ messages, output, tags, count) == status);       \
    CHECK(cukvashe_##NAME##_macs_each(base, keys, __VA_ARGS__ messages, output, tags + more, count) == status);       \
    CHECK(cukvashe_##NAME##_macs(base, KEY_SIZE + 1, __VA_ARGS__ messages, output, tags + more, count) ==             \
          CUKVASHE_ERR_KEY_LENGTH);                                                                                   \
    CHECK(calls == 0);                                                                                                \
  }
#define MAC(NAME, ALGORITHM, WORDS, KEY_SIZE)                                                                         \
  MAC_OF(NAME, ALGORITHM, WORDS, KEY_SIZE, 7, , 7)                                                                    \
  static void NAME##_of_count(size_t count) {                                                                         \
    CHECK(cukvashe_##NAME##_macs(base, KEY_SIZE, 7, messages, output, 8 * count, count) == STATUS);                   \
    WAS_WIPED(width_of(count), "macs", ALGORITHM, 7, A(base), KEY_SIZE, A(messages), count, A(output), count);        \
    CHECK(cukvashe_##NAME##_macs_each(base, KEY_SIZE * count, 7, messages, output, 8 * count, count) == STATUS);      \
    WAS_WIPED(width_of(count), "macs_each", ALGORITHM, 7, KEY_SIZE, A(base), KEY_SIZE * count, A(messages), count,    \
              A(output), count);                                                                                      \
  }                                                                                                                   \
  MACS_REFUSE(NAME, KEY_SIZE, 7, )
#define CMAC(NAME, WORDS, KEY_SIZE)                                                                                   \
  MAC_OF(NAME, 5, WORDS, KEY_SIZE, 2, )                                                                               \
  static void NAME##_of_count(size_t count) {                                                                         \
    CHECK(cukvashe_##NAME##_macs(base, KEY_SIZE, messages, output, 8 * count, count) == STATUS);                      \
    WAS_WIPED(width_of(count), "macs", 5, 2, A(base), KEY_SIZE, A(messages), count, A(output), count);                \
    CHECK(cukvashe_##NAME##_macs_each(base, KEY_SIZE * count, messages, output, 8 * count, count) == STATUS);         \
    WAS_WIPED(width_of(count), "macs_each", 5, 2, KEY_SIZE, A(base), KEY_SIZE * count, A(messages), count, A(output), \
              count);                                                                                                 \
  }                                                                                                                   \
  MACS_REFUSE(NAME, KEY_SIZE, )

MAC(cbc_mac_des, 1, 17, 8)
MAC(cbc_mac_tdes_ede2, 1, 33, 16)
MAC(cbc_mac_tdes_ede3, 1, 49, 24)
MAC(retail_mac_des, 3, 34, 16)
CMAC(cmac_tdes_ede2, 33, 16)
CMAC(cmac_tdes_ede3, 49, 24)

static void hands_on(size_t length) {
  des_of_length(length);
  tdes_ede2_of_length(length);
  tdes_ede3_of_length(length);
}

static void hands_on_count(size_t count) {
  static bool right[1];
  des_of_count(count);
  tdes_ede2_of_count(count);
  tdes_ede3_of_count(count);
  cbc_mac_des_of_count(count);
  cbc_mac_tdes_ede2_of_count(count);
  cbc_mac_tdes_ede3_of_count(count);
  retail_mac_des_of_count(count);
  cmac_tdes_ede2_of_count(count);
  cmac_tdes_ede3_of_count(count);
  CHECK(cukvashe_dukpt_transaction_keys_from_base(base, input, 10 * count, output, 16 * count, count) == STATUS);
  WAS_WIPED(width_of(count), "dukpt_transaction_keys", A(base), A(input), count, A(output), count);
  CHECK(cukvashe_compare_tags(base, 8 * count, input, 8 * count, right, count) == STATUS);
  WAS("internal", "compare_tags", A(base), count, A(input), count, A(right), count);
}

/* A count whose elements have another length goes no further. */
static void refuses_count(size_t count, size_t more) {
  static bool right[1];
  const int status = CUKVASHE_ERR_COUNTS;
  des_refuses_count(count, more);
  tdes_ede2_refuses_count(count, more);
  tdes_ede3_refuses_count(count, more);
  cbc_mac_des_refuses_count(count, more);
  cbc_mac_tdes_ede2_refuses_count(count, more);
  cbc_mac_tdes_ede3_refuses_count(count, more);
  retail_mac_des_refuses_count(count, more);
  cmac_tdes_ede2_refuses_count(count, more);
  cmac_tdes_ede3_refuses_count(count, more);
  CHECK(cukvashe_dukpt_transaction_keys_from_base(base, input, 10 * count + more, output, 16 * count, count) == status);
  CHECK(cukvashe_dukpt_transaction_keys_from_base(base, input, 10 * count, output, 16 * count + more, count) == status);
  CHECK(cukvashe_compare_tags(base, 8 * count + more, input, 8 * count, right, count) == status);
  CHECK(cukvashe_compare_tags(base, 8 * count, input, 8 * count + more, right, count) == status);
  CHECK(calls == 0);
}

/* Lengths that differ by less than an element, or by some; and counts that times a size are no number of 64 bits, or a small one. */
static void refuses_counts(void) {
  static const size_t counts[] = {0, 1, 2, MOST_NARROW, MOST_NARROW + 1, (size_t)1 << 32};
  static const size_t more[] = {1, 2, 7, 8, 24, 240};
  for (size_t i = 0; i < sizeof counts / sizeof *counts; i++)
    for (size_t j = 0; j < sizeof more / sizeof *more; j++) {
      refuses_count(counts[i], more[j]);
      if (counts[i] > 0) refuses_count(counts[i], SIZE_MAX);
    }
  for (size_t count = (size_t)1 << 61; count != 0; count <<= 1)
    for (size_t less = 0; less < 2; less++) refuses_count(count + 1 - less, 0);
  refuses_count(SIZE_MAX / 3 + 1, 0);
  refuses_count(SIZE_MAX, 0);
}

/* Lists of blocks. Under keys of their own a length that is not whole blocks goes no further, nor does a count that is not that of the
   blocks, since it is multiplied, also where eight times as much is the length in 64 bits; of records both go on as they are, if their
   vectors have a length. */
static void hands_on_blocks(size_t count, size_t length) {
  if (count > SIZE_MAX / 8) {
    des_refuses_records(count, length);
    tdes_ede2_refuses_records(count, length);
    tdes_ede3_refuses_records(count, length);
  } else {
    des_of_records(count, length);
    tdes_ede2_of_records(count, length);
    tdes_ede3_of_records(count, length);
  }
  if (length % 8 == 0 && count == length / 8) {
    des_of_each(count);
    tdes_ede2_of_each(count);
    tdes_ede3_of_each(count);
  } else {
    const int status = length % 8 != 0 ? CUKVASHE_ERR_BLOCKS : CUKVASHE_ERR_COUNTS;
    des_refuses_each(status, count, length);
    tdes_ede2_refuses_each(status, count, length);
    tdes_ede3_refuses_each(status, count, length);
  }
}

static void hands_on_any_blocks(size_t length) {
  const size_t counts[] = {length / 8, length / 8 + 1, length / 8 + ((size_t)1 << 61), length, 8 * length, 0, MOST_NARROW,
                           MOST_NARROW + 1, SIZE_MAX};
  for (size_t i = 0; i < sizeof counts / sizeof *counts; i++) hands_on_blocks(counts[i], length);
}

/* Calls with structs, whose fields are given by their order, and one in another order. Their texts are a call's of its own, so any address
   will do. */
static void hands_on_structs(void) {
  const char *const text = (const char *)base;
  cukvashe_pin_translation translation = {iv, 1, 1, base, 2, text, 3, NULL};
  const cukvashe_key_block_parts parts = {iv, 1, {0}, text, 2, input, 3, base, 4};
  CHECK(cukvashe_pin_translate_to_0(&translation, input, output) == STATUS);
  WAS_WIPED("unwiped", "pin_translate_to_0", A(iv), 1, 1, A(base), 2, A(text), 3, A(input), A(output));
  CHECK(cukvashe_pin_translate_to_1(&translation, input, output) == STATUS);
  WAS_WIPED("unwiped", "pin_translate_to_1", A(iv), 1, A(base), 2, A(input), A(output));
  CHECK(cukvashe_pin_translate_to_3(&translation, input, output) == STATUS);
  WAS_WIPED("unwiped", "pin_translate_to_3", A(iv), 1, 1, A(base), 2, A(text), 3, A(no_fill), A(input), A(output));
  CHECK(sizeof no_fill == CUKVASHE_FILL_SIZE);
  translation.fill = base;
  CHECK(cukvashe_pin_translate_to_3(&translation, input, output) == STATUS);
  WAS_WIPED("unwiped", "pin_translate_to_3", A(iv), 1, 1, A(base), 2, A(text), 3, A(base), A(input), A(output));
  CHECK(cukvashe_key_block_wrap(&parts, (char *)output, 5, &number) == STATUS);
  WAS_WIPED("unwiped", "key_block_wrap", A(iv), 1, A(&parts.header), A(text), 2, A(input), 3, A(base), 4, A(output), 5, A(&number));
  CHECK(cukvashe_pbkdf2(1, 2, base, 3, iv, 4, output, 5) == STATUS);
  WAS_WIPED("unwiped", "pbkdf2", 1, A(base), 3, A(iv), 4, 2, A(output), 5);
}

/* A terminal's state without future keys goes no further. */
static void hands_on_a_terminal(void) {
  cukvashe_dukpt_terminal terminal = {{0}, {{0}}};
  CHECK(cukvashe_dukpt_terminal_next_key(&terminal, input, output) == CUKVASHE_ERR_NO_SERIAL && calls == 0);
  terminal.keys[20][15] = 1;
  CHECK(cukvashe_dukpt_terminal_next_key(&terminal, input, output) == STATUS);
  WAS_WIPED("unwiped", "dukpt_terminal_next_key", A(&terminal), A(input), A(output));
}

static void hands_on_the_rest(void) {
  des_of_key();
  tdes_ede2_of_key();
  tdes_ede3_of_key();
  cbc_mac_des_of_message();
  cbc_mac_tdes_ede2_of_message();
  cbc_mac_tdes_ede3_of_message();
  retail_mac_des_of_message();
  cmac_tdes_ede2_of_message();
  cmac_tdes_ede3_of_message();
  CHECK(cukvashe_pad(output, 5, 16, 2, &number) == STATUS);
  WAS("internal", "pad", A(output), 16, 5, 2, A(&number));
  for (int i = 0; i < 2; i++) {
    answer = i == 1;
    CHECK(cukvashe_equal_but_parity(input, output, 24) == answer);
    WAS_WIPED("internal", "equal_but_parity", A(input), 24, A(output), 24);
  }
}

/* A secret on the stack of a thread of its own, which is wiped or not before the function returns. */
enum { STACK = 1 << 17, SECRET = 64 };

static uint8_t secret[SECRET];
static volatile uint8_t used;

/* So far down that the end of the thread does not write over it; a compiler can't cut an array whose length it does not know. */
static volatile size_t depth = 1 << 14;

static void uses_secret(bool wipes) {
  uint8_t copy[depth];
  for (size_t i = 0; i < SECRET; i++) copy[i] = secret[i];
  for (size_t i = 0; i < SECRET; i++) used = *(volatile uint8_t *)(copy + i);
  if (wipes) cukvashe_wipe(copy, SECRET);
}

static void *wipes_secret(void *given) {
  uses_secret(true);
  return given;
}

static void *keeps_secret(void *given) {
  uses_secret(false);
  return given;
}

/* Whether the secret is left on the stack. */
static bool leaves_secret(void *(*run)(void *)) {
  void *stack;
  pthread_attr_t attributes;
  pthread_t thread;
  bool found = false;
  CHECK(posix_memalign(&stack, 4096, STACK) == 0);
  memset(stack, 0, STACK);
  CHECK(pthread_attr_init(&attributes) == 0 && pthread_attr_setstack(&attributes, stack, STACK) == 0);
  CHECK(pthread_create(&thread, &attributes, run, NULL) == 0 && pthread_join(thread, NULL) == 0);
  CHECK(pthread_attr_destroy(&attributes) == 0);
  for (size_t at = 0; at + SECRET <= STACK; at++) found |= memcmp((uint8_t *)stack + at, secret, SECRET) == 0;
  free(stack);
  return found;
}

#include "handed.h"

int main(int count, char **words) {
  static const size_t most = 8 * MOST_NARROW;
  const size_t lengths[] = {0, 1, 7, 8, 120, most - 8, most - 7, most - 1, most, most + 1, most + 8, 2 * most, 4 * most,
                            (size_t)1 << 32, SIZE_MAX};
  CHECK(count == 2);
  is_v3 = strcmp(words[1], "wide") == 0;
  CHECK(is_v3 || strcmp(words[1], "narrow") == 0);
  for (size_t length = 0; length <= most; length++) hands_on(length);
  for (size_t count = 0; count <= MOST_NARROW; count++) hands_on_count(count);
  for (size_t length = 0; length <= most; length++) hands_on_blocks(length / 8, length);
  CHECK(questions == 0);
  for (size_t i = 0; i < sizeof lengths / sizeof *lengths; i++) hands_on(lengths[i]);
  for (size_t i = 0; i < sizeof lengths / sizeof *lengths && lengths[i] <= SIZE_MAX / 24; i++) hands_on_count(lengths[i]);
  hands_on_count(MOST_NARROW + 1);
  refuses_counts();
  for (size_t i = 0; i < sizeof lengths / sizeof *lengths; i++) hands_on_any_blocks(lengths[i]);
  CHECK(questions == HAS_WIDE);
  for (is_v2 = 0; is_v2 < 2; is_v2++) CHECK(cukvashe_is_supported() == (is_v2 || !HAS_WIDE));
  hands_on_the_rest();
  hands_on_structs();
  hands_on_a_terminal();
  hands_all_on();
  cukvashe_wipe(NULL, 0);
  CHECK(cukvashe_strerror(-1) == cukvashe_strerror(INT_MIN) && cukvashe_strerror(0) != cukvashe_strerror(-1));
  for (size_t i = 0; i < SECRET; i++) secret[i] = (uint8_t)(3 * i + 101);
  CHECK(leaves_secret(keeps_secret) && !leaves_secret(wipes_secret));
  printf("dispatch: %s calls above %d blocks, and the processor was asked %s\n", words[1], MOST_NARROW, HAS_WIDE ? "once" : "nothing");
  return 0;
}
