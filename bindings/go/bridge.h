/*
 * What Go can't call itself: calls whose names tell the cipher or the MAC, here by numbers, and calls that take structs with pointers,
 * which are made here, since memory of Go's must not hold pointers to other memory of Go's.
 */
#ifndef BRIDGE_H
#define BRIDGE_H

#ifdef __has_include
#if !__has_include(<cukvashe_des.h>)
#error the library is not here: run bindings/go/carry, which copies it beside this file
#endif
#endif
#include <cukvashe_des.h>

/* CALL of the cipher whose key has `parts` parts of 8 bytes. */
#define BRIDGE_CIPHER(CALL)                \
  switch (parts) {                         \
  case 1: return CALL(des);                \
  case 2: return CALL(tdes_ede2);          \
  case 3: return CALL(tdes_ede3);          \
  default: return CUKVASHE_ERR_KEY_LENGTH; \
  }

#define BRIDGE_CONTEXT(NAME) (const cukvashe_##NAME *)words

static inline int bridge_init(uint64_t *words, int parts, const uint8_t *key, size_t length, bool no_tables) {
#define INIT(NAME) (no_tables ? cukvashe_##NAME##_init_no_tables : cukvashe_##NAME##_init)((cukvashe_##NAME *)words, key, length)
  BRIDGE_CIPHER(INIT)
#undef INIT
}

static inline int bridge_ecb(const uint64_t *words, int parts, bool decrypts, const uint8_t *from, uint8_t *to, size_t length) {
#define ECB(NAME) (decrypts ? cukvashe_##NAME##_decrypt_ecb_to : cukvashe_##NAME##_encrypt_ecb_to)(BRIDGE_CONTEXT(NAME), from, to, length)
  BRIDGE_CIPHER(ECB)
#undef ECB
}

static inline int bridge_cbc(const uint64_t *words, int parts, bool decrypts, uint8_t *iv, const uint8_t *from, uint8_t *to,
                             size_t length) {
#define CBC(NAME) \
  (decrypts ? cukvashe_##NAME##_decrypt_cbc_to : cukvashe_##NAME##_encrypt_cbc_to)(BRIDGE_CONTEXT(NAME), iv, from, to, length)
  BRIDGE_CIPHER(CBC)
#undef CBC
}

static inline int bridge_stream(const uint64_t *words, int parts, bool decrypts, cukvashe_stream *stream, uint8_t *data, size_t length) {
#define STREAM(NAME) \
  (decrypts ? cukvashe_##NAME##_decrypt_stream : cukvashe_##NAME##_encrypt_stream)(BRIDGE_CONTEXT(NAME), stream, data, length)
  BRIDGE_CIPHER(STREAM)
#undef STREAM
}

static inline int bridge_stream_bits(const uint64_t *words, int parts, bool decrypts, cukvashe_stream *stream, uint8_t *data, size_t bits) {
#define BITS(NAME) \
  (decrypts ? cukvashe_##NAME##_decrypt_stream_bits : cukvashe_##NAME##_encrypt_stream_bits)(BRIDGE_CONTEXT(NAME), stream, data, bits)
  BRIDGE_CIPHER(BITS)
#undef BITS
}

static inline int bridge_records(const uint64_t *words, int parts, bool decrypts, uint8_t *vectors, size_t vectors_length,
                                 const size_t *counts, size_t records_count, uint8_t *bytes, size_t length) {
#define RECORDS(NAME)                                                                            \
  (decrypts ? cukvashe_##NAME##_decrypt_cbc_records : cukvashe_##NAME##_encrypt_cbc_records)(    \
      BRIDGE_CONTEXT(NAME), vectors, vectors_length, counts, records_count, bytes, length)
  BRIDGE_CIPHER(RECORDS)
#undef RECORDS
}

static inline int bridge_each(int parts, bool decrypts, const uint8_t *keys, size_t count, uint8_t *blocks, size_t length) {
#define EACH(NAME) (decrypts ? cukvashe_##NAME##_decrypt_each : cukvashe_##NAME##_encrypt_each)(keys, count, blocks, length)
  BRIDGE_CIPHER(EACH)
#undef EACH
}

static inline int bridge_check_values(int parts, const uint8_t *keys, size_t keys_length, uint8_t *values, size_t values_length,
                                      size_t count) {
#define VALUES(NAME) cukvashe_##NAME##_check_values(keys, keys_length, values, values_length, count)
  BRIDGE_CIPHER(VALUES)
#undef VALUES
}

static inline int bridge_open_salted(int parts, int hash, size_t iterations, const uint8_t *password, size_t password_length,
                                     const uint8_t *bytes, size_t length, uint8_t *plain, size_t capacity, size_t *plain_length) {
#define OPEN(NAME) cukvashe_##NAME##_open_salted(hash, iterations, password, password_length, bytes, length, plain, capacity, plain_length)
  BRIDGE_CIPHER(OPEN)
#undef OPEN
}

/* The first two of the components, and the others after them. */
static inline int bridge_combine(int parts, const uint8_t *components, size_t length, uint8_t *key) {
  const size_t size = 8 * (size_t)parts;
#define COMBINE(SIZE) \
  cukvashe_combine_##SIZE(components, components + size, components + 2 * size, length - 2 * size, length / size - 2, key)
  switch (parts) {
  case 1: return COMBINE(8);
  case 2: return COMBINE(16);
  case 3: return COMBINE(24);
  default: return CUKVASHE_ERR_KEY_LENGTH;
  }
#undef COMBINE
}

/* MACs by the numbers of their algorithms in ISO/IEC 9797-1. */
enum { BRIDGE_CBC_MAC = 1, BRIDGE_RETAIL_MAC = 3, BRIDGE_CMAC = 5 };

/* CALL of the MAC of `algorithm` whose key has `parts` parts, with `, method` if it takes a padding method. */
#define BRIDGE_MAC(CALL)                                                  \
  switch (10 * algorithm + parts) {                                       \
  case 10 * BRIDGE_CBC_MAC + 1: return CALL(cbc_mac_des, , method);       \
  case 10 * BRIDGE_CBC_MAC + 2: return CALL(cbc_mac_tdes_ede2, , method); \
  case 10 * BRIDGE_CBC_MAC + 3: return CALL(cbc_mac_tdes_ede3, , method); \
  case 10 * BRIDGE_RETAIL_MAC + 2: return CALL(retail_mac_des, , method); \
  case 10 * BRIDGE_CMAC + 2: return CALL(cmac_tdes_ede2, );               \
  case 10 * BRIDGE_CMAC + 3: return CALL(cmac_tdes_ede3, );               \
  default: return CUKVASHE_ERR_KEY_LENGTH;                                \
  }

static inline int bridge_mac_init(uint64_t *words, int algorithm, int parts, int method, const uint8_t *key, size_t length,
                                  bool no_tables) {
#define INIT(NAME, ...) \
  (no_tables ? cukvashe_##NAME##_init_no_tables : cukvashe_##NAME##_init)((cukvashe_##NAME *)words, key, length __VA_ARGS__)
  BRIDGE_MAC(INIT)
#undef INIT
}

static inline int bridge_mac_update(uint64_t *words, int algorithm, int parts, const uint8_t *message, size_t length) {
#define UPDATE(NAME, ...) cukvashe_##NAME##_update((cukvashe_##NAME *)words, message, length)
  BRIDGE_MAC(UPDATE)
#undef UPDATE
}

static inline int bridge_mac_final(const uint64_t *words, int algorithm, int parts, uint8_t *tag) {
#define FINAL(NAME, ...) cukvashe_##NAME##_final(BRIDGE_CONTEXT(NAME), tag)
  BRIDGE_MAC(FINAL)
#undef FINAL
}

static inline int bridge_mac_verify(const uint64_t *words, int algorithm, int parts, const uint8_t *tag, size_t length) {
#define VERIFY(NAME, ...) cukvashe_##NAME##_verify(BRIDGE_CONTEXT(NAME), tag, length)
  BRIDGE_MAC(VERIFY)
#undef VERIFY
}

/* The tags of messages that stand one after the other. `messages` is a buffer of `count` elements, for this call alone. */
static inline int bridge_macs(int algorithm, int parts, int method, bool each, const uint8_t *keys, size_t keys_length,
                              const uint8_t *bytes, const size_t *lengths, cukvashe_message *messages, uint8_t *tags,
                              size_t tags_length, size_t count) {
  for (size_t i = 0; i < count; i++) {
    messages[i].bytes = bytes;
    messages[i].length = lengths[i];
    bytes += lengths[i];
  }
#define MACS(NAME, ...)                                                                                             \
  (each ? cukvashe_##NAME##_macs_each : cukvashe_##NAME##_macs)(keys, keys_length __VA_ARGS__, messages, tags, tags_length, count)
  BRIDGE_MAC(MACS)
#undef MACS
}

static inline int bridge_translate(const uint8_t *incoming_key, size_t incoming_key_length, int incoming_format,
                                   const uint8_t *outgoing_key, size_t outgoing_key_length, int outgoing_format,
                                   const char *account, size_t account_length, const uint8_t *fill, const uint8_t *block,
                                   uint8_t *translated) {
  const cukvashe_pin_translation translation = {
      .incoming_key = incoming_key,
      .incoming_key_length = incoming_key_length,
      .incoming_format = incoming_format,
      .outgoing_key = outgoing_key,
      .outgoing_key_length = outgoing_key_length,
      .account = account,
      .account_length = account_length,
      .fill = fill,
  };
  switch (outgoing_format) {
  case 0: return cukvashe_pin_translate_to_0(&translation, block, translated);
  case 1: return cukvashe_pin_translate_to_1(&translation, block, translated);
  case 3: return cukvashe_pin_translate_to_3(&translation, block, translated);
  default: return CUKVASHE_ERR_FORMATS;
  }
}

static inline int bridge_wrap(const uint8_t *protection, size_t protection_length, const cukvashe_key_block_fields *header,
                              const char *optional, size_t optional_length, const uint8_t *key, size_t key_length,
                              const uint8_t *padding, size_t padding_length, char *block, size_t capacity, size_t *length) {
  const cukvashe_key_block_parts parts = {
      .protection = protection,
      .protection_length = protection_length,
      .header = *header,
      .optional = optional,
      .optional_length = optional_length,
      .key = key,
      .key_length = key_length,
      .padding = padding,
      .padding_length = padding_length,
  };
  return cukvashe_key_block_wrap(&parts, block, capacity, length);
}

#endif
