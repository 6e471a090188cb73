/* The calls of each MAC in a table, and a test of one tag. */
#ifndef MAC_CALLS_H
#define MAC_CALLS_H

#include "check.h"

/* Any of the contexts. */
union mac_context {
  cukvashe_cbc_mac_des cbc_mac_des;
  cukvashe_cbc_mac_tdes_ede2 cbc_mac_tdes_ede2;
  cukvashe_cbc_mac_tdes_ede3 cbc_mac_tdes_ede3;
  cukvashe_retail_mac_des retail_mac_des;
  cukvashe_cmac_tdes_ede2 cmac_tdes_ede2;
  cukvashe_cmac_tdes_ede3 cmac_tdes_ede3;
};

typedef int mac_init(union mac_context *, const uint8_t *key, size_t length, int method);

struct mac {
  const char *name;
  size_t key_size, context_size;
  int is_padded; /* whether `init` takes a padding method */
  mac_init *init, *init_no_tables;
  int (*update)(union mac_context *, const uint8_t *message, size_t length);
  int (*final)(const union mac_context *, uint8_t *tag);
  int (*verify)(const union mac_context *, const uint8_t *tag, size_t length);
  bool (*is_tag)(const union mac_context *, const uint8_t *tag, size_t length);
};

#define PADDED_INIT(name, call)                                                                    \
  static int name##_##call(union mac_context *c, const uint8_t *key, size_t length, int method) {  \
    return cukvashe_##name##_##call(&c->name, key, length, method);                                \
  }
#define INIT(name, call)                                                                           \
  static int name##_##call(union mac_context *c, const uint8_t *key, size_t length, int method) {  \
    (void)method;                                                                                  \
    return cukvashe_##name##_##call(&c->name, key, length);                                        \
  }
#define DEFINE_MAC(name)                                                                           \
  static int name##_update(union mac_context *c, const uint8_t *message, size_t length) {          \
    return cukvashe_##name##_update(&c->name, message, length);                                    \
  }                                                                                                \
  static int name##_final(const union mac_context *c, uint8_t *tag) {                              \
    return cukvashe_##name##_final(&c->name, tag);                                                 \
  }                                                                                                \
  static int name##_verify(const union mac_context *c, const uint8_t *tag, size_t length) {        \
    return cukvashe_##name##_verify(&c->name, tag, length);                                        \
  }                                                                                                \
  static bool name##_is_tag(const union mac_context *c, const uint8_t *tag, size_t length) {               \
    return cukvashe_##name##_is_tag(&c->name, tag, length);                                        \
  }
#define MAC(name, key_size, is_padded)                                                             \
  {                                                                                                \
    #name, key_size, sizeof(cukvashe_##name), is_padded, name##_init, name##_init_no_tables,       \
        name##_update, name##_final, name##_verify, name##_is_tag                                  \
  }

PADDED_INIT(cbc_mac_des, init)
PADDED_INIT(cbc_mac_des, init_no_tables)
PADDED_INIT(cbc_mac_tdes_ede2, init)
PADDED_INIT(cbc_mac_tdes_ede2, init_no_tables)
PADDED_INIT(cbc_mac_tdes_ede3, init)
PADDED_INIT(cbc_mac_tdes_ede3, init_no_tables)
PADDED_INIT(retail_mac_des, init)
PADDED_INIT(retail_mac_des, init_no_tables)
INIT(cmac_tdes_ede2, init)
INIT(cmac_tdes_ede2, init_no_tables)
INIT(cmac_tdes_ede3, init)
INIT(cmac_tdes_ede3, init_no_tables)
DEFINE_MAC(cbc_mac_des)
DEFINE_MAC(cbc_mac_tdes_ede2)
DEFINE_MAC(cbc_mac_tdes_ede3)
DEFINE_MAC(retail_mac_des)
DEFINE_MAC(cmac_tdes_ede2)
DEFINE_MAC(cmac_tdes_ede3)

enum { MACS = 6, CBC_MAC_DES = 0, CBC_MAC_EDE2 = 1, CBC_MAC_EDE3 = 2, RETAIL_MAC = 3, CMAC_EDE2 = 4, CMAC_EDE3 = 5 };

static const struct mac macs[MACS] = {
    MAC(cbc_mac_des, CUKVASHE_CBC_MAC_DES_KEY_SIZE, 1),
    MAC(cbc_mac_tdes_ede2, CUKVASHE_CBC_MAC_TDES_EDE2_KEY_SIZE, 1),
    MAC(cbc_mac_tdes_ede3, CUKVASHE_CBC_MAC_TDES_EDE3_KEY_SIZE, 1),
    MAC(retail_mac_des, CUKVASHE_RETAIL_MAC_DES_KEY_SIZE, 1),
    MAC(cmac_tdes_ede2, CUKVASHE_CMAC_TDES_EDE2_KEY_SIZE, 0),
    MAC(cmac_tdes_ede3, CUKVASHE_CMAC_TDES_EDE3_KEY_SIZE, 0),
};

/* A tag of a context that `init` makes, from pieces of random length; a tag is taken on the way. */
static inline void is_mac(const struct mac *mac, mac_init *init, const uint8_t *key, int method, const uint8_t *message,
                          size_t length, const uint8_t wanted[8]) {
  union mac_context context;
  uint8_t tag[8];
  CHECK(init(&context, key, mac->key_size, method) == CUKVASHE_OK);
  for (size_t start = 0, end; start < length; start = end) {
    end = start + 1 + random_word() % (length - start);
    CHECK(mac->update(&context, message + start, end - start) == CUKVASHE_OK);
    CHECK(mac->final(&context, tag) == CUKVASHE_OK);
  }
  CHECK(mac->final(&context, tag) == CUKVASHE_OK);
  CHECK(memcmp(tag, wanted, 8) == 0);
  CHECK(mac->verify(&context, wanted, 8) == CUKVASHE_OK && mac->is_tag(&context, wanted, 8));
}

#endif
