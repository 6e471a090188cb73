/* Key blocks: what is made and read again, known ones with each change, their capacity, and what is left out; known calls are in
   known.c. */
#include "digits.h"

typedef cukvashe_key_block_fields fields;

/* A protection key, and a block. */
static const struct {
  const char *protection, *block;
} known[] = {
    {"89e88cf7931444f334bd7547fc3f380c",
     "A0072P0TE00E0000F5161ED902807AF26F1D62263644BD24192FDB3193C730301CEE8701"},
    {"1d22bf32387c600ad97f9b97a51311ac",
     "B0104B0TX12S0100KS1800604B120F9292800000BB68BE8680A400D9191AD4ECE45B6E6C0D21C4738A52190E248719E24B433627"},
    {"b8ed59e0a279a295e9f5ed7944fd06b9",
     "C0096B0TX12S0100KS1800604B120F9292800000BFB9B689CB567E66FC3FEE5AD5F52161FC6545B9D60989015D02155C"},
    {"dd7515f2bfc17f85ce48f3ca25cb21f6",
     "B0080P0TE00E000094B420079CC80BA3461F86FE26EFC4A3B8E4FA4C5F5341176EED7B727B8A248E"},
    {"3132333435363738393a3b3c3d3e3f404142434445464748",
     "B0112D0TB00N0200KV0AABCDEFPB0600E5F817BCB9632D20A17A5D89EACA9C285438591465453BC1D189836F4D5E534A7F55B5941D869047"},
    {"3132333435363738393a3b3c3d3e3f404142434445464748",
     "C0088D0TB00N0000C4E018DF42F39F60D80861D90D48657431AE5186F304704049244D894538D8BDF28B587B"},
};

enum { KNOWN = sizeof known / sizeof *known };

/* The bytes of digits, and how many they are. */
struct bytes {
  uint8_t at[32];
  size_t length;
};

static struct bytes bytes_of(const char *digits) {
  struct bytes bytes;
  bytes.length = strlen(digits) / 2;
  put(bytes.at, digits);
  return bytes;
}

/* What `unwrap` writes, painted before. */
struct opened {
  fields header;
  uint8_t key[24];
  size_t length;
};

static int unwrap(const char *protection, const char *block, size_t length, struct opened *opened) {
  const struct bytes key = bytes_of(protection);
  memset(opened, PAINTED, sizeof *opened);
  return cukvashe_key_block_unwrap(key.at, key.length, block, length, &opened->header, opened->key, &opened->length);
}

/* A content whose place has more than eight bits. */
static void finds_far_contents(void) {
  char block[368], name[3];
  size_t offset, length;
  memset(block, '0', sizeof block);
  memcpy(block, "B0368P0TE00E0200KS00020108", 26);
  memcpy(block + 280, "KV08ABCD", 8);
  CHECK(cukvashe_key_block_optional_block(block, sizeof block, 1, name, &offset, &length) == CUKVASHE_OK);
  CHECK(strcmp(name, "KV") == 0 && offset == 284 && length == 4);
  CHECK(cukvashe_key_block_optional_block(block, sizeof block, (size_t)-1, name, &offset, &length) == CUKVASHE_ERR_NO_OPTIONAL_BLOCK);
}

/* A known block with each bit turned, and, of the fourth, each other character in each place. */
static void refuses_changes(int i) {
  const size_t length = strlen(known[i].block);
  char changed[128];
  CHECK(length < sizeof changed);
  strcpy(changed, known[i].block);
  for (size_t place = 0; place < length; place++) {
    for (int mask = 1; mask < 256; mask = i == 3 ? mask + 1 : 2 * mask) {
      struct opened opened;
      changed[place] = (char)(known[i].block[place] ^ mask);
      CHECK(unwrap(known[i].protection, changed, length, &opened) != CUKVASHE_OK && is_kept(&opened, sizeof opened));
    }
    changed[place] = known[i].block[place];
  }
}

/* The fourth known block, cut at each place, and with its zero byte. */
static void refuses_lengths(void) {
  struct opened opened;
  for (size_t length = 0; length <= 81; length++)
    if (length != 80)
      CHECK(unwrap(known[3].protection, known[3].block, length, &opened) == CUKVASHE_ERR_KEY_BLOCK_LENGTH &&
            is_kept(&opened, sizeof opened));
}

/* What a block is made of. */
struct parts {
  const char *protection;
  fields header;
  const char *optional, *key;
  uint8_t padding[32];
  size_t padding_length;
};

/* The parts of the fourth known block, and of the fifth. */
static const struct parts published = {
    "dd7515f2bfc17f85ce48f3ca25cb21f6", {'B', "P0", 'T', 'E', "00", 'E'}, "", "3f419e1cb7079442aa37474c2efbf8b8",
    {0x1c, 0x29, 0x65, 0x47, 0x3c, 0xe2}, 6};
static const struct parts with_one = {
    "3132333435363738393a3b3c3d3e3f404142434445464748", {'B', "D0", 'T', 'B', "00", 'N'}, "KV0AABCDEF",
    "000102030405060708090a0b0c0d0e0f1011121314151617", {0xa1, 0xa1, 0xa1, 0xa1, 0xa1, 0xa1}, 6};

static int wrap(const struct parts *parts, char *block, size_t capacity, size_t *length) {
  const struct bytes protection = bytes_of(parts->protection), key = bytes_of(parts->key);
  const cukvashe_key_block_parts given = {.protection = protection.at, .protection_length = protection.length, .header = parts->header,
                                          .optional = parts->optional, .optional_length = strlen(parts->optional), .key = key.at,
                                          .key_length = key.length, .padding = parts->padding,
                                          .padding_length = parts->padding_length};
  return cukvashe_key_block_wrap(&given, block, capacity, length);
}

/* What is left out of the parts is zero, and refused, but for optional blocks. */
static void refuses_parts_left_out(void) {
  const struct bytes protection = bytes_of(published.protection), key = bytes_of(published.key);
  const cukvashe_key_block_parts nothing = {0};
  cukvashe_key_block_parts given = {.header = published.header};
  char block[100];
  size_t length;
  memset(block, PAINTED, sizeof block);
  CHECK(cukvashe_key_block_wrap(&nothing, block, sizeof block, &length) == CUKVASHE_ERR_VERSION);
  CHECK(cukvashe_key_block_wrap(&given, block, sizeof block, &length) == CUKVASHE_ERR_PROTECTION_KEY_LENGTH);
  given.protection = protection.at;
  given.protection_length = protection.length;
  CHECK(cukvashe_key_block_wrap(&given, block, sizeof block, &length) == CUKVASHE_ERR_KEY_LENGTH);
  given.key = key.at;
  given.key_length = key.length;
  CHECK(cukvashe_key_block_wrap(&given, block, sizeof block, &length) == CUKVASHE_ERR_PADDING_LENGTH);
  CHECK(is_kept(block, sizeof block));
  given.padding = published.padding;
  given.padding_length = published.padding_length;
  CHECK(cukvashe_key_block_wrap(&given, block, sizeof block, &length) == CUKVASHE_OK && strcmp(block, known[3].block) == 0);
}

/* The block, with a zero byte after it and nothing else, in the smallest buffer; in one that is a byte smaller there is none. */
static void makes(const struct parts *parts, const char *wanted) {
  char block[200];
  size_t length;
  memset(block, PAINTED, sizeof block);
  memset(&length, PAINTED, sizeof length);
  for (size_t capacity = 0; capacity <= strlen(wanted); capacity++) {
    CHECK(wrap(parts, block, capacity, &length) == CUKVASHE_ERR_KEY_BLOCK_LENGTH);
    CHECK(is_kept(block, sizeof block) && is_kept(&length, sizeof length));
  }
  CHECK(wrap(parts, NULL, 0, &length) == CUKVASHE_ERR_KEY_BLOCK_LENGTH && is_kept(&length, sizeof length));
  CHECK(wrap(parts, block, strlen(wanted) + 1, &length) == CUKVASHE_OK && length == strlen(wanted));
  CHECK(strcmp(block, wanted) == 0 && is_kept(block + length + 1, sizeof block - length - 1));
}

static void makes_known_blocks(void) {
  struct parts other = with_one;
  makes(&published, known[3].block);
  makes(&with_one, known[4].block);
  /* What stands after the two characters plays no part. */
  other.header.usage[2] = other.header.key_version[2] = 'x';
  makes(&other, known[4].block);
}

/* Blocks of random keys are opened to them, with every length of a protection key, a key and padding. */
static void opens_what_it_makes(void) {
  static const char *const contents[] = {"", "KS04", "KS05a", "CT0002000E7B22", "TS0Bxyz1234IK06ab"};
  char block[200];
  uint8_t protection[24], key[24], padding[22];
  fields header = {'B', "K1", 'D', 'Q', "c1", 'S'};
  for (int i = 0; i < 3 * 2 * 2 * 5 * 3; i++) {
    const size_t key_length = 8 + 8 * (size_t)(i % 3), protection_length = i / 3 % 2 ? 24 : 16;
    const size_t most = CUKVASHE_KEY_DATA_SIZE - 2 - key_length, less = 8 * (size_t)(i / 60 % 3);
    const size_t padding_length = less < most ? most - less : most;
    const char *optional = contents[i / 12 % 5];
    struct opened opened;
    size_t length;
    random_bytes(protection, sizeof protection);
    random_bytes(key, sizeof key);
    random_bytes(padding, sizeof padding);
    header.version = i / 6 % 2 ? 'B' : 'C';
    const cukvashe_key_block_parts parts = {.protection = protection, .protection_length = protection_length, .header = header,
                                            .optional = optional, .optional_length = strlen(optional), .key = key,
                                            .key_length = key_length, .padding = padding, .padding_length = padding_length};
    CHECK(cukvashe_key_block_wrap(&parts, block, sizeof block, &length) == CUKVASHE_OK);
    CHECK(cukvashe_key_block_unwrap(protection, protection_length, block, length, &opened.header, opened.key, &opened.length) ==
          CUKVASHE_OK);
    CHECK(opened.length == key_length && memcmp(opened.key, key, key_length) == 0);
    CHECK(memcmp(&opened.header, &header, sizeof header) == 0 && block[length] == 0);
  }
}

/* A fault of what a block is to be made of; nothing is written then. */
static void refuses_parts(const struct parts *parts, int status) {
  char block[200];
  size_t length;
  memset(block, PAINTED, sizeof block);
  memset(&length, PAINTED, sizeof length);
  CHECK(wrap(parts, block, sizeof block, &length) == status);
  CHECK(is_kept(block, sizeof block) && is_kept(&length, sizeof length));
}

/* Characters that are not ASCII. */
static void refuses_headers(void) {
  static const char wrong[] = {(char)0x80, (char)0xff};
  for (size_t i = 0; i < sizeof wrong; i++) {
    struct parts parts = published;
    char *const places[] = {parts.header.usage, parts.header.usage + 1, &parts.header.algorithm, &parts.header.mode,
                            parts.header.key_version, parts.header.key_version + 1, &parts.header.exportability};
    for (size_t place = 0; place < sizeof places / sizeof *places; place++) {
      const char kept = *places[place];
      *places[place] = wrong[i];
      refuses_parts(&parts, CUKVASHE_ERR_HEADER);
      *places[place] = kept;
    }
    parts.header.version = wrong[i];
    parts.header.mode = wrong[i];
    refuses_parts(&parts, CUKVASHE_ERR_VERSION);
  }
}

static void refuses_optional_blocks(void) {
  static const char *const wrong[] = {"K", "KS", "KS0", "KS03", "KS05", "KS04K", "KSxx", "KS0bxyz1234", "KS00", "KS0002000A0", "KS00030010",
                                      "KS04PB05a", "PB0Aabcdef"};
  static const char others[] = {1, '\t', (char)0x80, (char)0xe9};
  char content[] = "KS05aKS07a?aPB04";
  static char many[4 * 101 + 1];
  struct parts parts = published;
  for (size_t i = 0; i < sizeof wrong / sizeof *wrong; i++) {
    parts.optional = wrong[i];
    refuses_parts(&parts, CUKVASHE_ERR_OPTIONAL_BLOCK);
  }
  for (size_t i = 0; i < sizeof others; i++) {
    content[10] = others[i];
    parts.optional = content;
    refuses_parts(&parts, CUKVASHE_ERR_OPTIONAL_BLOCK);
  }
  for (int i = 0; i < 100; i++) memcpy(many + 4 * i, "KS04", 4);
  parts.optional = many;
  refuses_parts(&parts, CUKVASHE_ERR_OPTIONAL_BLOCK);
  /* 99 that do not fill eight characters would have to be one more. */
  many[4 * 99] = 0;
  refuses_parts(&parts, CUKVASHE_ERR_OPTIONAL_BLOCK);
  many[4 * 98] = 0;
  refuses_parts(&parts, CUKVASHE_ERR_KEY_BLOCK_LENGTH);
}

/* The longest block has 9,999 characters at most. */
static void makes_long_blocks(void) {
  static char optional[9905], block[CUKVASHE_KEY_BLOCK_SIZE];
  static const uint8_t key[16] = {1}, padding[14] = {2};
  char name[3];
  cukvashe_key_block_parts parts = {.protection = key, .protection_length = 16, .header = published.header, .optional = optional,
                                    .optional_length = 9888, .key = key, .key_length = 16, .padding = padding, .padding_length = 14};
  struct opened opened;
  size_t length, offset;
  memset(optional, 'x', sizeof optional);
  snprintf(optional, 11, "KS0002%04X", 9888);
  optional[10] = 'x';
  CHECK(cukvashe_key_block_wrap(&parts, block, sizeof block, &length) == CUKVASHE_OK);
  CHECK(length == 9984 && memcmp(block, "B9984", 5) == 0);
  CHECK(cukvashe_key_block_unwrap(key, 16, block, length, &opened.header, opened.key, &opened.length) == CUKVASHE_OK);
  CHECK(opened.length == 16 && memcmp(opened.key, key, 16) == 0);
  CHECK(cukvashe_key_block_optional_block(block, length, 0, name, &offset, &length) == CUKVASHE_OK);
  CHECK(offset == 26 && length == 9878 && memcmp(block + offset, optional + 10, length) == 0);
  snprintf(optional, 11, "KS0002%04X", 9904);
  optional[10] = 'x';
  memset(block, PAINTED, sizeof block);
  parts.optional_length = 9904;
  CHECK(cukvashe_key_block_wrap(&parts, block, sizeof block, &length) == CUKVASHE_ERR_KEY_BLOCK_LENGTH);
  CHECK(is_kept(block, sizeof block));
}

int main(void) {
  finds_far_contents();
  for (int i = 0; i < KNOWN; i++) refuses_changes(i);
  refuses_lengths();
  makes_known_blocks();
  refuses_parts_left_out();
  opens_what_it_makes();
  refuses_headers();
  refuses_optional_blocks();
  makes_long_blocks();
  printf("key blocks: %d known ones with each change, and what is made and read again\n", (int)KNOWN);
  return 0;
}
