/*
 * The ciphers beside OpenSSL's own: the same calls of EVP to both, and the same statuses, errors, bytes and parameters.
 *
 *   beside FOLDER CONFIGURATION SEED CALLS    CALLS random calls, in messages of up to 24, and what stands below
 */
#include "common.h"

enum { CAPACITY = 8192 };

static OSSL_LIB_CTX *libraries[2];
static size_t calls, refusals;
/* Whether OpenSSL refuses in its parameter "num" what is no place in a block, and in streams all but 0, as newer versions. */
static bool refuses_large_numbers, refuses_stream_numbers;

/* A cipher of both, a context of both, and what came of one call to each. */
struct pair {
  EVP_CIPHER *cipher[2];
  EVP_CIPHER_CTX *context[2];
  int status[2], length[2];
  unsigned long error[2];
  int key_length, iv_length;
  bool is_stream, has_begun, has_ended;
};

static uint8_t input[2][CAPACITY], output[2][2 * CAPACITY];

static void make(struct pair *pair, const char *name) {
  at_work = name;
  memset(pair, 0, sizeof *pair);
  EACH(who) {
    pair->cipher[who] = EVP_CIPHER_fetch(libraries[who], name, NULL);
    pair->context[who] = EVP_CIPHER_CTX_new();
    CHECK(pair->cipher[who] != NULL && pair->context[who] != NULL);
    CHECK(is_ours(EVP_CIPHER_get0_provider(pair->cipher[who])) == (who == OURS));
  }
  pair->key_length = EVP_CIPHER_get_key_length(pair->cipher[THEIRS]);
  pair->iv_length = EVP_CIPHER_get_iv_length(pair->cipher[THEIRS]);
  pair->is_stream = EVP_CIPHER_get_block_size(pair->cipher[THEIRS]) == 1;
}

static void drop(struct pair *pair) {
  EACH(who) {
    EVP_CIPHER_CTX_free(pair->context[who]);
    EVP_CIPHER_free(pair->cipher[who]);
  }
}

/* A call to one of them, whose status and error are kept. */
#define ASK(who, call)                     \
  do {                                     \
    ERR_clear_error();                     \
    pair->status[who] = call;              \
    pair->error[who] = error_of_call();    \
  } while (0)

/* Both answered alike: by a status, and by an error or none. */
static bool agree(const struct pair *pair) {
  calls++;
  refusals += pair->status[THEIRS] <= 0;
  CHECK(pair->status[OURS] == pair->status[THEIRS]);
  CHECK(pair->error[OURS] == pair->error[THEIRS]);
  return pair->status[THEIRS] > 0;
}

/* ---- What a cipher says of itself ---- */

/* Each parameter of one list is in the other, but for those of records of TLS. */
static void are_all_in(const OSSL_PARAM *some, const OSSL_PARAM *others) {
  for (; some->key != NULL; some++) {
    const OSSL_PARAM *other = OSSL_PARAM_locate_const(others, some->key);
    if (strncmp(some->key, "tls-", 4) == 0) continue;
    CHECK(other != NULL && other->data_type == some->data_type);
  }
}

static void compare_lists(const OSSL_PARAM *ours, const OSSL_PARAM *own) {
  are_all_in(ours, own);
  are_all_in(own, ours);
}

static void compare_ciphers(const char *name) {
  struct pair made, *pair = &made;
  make(pair, name);
  const EVP_CIPHER *ours = pair->cipher[OURS], *own = pair->cipher[THEIRS];
  CHECK(EVP_CIPHER_get_nid(ours) == EVP_CIPHER_get_nid(own) && EVP_CIPHER_get_type(ours) == EVP_CIPHER_get_type(own));
  CHECK(EVP_CIPHER_get_flags(ours) == EVP_CIPHER_get_flags(own));
  CHECK(EVP_CIPHER_get_mode(ours) == EVP_CIPHER_get_mode(own));
  CHECK(EVP_CIPHER_get_key_length(ours) == pair->key_length && EVP_CIPHER_get_iv_length(ours) == pair->iv_length);
  CHECK(EVP_CIPHER_get_block_size(ours) == EVP_CIPHER_get_block_size(own));
  CHECK(EVP_CIPHER_is_a(ours, EVP_CIPHER_get0_name(own)) && EVP_CIPHER_is_a(own, EVP_CIPHER_get0_name(ours)));
  compare_lists(EVP_CIPHER_gettable_params(ours), EVP_CIPHER_gettable_params(own));
  compare_lists(EVP_CIPHER_gettable_ctx_params(ours), EVP_CIPHER_gettable_ctx_params(own));
  compare_lists(EVP_CIPHER_settable_ctx_params(ours), EVP_CIPHER_settable_ctx_params(own));
  drop(pair);
}

/* Of OpenSSL's ciphers, those whose name begins with DES are here. */
static void compare_name(EVP_CIPHER *own, void *count) {
  const char *name = EVP_CIPHER_get0_name(own);
  if (strncmp(name, "DES", 3) != 0) return;
  EVP_CIPHER *ours = EVP_CIPHER_fetch(libraries[OURS], name, NULL);
  at_work = name;
  CHECK(ours != NULL);
  EVP_CIPHER_free(ours);
  ++*(size_t *)count;
}

static void has_all_names(void) {
  size_t count = 0;
  EVP_CIPHER_do_all_provided(libraries[THEIRS], compare_name, &count);
  CHECK(count == CIPHERS + 1);
}

/* ---- Random calls ---- */

static size_t some_length(void) {
  switch (below(8)) {
    case 0: return 0;
    case 1: return 8 * below(24);
    case 2: return below(24);
    case 3: return below(200);
    case 4: return 8 * below(300);
    case 5: return below(3000);
    case 6: return 1024 * (1 + below(5)) + 8 * below(3) - 8;
    default: return 2048 + below(17) - 8;
  }
}

/* Of streams of short segments, which take long, a part of it. */
static size_t some_length_for(const struct pair *pair) {
  const char *name = EVP_CIPHER_get0_name(pair->cipher[THEIRS]);
  return once_in(2) ? some_length() / blocks_of_eight(name) : some_length() % (800 / blocks_of_eight(name));
}

/* Now and then without a cipher, a key or a vector, or in the direction of before, which at first are faults. */
static void begin(struct pair *pair) {
  uint8_t key[24], vector[8];
  unsigned pads = (unsigned)below(2);
  const OSSL_PARAM params[] = {OSSL_PARAM_construct_uint(OSSL_CIPHER_PARAM_PADDING, &pads), OSSL_PARAM_construct_end()};
  const bool first = !pair->has_begun, takes_cipher = first ? !once_in(30) : once_in(8), takes_params = once_in(2);
  const bool takes_key = !once_in(first ? 16 : 2), takes_vector = !once_in(2);
  const int direction = first ? (int)below(2) : (int)below(3) - 1;
  random_bytes(key, sizeof key);
  random_bytes(vector, sizeof vector);
  EACH(who) ASK(who, EVP_CipherInit_ex2(pair->context[who], takes_cipher ? pair->cipher[who] : NULL, takes_key ? key : NULL,
                                        takes_vector ? vector : NULL, direction, takes_params ? params : NULL));
  if (agree(pair)) pair->has_begun = true;
}

/* From a buffer to another, at any place; what stands around the output stays. */
static void update_apart(struct pair *pair) {
  const size_t from = below(16), to = below(16), length = some_length_for(pair);
  random_bytes(input[OURS], from + length);
  memset(output, 7, sizeof output);
  EACH(who) ASK(who, EVP_CipherUpdate(pair->context[who], output[who] + to, &pair->length[who], input[OURS] + from, (int)length));
  if (agree(pair)) CHECK(pair->length[OURS] == pair->length[THEIRS]);
  CHECK(memcmp(output[OURS], output[THEIRS], sizeof output[OURS]) == 0);
}

/*
 * Ours over its own input, displaced by up to 40 bytes or not at all; theirs from a buffer to another, since it can't, where
 * there is the same before, since by bits a part of it may stay.
 */
static void update_over(struct pair *pair) {
  const size_t length = some_length_for(pair), from = 40 + (once_in(2) ? 0 : below(81)), to = from == 40 ? 40 : 80;
  random_bytes(output[OURS], sizeof output[OURS]);
  memcpy(input[THEIRS], output[OURS] + from, length);
  memcpy(output[THEIRS], output[OURS] + to, length);
  ASK(OURS, EVP_CipherUpdate(pair->context[OURS], output[OURS] + to, &pair->length[OURS], output[OURS] + from, (int)length));
  ASK(THEIRS, EVP_CipherUpdate(pair->context[THEIRS], output[THEIRS], &pair->length[THEIRS], input[THEIRS], (int)length));
  if (!agree(pair)) return;
  CHECK(pair->length[OURS] == pair->length[THEIRS]);
  CHECK(memcmp(output[OURS] + to, output[THEIRS], (size_t)pair->length[THEIRS]) == 0);
}

static void update_by_nothing(struct pair *pair) {
  EACH(who) {
    pair->length[who] = 77;
    ASK(who, EVP_CipherUpdate(pair->context[who], output[who], &pair->length[who], once_in(2) ? NULL : input[who], 0));
  }
  if (agree(pair)) CHECK(pair->length[OURS] == pair->length[THEIRS]);
}

/* EVP_Cipher, over whole blocks but for streams, in place, which leaves the pending bytes. Its status is a length. */
static void run_alone(struct pair *pair) {
  const size_t length = pair->is_stream ? some_length_for(pair) : 8 * below(300);
  random_bytes(output[OURS], length);
  memcpy(output[THEIRS], output[OURS], length);
  EACH(who) ASK(who, EVP_Cipher(pair->context[who], output[who], output[who], (unsigned)length));
  agree(pair);
  CHECK(memcmp(output[OURS], output[THEIRS], length) == 0);
}

/* A copy goes on, or the one that was copied does. */
static void make_copies(struct pair *pair) {
  const bool goes_on = once_in(2);
  EACH(who) {
    EVP_CIPHER_CTX *copy = EVP_CIPHER_CTX_new(), *rest;
    ASK(who, EVP_CIPHER_CTX_copy(copy, pair->context[who]));
    rest = goes_on && pair->status[who] == 1 ? pair->context[who] : copy;
    if (rest != copy) pair->context[who] = copy;
    if (pair->status[who] == 1) CHECK(EVP_CipherUpdate(rest, output[who], &pair->length[who], input[who], 13) >= 0);
    EVP_CIPHER_CTX_free(rest);
  }
  agree(pair);
}

static void set_padding(struct pair *pair) {
  const int pads = (int)below(2);
  EACH(who) ASK(who, EVP_CIPHER_CTX_set_padding(pair->context[who], pads));
  agree(pair);
}

/* Ours does as the newer versions: a number as large as a block is refused. In streams others are not. */
static bool refuses_number(const char *name, unsigned number) {
  struct pair made, *pair = &made;
  OSSL_PARAM params[] = {OSSL_PARAM_construct_uint(OSSL_CIPHER_PARAM_NUM, &number), OSSL_PARAM_construct_end()};
  make(pair, name);
  EACH(who) CHECK(EVP_CipherInit_ex2(pair->context[who], pair->cipher[who], NULL, NULL, 1, NULL) == 1);
  EACH(who) ASK(who, EVP_CIPHER_CTX_set_params(pair->context[who], params));
  CHECK(pair->status[OURS] == (number < 8));
  drop(pair);
  return pair->status[THEIRS] == 0;
}

static void learn_of_numbers(void) {
  refuses_large_numbers = refuses_number("DES-EDE3-CBC", 8);
  CHECK(refuses_number("DES-EDE3-CFB", 8) == refuses_large_numbers);
  refuses_stream_numbers = refuses_number("DES-EDE3-CFB", 1);
}

/* A number that both take, or refuse. */
static uint64_t some_number(const struct pair *pair) {
  if (pair->is_stream && refuses_stream_numbers) return once_in(2) ? 0 : 8 + below(100);
  if (!refuses_large_numbers) return below(8);
  return once_in(4) ? random_word() : below(9);
}

/* A parameter that a cipher takes, as a number of each width and sign, one that fits none of them, and one that is unknown. */
static void set_params(struct pair *pair) {
  static const char *const keys[] = {OSSL_CIPHER_PARAM_PADDING, OSSL_CIPHER_PARAM_NUM, OSSL_CIPHER_PARAM_USE_BITS, "unknown"};
  const char *key = keys[below(COUNT(keys))];
  const bool is_number = strcmp(key, OSSL_CIPHER_PARAM_NUM) == 0;
  const uint64_t bits = is_number ? some_number(pair) : once_in(4) ? random_word() : below(9);
  uint64_t wide = bits;
  int64_t wide_int = (int64_t)bits;
  uint32_t narrow = (uint32_t)bits;
  int32_t narrow_int = (int32_t)bits;
  OSSL_PARAM kinds[] = {OSSL_PARAM_construct_uint64(key, &wide), OSSL_PARAM_construct_int64(key, &wide_int),
                        OSSL_PARAM_construct_uint32(key, &narrow), OSSL_PARAM_construct_int32(key, &narrow_int),
                        OSSL_PARAM_construct_octet_string(key, &wide, sizeof wide)};
  OSSL_PARAM params[] = {kinds[below(COUNT(kinds))], OSSL_PARAM_construct_end()};
  EACH(who) ASK(who, EVP_CIPHER_CTX_set_params(pair->context[who], params));
  agree(pair);
}

static void set_lengths(struct pair *pair) {
  const int length = (int)below(26);
  EACH(who) ASK(who, EVP_CIPHER_CTX_set_key_length(pair->context[who], length));
  agree(pair);
  EACH(who) ASK(who, EVP_CIPHER_CTX_ctrl(pair->context[who], EVP_CTRL_AEAD_SET_IVLEN, length, NULL));
  agree(pair);
}

/* Vectors, as bytes and by a pointer to them, and numbers. */
static void get_params(struct pair *pair) {
  uint8_t first[2][16] = {{0}}, vector[2][16] = {{0}};
  unsigned numbers[2][2] = {{0}};
  size_t lengths[2][2] = {{0}};
  void *pointers[2] = {NULL, NULL};
  EACH(who) {
    OSSL_PARAM params[] = {OSSL_PARAM_construct_octet_string(OSSL_CIPHER_PARAM_IV, first[who], sizeof first[who]),
                           OSSL_PARAM_construct_octet_string(OSSL_CIPHER_PARAM_UPDATED_IV, vector[who], sizeof vector[who]),
                           OSSL_PARAM_construct_uint(OSSL_CIPHER_PARAM_PADDING, &numbers[who][0]),
                           OSSL_PARAM_construct_uint(OSSL_CIPHER_PARAM_NUM, &numbers[who][1]),
                           OSSL_PARAM_construct_size_t(OSSL_CIPHER_PARAM_KEYLEN, &lengths[who][0]),
                           OSSL_PARAM_construct_size_t(OSSL_CIPHER_PARAM_IVLEN, &lengths[who][1]),
                           OSSL_PARAM_construct_end()};
    ASK(who, EVP_CIPHER_CTX_get_params(pair->context[who], params));
  }
  agree(pair);
  CHECK(memcmp(first[OURS], first[THEIRS], 16) == 0 && memcmp(vector[OURS], vector[THEIRS], 16) == 0);
  CHECK(memcmp(numbers[OURS], numbers[THEIRS], sizeof numbers[OURS]) == 0);
  CHECK(memcmp(lengths[OURS], lengths[THEIRS], sizeof lengths[OURS]) == 0);
  if (pair->iv_length == 0) return;
  EACH(who) {
    OSSL_PARAM params[] = {OSSL_PARAM_construct_octet_ptr(OSSL_CIPHER_PARAM_UPDATED_IV, &pointers[who], 8),
                           OSSL_PARAM_construct_end()};
    ASK(who, EVP_CIPHER_CTX_get_params(pair->context[who], params));
  }
  if (agree(pair)) CHECK(memcmp(pointers[OURS], pointers[THEIRS], 8) == 0);
}

/* Parameters without the space that they need, or of another type. */
static void get_wrong_params(struct pair *pair) {
  static const char *const keys[] = {OSSL_CIPHER_PARAM_IV, OSSL_CIPHER_PARAM_UPDATED_IV, OSSL_CIPHER_PARAM_NUM,
                                     OSSL_CIPHER_PARAM_KEYLEN};
  const char *key = keys[below(COUNT(keys))];
  uint8_t bytes[4] = {0};
  char text[4] = "";
  OSSL_PARAM kinds[] = {OSSL_PARAM_construct_octet_string(key, bytes, sizeof bytes),
                        OSSL_PARAM_construct_utf8_string(key, text, sizeof text), OSSL_PARAM_construct_octet_string(key, NULL, 0)};
  OSSL_PARAM params[] = {kinds[below(COUNT(kinds))], OSSL_PARAM_construct_end()};
  size_t sizes[2];
  EACH(who) {
    ASK(who, EVP_CIPHER_CTX_get_params(pair->context[who], params));
    sizes[who] = params[0].return_size;
  }
  if (agree(pair)) CHECK(sizes[OURS] == sizes[THEIRS]);
}

static void make_keys(struct pair *pair) {
  uint8_t keys[2][24] = {{0}};
  EACH(who) ASK(who, EVP_CIPHER_CTX_rand_key(pair->context[who], keys[who]));
  if (!agree(pair)) return;
  for (int i = 0; i < 24; i++) CHECK(i < pair->key_length ? __builtin_parity(keys[OURS][i]) == 1 : keys[OURS][i] == 0);
}

/* Of a wrong padding what is pending after it is each one's own: it ends the message. */
static void end(struct pair *pair) {
  memset(output, 7, sizeof output);
  EACH(who) ASK(who, EVP_CipherFinal_ex(pair->context[who], output[who], &pair->length[who]));
  if (agree(pair)) {
    CHECK(pair->length[OURS] == pair->length[THEIRS]);
    CHECK(memcmp(output[OURS], output[THEIRS], 32) == 0);
  } else if (ERR_GET_REASON(pair->error[THEIRS]) == 100) {
    pair->has_ended = true;
  }
}

static void end_twice(struct pair *pair) {
  end(pair);
  if (!pair->has_ended) end(pair);
}

typedef void call(struct pair *);

static void random_calls(void) {
  static call *const often[] = {begin, update_apart, update_apart, update_apart, update_over, update_over, run_alone, end};
  static call *const seldom[] = {update_by_nothing, make_copies, set_padding,     set_params, set_lengths,
                                 get_params,        make_keys,   get_wrong_params, end_twice};
  struct pair pair;
  make(&pair, names[below(NAMES)]);
  /* Before a cipher is set, EVP itself answers. */
  if (!once_in(20)) begin(&pair);
  for (size_t left = 1 + below(24); left != 0 && !pair.has_ended; left--) {
    call *next = once_in(3) ? seldom[below(COUNT(seldom))] : often[below(COUNT(often))];
    if (EVP_CIPHER_CTX_get0_cipher(pair.context[OURS]) != NULL || next == begin) next(&pair);
  }
  drop(&pair);
}

/* ---- Padding ---- */

/* Each byte at the end of a text, as if it were padding, and with one byte of it wrong. */
static void compare_padding(const struct pair *pair, int last, int wrong, bool fills) {
  uint8_t key[24], vector[8], text[16], sealed[16], opened[2][24];
  int made, length[2], status[2];
  unsigned long error[2];
  random_bytes(key, sizeof key);
  random_bytes(vector, sizeof vector);
  random_bytes(text, sizeof text);
  for (int i = 8; i < 16; i++)
    if (fills || i == 15 || i + last >= 16) text[i] = (uint8_t)last;
  if (wrong >= 0) text[8 + wrong] ^= (uint8_t)(1 + below(255));
  CHECK(EVP_EncryptInit_ex2(pair->context[THEIRS], pair->cipher[THEIRS], key, vector, NULL) == 1);
  CHECK(EVP_CIPHER_CTX_set_padding(pair->context[THEIRS], 0) == 1);
  CHECK(EVP_EncryptUpdate(pair->context[THEIRS], sealed, &made, text, sizeof text) == 1 && made == 16);
  EACH(who) {
    CHECK(EVP_DecryptInit_ex2(pair->context[who], pair->cipher[who], key, vector, NULL) == 1);
    CHECK(EVP_CIPHER_CTX_set_padding(pair->context[who], 1) == 1);
    CHECK(EVP_DecryptUpdate(pair->context[who], opened[who], &made, sealed, sizeof sealed) == 1 && made == 8);
    status[who] = EVP_DecryptFinal_ex(pair->context[who], opened[who] + 8, &length[who]);
    error[who] = error_of_call();
  }
  CHECK(status[OURS] == status[THEIRS] && error[OURS] == error[THEIRS]);
  if (status[OURS] == 1)
    CHECK(length[OURS] == length[THEIRS] && memcmp(opened[OURS], opened[THEIRS], (size_t)(8 + length[OURS])) == 0);
  if (fills && wrong < 0) CHECK((status[OURS] == 1) == (last >= 1 && last <= 8));
}

static void compare_paddings(void) {
  struct pair pair;
  make(&pair, "DES-EDE3-CBC");
  for (int last = 0; last < 256; last++)
    for (int wrong = -1; wrong < 8; wrong++) {
      compare_padding(&pair, last, wrong, false);
      compare_padding(&pair, last, wrong, true);
    }
  drop(&pair);
}

/* ---- Key wrap, whose answers are random: what one wraps the other unwraps ---- */

enum { LONGEST_KEY = 256 };

static void begin_wrap(struct pair *pair, const uint8_t *key, int encrypts) {
  EACH(who) ASK(who, EVP_CipherInit_ex2(pair->context[who], pair->cipher[who], key, NULL, encrypts, NULL));
  CHECK(agree(pair));
}

/* Ours over its own input, displaced by up to 40 bytes, whose answer comes to another place. */
static bool run_over(struct pair *pair, uint8_t *made, const uint8_t *bytes, size_t length) {
  const size_t to = below(41), from = 40;
  memcpy(output[OURS] + from, bytes, length);
  ASK(OURS, EVP_CipherUpdate(pair->context[OURS], output[OURS] + to, &pair->length[OURS], output[OURS] + from, (int)length));
  if (pair->status[OURS] == 1) memcpy(made, output[OURS] + to, (size_t)pair->length[OURS]);
  return pair->status[OURS] == 1;
}

/* Both unwrap the same, and leave the same where they refuse. */
static bool unwrap(struct pair *pair, const uint8_t *wrapped, size_t length) {
  uint8_t over[LONGEST_KEY + 16];
  const bool is_over = run_over(pair, over, wrapped, length);
  memset(output, 7, sizeof output);
  EACH(who) {
    pair->length[who] = 77;
    ASK(who, EVP_CipherUpdate(pair->context[who], output[who], &pair->length[who], wrapped, (int)length));
  }
  const bool is_done = agree(pair);
  CHECK(pair->length[OURS] == pair->length[THEIRS] && memcmp(output[OURS], output[THEIRS], sizeof output[OURS]) == 0);
  CHECK(is_over == is_done && (!is_done || memcmp(over, output[THEIRS], (size_t)pair->length[THEIRS]) == 0));
  return is_done;
}

/* RFC 3217, 3.4. */
static void unwraps_as_published(struct pair *pair) {
  static const uint8_t wrapping[25] = "\x25\x5e\x0d\x1c\x07\xb6\x46\xdf\xb3\x13\x4c\xc8\x43\xba\x8a\xa7\x1f\x02\x5b\x7c\x08\x38\x25\x1f";
  static const uint8_t key[25] = "\x29\x23\xbf\x85\xe0\x6d\xd6\xae\x52\x91\x49\xf1\xf1\xba\xe9\xea\xb3\xa7\xda\x3d\x86\x0d\x3e\x98";
  static const uint8_t wrapped[41] = "\x69\x01\x07\x61\x8e\xf0\x92\xb3\xb4\x8c\xa1\x79\x6b\x23\x4a\xe9\xfa\x33\xeb\xb4"
                                     "\x15\x96\x04\x03\x7d\xb5\xd6\xa8\x4e\xb3\xaa\xc2\x76\x8c\x63\x27\x75\xa4\x67\xd4";
  begin_wrap(pair, wrapping, 0);
  CHECK(unwrap(pair, wrapped, 40) && pair->length[OURS] == 24 && memcmp(output[OURS], key, 24) == 0);
}

static void compare_wraps(struct pair *pair) {
  uint8_t wrapping[24], key[LONGEST_KEY], wrapped[2][LONGEST_KEY + 16], over[LONGEST_KEY + 16];
  const size_t length = 8 * (1 + below(LONGEST_KEY / 8));
  random_bytes(wrapping, sizeof wrapping);
  random_bytes(key, sizeof key);
  begin_wrap(pair, wrapping, 1);
  EACH(who) ASK(who, EVP_CipherUpdate(pair->context[who], wrapped[who], &pair->length[who], key, (int)length));
  CHECK(agree(pair) && pair->length[OURS] == (int)length + 16 && pair->length[THEIRS] == (int)length + 16);
  CHECK(memcmp(wrapped[OURS], wrapped[THEIRS], length + 16) != 0);
  CHECK(run_over(pair, over, key, length) && memcmp(over, wrapped[OURS], length + 16) != 0);
  end(pair);
  begin_wrap(pair, wrapping, 0);
  EACH(who) CHECK(unwrap(pair, wrapped[who], length + 16) && memcmp(output[OURS], key, length) == 0);
  CHECK(unwrap(pair, over, length + 16) && memcmp(output[OURS], key, length) == 0);
  wrapped[OURS][below(length + 16)] ^= (uint8_t)(1 + below(255));
  CHECK(!unwrap(pair, wrapped[OURS], length + 16));
  CHECK(!unwrap(pair, wrapped[THEIRS], 1 + below(length + 15)));
  end(pair);
}

/* Without an output, which tells the length. */
static void compare_told_lengths(struct pair *pair, int length) {
  EACH(who) ASK(who, EVP_Cipher(pair->context[who], NULL, input[OURS], (unsigned)length));
  agree(pair);
  EACH(who) ASK(who, EVP_CipherUpdate(pair->context[who], NULL, &pair->length[who], input[OURS], length));
  agree(pair);
  CHECK(pair->length[OURS] == pair->length[THEIRS]);
}

/* By EVP_Cipher, by the lengths that are told, and by a copy, which OpenSSL's own does not make. */
static void compare_other_wraps(struct pair *pair) {
  static const uint8_t wrapping[24] = "a key of 24 bytes, any", key[25] = "keys of eight bytes each";
  uint8_t wrapped[48];
  EVP_CIPHER_CTX *copy = EVP_CIPHER_CTX_new();
  for (int encrypts = 0; encrypts < 2; encrypts++) {
    begin_wrap(pair, wrapping, encrypts);
    for (int length = 1; length < 100; length++) compare_told_lengths(pair, length);
    /* Without an output nothing is read. A gibibyte is refused. */
    for (int length = (1 << 30) - 16; length <= (1 << 30) + 16; length += 8) compare_told_lengths(pair, length);
    update_by_nothing(pair);
  }
  CHECK(EVP_CIPHER_CTX_copy(copy, pair->context[OURS]) == 1);
  CHECK(EVP_Cipher(copy, wrapped, key, 24) == 40);
  EVP_CIPHER_CTX_free(copy);
  begin_wrap(pair, wrapping, 0);
  CHECK(unwrap(pair, wrapped, 40) && memcmp(output[OURS], key, 24) == 0);
  EACH(who) ASK(who, EVP_Cipher(pair->context[who], output[who], wrapped, 40));
  CHECK(agree(pair) && memcmp(output[OURS], key, 24) == 0);
  make_keys(pair);
  get_params(pair);
}

static void compare_all_wraps(size_t times) {
  struct pair pair;
  for (size_t i = 0; i < WRAPS; i++) compare_ciphers(wraps[i]);
  make(&pair, wraps[0]);
  unwraps_as_published(&pair);
  while (times-- != 0) compare_wraps(&pair);
  compare_other_wraps(&pair);
  drop(&pair);
}

int main(int count, char **words) {
  CHECK(count == 5);
  libraries[OURS] = ours_by(words[1], words[2]);
  libraries[THEIRS] = theirs();
  start_from(strtoull(words[3], NULL, 10));
  const size_t wanted = strtoull(words[4], NULL, 10);
  learn_of_numbers();
  has_all_names();
  for (size_t i = 0; i < NAMES; i++) compare_ciphers(names[i]);
  while (calls < wanted) random_calls();
  const size_t random = calls, refused = refusals;
  if (wanted >= 1000) compare_paddings();
  compare_all_wraps(wanted / 100);
  drop_libraries(libraries[OURS], libraries[THEIRS]);
  printf("beside OpenSSL %s: %zu calls from seed %llu, %zu of them refused alike\n", OpenSSL_version(OPENSSL_VERSION_STRING),
         random, (unsigned long long)seed, refused);
  return 0;
}
