/* How much of the stack each call of the header uses, beside what the header says: each runs in a thread of its own, whose stack was
   written over with one byte before, and the lowest place that has changed tells how far it came. And what is left there by calls that
   take or give a key: zeros. With UNWIPED nothing is wiped, so that what the exports use is seen themselves, beside what is wiped. */
#define _POSIX_C_SOURCE 200809L
#include "check.h"
#include <pthread.h>

enum { STACK = 1 << 18, PAINT = 0xa5 };

/* Nearer than NEAR are frames of the test and of the C that wipes, and within LAST of the lowest place one of what writes the zeros: there
   addresses may stand, but no parts of secrets, of as many bytes. */
enum { NEAR = 512, LAST = 64, PART = 4 };

/* A call of the header by its name, and what that says of it. */
struct call {
  const char *name;
  void (*run)(void);
  size_t limit;
  bool is_wiped, is_list, takes_context;
};

#include "samples.h"

#include "calls.h"

/* What exports may use more for other targets, some of which no test here looks at. */
enum { MORE = 2048 };

#ifdef UNWIPED
enum { WIPES = 0 };
void cukvashe_internal_wipe_stack(size_t size);
void cukvashe_internal_wipe_stack(size_t size) { (void)size; }
#else
enum { WIPES = 1 };
#endif

static const struct call no_call = {"none", NULL, 0, false, false, false};

static uint8_t *stack;

/* What is below the stack pointer after a call: bytes that are neither as they were nor zeros, and parts of secrets. */
static size_t bytes_left, parts_left;

/* It looks in the frame of its caller, since a frame of its own would lie over what it looks at. */
static inline __attribute__((always_inline)) void look_below(const uint8_t *pointer) {
  static const uint8_t digits_of_pin[] = {0x12, 0x34, 0x56, 0x78, 0x90, 0x12};
  const uint8_t *const secrets[] = {key, others, (const uint8_t *)pin_digits, digits_of_pin};
  static const size_t sizes[] = {sizeof key, sizeof key, 12, sizeof digits_of_pin};
  const uint8_t *low = stack;
  while (low < pointer && *low == PAINT) low++;
  for (const uint8_t *at = low + LAST; at < pointer - NEAR; at++) bytes_left += *at != 0 && *at != PAINT;
  for (const uint8_t *at = low; at + PART <= pointer; at++) {
    uint32_t part, word;
    memcpy(&word, at, PART);
    /* Zeros, and what no call has written, are most of it. */
    if (word == 0 || word == PAINT * 0x01010101u) continue;
    for (size_t secret = 0; secret < sizeof sizes / sizeof *sizes; secret++)
      for (size_t i = 0; i + PART <= sizes[secret]; i++) {
        memcpy(&part, secrets[secret] + i, PART);
        parts_left += word == part;
      }
  }
}

static void *run(void *given) {
  const struct call *call = (const struct call *)given;
  const uint8_t *pointer;
  bytes_left = parts_left = 0;
  if (call->run) call->run();
#ifdef __x86_64__
  __asm__ __volatile__("mov %%rsp, %0" : "=r"(pointer));
#elif defined(__riscv)
  __asm__ __volatile__("mv %0, sp" : "=r"(pointer));
#else
  __asm__ __volatile__("mov %0, sp" : "=r"(pointer));
#endif
  if (call->is_wiped && WIPES) look_below(pointer);
  return NULL;
}

/* The bytes of the stack that a thread uses. */
static size_t used_by(const struct call *call) {
  size_t low = 0;
  pthread_attr_t attributes;
  pthread_t thread;
  memset(stack, PAINT, STACK);
  CHECK(pthread_attr_init(&attributes) == 0 && pthread_attr_setstack(&attributes, stack, STACK) == 0);
  CHECK(pthread_create(&thread, &attributes, run, (void *)call) == 0 && pthread_join(thread, NULL) == 0);
  CHECK(pthread_attr_destroy(&attributes) == 0);
  while (low < STACK && stack[low] == PAINT) low++;
  return STACK - low;
}

/* What a thread with no call uses, and the most that any call used beyond that. */
static size_t none, most;

static void measure(const struct call *call) {
  const size_t used = used_by(call) - none + (WIPES || !call->is_wiped ? 0 : MORE);
  if (used > call->limit || bytes_left || parts_left)
    printf("stack: %s, of %zu elements, used %zu bytes and left %zu of them\n", call->name, count, used, bytes_left);
  CHECK(used <= call->limit && bytes_left == 0 && parts_left == 0);
  if (used > most) most = used;
}

static bool ends_with(const struct call *call, const char *end) {
  const size_t length = strlen(call->name);
  return length >= strlen(end) && strcmp(call->name + length - strlen(end), end) == 0;
}

/* A file whose end is no padding, and one whose end is: one password in 256 fits. */
static void measure_file(const struct call *call) {
  static const int wanted[] = {CUKVASHE_ERR_PADDING, CUKVASHE_OK};
  for (int i = 0; i < 2; i++)
    do {
      others[0]++;
      others[1] += others[0] == 0;
      measure(call);
    } while (returned != wanted[i]);
}

/* Lists that take every code path. */
static void measure_lists(const struct call *call) {
  static const size_t sizes[] = {1, 3, 32, 128, 129, LIST};
  for (size_t i = 0; i < sizeof sizes / sizeof *sizes; i++) {
    count = sizes[i];
    measure(call);
  }
}

/* The calls with contexts that calls of this end made, or all others. */
static void measure_all(const char *init, bool with_contexts) {
  for (size_t i = 0; i < sizeof calls / sizeof *calls; i++)
    if (ends_with(&calls[i], init)) measure(&calls[i]);
  for (size_t i = 0; i < sizeof calls / sizeof *calls; i++) {
    const struct call *call = &calls[i];
    if (call->takes_context != with_contexts || ends_with(call, "_init") || ends_with(call, "_init_no_tables")) continue;
    if (ends_with(call, "_open_salted")) measure_file(call);
    else if (call->is_list) measure_lists(call);
    else measure(call);
  }
}

#ifdef FORCED
static union context forced;
static const struct path *path;

static void run_path(void) {
  uint8_t *iv = (uint8_t *)outputs[1], *to = (uint8_t *)outputs[0];
  returned = path->encrypt_ecb(&forced, to, 8 * count) + path->decrypt_ecb(&forced, to, 8 * count) +
             path->encrypt_ecb_to(&forced, blocks, to, 8 * count) + path->decrypt_ecb_to(&forced, blocks, to, 8 * count) +
             path->decrypt_cbc(&forced, iv, to, 8 * count) + path->decrypt_cbc_to(&forced, iv, blocks, to, 8 * count);
}

/* The exports of both widths, whatever the length. */
static void measure_paths(void) {
  static const struct call of_path = {"a call of one width", run_path, 27000, false, true, true};
  for (int cipher = 0; cipher < CIPHERS; cipher++)
    for (int no_tables = 0; no_tables < 2; no_tables++) {
      CHECK((no_tables ? ciphers[cipher].init_no_tables : ciphers[cipher].init)(&forced, key, ciphers[cipher].key_size) == CUKVASHE_OK);
      for (int i = 0; i < count_of_paths(); i++) {
        path = &ciphers[cipher].paths[i];
        measure_lists(&of_path);
      }
    }
}

static void unwiped(void) {
  returned = cukvashe_unwiped_key_block_unwrap(key, 24, key_block, key_block_length, (void *)outputs[0], (void *)outputs[1],
                                               (void *)outputs[2]);
}

/* Without the C that wipes, the test must see a whole key. */
static void sees_a_key(void) {
  static const struct call call = {"key_block_unwrap without its wiping", unwiped, 0, true, false, false};
  (void)used_by(&call);
  CHECK(returned == CUKVASHE_OK && bytes_left > 0 && parts_left > sizeof key - PART);
}
#else
static void measure_paths(void) {}
static void sees_a_key(void) {}
#endif

/* Key blocks of no optional blocks, of the most, and of the most characters. */
static void make_key_block(int kind) {
  static const size_t lengths[] = {0, 4 * 98, sizeof optional};
  parts.optional_length = lengths[kind];
  memset(optional, 'x', sizeof optional);
  for (int i = 0; i < 98; i++) memcpy(optional + 4 * i, "KS04", 4);
  if (kind == 2) memcpy(optional, "KS000226A0", 10); /* 9,888 in digits of four bits */
  call_key_block_wrap();
  CHECK(returned == CUKVASHE_OK);
}

int main(void) {
  void *aligned;
  CHECK(posix_memalign(&aligned, 4096, STACK) == 0);
  stack = (uint8_t *)aligned;
  make_samples();
  (void)used_by(&no_call); /* the first thread takes more, since names are bound in it */
  none = used_by(&no_call);
  make_key_block(0);
  if (WIPES) sees_a_key();
  measure_paths();
  for (int kind = 1; kind < 3; kind++) {
    make_key_block(kind);
    measure_all(kind == 1 ? "_init" : "_init_no_tables", true);
    measure_all("_init", false);
  }
  CHECK(most > 40000);
  printf("stack: each call leaves zeros where it must, and uses at most %zu bytes\n", most);
  return 0;
}
