/* Tests bindings/programs/system.c, in the place of a program: what it gives, and each of its refusals. `system` calls itself. */
#include <errno.h>
#include <stdbool.h>
#include <stddef.h>
#include <stdint.h>
#include <stdio.h>
#include <stdlib.h>
#include <string.h>
#include <sys/resource.h>
#include <unistd.h>

struct tried {
  bool is_there;
  void *memory;
};

struct tried rattle_alloc(size_t size, size_t alignment);
struct tried rattle_realloc(void *memory, size_t kept, size_t size, size_t alignment);
void rattle_dealloc(void *memory);
ptrdiff_t rattle_arg(size_t place, unsigned char *buffer, size_t capacity);
ptrdiff_t rattle_env(const char *name, unsigned char *buffer, size_t capacity);
ptrdiff_t rattle_env_at(size_t place, unsigned char *buffer, size_t capacity);
int32_t rattle_errno(void);
void rattle_set_errno(int32_t error);
int cukvashe_main(void);

#define CHECK(holds)                                              \
  do {                                                            \
    if (!(holds)) {                                               \
      fprintf(stderr, "%s:%d: %s\n", __FILE__, __LINE__, #holds); \
      exit(1);                                                    \
    }                                                             \
  } while (0)

/* More than there can be, and no more than the programs may ask for. */
enum { LONG = 4096 };
static const size_t too_much = ((size_t)1 << 63) - 1;

static void gives_and_refuses_memory(void) {
  for (size_t size = 0; size < 100000; size = size * 3 + 1) {
    struct tried new = rattle_alloc(size, 16);
    CHECK(new.is_there && new.memory != NULL && (uintptr_t)new.memory % 16 == 0);
    memset(new.memory, 0x5a, size);
    struct tried refused = rattle_realloc(new.memory, size, too_much, 16);
    CHECK(!refused.is_there && refused.memory != NULL);
    struct tried longer = rattle_realloc(new.memory, size, 2 * size, 16);
    CHECK(longer.is_there && longer.memory != NULL);
    const unsigned char *bytes = longer.memory;
    for (size_t at = 0; at < size; at++) CHECK(bytes[at] == 0x5a);
    struct tried none = rattle_realloc(longer.memory, 0, 0, 16);
    CHECK(none.is_there && none.memory != NULL);
    rattle_dealloc(none.memory);
  }
  struct tried refused = rattle_alloc(too_much, 1);
  CHECK(!refused.is_there && refused.memory != NULL);
}

/* Memory that is given back can be given again: a hundred times as much as there may be. */
static void takes_memory_back(void) {
  const struct rlimit most = {(rlim_t)256 << 20, (rlim_t)256 << 20};
  CHECK(setrlimit(RLIMIT_AS, &most) == 0);
  for (int time = 0; time < 25600; time++) {
    struct tried block = rattle_alloc((size_t)1 << 20, 16);
    CHECK(block.is_there);
    rattle_dealloc(block.memory);
  }
}

/* The argument at a place and the variable LONG, each of LONG bytes, into buffers that fit, that do not, and that are empty. */
static void copies(ptrdiff_t (*copy)(unsigned char *buffer, size_t capacity)) {
  unsigned char buffer[LONG + 2];
  for (size_t capacity = 0; capacity <= LONG + 1; capacity++) {
    memset(buffer, '-', sizeof buffer);
    CHECK(copy(buffer, capacity) == (capacity < LONG ? -2 : LONG));
    for (size_t at = 0; at < sizeof buffer; at++) CHECK(buffer[at] == (at < capacity && at < LONG ? 'x' : '-'));
  }
}

static ptrdiff_t argument(unsigned char *buffer, size_t capacity) { return rattle_arg(1, buffer, capacity); }
static ptrdiff_t variable(unsigned char *buffer, size_t capacity) { return rattle_env("LONG", buffer, capacity); }

static void tells_what_is_not_there(void) {
  unsigned char buffer[8] = "-------";
  CHECK(rattle_arg(2, buffer, 8) == 0 && rattle_arg(3, buffer, 8) == -1 && rattle_arg(SIZE_MAX, buffer, 8) == -1);
  CHECK(rattle_env("NONE", buffer, 8) == -1 && rattle_env("EMPTY", buffer, 8) == 0);
  CHECK(memcmp(buffer, "-------", 8) == 0);
}

/* All entries of the environment, in any order, and none after them. */
static void counts_the_environment(void) {
  unsigned char buffer[2 * LONG];
  size_t count = 0, seen = 0;
  for (ptrdiff_t length; (length = rattle_env_at(count, buffer, sizeof buffer)) != -1; count++) {
    seen += length == 6 && memcmp(buffer, "EMPTY=", 6) == 0;
    seen += length == LONG + 5 && memcmp(buffer, "LONG=xx", 7) == 0;
  }
  CHECK(count == 2 && seen == 2);
  CHECK(rattle_env_at(count + 1, buffer, sizeof buffer) == -1 && rattle_env_at(SIZE_MAX, buffer, sizeof buffer) == -1);
}

static void keeps_the_error(void) {
  close(9);
  CHECK(write(9, "x", 1) == -1 && rattle_errno() == EBADF);
  rattle_set_errno(ENOSPC);
  CHECK(rattle_errno() == ENOSPC && errno == ENOSPC);
}

int cukvashe_main(void) {
  static unsigned char name[LONG];
  const ptrdiff_t length = rattle_arg(0, name, sizeof name - 1);
  CHECK(length > 0);
  unsigned char buffer[1];
  if (rattle_arg(1, buffer, 1) == -1) {
    static char text[LONG + 1], entry[LONG + 6] = "LONG=";
    memset(text, 'x', LONG);
    memcpy(entry + 5, text, LONG);
    execve((char *)name, (char *[]){(char *)name, text, "", NULL}, (char *[]){entry, "EMPTY=", NULL});
    return 1;
  }
  gives_and_refuses_memory();
  takes_memory_back();
  copies(argument);
  copies(variable);
  tells_what_is_not_there();
  counts_the_environment();
  keeps_the_error();
  puts("system: memory, arguments, environment and errors");
  return 0;
}
