/*
 * What the programs of generated/ ask of the system beside the C library: memory, the arguments, the environment and errno. The proofs
 * assume of these functions what their comments say.
 */
#include <errno.h>
#include <stdbool.h>
#include <stddef.h>
#include <stdint.h>
#include <stdlib.h>
#include <string.h>
#include <sys/resource.h>
#include <unistd.h>

/* Whether there is memory, and where. If there is none, the pointer is not null, and nothing may be read or written there. */
struct tried {
  bool is_there;
  void *memory;
};

struct tried rattle_alloc(size_t size, size_t alignment);
struct tried rattle_realloc(void *memory, size_t kept, size_t size, size_t alignment);
void rattle_dealloc(void *memory);
ptrdiff_t rattle_arg(size_t place, unsigned char *buffer, size_t capacity);
ptrdiff_t rattle_env(const char *name, unsigned char *buffer, size_t capacity);
ptrdiff_t rattle_env_at(size_t place, unsigned char *buffer, size_t capacity);
int32_t rattle_errno(void);
void rattle_set_errno(int32_t error);

/* The program's main, in its assembly. */
int cukvashe_main(void);

extern char **environ;
static int count;
static char **arguments;

/* More than the programs take of the stack, beside their arguments and environment, which lie there too. */
enum { STACK_BYTES = 128 << 10 };

/* What a list of texts takes of the stack. */
static size_t size_of(char **texts) {
  size_t size = 0;
  for (; *texts != NULL; texts++) size += sizeof *texts + strlen(*texts) + 1;
  return size;
}

/* Whether the stack may be so large. */
static bool has_stack(void) {
  struct rlimit limit;
  if (getrlimit(RLIMIT_STACK, &limit) != 0 || limit.rlim_cur == RLIM_INFINITY) return true;
  return limit.rlim_cur >= STACK_BYTES + size_of(arguments) + size_of(environ);
}

/* Tells that there is too little stack, as a fault of cukvashe, whatever name the program was given, and returns its status. */
static int refuse_stack(void) {
  static const char line[] = "cukvashe: Memory: the stack may have less than 128 KiB (see ulimit -s)\n";
  (void)!write(STDERR_FILENO, line, sizeof line - 1);
  return 3;
}

int main(int argument_count, char **argument_list) {
  count = argument_count;
  arguments = argument_list;
  return has_stack() ? cukvashe_main() : refuse_stack();
}

static struct tried tried(void *memory) {
  static unsigned char none;
  return (struct tried){memory != NULL, memory != NULL ? memory : &none};
}

/* New memory of a size, whose address is a multiple of the alignment, which is 1, 2, 4, 8 or 16. */
struct tried rattle_alloc(size_t size, size_t alignment) {
  (void)alignment; /* malloc's is 16 */
  return tried(malloc(size != 0 ? size : 1));
}

/* Memory of another size, with the first bytes kept, as many as `kept` says. If there is none, the old is as it was. */
struct tried rattle_realloc(void *memory, size_t kept, size_t size, size_t alignment) {
  (void)kept;
  (void)alignment;
  return tried(realloc(memory, size != 0 ? size : 1));
}

/* Frees what one of these two gave. */
void rattle_dealloc(void *memory) { free(memory); }

/* The error of the last call of the C library that failed. */
int32_t rattle_errno(void) { return errno; }

void rattle_set_errno(int32_t error) { errno = error; }

/* Writes a text to the start of a buffer, without its zero, and returns its length; -1 if there is no such text, or -2 if the buffer is
   too small for it, and then the buffer is full. */
static ptrdiff_t copy(const char *text, unsigned char *buffer, size_t capacity) {
  if (text == NULL) return -1;
  const size_t length = strlen(text);
  memcpy(buffer, text, length < capacity ? length : capacity);
  return length <= capacity ? (ptrdiff_t)length : -2;
}

/* The argument at a place; the first is the program's name. */
ptrdiff_t rattle_arg(size_t place, unsigned char *buffer, size_t capacity) {
  return copy(place < (size_t)count ? arguments[place] : NULL, buffer, capacity);
}

/* The value of a variable of the environment. */
ptrdiff_t rattle_env(const char *name, unsigned char *buffer, size_t capacity) { return copy(getenv(name), buffer, capacity); }

/* The entry of the environment at a place: NAME=VALUE. */
ptrdiff_t rattle_env_at(size_t place, unsigned char *buffer, size_t capacity) {
  size_t at = 0;
  while (environ[at] != NULL && at < place) at++;
  return copy(environ[at], buffer, capacity);
}

/* What glibc has and other C libraries, or its versions before 2.33, lack. With OLD_LIBC a test takes it too. */
#ifdef __GLIBC_PREREQ
#if __GLIBC_PREREQ(2, 33) && !defined(OLD_LIBC)
#define HAS_ALL
#endif
#endif
#ifndef HAS_ALL
ssize_t __write(int descriptor, const void *bytes, size_t size);
ssize_t __write(int descriptor, const void *bytes, size_t size) { return write(descriptor, bytes, size); }

#ifdef __x86_64__
#include <cpuid.h>

/* A group of the processor's features: the words that `cpuid` writes, and those of them that a program may use. */
struct features {
  uint32_t there[4], usable[4];
};

const struct features *__x86_get_cpuid_feature_leaf(unsigned group);

/* The program asks, before all else, for two groups. Their features need nothing of the system. */
const struct features *__x86_get_cpuid_feature_leaf(unsigned group) {
  static struct features found;
  uint32_t *words = found.there;
  (void)__get_cpuid(group == 0 ? 1 : 0x80000001, &words[0], &words[1], &words[2], &words[3]);
  memcpy(found.usable, found.there, sizeof found.there);
  return &found;
}
#endif
#endif
