/* What the benchmarks share: the least of many short runs of each call, in nanoseconds, and rows of tables. */
#ifndef BENCHMARK_H
#define BENCHMARK_H

#include "src/internal.h"
#include <stdio.h>
#include <stdlib.h>
#include <time.h>

/* How many short runs of each call there are. The first argument of the program says it. */
static int runs = 100;

/* A context, as an export takes it. */
#define WORDS_OF(CONTEXT) (CONTEXT).words, sizeof(CONTEXT).words / sizeof *(CONTEXT).words

#define COUNT_OF(LIST) (sizeof(LIST) / sizeof *(LIST))

static void fail(const char *what) {
  fprintf(stderr, "benchmark: %s\n", what);
  exit(1);
}

/* What is timed: a call on a message of this number of bytes. */
typedef void call(void *state, size_t bytes);

static double now(void) {
  struct timespec t;
  clock_gettime(CLOCK_PROCESS_CPUTIME_ID, &t);
  return (double)t.tv_sec * 1e9 + (double)t.tv_nsec;
}

/* A call with its state and its name, and the least time that it took. There may be none. */
struct timed {
  const char *name;
  call *call;
  void *state;
  double least;
};

/* The time of a call, over a short run. */
static double run_of(const struct timed *timed, size_t bytes) {
  const size_t each = bytes > 4096 ? 1 : 16;
  size_t calls = 0;
  double start = now(), end = start;
  while (end - start < 5e5) {
    for (size_t i = 0; i < each; i++) timed->call(timed->state, bytes);
    calls += each;
    end = now();
  }
  return (end - start) / (double)calls;
}

/* The least time of each call. They run in turn, so that what slows the processor for a while, as another virtual machine on it,
   slows all of them. */
static void time_all(struct timed *timed, size_t count, size_t bytes) {
  for (size_t n = 0; n < count; n++) timed[n].least = 1e18;
  for (int run = 0; run < runs; run++)
    for (size_t n = 0; n < count; n++) {
      double time = timed[n].call ? run_of(&timed[n], bytes) : 0;
      if (time < timed[n].least) timed[n].least = time;
    }
}

/* A table: its name, and the heads of its columns. */
static void begin_table(const char *name, const char *heads) { printf("\n[%s]\n%s\n", name, heads); }

static void cell(const struct timed *timed, size_t parts) {
  if (timed->call) printf(" | %.2f", timed->least / (double)parts);
  else printf(" |");
}

/* A row for each call, with a column for each size in blocks: nanoseconds for a block. */
static void rows_by_size(const char *what, struct timed *timed, size_t count, const size_t *sizes, size_t sizes_count) {
  struct timed found[16][8];
  for (size_t i = 0; i < sizes_count; i++) {
    time_all(timed, count, 8 * sizes[i]);
    for (size_t n = 0; n < count; n++) found[i][n] = timed[n];
  }
  for (size_t n = 0; n < count; n++) {
    printf("%s | %s", what, timed[n].name);
    for (size_t i = 0; i < sizes_count; i++) cell(&found[i][n], sizes[i]);
    printf("\n");
  }
  fflush(stdout);
}

/* The words of the command line: a number of runs, if any, and then other words, which follow. */
static char **words_after_runs(char **words) {
  if (!words[1] || words[1][0] < '0' || words[1][0] > '9') return words + 1;
  runs = atoi(words[1]);
  if (runs < 1) fail("it takes a number of runs");
  return words + 2;
}

#endif
