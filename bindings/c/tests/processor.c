/* Which processor is supported, and which takes the wide calls: each bit of the words of `cpuid` cleared, and this processor beside what
   the kernel says. */
#include "../src/internal.h"
#include "check.h"

/* The bits of one word that a level of x86-64 needs. */
struct bits {
  size_t count;
  int bits[6];
};

/* A level: what says whether words are of it, and the bits that it needs. */
struct level {
  bool (*is_of)(const struct processor *words);
  struct bits leaf_1_ecx, leaf_7_ebx, leaf_80000001_ecx, xcr0;
};

/* By Intel's manual (volume 2A, CPUID): SSE3, SSSE3, CMPXCHG16B, SSE4.1, SSE4.2 and POPCNT; and LAHF. */
static const struct level v2 = {cukvashe_internal_is_v2, {6, {0, 9, 13, 19, 20, 23}}, {0, {0}}, {1, {0}}, {0, {0}}};

/* The bits of x86-64-v3 beyond those of x86-64-v2, by Intel's manual (volume 2A, CPUID; volume 1, 13.3): MOVBE, FMA, OSXSAVE, AVX and
   F16C; BMI1, AVX2 and BMI2; LZCNT; and the registers of SSE and AVX in XCR0. */
static const struct level v3 = {cukvashe_internal_is_v3, {5, {12, 22, 27, 28, 29}}, {3, {3, 5, 8}}, {1, {5}}, {2, {1, 2}}};

static bool is_needed(int bit, const struct bits *needed) {
  for (size_t i = 0; i < needed->count; i++)
    if (needed->bits[i] == bit) return true;
  return false;
}

static uint32_t only(const struct bits *needed) {
  uint32_t word = 0;
  for (size_t i = 0; i < needed->count; i++) word |= (uint32_t)1 << needed->bits[i];
  return word;
}

/* Each bit of one word cleared, in words with all bits and in words with the needed ones alone. */
#define CLEARS(word)                                                     \
  for (int bit = 0; bit < 32; bit++) {                                   \
    struct processor some = all, few = least;                            \
    some.word &= ~((uint32_t)1 << bit);                                  \
    few.word &= ~((uint32_t)1 << bit);                                   \
    CHECK(level->is_of(&some) == !is_needed(bit, &level->word));         \
    CHECK(level->is_of(&few) == !is_needed(bit, &level->word));          \
  }

static void needs_each_bit(const struct level *level) {
  const struct processor none = {0, 0, 0, 0}, all = {UINT32_MAX, UINT32_MAX, UINT32_MAX, UINT32_MAX};
  const struct processor least = {only(&level->leaf_1_ecx), only(&level->leaf_7_ebx), only(&level->leaf_80000001_ecx), only(&level->xcr0)};
  CHECK(level->is_of(&all) && level->is_of(&least) && !level->is_of(&none));
  CLEARS(leaf_1_ecx)
  CLEARS(leaf_7_ebx)
  CLEARS(leaf_80000001_ecx)
  CLEARS(xcr0)
}

/* Whether the kernel lists a flag for the first processor. */
static bool has_flag(const char *flags, const char *flag) {
  size_t length = strlen(flag);
  for (const char *at = flags; (at = strstr(at, flag)) != NULL; at += length)
    if (at[-1] == ' ' && (at[length] == ' ' || at[length] == '\n')) return true;
  return false;
}

static bool has_flags(const char *flags, const char *const *names, size_t count) {
  for (size_t i = 0; i < count; i++)
    if (!has_flag(flags, names[i])) return false;
  return true;
}

#define COUNT(list) (sizeof list / sizeof *list)

/* It names SSE3 pni. */
static bool is_v2_by_the_kernel(const char *flags) {
  static const char *const names[] = {"pni", "ssse3", "cx16", "sse4_1", "sse4_2", "popcnt", "lahf_lm"};
  return has_flags(flags, names, COUNT(names));
}

/* It lists AVX only where it saves the registers, and names LZCNT abm. */
static bool is_v3_by_the_kernel(const char *flags) {
  static const char *const names[] = {"avx", "avx2", "bmi1", "bmi2", "f16c", "fma", "abm", "movbe"};
  return has_flags(flags, names, COUNT(names));
}

/* The words of this processor, in bits that the kernel names too. */
static void reads_words(const char *flags) {
  struct processor words = cukvashe_internal_processor();
  const struct {
    const char *name;
    uint32_t bit;
  } rows[] = {
      {"movbe", words.leaf_1_ecx >> 22 & 1}, {"fma", words.leaf_1_ecx >> 12 & 1},  {"avx", words.leaf_1_ecx >> 28 & 1},
      {"f16c", words.leaf_1_ecx >> 29 & 1},  {"sse4_2", words.leaf_1_ecx >> 20 & 1}, {"bmi1", words.leaf_7_ebx >> 3 & 1},
      {"avx2", words.leaf_7_ebx >> 5 & 1},   {"bmi2", words.leaf_7_ebx >> 8 & 1},  {"abm", words.leaf_80000001_ecx >> 5 & 1},
      {"lahf_lm", words.leaf_80000001_ecx & 1}, {"pni", words.leaf_1_ecx & 1}, {"ssse3", words.leaf_1_ecx >> 9 & 1},
      {"cx16", words.leaf_1_ecx >> 13 & 1}, {"sse4_1", words.leaf_1_ecx >> 19 & 1}, {"popcnt", words.leaf_1_ecx >> 23 & 1},
  };
  for (size_t i = 0; i < COUNT(rows); i++) CHECK((int)rows[i].bit == has_flag(flags, rows[i].name));
  CHECK(cukvashe_is_supported() == is_v2_by_the_kernel(flags));
  CHECK(cukvashe_internal_is_v3(&words) == is_v3_by_the_kernel(flags));
}

int main(void) {
  static char line[1 << 16];
  int found = 0;
  needs_each_bit(&v2);
  needs_each_bit(&v3);
  FILE *file = fopen("/proc/cpuinfo", "r");
  CHECK(file != NULL);
  while (!found && fgets(line, sizeof line, file)) found = strncmp(line, "flags", 5) == 0;
  fclose(file);
  CHECK(found);
  reads_words(line);
  printf("processor: each bit of four words, for two levels; this one has the wide calls: %s\n", is_v3_by_the_kernel(line) ? "yes" : "no");
  return 0;
}
