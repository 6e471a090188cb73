/* Which processor this is, if the library has code for several of its levels. */
#include "internal.h"

#if HAS_WIDE
#include <cpuid.h>

enum { OSXSAVE = 1 << 27 };

/* The words of a processor that can't be asked for one of them have 0 there. */
struct processor cukvashe_internal_processor(void) {
  struct processor words = {0, 0, 0, 0};
  uint32_t eax, ebx, ecx, edx;
  if (__get_cpuid(1, &eax, &ebx, &ecx, &edx)) words.leaf_1_ecx = ecx;
  if (__get_cpuid_count(7, 0, &eax, &ebx, &ecx, &edx)) words.leaf_7_ebx = ebx;
  if (__get_cpuid(0x80000001, &eax, &ebx, &ecx, &edx)) words.leaf_80000001_ecx = ecx;
  if (words.leaf_1_ecx & OSXSAVE) __asm__ __volatile__("xgetbv" : "=a"(words.xcr0), "=d"(edx) : "c"(0));
  return words;
}

static bool has_all(uint32_t word, uint32_t bits) { return (word & bits) == bits; }

/* The bits of x86-64-v2 (the psABI's table of microarchitecture levels). */
bool cukvashe_internal_is_v2(const struct processor *words) {
  const uint32_t sse3 = 1 << 0, ssse3 = 1 << 9, cmpxchg16b = 1 << 13, sse41 = 1 << 19, sse42 = 1 << 20, popcnt = 1 << 23;
  const uint32_t lahf = 1 << 0;
  return has_all(words->leaf_1_ecx, sse3 | ssse3 | cmpxchg16b | sse41 | sse42 | popcnt) && has_all(words->leaf_80000001_ecx, lahf);
}

/* The bits of x86-64-v3 beyond x86-64-v2, and that the registers are saved. */
bool cukvashe_internal_is_v3(const struct processor *words) {
  const uint32_t fma = 1 << 12, movbe = 1 << 22, avx = 1 << 28, f16c = 1 << 29;
  const uint32_t bmi1 = 1 << 3, avx2 = 1 << 5, bmi2 = 1 << 8;
  const uint32_t lzcnt = 1 << 5;
  const uint32_t sse_and_avx_registers = 1 << 1 | 1 << 2;
  return has_all(words->leaf_1_ecx, fma | movbe | OSXSAVE | avx | f16c) &&
         has_all(words->leaf_7_ebx, bmi1 | avx2 | bmi2) && has_all(words->leaf_80000001_ecx, lzcnt) &&
         has_all(words->xcr0, sse_and_avx_registers);
}
#endif
