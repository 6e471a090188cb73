/* Names that the library hides: the proved exports that its C calls, the wiping of the stack, and the test for the wide exports. */
#ifndef INTERNAL_H
#define INTERNAL_H

#include "narrow.h"

/* Whether the library has wide calls. It takes them if the processor has x86-64-v3. */
#ifdef __x86_64__
#define HAS_WIDE 1
#else
#define HAS_WIDE 0
#endif

/*
 * The proved exports that do not have the arguments of a call of the header (exports.h). Those of ciphers and MACs are there once for
 * all, and know which one it is by the words of a context, 17, 33 or 49 for a key of one part, two or three, by the size of a key in bytes,
 * and by the number of an algorithm. They take a slice as a pointer and a number of elements, so each of two slices has a number of its
 * own; a slice of slices is a pointer to such pairs, as cukvashe_message. The context of a MAC is that of its cipher, of the retail MAC
 * those of both keys, and then a message: how far it has come. Those of lists work in batches: 128 at a time, on any processor.
 */
#include "exports.h"

/* MACs by the numbers of their algorithms in ISO/IEC 9797-1:2011. CMAC takes padding method 1 or 2 here too, which plays no part. */
enum algorithm { ALGORITHM_CBC_MAC = 1, ALGORITHM_RETAIL_MAC = 3, ALGORITHM_CMAC = 5 };

/* CHOOSE makes a call of an export of lists, for this many blocks, keys or messages. Short lists take no call more for it. */
#if HAS_WIDE
bool cukvashe_internal_is_wide(void);
#define CHOOSE(COUNT, CALL, ...)                                                                                      \
  ((COUNT) > MOST_NARROW && cukvashe_internal_is_wide() ? cukvashe_wide_##CALL(__VA_ARGS__)                           \
                                                        : cukvashe_internal_##CALL(__VA_ARGS__))

/* What decides which level of x86-64 a processor has: words that `cpuid` writes, and 0 for those that it does not have. */
struct processor {
  uint32_t leaf_1_ecx, leaf_7_ebx, leaf_80000001_ecx;
  uint32_t xcr0; /* what the operating system saves (XGETBV of 0), or 0 if OSXSAVE is not set */
};

bool cukvashe_internal_is_v2(const struct processor *words);
bool cukvashe_internal_is_v3(const struct processor *words);
struct processor cukvashe_internal_processor(void);
#else
#define CHOOSE(COUNT, CALL, ...) cukvashe_internal_##CALL(__VA_ARGS__)
#endif

/* Whether `length` bytes are `count` elements of a size. It divides, since a product could overflow. */
static inline bool are_elements(size_t count, size_t size, size_t length) {
  return length % size == 0 && length / size == count;
}

/* Whether two buffers have a byte in common. */
static inline bool overlap(const void *first, size_t first_length, const void *second, size_t second_length) {
  const uintptr_t one = (uintptr_t)first, other = (uintptr_t)second;
  if (first_length == 0 || second_length == 0) return false;
  return one <= other ? other - one < first_length : one - other < second_length;
}

/* Writes zeros over `size` bytes of the stack below its caller's frame: there lies what the caller's calls left. */
void cukvashe_internal_wipe_stack(size_t size);

#endif
