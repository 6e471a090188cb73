/*
 * The C of the library that follows no rule (calls.c has the rest): the choice between two exports, by the length of a list and the processor;
 * the state of a terminal that has no key left; whether the processor serves; texts; and wiping.
 */
#include "internal.h"
#include <string.h>

#if HAS_WIDE
/* Whether the processor has the wide calls. It is asked once, since a virtual one may take long to answer. Threads that ask at once all store
   one answer. */
bool cukvashe_internal_is_wide(void) {
  enum { NOT_ASKED, NO, YES };
  static int answer = NOT_ASKED;
  int known = __atomic_load_n(&answer, __ATOMIC_RELAXED);
  if (known == NOT_ASKED) {
    struct processor words = cukvashe_internal_processor();
    known = cukvashe_internal_is_v3(&words) ? YES : NO;
    __atomic_store_n(&answer, known, __ATOMIC_RELAXED);
  }
  return known == YES;
}
#endif

/* Whether a terminal's state has a future key: one that was never initialised or was wiped has none, nor one after its last transaction. All
   bytes are read, whatever they are. */
static bool has_future_key(const cukvashe_dukpt_terminal *terminal) {
  uint8_t bits = 0;
  for (size_t i = 0; i < sizeof terminal->keys / sizeof terminal->keys[0]; i++)
    for (size_t j = 0; j < sizeof terminal->keys[0]; j++) bits |= terminal->keys[i][j];
  return bits != 0;
}

int cukvashe_dukpt_terminal_next_key(cukvashe_dukpt_terminal *terminal, uint8_t serial[10], uint8_t key[16]) {
  if (!has_future_key(terminal)) return CUKVASHE_ERR_NO_SERIAL;
  const int result = cukvashe_unwiped_dukpt_terminal_next_key(terminal, serial, key);
  cukvashe_internal_wipe_stack(STACK_dukpt_terminal_next_key);
  return result;
}

bool cukvashe_is_supported(void) {
#if HAS_WIDE
  const struct processor words = cukvashe_internal_processor();
  return cukvashe_internal_is_v2(&words);
#else
  return true;
#endif
}

const char *cukvashe_version(void) { return CUKVASHE_VERSION; }

const char *cukvashe_strerror(int status) {
  static const char *const texts[] = {
#include "statuses.h"
  };
  const size_t place = (size_t)status; /* of a negative number, beyond all */
  return place < sizeof texts / sizeof *texts ? texts[place] : "there is no status of this number";
}

/* The empty statement may read what `pointer` points to, for all that a compiler knows: so the zeros must be there. */
void cukvashe_wipe(void *pointer, size_t size) {
  if (size == 0) return;
  memset(pointer, 0, size);
  __asm__ __volatile__("" : : "r"(pointer) : "memory");
}
