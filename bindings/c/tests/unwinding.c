/* A profiler or a debugger that stops within a call finds the way to its caller: the processor stops after each instruction of some calls,
   and the unwinder is asked, at each, for the function that made the call. */
#define _GNU_SOURCE
#include "check.h"
#include <signal.h>
#include <ucontext.h>
#include <unwind.h>

enum { TRAP = 0x100 }; /* the flag of x86-64 that stops the processor after an instruction */

static volatile sig_atomic_t steps, is_within;
static void calls(void);

static _Unwind_Reason_Code seen(struct _Unwind_Context *context, void *is_found) {
  const void *function = _Unwind_FindEnclosingFunction((void *)(_Unwind_GetIP(context) - 1));
  if ((uintptr_t)function != (uintptr_t)calls) return _URC_NO_REASON;
  *(int *)is_found = 1;
  return _URC_END_OF_STACK;
}

static void stopped(int signal, siginfo_t *info, void *context) {
  greg_t *registers = ((ucontext_t *)context)->uc_mcontext.gregs;
  int is_found = 0;
  (void)signal, (void)info;
  registers[REG_EFL] = is_within ? registers[REG_EFL] | TRAP : registers[REG_EFL] & ~TRAP;
  _Unwind_Backtrace(seen, &is_found);
  steps++;
  CHECK(is_found);
}

__attribute__((noinline)) static void calls(void) {
  static const uint8_t key[24] = "\x01\x23\x45\x67\x89\xab\xcd\xef\x23\x45\x67\x89\xab\xcd\xef\x01\x45\x67\x89\xab\xcd\xef\x01\x23";
  static uint8_t data[8 * 256], iv[8], tag[8];
  static const cukvashe_key_block_parts parts = {.protection = key, .protection_length = sizeof key,
                                                 .header = {'B', "P0", 'T', 'E', "00", 'E'}, .key = key, .key_length = sizeof key,
                                                 .padding = data, .padding_length = 6};
  static char block[CUKVASHE_KEY_BLOCK_SIZE];
  static cukvashe_tdes_ede3 context, no_tables;
  static size_t size;
  is_within = 1;
  raise(SIGTRAP);
  /* It is read after the last signal, which is so raised in this function's frame. */
  volatile int is_good =
      cukvashe_tdes_ede3_init(&context, key, sizeof key) == CUKVASHE_OK &&
      cukvashe_tdes_ede3_encrypt_cbc(&context, iv, data, 16) == CUKVASHE_OK &&
      /* By each width: the longer list is for wider vectors, where the processor has them. */
      cukvashe_tdes_ede3_decrypt_ecb(&context, data, 8 * 130) == CUKVASHE_OK &&
      cukvashe_tdes_ede3_decrypt_ecb(&context, data, sizeof data) == CUKVASHE_OK &&
      cukvashe_tdes_ede3_init_no_tables(&no_tables, key, sizeof key) == CUKVASHE_OK &&
      cukvashe_tdes_ede3_encrypt_ecb(&no_tables, data, 8) == CUKVASHE_OK &&
      cukvashe_key_block_wrap(&parts, block, sizeof block, &size) == CUKVASHE_OK &&
      cukvashe_pbkdf2(CUKVASHE_SHA256, 1, key, sizeof key, data, 8, tag, sizeof tag) == CUKVASHE_OK;
  is_within = 0;
  raise(SIGTRAP);
  CHECK(is_good);
}

int main(void) {
  struct sigaction action = {0};
  action.sa_sigaction = stopped;
  action.sa_flags = SA_SIGINFO;
  CHECK(sigaction(SIGTRAP, &action, NULL) == 0);
  calls();
  CHECK(steps > 10000);
  printf("unwinding: from each of %d instructions to the caller\n", (int)steps);
  return 0;
}
