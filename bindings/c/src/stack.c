/*
 * No call leaves a key, a password or a PIN on the stack that it was given or gives: it writes zeros over the part of the stack that it
 * may take, by the header, with few bytes less for its own frame. tests/stack.c looks at what is left.
 */
#include "internal.h"

/* What a call left lies below the frame of its caller. So does this array, which is for that reason one of another function's. */
__attribute__((noinline)) void cukvashe_internal_wipe_stack(size_t size) {
  uint8_t left[size];
  cukvashe_wipe(left, sizeof left);
}
