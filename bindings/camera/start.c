/* What a program needs on a core with no operating system and no C library: where it starts, and the calls that a compiler may
 * make in any program. It ends by Linux's exit, so that an emulator of user programs can run it. */
#include <stddef.h>

__attribute__((naked, noreturn)) void _start(void) { __asm__("call run\n\tli a7, 93\n\tecall"); }

void *memcpy(void *to, const void *from, size_t len) {
  unsigned char *t = to;
  const unsigned char *f = from;
  while (len-- > 0) {
    *t++ = *f++;
  }
  return to;
}

void *memmove(void *to, const void *from, size_t len) {
  unsigned char *t = to;
  const unsigned char *f = from;
  if (t <= f) {
    return memcpy(to, from, len);
  }
  while (len-- > 0) {
    t[len] = f[len];
  }
  return to;
}

void *memset(void *to, int byte, size_t len) {
  unsigned char *t = to;
  while (len-- > 0) {
    *t++ = (unsigned char)byte;
  }
  return to;
}
