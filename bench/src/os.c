// What a program needs of the C code of the libraries libc and os, which the toolchain has as x86-64 code alone: memory, as malloc gives it,
// and the number of an error, which is asked for only where a read or a write fails.
#include <errno.h>
#include <stdbool.h>
#include <stddef.h>
#include <stdlib.h>

struct tried {
  bool ok;
  unsigned char *p;
};

// An address that is no memory of a caller's.
static unsigned char nothing;

static struct tried tried(unsigned char *p) {
  return (struct tried){.ok = p != NULL, .p = p != NULL ? p : &nothing};
}

struct tried rattle_alloc(size_t n, size_t align) {
  return tried(malloc(n != 0 ? n : align));
}

struct tried rattle_realloc(unsigned char *p, size_t kept, size_t n, size_t align) {
  (void)kept;
  return tried(realloc(p, n != 0 ? n : align));
}

void rattle_dealloc(unsigned char *p) {
  free(p);
}

int rattle_errno(void) {
  return errno;
}

void rattle_set_errno(int number) {
  errno = number;
}
