/* What the tests check with: exit 1 at the first thing that is not so, and a count of those that held. */
#ifndef CHECK_H
#define CHECK_H

#include <stdbool.h>
#include <stdio.h>
#include <stdlib.h>

static unsigned held;

static void check(bool holds, const char *what, const char *file, int line) {
  if (!holds) {
    fprintf(stderr, "%s:%d: not so: %s\n", file, line, what);
    exit(1);
  }
  held++;
}
#define CHECK(what) check(what, #what, __FILE__, __LINE__)

#endif
