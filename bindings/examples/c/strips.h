/* What the parts of the example share: a camera process writes the strips of a picture into a ring, and a classifier process
 * reads them. */
#ifndef STRIPS_H
#define STRIPS_H

#include "stripring.h"

#include <stdatomic.h>
#include <sys/types.h>

struct strip {
  const uint8_t *bytes;
  size_t len;
};

struct picture {
  uint8_t *bytes;
  size_t len;
  struct strip *strips;
  size_t count;
};

struct camera {
  const struct picture *picture;
  uint8_t *ring;
  size_t ring_len;
  int socket;
  /* the classifier is killed once so many bytes are written; 0 for never */
  size_t kill_at;
  /* in the middle a chunk is announced that is longer than the ring takes */
  bool too_long;
  pid_t classifier;
  size_t written;
};

struct classifier {
  const uint8_t *ring;
  size_t ring_len;
  int socket;
  /* where the bytes go that it reads: more room than the picture needs, so that a byte too many shows */
  uint8_t *copy;
  size_t copy_len;
  /* how many of them; the camera's process looks here when the classifier is gone */
  atomic_size_t *copied;
};

/* The largest part of a strip that the classifier reads at once. */
enum { READ_AT_MOST = 16384 };

/* By the plain ends, with their counters sent over the socket. */
void film_by_ends(struct camera *c);
void classify_by_ends(struct classifier *c);

/* By announced chunks, with the receiver driven by the socket. */
void film_by_chunks(struct camera *c);
void classify_by_chunks(struct classifier *c);

/* Counts what was written, and kills the classifier when it is time to. */
void filmed(struct camera *c, size_t n);

/* Where the next bytes go, and how many at most. */
uint8_t *next_place(const struct classifier *c);
size_t next_len(const struct classifier *c);
void classified(struct classifier *c, size_t n);

/* Ends the process if a call that must be accepted was refused. */
void demand(stripring_refusal refusal);
_Noreturn void die(const char *what);

#endif
