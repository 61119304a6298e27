/* The plain ends: each process has its own, and tells the other how far it is by sending its counter. */
#define _GNU_SOURCE
#include "strips.h"

#include <errno.h>
#include <sys/socket.h>

/* The bytes of the ring come before the counter that tells of them. */
static void send_counter(int socket, uint64_t counter) {
  atomic_thread_fence(memory_order_release);
  if (send(socket, &counter, sizeof counter, MSG_NOSIGNAL) < 0 && errno != EPIPE)
    die("send");
}

enum came { NOTHING, COUNTER, GONE };

/* The last counter that has come, since those before it tell nothing more; waits for one where flags do not say MSG_DONTWAIT.
 * The counter comes before the bytes of the ring that it tells of. */
static enum came receive_counter(int socket, int flags, uint64_t *counter) {
  uint64_t counters[64];
  ssize_t n = recv(socket, counters, sizeof counters, flags);
  if (n < 0 && errno == EAGAIN)
    return NOTHING;
  if (n == 0 || (n < 0 && errno == ECONNRESET))
    return GONE;
  if (n < 0 || n % sizeof *counters != 0) /* a counter is sent, and comes, in one piece */
    die("recv");
  atomic_thread_fence(memory_order_acquire);
  *counter = counters[n / sizeof *counters - 1];
  return COUNTER;
}

static stripring_moved_answer write_some(struct camera *c, stripring_writing_end *end, const uint8_t *src, size_t len) {
  stripring_moved_answer wrote = stripring_writing_end_write_in_place(end, c->ring, c->ring_len, src, len);
  demand(wrote.refusal);
  return wrote;
}

static void tell_classifier(struct camera *c, stripring_writing_end end) {
  stripring_written_counter_answer sent = stripring_writing_end_send(end);
  demand(sent.refusal);
  send_counter(c->socket, sent.counter.counter);
}

static enum came take_counter(struct camera *c, stripring_writing_end *end, int flags) {
  stripring_read_counter counter;
  enum came came = receive_counter(c->socket, flags, &counter.counter);
  if (came != COUNTER)
    return came;
  demand(stripring_writing_end_take_in_place(end, counter));
  return came;
}

static bool is_full(stripring_scheduler s) {
  stripring_u64_answer full = stripring_scheduler_is_full(s);
  demand(full.refusal);
  return full.value;
}

/* False if the classifier is gone. Counters are taken before each write, or both sockets fill up with them in the end. */
static bool wait_for_room(struct camera *c, stripring_writing_end *end) {
  do
    if (take_counter(c, end, is_full(end->scheduler) ? 0 : MSG_DONTWAIT) == GONE)
      return false;
  while (is_full(end->scheduler));
  return true;
}

static bool film_strip(struct camera *c, stripring_writing_end *end, struct strip strip) {
  for (size_t left = strip.len; left > 0;) {
    if (!wait_for_room(c, end))
      return false;
    stripring_moved_answer wrote = write_some(c, end, strip.bytes + strip.len - left, left);
    tell_classifier(c, *end);
    filmed(c, wrote.n);
    left = wrote.remainder;
  }
  return true;
}

void film_by_ends(struct camera *c) {
  stripring_writing_end_answer made = stripring_writing_end_new(c->ring_len);
  demand(made.refusal);
  stripring_writing_end end = made.end;
  for (size_t i = 0; i < c->picture->count; i++)
    if (!film_strip(c, &end, c->picture->strips[i]))
      return;
  while (end.scheduler.fill > 0 && take_counter(c, &end, 0) == COUNTER)
    ;
}

static size_t read_some(struct classifier *c, stripring_reading_end *end) {
  stripring_moved_answer got = stripring_reading_end_read_in_place(end, c->ring, c->ring_len, next_place(c), next_len(c));
  demand(got.refusal);
  return got.n;
}

static void tell_camera(struct classifier *c, stripring_reading_end end) {
  stripring_read_counter_answer sent = stripring_reading_end_send(end);
  demand(sent.refusal);
  send_counter(c->socket, sent.counter.counter);
}

void classify_by_ends(struct classifier *c) {
  stripring_reading_end_answer made = stripring_reading_end_new(c->ring_len);
  demand(made.refusal);
  stripring_reading_end end = made.end;
  stripring_written_counter counter;
  while (receive_counter(c->socket, 0, &counter.counter) == COUNTER) {
    demand(stripring_reading_end_take_in_place(&end, counter));
    while (end.scheduler.fill > 0)
      classified(c, read_some(c, &end));
    tell_camera(c, end);
  }
}
