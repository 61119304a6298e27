/* Announced chunks. The camera writes a header of 8 bytes and a body, and sends a byte 0; the classifier reads by the receiver,
 * whose calls tell what to do on the socket, and each chunk that was read to its end is acknowledged by a byte. */
#define _GNU_SOURCE
#include "strips.h"

#include <errno.h>
#include <inttypes.h>
#include <poll.h>
#include <stdio.h>
#include <stdlib.h>
#include <sys/socket.h>

enum { HEADER_LEN = 8, MAX_BATCH = 128 };

/* ---- the camera ---- */

/* What is in the ring: the camera's own counters, and the lengths of the chunks that are not acknowledged, oldest first. */
struct outstanding {
  stripring_scheduler scheduler;
  size_t *lens;
  size_t room;
  size_t first;
  size_t count;
};

static void remember(struct outstanding *o, size_t len) {
  o->lens[(o->first + o->count++) % o->room] = len;
}

/* The oldest chunk's bytes are free again. */
static void acknowledged(struct outstanding *o) {
  if (o->count == 0)
    die("an acknowledgement of nothing");
  stripring_scheduler_answer freed = stripring_scheduler_try_register_read(o->scheduler, o->lens[o->first]);
  demand(freed.refusal);
  o->scheduler = freed.scheduler;
  o->first = (o->first + 1) % o->room;
  o->count--;
}

/* The classifier has done with the bytes before the acknowledgement that frees them. False if it is gone. */
static bool wait_for_acknowledgements(struct camera *c, struct outstanding *o) {
  uint8_t bytes[MAX_BATCH];
  ssize_t n = recv(c->socket, bytes, sizeof bytes, 0);
  if (n < 0 && errno != ECONNRESET)
    die("recv");
  atomic_thread_fence(memory_order_acquire);
  for (ssize_t i = 0; i < n; i++)
    acknowledged(o);
  return n > 0;
}

static size_t space(const struct outstanding *o) {
  stripring_u64_answer free = stripring_scheduler_space_avail(o->scheduler);
  demand(free.refusal);
  return free.value;
}

static void put(struct camera *c, struct outstanding *o, const uint8_t *src, size_t len) {
  stripring_copy_answer wrote = stripring_copies_write(o->scheduler, c->ring, c->ring_len, src, len);
  demand(wrote.refusal);
  if (wrote.remainder != 0)
    die("no room for what there was room for");
  o->scheduler = wrote.scheduler;
}

/* 2 bits format, which is 0; 14 bits tag; 48 bits length; most significant byte first. */
static void put_header(struct camera *c, struct outstanding *o, size_t tag, size_t len) {
  uint64_t header = (uint64_t)(tag % (1 << 14)) << 48 | len;
  uint8_t bytes[HEADER_LEN];
  for (int i = 0; i < HEADER_LEN; i++)
    bytes[i] = header >> (56 - 8 * i);
  put(c, o, bytes, sizeof bytes);
}

/* The bytes of the ring come before the byte that announces them. */
static void announce(struct camera *c) {
  atomic_thread_fence(memory_order_release);
  if (send(c->socket, "", 1, MSG_NOSIGNAL) < 0 && errno != EPIPE)
    die("send");
}

/* False if the classifier is gone. */
static bool wait_for_space(struct camera *c, struct outstanding *o, size_t len) {
  while (space(o) < len)
    if (!wait_for_acknowledgements(c, o))
      return false;
  return true;
}

static bool film_chunk(struct camera *c, struct outstanding *o, size_t tag, const uint8_t *body, size_t len) {
  if (!wait_for_space(c, o, HEADER_LEN + len))
    return false;
  put_header(c, o, tag, len);
  put(c, o, body, len);
  remember(o, HEADER_LEN + len);
  announce(c);
  filmed(c, len);
  return true;
}

/* A strip that is longer than the ring has room for goes in several chunks. */
static bool film_strip(struct camera *c, struct outstanding *o, size_t tag, struct strip strip) {
  size_t most = c->ring_len - HEADER_LEN;
  for (size_t done = 0; done < strip.len;) {
    size_t len = strip.len - done < most ? strip.len - done : most;
    if (!film_chunk(c, o, tag, strip.bytes + done, len))
      return false;
    done += len;
  }
  return true;
}

/* The header alone of a chunk with one byte more than the ring has room for. Nobody acknowledges it: the camera waits for that until
 * the classifier has shut the socket down. It sends nothing more, so nothing finds the socket shut (EPIPE) or lies unread in it when it
 * is closed (ECONNRESET). */
static bool film_too_long(struct camera *c, struct outstanding *o, size_t tag) {
  if (!wait_for_space(c, o, HEADER_LEN))
    return false;
  put_header(c, o, tag, c->ring_len - HEADER_LEN + 1);
  remember(o, HEADER_LEN);
  announce(c);
  return true;
}

/* All strips; or the first half, and then a chunk that is too long. */
static bool film_strips(struct camera *c, struct outstanding *o) {
  size_t count = c->picture->count / (c->too_long ? 2 : 1);
  for (size_t i = 0; i < count; i++)
    if (!film_strip(c, o, i, c->picture->strips[i]))
      return false;
  return !c->too_long || film_too_long(c, o, count);
}

void film_by_chunks(struct camera *c) {
  stripring_scheduler_answer made = stripring_scheduler_try_new(c->ring_len);
  demand(made.refusal);
  size_t room = c->ring_len / HEADER_LEN; /* each has its header in the ring, if nothing else */
  struct outstanding o = {made.scheduler, calloc(room, sizeof(size_t)), room, 0, 0};
  bool there = film_strips(c, &o);
  while (there && o.count > 0)
    there = wait_for_acknowledgements(c, &o);
  free(o.lens);
}

/* ---- a failure in words, as the Rust crate has them ---- */

static void print_violation(stripring_failure f) {
  fprintf(stderr, "violation %" PRIu64 ": ", f.value);
  switch (f.value) {
  case 1:
    fprintf(stderr, "a byte that is not 0 announced a chunk\n");
    break;
  case 2:
    fprintf(stderr, "a chunk's header needs %" PRIu64 " bytes, and the ring has %" PRIu64 "\n", f.needed, f.room);
    break;
  case 3:
    fprintf(stderr, "a chunk's header is of an unknown format\n");
    break;
  case 5:
    fprintf(stderr,
            "a chunk of %" PRIu64 " bytes was announced, and the ring has room for %" PRIu64 " behind the chunk's header\n",
            f.needed, f.room);
    break;
  default:
    fprintf(stderr, "an empty chunk was announced\n");
  }
}

/* What is no failure here is told apart before: errno 11, nothing has come, and errno 32, the end of the stream. */
static void print_failure(stripring_failure f) {
  if (f.kind == 0)
    fprintf(stderr, "errno %" PRIu64 ": the socket failed\n", f.value);
  else
    print_violation(f);
}

static _Noreturn void fail(stripring_failure f) {
  fprintf(stderr, "strips: the classifier: ");
  print_failure(f);
  exit(1);
}

/* ---- the classifier ---- */

static stripring_answer failed(void) { return (stripring_answer){.kind = 2, .value = errno}; }

/* The announcement comes before the bytes that it tells of. */
static stripring_answer receive(int socket) {
  uint8_t byte;
  ssize_t n = recv(socket, &byte, 1, MSG_DONTWAIT);
  if (n < 0)
    return failed();
  atomic_thread_fence(memory_order_acquire);
  return n == 0 ? (stripring_answer){.kind = 1} : (stripring_answer){.kind = 0, .value = byte};
}

/* The bytes are read before the acknowledgements that free them. */
static stripring_answer acknowledge(int socket, uint64_t batch) {
  static const uint8_t bytes[MAX_BATCH];
  atomic_thread_fence(memory_order_release);
  ssize_t n = send(socket, bytes, batch, MSG_DONTWAIT | MSG_NOSIGNAL);
  return n < 0 ? failed() : (stripring_answer){.kind = 3, .value = n};
}

static stripring_answer shut(int socket) {
  return shutdown(socket, SHUT_RDWR) < 0 ? failed() : (stripring_answer){.kind = 4};
}

static stripring_answer do_what_it_waits_for(int socket, const stripring_phase *phase) {
  switch (phase->kind) {
  case 0:
    return receive(socket);
  case 1:
    return acknowledge(socket, phase->batch);
  default:
    return shut(socket);
  }
}

static void fetch(struct classifier *c, stripring_scheduler source, size_t n) {
  stripring_copy_answer copy = stripring_copies_read(source, c->ring, c->ring_len, next_place(c), n);
  demand(copy.refusal);
  classified(c, n);
}

/* The bytes that a call has read once it wants to send, or is finished; 0 for none. */
static size_t bytes_read(const stripring_phase *phase) {
  const stripring_outcome *outcome = phase->kind == 1 ? &phase->ending.outcome : &phase->outcome;
  return outcome->kind == 0 ? outcome->n : 0;
}

/* Drives a call to its end. The bytes of a read are copied before an acknowledgement goes out, which allows the camera to
 * overwrite them. */
static stripring_outcome drive(struct classifier *c, stripring_step_answer step, stripring_receiver *r) {
  bool fetched = false;
  demand(step.refusal);
  for (uint64_t place = 1; step.call.phase.kind <= 2; place++) {
    if (!fetched && step.call.phase.kind == 1) {
      fetch(c, step.call.source, bytes_read(&step.call.phase));
      fetched = true;
    }
    stripring_answer answer = do_what_it_waits_for(c->socket, &step.call.phase);
    step = stripring_call_answered(step.call, c->ring, c->ring_len, answer, place);
    demand(step.refusal);
  }
  if (!fetched)
    fetch(c, step.call.source, bytes_read(&step.call.phase));
  *r = step.call.receiver;
  return step.call.phase.outcome;
}

static stripring_outcome read_some(struct classifier *c, stripring_receiver *r) {
  return drive(c, stripring_call_begin_read(*r, c->ring_len, 0, next_len(c)), r);
}

static bool is_errno(stripring_outcome o, uint64_t number) {
  return o.kind == 2 && o.failure.kind == 0 && o.failure.value == number;
}

/* Waits for an announcement, and for room on the socket if acknowledgements are left, which are then sent: the camera may
 * announce nothing more before it has them. */
static void wait_for_socket(struct classifier *c, stripring_receiver *r) {
  struct pollfd ready = {.fd = c->socket, .events = POLLIN | (r->pending_ack_count > 0 ? POLLOUT : 0)};
  if (poll(&ready, 1, -1) < 0)
    die("poll");
  if (ready.revents & POLLOUT)
    drive(c, stripring_call_begin_service(*r), r);
}

void classify_by_chunks(struct classifier *c) {
  stripring_scheduler_answer made = stripring_scheduler_try_new(c->ring_len);
  demand(made.refusal);
  stripring_receiver_answer receiver = stripring_receiver_new(made.scheduler);
  demand(receiver.refusal);
  for (;;) {
    stripring_outcome outcome = read_some(c, &receiver.receiver);
    if (is_errno(outcome, EPIPE)) /* the end of the stream */
      return;
    if (is_errno(outcome, EAGAIN))
      wait_for_socket(c, &receiver.receiver);
    else if (outcome.kind != 0)
      fail(outcome.failure);
  }
}
