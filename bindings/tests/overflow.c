/* Which part overflowed: a ring that is too short for any chunk's header, or a body that is too long for the ring, each with the bytes
 * needed and the room; and that a failure keeps these numbers wherever it goes. Exit 1 at the first thing that is not so. */
#include "check.h"
#include "stripring.h"

#include <stdio.h>
#include <string.h>

enum { HEADER_LEN = 8, RING_LEN = 64, NORMAL = 0, DRAINING = 1, TERMINATED = 2, SHUTDOWN = 2, FAILED = 2 };

static const stripring_answer ANNOUNCED = {.kind = 0, .descriptors = 1}, NOT_ZERO = {.kind = 0, .value = 7};
static const stripring_answer SENT_ONE = {.kind = 3, .value = 1}, SHUT = {.kind = 4};

static stripring_failure errno_of(uint64_t number) { return (stripring_failure){.kind = 0, .value = number}; }

static stripring_failure violation(uint64_t number, uint64_t needed, uint64_t room) {
  return (stripring_failure){1, number, needed, room};
}

static bool same_failure(stripring_failure a, stripring_failure b) {
  return a.kind == b.kind && a.value == b.value && a.needed == b.needed && a.room == b.room;
}

static bool same_state(stripring_state a, stripring_state b) {
  return a.kind == b.kind && same_failure(a.failure, b.failure);
}

static bool same_scheduler(stripring_scheduler a, stripring_scheduler b) { return memcmp(&a, &b, sizeof a) == 0; }

/* An empty ring whose counters are at `at`, and in it the header of a chunk of `len` bytes, as far as there is room. */
static stripring_receiver receiver(uint8_t *ring, uint64_t ring_len, uint64_t at, uint64_t len) {
  memset(ring, 0, ring_len);
  for (unsigned i = 0; i < HEADER_LEN; i++)
    ring[(at + i) % ring_len] = len >> (56 - 8 * i);
  return stripring_receiver_new(stripring_scheduler_try_from_counters(ring_len, at, at).scheduler).receiver;
}

/* ---- what a read answers ---- */

static stripring_ended_answer read_of(stripring_receiver r, const uint8_t *ring, stripring_answer first,
                                      stripring_answer last) {
  uint8_t dst[RING_LEN];
  const stripring_answer answers[] = {first, last};
  return stripring_receiver_read_with_fds(r, ring, r.scheduler.buf_len, dst, sizeof dst, 1, answers, 2);
}

/* The announcement fails the stream, which keeps the failure; its descriptor is dropped, and the scheduler is as it was. */
static void is_told(uint64_t ring_len, uint64_t at, uint64_t len, stripring_failure failure) {
  uint8_t ring[RING_LEN];
  stripring_receiver before = receiver(ring, ring_len, at, len);
  stripring_ended_answer read = read_of(before, ring, ANNOUNCED, SHUT);
  CHECK(read.refusal.number == 0 && read.used == 2);
  CHECK(read.outcome.kind == FAILED && same_failure(read.outcome.failure, failure));
  CHECK(read.outcome.n == 0 && read.outcome.fds == 0);
  CHECK(same_state(read.receiver.state, (stripring_state){TERMINATED, failure}));
  CHECK(same_scheduler(read.receiver.scheduler, before.scheduler));
}

static void is_read(uint64_t ring_len, uint64_t at, uint64_t len) {
  uint8_t ring[RING_LEN];
  stripring_ended_answer read = read_of(receiver(ring, ring_len, at, len), ring, ANNOUNCED, SENT_ONE);
  CHECK(read.refusal.number == 0 && read.outcome.kind == 0 && read.outcome.n == len && read.outcome.fds == 1);
  CHECK(read.receiver.state.kind == NORMAL);
}

static void a_body_that_is_too_long(void) {
  for (uint64_t at = 0; at < 2 * RING_LEN; at++) {
    is_read(RING_LEN, at, 56);
    is_told(RING_LEN, at, 57, violation(5, 57, 56));
    is_told(RING_LEN, at, 64, violation(5, 64, 56));
    is_told(RING_LEN, at, (UINT64_C(1) << 48) - 1, violation(5, (UINT64_C(1) << 48) - 1, 56));
  }
}

static void a_ring_that_is_too_short(void) {
  for (uint64_t ring_len = 1; ring_len < HEADER_LEN; ring_len++)
    is_told(ring_len, ring_len, 1, violation(2, 8, ring_len));
  is_told(HEADER_LEN, 3, 1, violation(5, 1, 0));
  is_read(HEADER_LEN + 1, 3, 1);
}

/* An empty chunk, an unknown format, and a byte that is not 0. */
static void other_violations_have_no_numbers(void) {
  is_told(RING_LEN, 3, 0, violation(4, 0, 0));
  is_told(RING_LEN, 3, UINT64_C(1) << 63 | 57, violation(3, 0, 0));
  uint8_t ring[RING_LEN];
  stripring_ended_answer read = read_of(receiver(ring, RING_LEN, 3, 57), ring, NOT_ZERO, SHUT);
  CHECK(read.outcome.kind == FAILED && same_failure(read.outcome.failure, violation(1, 0, 0)));
}

/* The same, one answer at a time. */
static void the_machine_too(void) {
  uint8_t ring[RING_LEN];
  stripring_receiver before = receiver(ring, RING_LEN, 60, 57);
  stripring_step_answer step = stripring_call_begin_read(before, RING_LEN, 1, RING_LEN);
  step = stripring_call_answered(step.call, ring, RING_LEN, ANNOUNCED, 1);
  CHECK(step.refusal.number == 0 && step.call.phase.kind == SHUTDOWN);
  CHECK(same_failure(step.call.phase.ending.outcome.failure, violation(5, 57, 56)));
  CHECK(same_scheduler(step.call.receiver.scheduler, before.scheduler));
  step = stripring_call_answered(step.call, NULL, 0, SHUT, 2);
  CHECK(step.refusal.number == 0 && step.call.phase.outcome.kind == FAILED);
  CHECK(same_failure(step.call.phase.outcome.failure, violation(5, 57, 56)));
  CHECK(same_state(step.call.receiver.state, (stripring_state){TERMINATED, violation(5, 57, 56)}));
}

/* An earlier reason stays in the state; the answer is what was announced. */
static void while_it_drains(void) {
  uint8_t ring[RING_LEN];
  stripring_receiver r = receiver(ring, RING_LEN, 0, 57);
  r.state = (stripring_state){DRAINING, violation(2, 1, 9)};
  stripring_ended_answer read = read_of(r, ring, ANNOUNCED, SHUT);
  CHECK(read.outcome.kind == FAILED && same_failure(read.outcome.failure, violation(5, 57, 56)));
  CHECK(same_state(read.receiver.state, (stripring_state){TERMINATED, violation(2, 1, 9)}));
}

/* ---- what is stored ---- */

/* Any numbers are legal, and a terminated record answers them as they are. */
static void is_kept(stripring_failure failure) {
  uint8_t ring[RING_LEN];
  stripring_receiver r = receiver(ring, RING_LEN, 0, 1);
  r.state = (stripring_state){TERMINATED, failure};
  stripring_ended_answer read = read_of(r, ring, ANNOUNCED, SHUT);
  CHECK(read.refusal.number == 0 && read.used == 0);
  CHECK(read.outcome.kind == FAILED && same_failure(read.outcome.failure, failure));
  CHECK(same_state(read.receiver.state, r.state));
  stripring_ended_answer service = stripring_receiver_service_chunk_acknowledgements(r, NULL, 0);
  CHECK(service.outcome.kind == FAILED && same_failure(service.outcome.failure, failure));
  stripring_step_answer step = stripring_call_begin_read(r, RING_LEN, 0, 1);
  CHECK(step.call.phase.outcome.kind == FAILED && same_failure(step.call.phase.outcome.failure, failure));
  stripring_potential_failure_answer stored = stripring_state_failure(r.state);
  CHECK(stored.some == 1 && same_failure(stored.failure, failure));
}

/* What is handed in, and what is answered for it. */
static void is_taken_for(stripring_failure given, stripring_failure wanted) {
  stripring_failure_answer failure = stripring_failure_normalize(given);
  CHECK(failure.refusal.number == 0 && same_failure(failure.failure, wanted));
  stripring_state_answer state = stripring_state_normalize((stripring_state){DRAINING, given});
  CHECK(state.refusal.number == 0 && same_state(state.state, (stripring_state){DRAINING, wanted}));
}

static void numbers_of_other_failures_are_not_looked_at(void) {
  is_taken_for(violation(5, 57, 56), violation(5, 57, 56));
  is_taken_for(violation(2, 0, 0), violation(2, 0, 0));
  is_taken_for((stripring_failure){0, 5, 57, 56}, errno_of(5));
  is_taken_for(violation(1, 57, 56), violation(1, 0, 0));
  is_taken_for(violation(3, 57, 56), violation(3, 0, 0));
  is_taken_for(violation(4, 57, 56), violation(4, 0, 0));
  is_taken_for(violation(0, 57, 56), violation(4, 0, 0));
  is_taken_for(violation(6, 57, 56), violation(4, 0, 0));
  is_taken_for(violation(UINT64_MAX, 57, 56), violation(4, 0, 0));
  is_taken_for((stripring_failure){7, 5, 57, 56}, violation(5, 57, 56));
}

static void advances(stripring_failure from, stripring_failure to, stripring_failure reason) {
  stripring_state draining = {DRAINING, from}, terminated = {TERMINATED, to};
  stripring_state_answer state = stripring_state_advance_state_towards_termination(draining, terminated);
  CHECK(state.refusal.number == 0 && same_state(state.state, (stripring_state){TERMINATED, reason}));
  stripring_failure_answer failure = stripring_failure_advance_failure_towards_error(from, to);
  CHECK(failure.refusal.number == 0 && same_failure(failure.failure, reason));
}

static void the_reason_keeps_its_numbers(void) {
  const stripring_failure body = violation(5, 57, 56), header = violation(2, 8, 4);
  advances(errno_of(32), body, body);
  advances(body, errno_of(5), body);
  advances(body, errno_of(32), body);
  advances(header, body, header);
  advances(body, violation(5, 1, 0), body);
}

int main(void) {
  a_body_that_is_too_long();
  a_ring_that_is_too_short();
  other_violations_have_no_numbers();
  the_machine_too();
  while_it_drains();
  is_kept(violation(2, 0, 0));
  is_kept(violation(5, UINT64_MAX, 3));
  numbers_of_other_failures_are_not_looked_at();
  the_reason_keeps_its_numbers();
  printf("overflow: %u checks\n", held);
}
