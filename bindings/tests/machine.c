/* The receiver's machine as a host drives it, one answer at a time: an answer that is refused changes nothing, and each
 * acknowledgement goes out once. Exit 1 at the first thing that is not so. */
#define _GNU_SOURCE
#include "check.h"
#include "stripring.h"

#include <errno.h>
#include <stdio.h>
#include <stdlib.h>
#include <string.h>
#include <sys/socket.h>
#include <unistd.h>

enum { RING_LEN = 10, MAX_BATCH = 128, RECEIVE = 0, SEND = 1, SHUTDOWN = 2, FINISHED = 3 };

/* A chunk with a body of 2 bytes. */
static const uint8_t RING[RING_LEN] = {0, 0, 0, 0, 0, 0, 0, 2, 'a', 'b'};

/* ---- what is handed in ---- */

static stripring_state normal(void) { return (stripring_state){0}; }
static stripring_state draining(uint64_t number) { return (stripring_state){1, {.value = number}}; }
static stripring_state terminated(uint64_t number) { return (stripring_state){2, {.value = number}}; }

static stripring_answer byte(uint64_t value) { return (stripring_answer){.kind = 0, .value = value}; }
static stripring_answer failed(uint64_t number) { return (stripring_answer){.kind = 2, .value = number}; }
static stripring_answer sent(uint64_t n) { return (stripring_answer){.kind = 3, .value = n}; }
static stripring_answer done(void) { return (stripring_answer){.kind = 4}; }

/* Nothing is read, so all that is written is the fill. */
static stripring_receiver receiver(uint64_t written, stripring_state state, uint64_t pending) {
  return (stripring_receiver){{RING_LEN, written, 0, written}, state, pending, 0};
}

static stripring_outcome read_of(uint64_t n) { return (stripring_outcome){.kind = 0, .n = n}; }
static stripring_outcome failure(uint64_t number) { return (stripring_outcome){.kind = 2, .failure = {.value = number}}; }

/* A call that no call of the library made: of each phase, over this record. */
static stripring_call made_up(uint64_t kind, stripring_receiver r) {
  stripring_phase phase = {kind, 1, 4, 1000, {0, read_of(3)}, read_of(3)};
  return (stripring_call){r, r.scheduler, phase};
}

static stripring_step_answer answered(stripring_call call, stripring_answer answer, uint64_t place) {
  return stripring_call_answered(call, RING, RING_LEN, answer, place);
}

static stripring_step_answer answered_without_ring(stripring_call call, stripring_answer answer, uint64_t place) {
  return stripring_call_answered(call, NULL, 0, answer, place);
}

/* ---- what comes of it: the records are numbers alone, so bytes can be compared ---- */

static bool is_refused(stripring_step_answer step, uint64_t number, uint64_t a) {
  static const stripring_call nothing;
  return step.refusal.number == number && step.refusal.a == a && memcmp(&step.call, &nothing, sizeof nothing) == 0;
}

static bool is_finished(stripring_step_answer step, stripring_outcome outcome) {
  return step.refusal.number == 0 && step.call.phase.kind == FINISHED &&
         memcmp(&step.call.phase.outcome, &outcome, sizeof outcome) == 0;
}

static bool waits_to_send(stripring_call call, uint64_t batch, uint64_t pending) {
  return call.phase.kind == SEND && call.phase.batch == batch && call.receiver.pending_ack_count == pending;
}

static bool same_receiver(stripring_receiver a, stripring_receiver b) { return memcmp(&a, &b, sizeof a) == 0; }

static stripring_call going_on(stripring_step_answer step) {
  CHECK(step.refusal.number == 0);
  return step.call;
}

/* ---- a refused answer ---- */

static void a_misfit_amid_the_sends_changes_nothing(void) {
  const stripring_answer misfits[] = {byte(0),   {.kind = 1},      failed(0), failed(4096),
                                      sent(129), sent(UINT64_MAX), done(),    {.kind = 5}};
  stripring_call call = going_on(stripring_call_begin_read(receiver(3, normal(), 300), RING_LEN, 0, 5));
  CHECK(waits_to_send(call, MAX_BATCH, 301));
  call = going_on(answered(call, sent(MAX_BATCH), 1));
  CHECK(waits_to_send(call, MAX_BATCH, 173));
  for (size_t i = 0; i < sizeof misfits / sizeof *misfits; i++)
    CHECK(is_refused(answered(call, misfits[i], 2), 12, 2));
  call = going_on(answered(call, sent(MAX_BATCH), 2));
  CHECK(waits_to_send(call, 45, 45));
  stripring_step_answer last = answered(call, sent(45), 3);
  CHECK(is_finished(last, read_of(3)));
  CHECK(last.call.receiver.pending_ack_count == 0);
}

static void a_misfit_of_a_receive_or_a_shutdown_is_refused(void) {
  stripring_call waiting = going_on(stripring_call_begin_read(receiver(0, normal(), 0), RING_LEN, 1, 5));
  CHECK(waiting.phase.kind == RECEIVE);
  CHECK(is_refused(answered(waiting, sent(1), 1), 12, 1));
  CHECK(is_refused(answered(waiting, byte(256), 1), 12, 1));
  CHECK(is_refused(answered(waiting, (stripring_answer){0, 0, 2}, 1), 12, 1));
  CHECK(waits_to_send(going_on(answered(waiting, (stripring_answer){0, 0, 1}, 1)), 1, 1));
  stripring_call shutting = going_on(stripring_call_begin_shutdown(receiver(0, normal(), 0)));
  CHECK(shutting.phase.kind == SHUTDOWN);
  CHECK(is_refused(answered_without_ring(shutting, sent(1), 1), 12, 1));
  CHECK(is_finished(answered_without_ring(shutting, done(), 1), (stripring_outcome){.kind = 1}));
}

/* ---- the record is tested at every answer ---- */

static void every_phase_tests_its_record(void) {
  for (uint64_t kind = RECEIVE; kind <= FINISHED + 1; kind++) {
    stripring_answer fitting[] = {byte(0), sent(1), done(), failed(11)};
    for (size_t i = 0; i < sizeof fitting / sizeof *fitting; i++) {
      stripring_step_answer unsound = answered(made_up(kind, receiver(11, draining(5000), 3)), fitting[i], 1);
      CHECK(is_refused(unsound, 5, RING_LEN));
      CHECK(unsound.refusal.b == 11 && unsound.refusal.c == 0);
      CHECK(is_refused(answered(made_up(kind, receiver(3, draining(5000), 3)), fitting[i], 1), 12, 0));
    }
  }
}

static void a_beginning_tests_its_record(void) {
  stripring_receiver unsound = receiver(11, draining(5000), 3), misfit = receiver(3, draining(5000), 3);
  CHECK(is_refused(stripring_call_begin_read(unsound, RING_LEN, 0, 5), 5, RING_LEN));
  CHECK(is_refused(stripring_call_begin_service(unsound), 5, RING_LEN));
  CHECK(is_refused(stripring_call_begin_shutdown(unsound), 5, RING_LEN));
  CHECK(is_refused(stripring_call_begin_read(misfit, RING_LEN - 1, 0, 5), 9, 0));
  CHECK(is_refused(stripring_call_begin_read(misfit, RING_LEN, 0, 5), 12, 0));
  CHECK(is_refused(stripring_call_begin_service(misfit), 12, 0));
  CHECK(is_refused(stripring_call_begin_shutdown(misfit), 12, 0));
  CHECK(is_refused(stripring_call_begin_read(receiver(3, normal(), UINT64_MAX), RING_LEN, 0, 5), 13, 0));
}

/* ---- a made-up phase goes by the rules of its record ---- */

static void a_receive_of_a_terminated_stream_reads_nothing(void) {
  stripring_receiver r = receiver(0, terminated(9), 0);
  stripring_step_answer step = answered(made_up(RECEIVE, r), byte(0), 1);
  CHECK(is_finished(step, failure(9)));
  CHECK(same_receiver(step.call.receiver, r));
}

static void a_receive_with_all_pending_is_refused(void) {
  CHECK(is_refused(answered(made_up(RECEIVE, receiver(0, normal(), UINT64_MAX)), byte(0), 1), 13, 0));
}

static void a_send_of_a_draining_stream_sends_nothing(void) {
  stripring_receiver r = receiver(3, draining(5), 3);
  stripring_call told = made_up(SEND, r);
  told.phase.ending.told = 1;
  CHECK(is_finished(answered_without_ring(told, sent(1), 1), failure(5)));
  stripring_step_answer dropped = answered_without_ring(made_up(SEND, r), sent(1), 1);
  CHECK(is_finished(dropped, read_of(3)));
  CHECK(same_receiver(dropped.call.receiver, r));
}

static void no_more_is_sent_than_is_pending(void) {
  stripring_call call = made_up(SEND, receiver(3, normal(), 5)); /* with a batch of 1000 */
  CHECK(is_refused(answered_without_ring(call, sent(6), 1), 12, 1));
  CHECK(waits_to_send(going_on(answered_without_ring(call, sent(4), 1)), 1, 1));
}

static void a_shutdown_that_is_not_due_is_finished(void) {
  stripring_receiver shut = receiver(3, draining(5), 3);
  shut.notification_socket_shutdown_issued = 1;
  CHECK(is_finished(answered_without_ring(made_up(SHUTDOWN, shut), done(), 1), read_of(3)));
  stripring_step_answer step = answered_without_ring(made_up(SHUTDOWN, receiver(3, normal(), 3)), done(), 1);
  CHECK(is_finished(step, read_of(3)));
  CHECK(same_receiver(step.call.receiver, receiver(3, normal(), 3)));
}

static void a_finished_call_stays(void) {
  stripring_receiver r = receiver(3, normal(), 3);
  stripring_step_answer step = answered_without_ring(made_up(FINISHED, r), byte(0), 1);
  CHECK(is_finished(step, read_of(3)));
  CHECK(same_receiver(step.call.receiver, r));
}

/* ---- the ring ---- */

static void the_ring_is_looked_at_where_a_byte_was_received(void) {
  stripring_call call = going_on(stripring_call_begin_read(receiver(0, normal(), 0), RING_LEN, 0, 5));
  CHECK(is_refused(answered_without_ring(call, byte(0), 1), 9, 0));
  CHECK(is_finished(answered_without_ring(call, failed(11), 1), failure(11)));
  CHECK(is_refused(answered_without_ring(call, byte(256), 1), 12, 1)); /* no byte was received */
  call = going_on(answered_without_ring(call, failed(EINTR), 1));
  CHECK(call.phase.kind == RECEIVE);
  call = going_on(answered(call, byte(0), 2));
  CHECK(waits_to_send(call, 1, 1));
  uint8_t bytes[2];
  stripring_copy_answer copy = stripring_copies_read(call.source, RING, RING_LEN, bytes, call.phase.ending.outcome.n);
  CHECK(copy.n == 2 && memcmp(bytes, "ab", 2) == 0);
  CHECK(is_finished(answered_without_ring(call, sent(1), 3), read_of(2)));
}

/* ---- acknowledgements, over a socket ---- */

static stripring_answer acknowledge(int socket, uint64_t batch) {
  static const uint8_t bytes[MAX_BATCH];
  ssize_t n = send(socket, bytes, batch, MSG_DONTWAIT | MSG_NOSIGNAL);
  return n < 0 ? failed(errno) : sent(n);
}

/* How many acknowledgements have come. */
static size_t came(int socket) {
  uint8_t bytes[MAX_BATCH];
  size_t all = 0;
  for (ssize_t n; (n = recv(socket, bytes, sizeof bytes, MSG_DONTWAIT)) > 0;)
    all += n;
  return all;
}

static void open_pair(int sockets[2]) {
  if (socketpair(AF_UNIX, SOCK_STREAM, 0, sockets) < 0) {
    perror("socketpair");
    exit(1);
  }
}

static void close_pair(int sockets[2]) {
  close(sockets[0]);
  close(sockets[1]);
}

/* Hands in a misfit before each answer, and goes on. */
static stripring_receiver serviced_amid_misfits(stripring_receiver r, int socket) {
  stripring_call call = going_on(stripring_call_begin_service(r));
  for (uint64_t place = 1; call.phase.kind == SEND; place++) {
    stripring_answer answer = acknowledge(socket, call.phase.batch);
    CHECK(is_refused(answered_without_ring(call, sent(call.phase.batch + 1), place), 12, place));
    CHECK(is_refused(answered_without_ring(call, done(), place), 12, place));
    call = going_on(answered_without_ring(call, answer, place));
  }
  CHECK(call.phase.kind == FINISHED && call.phase.outcome.kind == 1);
  return call.receiver;
}

static void misfits_amid_a_service_acknowledge_nothing_twice(void) {
  int sockets[2];
  open_pair(sockets);
  stripring_receiver r = serviced_amid_misfits(receiver(0, normal(), 300), sockets[0]);
  CHECK(r.pending_ack_count == 0);
  CHECK(came(sockets[1]) == 300);
  close_pair(sockets);
}

static void a_call_that_is_left_has_the_record_so_far(void) {
  int sockets[2];
  open_pair(sockets);
  stripring_call left = going_on(stripring_call_begin_service(receiver(0, normal(), 300)));
  left = going_on(answered_without_ring(left, acknowledge(sockets[0], left.phase.batch), 1));
  CHECK(is_refused(answered_without_ring(left, byte(0), 2), 12, 2));
  CHECK(left.receiver.pending_ack_count == 172);
  stripring_receiver r = serviced_amid_misfits(left.receiver, sockets[0]);
  CHECK(r.pending_ack_count == 0);
  CHECK(came(sockets[1]) == 300);
  close_pair(sockets);
}

int main(void) {
  a_misfit_amid_the_sends_changes_nothing();
  a_misfit_of_a_receive_or_a_shutdown_is_refused();
  every_phase_tests_its_record();
  a_beginning_tests_its_record();
  a_receive_of_a_terminated_stream_reads_nothing();
  a_receive_with_all_pending_is_refused();
  a_send_of_a_draining_stream_sends_nothing();
  no_more_is_sent_than_is_pending();
  a_shutdown_that_is_not_due_is_finished();
  a_finished_call_stays();
  the_ring_is_looked_at_where_a_byte_was_received();
  misfits_amid_a_service_acknowledge_nothing_twice();
  a_call_that_is_left_has_the_record_so_far();
  printf("machine: %u checks hold\n", held);
}
