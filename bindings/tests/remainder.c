/* How much of what was asked is left over: of the next operation, of a list, of a copy by value and in place; and 0 where the call is
 * refused. Exit 1 at the first thing that is not so. */
#include "check.h"
#include "stripring.h"

#include <stdio.h>
#include <string.h>

enum { READ, WRITE, RING_LEN = 10, ASKED = 9 };

/* Data 4 and space 6, of which 3 are before the end of the memory. */
static const stripring_scheduler PARTIAL = {RING_LEN, 7, 3, 4};
static const stripring_scheduler EMPTY = {RING_LEN, 3, 3, 0};
static const stripring_scheduler UNSOUND = {RING_LEN, 11, 0, 11};
static const stripring_scheduler OF_ONE = {1, 0, 0, 0};

static bool is(stripring_operation o, uint64_t typ, uint64_t off, uint64_t len) {
  return o.typ == typ && o.off == off && o.len == len;
}

static bool same(stripring_scheduler a, stripring_scheduler b) {
  return a.buf_len == b.buf_len && a.items_written == b.items_written && a.items_read == b.items_read && a.fill == b.fill;
}

static void next_operation(void) {
  stripring_next_answer next = stripring_scheduler_schedule_next_write(PARTIAL, ASKED);
  CHECK(next.some == 1 && is(next.operation, WRITE, 7, 3) && next.remainder == 6);
  next = stripring_scheduler_schedule_next_contiguous_operation(PARTIAL, READ, ASKED);
  CHECK(next.some == 1 && is(next.operation, READ, 3, 4) && next.remainder == 5);
  next = stripring_scheduler_schedule_next_read(EMPTY, 4);
  CHECK(next.refusal.number == 0 && next.some == 0 && next.remainder == 4);
  next = stripring_scheduler_schedule_next_write(OF_ONE, UINT64_MAX);
  CHECK(next.some == 1 && is(next.operation, WRITE, 0, 1) && next.remainder == UINT64_MAX - 1);
  next = stripring_scheduler_schedule_next_write(UNSOUND, ASKED);
  CHECK(next.refusal.number == 5 && next.some == 0 && next.remainder == 0);
}

static void list(void) {
  stripring_schedule_answer plan = stripring_scheduler_schedule_writes(PARTIAL, ASKED);
  CHECK(plan.operations.count == 2 && plan.remainder == 3);
  CHECK(is(plan.operations.first, WRITE, 7, 3) && is(plan.operations.second, WRITE, 0, 3));
  plan = stripring_scheduler_schedule_reads(EMPTY, 4);
  CHECK(plan.refusal.number == 0 && plan.operations.count == 0 && plan.remainder == 4);
  plan = stripring_scheduler_schedule_contiguous_operations(OF_ONE, WRITE, UINT64_MAX);
  CHECK(plan.operations.count == 1 && is(plan.operations.first, WRITE, 0, 1) && plan.remainder == UINT64_MAX - 1);
  plan = stripring_scheduler_schedule_writes(UNSOUND, ASKED);
  CHECK(plan.refusal.number == 5 && plan.operations.count == 0 && plan.remainder == 0);
}

static void writes(void) {
  const uint8_t src[ASKED] = "abcdefghi";
  uint8_t ring[RING_LEN] = "0123456789";
  const stripring_scheduler full = {RING_LEN, 13, 3, 10};
  stripring_copy_answer copy = stripring_copies_write(PARTIAL, ring, RING_LEN, src, ASKED);
  CHECK(copy.n == 6 && copy.remainder == 3 && same(copy.scheduler, full));
  CHECK(memcmp(ring, "def3456abc", RING_LEN) == 0);
  copy = stripring_copies_write(PARTIAL, ring, RING_LEN - 1, src, ASKED);
  CHECK(copy.refusal.number == 9 && copy.n == 0 && copy.remainder == 0);

  stripring_writing_end end = {PARTIAL};
  stripring_wrote_answer wrote = stripring_writing_end_write(end, ring, RING_LEN, src, ASKED);
  CHECK(wrote.n == 6 && wrote.remainder == 3 && same(wrote.end.scheduler, full));
  stripring_moved_answer moved = stripring_writing_end_write_in_place(&end, ring, RING_LEN, src, ASKED);
  CHECK(moved.n == 6 && moved.remainder == 3 && same(end.scheduler, full));
  moved = stripring_writing_end_write_in_place(&end, ring, RING_LEN, src, ASKED);
  CHECK(moved.refusal.number == 0 && moved.n == 0 && moved.remainder == ASKED);
}

static void reads(void) {
  const uint8_t ring[RING_LEN] = "0123456789";
  uint8_t dst[ASKED] = "abcdefghi";
  const stripring_scheduler empty = {RING_LEN, 7, 7, 0};
  stripring_copy_answer copy = stripring_copies_read(PARTIAL, ring, RING_LEN, dst, ASKED);
  CHECK(copy.n == 4 && copy.remainder == 5 && same(copy.scheduler, empty));
  CHECK(memcmp(dst, "3456efghi", ASKED) == 0);

  stripring_reading_end end = {PARTIAL};
  stripring_got_answer got = stripring_reading_end_read(end, ring, RING_LEN, dst, ASKED);
  CHECK(got.n == 4 && got.remainder == 5 && same(got.end.scheduler, empty));
  stripring_moved_answer moved = stripring_reading_end_read_in_place(&end, ring, RING_LEN, dst, ASKED);
  CHECK(moved.n == 4 && moved.remainder == 5 && same(end.scheduler, empty));
  moved = stripring_reading_end_read_in_place(&end, ring, RING_LEN - 1, dst, ASKED);
  CHECK(moved.refusal.number == 9 && moved.n == 0 && moved.remainder == 0);
}

int main(void) {
  next_operation();
  list();
  writes();
  reads();
  printf("left over: %u checks\n", held);
}
