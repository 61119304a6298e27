/* The scheduler alone, on a camera core that neither divides nor multiplies. `run` gives 0, or which check was the first that
 * failed, 255 for a later one; tools/camera-core links this with nothing but the library and start.c, and runs it. */
#include "stripring.h"

static const uint64_t HALF = (uint64_t)1 << 63;
static unsigned checks, failed;

static void check(bool holds) {
  checks++;
  if (!holds && failed == 0) {
    failed = checks;
  }
}

static bool is(stripring_u64_answer answer, uint64_t value) { return answer.refusal.number == 0 && answer.value == value; }

static bool holds(stripring_scheduler_answer answer, uint64_t items_written, uint64_t items_read) {
  return answer.refusal.number == 0 && answer.scheduler.items_written == items_written &&
         answer.scheduler.items_read == items_read &&
         is(stripring_scheduler_data_avail(answer.scheduler), answer.scheduler.fill);
}

static stripring_scheduler from_counters(uint64_t len, uint64_t items_written, uint64_t items_read) {
  return stripring_scheduler_try_from_counters(len, items_written, items_read).scheduler;
}

/* At a length of 2^63 the counters are all numbers of 64 bits. */
static void longest(void) {
  stripring_scheduler full = from_counters(HALF, HALF - 1, UINT64_MAX);
  check(is(stripring_scheduler_read_off(full), HALF - 1));
  check(is(stripring_scheduler_write_off(full), HALF - 1));
  check(is(stripring_scheduler_data_avail(full), HALF));
  check(full.fill == HALF);
  check(holds(stripring_scheduler_try_register_read(full, 1), HALF - 1, 0));
  check(holds(stripring_scheduler_try_register_read(full, HALF), HALF - 1, HALF - 1));
  stripring_scheduler empty = from_counters(HALF, UINT64_MAX, UINT64_MAX);
  check(is(stripring_scheduler_data_avail(empty), 0));
  check(holds(stripring_scheduler_try_register_write(empty, HALF), HALF - 1, UINT64_MAX));
  check(holds(stripring_scheduler_try_with_counter(empty, 1, 3), 3, UINT64_MAX));
  empty.fill = 1;
  check(stripring_scheduler_read_off(empty).refusal.number == 20);
}

/* Three times this length has no 64 bits: the sum of a counter and an amount may not be made first. */
static void long_one(void) {
  const uint64_t len = HALF - 1, last = UINT64_MAX - 2;
  stripring_scheduler empty = from_counters(len, last, last);
  check(is(stripring_scheduler_write_off(empty), len - 1));
  check(holds(stripring_scheduler_try_register_write(empty, len), len - 1, last));
  stripring_scheduler outside = {len, last + 1, last, 1};
  check(stripring_scheduler_read_off(outside).refusal.number == 3);
}

/* At the counter L the offset is 0 again. */
static void at_the_length(void) {
  stripring_scheduler s = from_counters(10, 10, 3);
  check(is(stripring_scheduler_write_off(s), 0));
  check(is(stripring_scheduler_read_off(s), 3));
  check(is(stripring_scheduler_data_avail(s), 7));
  stripring_schedule_answer writes = stripring_scheduler_schedule_writes(s, 5);
  check(writes.operations.count == 1 && writes.operations.first.off == 0 && writes.operations.first.len == 3);
  check(writes.remainder == 2);
}

static uint64_t next(uint64_t counter, uint64_t end) { return counter + 1 == end ? 0 : counter + 1; }

/* Every length up to 40, item by item and in lists that go round the end, beside counters that go on by 1. */
static void rounds(void) {
  for (uint64_t len = 1; len <= 40; len++) {
    stripring_scheduler s = stripring_scheduler_try_new(len).scheduler;
    uint64_t written = 0, read = 0;
    for (unsigned step = 0; step < 200; step++) {
      stripring_schedule_answer list = stripring_scheduler_schedule_writes(s, step & 15);
      stripring_scheduler_answer wrote = stripring_scheduler_try_register_operations(s, list.operations);
      for (uint64_t n = list.operations.first.len + list.operations.second.len; n > 0; n--) {
        written = next(written, len + len);
      }
      check(holds(wrote, written, read));
      s = wrote.scheduler;
      while (s.fill > (step & 7)) {
        stripring_scheduler_answer took = stripring_scheduler_try_register_read(s, 1);
        read = next(read, len + len);
        check(holds(took, written, read));
        s = took.scheduler;
      }
      check(is(stripring_scheduler_read_off(s), read < len ? read : read - len));
    }
  }
}

unsigned run(void) {
  longest();
  long_one();
  at_the_length();
  rounds();
  return failed < 255 ? failed : 255;
}
