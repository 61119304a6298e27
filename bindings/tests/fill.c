/* The fill that a record holds: a wrong one is refused with 20 by every call that takes a record, behind 1 to 5 and before all
 * else, and changes nothing; a host that hands on what calls answer never meets it. Exit 1 at the first thing that is not so. */
#include "check.h"
#include "stripring.h"

#include <stdio.h>
#include <string.h>

enum { READ, WRITE, RING_LEN = 10, BYTES_LEN = 9, HEADER_LEN = 8, STEPS = 500 };

static const uint64_t LONGEST = UINT64_C(1) << 63;

static const stripring_scheduler RIGHT = {RING_LEN, 7, 3, 4};
static const stripring_scheduler WRONG = {RING_LEN, 7, 3, 5};

static bool is(stripring_refusal r, uint64_t number, uint64_t a, uint64_t b, uint64_t c) {
  return r.number == number && r.a == a && r.b == b && r.c == c;
}

/* Answers and records are numbers alone, so bytes can be compared. */
static bool same(const void *a, const void *b, size_t len) { return memcmp(a, b, len) == 0; }

/* (written - read) mod 2L, of counters below 2L. At 2^63 the numbers of 64 bits roll over at 2L. */
static uint64_t data(uint64_t len, uint64_t written, uint64_t read) {
  return written >= read ? written - read : 2 * len - (read - written);
}

static void is_right(stripring_scheduler s) {
  stripring_u64_answer avail = stripring_scheduler_data_avail(s);
  CHECK(avail.refusal.number == 0 && s.fill == avail.value);
  CHECK(s.fill == data(s.buf_len, s.items_written, s.items_read));
}

/* ---- when it is given ---- */

/* The number of a record with these counters and its own data as the fill; at 2^63 no counter is too large. */
static uint64_t number(uint64_t len, uint64_t written, uint64_t read) {
  uint64_t last = 2 * len - 1;
  return written > last ? 3 : read > last ? 4 : data(len, written, read) > len ? 5 : 0;
}

/* 20 comes behind 3 to 5, exactly where the fill is not the data, and never of counters alone. */
static void is_judged(uint64_t len, uint64_t written, uint64_t read, uint64_t fill) {
  static const stripring_scheduler none;
  const stripring_scheduler s = {len, written, read, fill}, right = {len, written, read, data(len, written, read)};
  uint64_t wanted = number(len, written, read);
  stripring_scheduler_answer built = stripring_scheduler_try_from_counters(len, written, read);
  CHECK(built.refusal.number == wanted && same(&built.scheduler, wanted == 0 ? &right : &none, sizeof s));
  if (wanted == 0 && fill != right.fill)
    wanted = 20;
  stripring_scheduler_answer demanded = stripring_scheduler_demand_soundness(s);
  CHECK(demanded.refusal.number == wanted && same(&demanded.scheduler, wanted == 0 ? &right : &none, sizeof s));
}

static void small_lengths(void) {
  for (uint64_t len = 1; len <= 4; len++)
    for (uint64_t written = 0; written <= 2 * len; written++)
      for (uint64_t read = 0; read <= 2 * len; read++)
        for (uint64_t fill = 0; fill <= 2 * len; fill++)
          is_judged(len, written, read, fill);
}

/* Counters are all numbers of 64 bits there, and no counter is 2L. */
static void the_longest(void) {
  const uint64_t edges[] = {0, 1, LONGEST - 1, LONGEST, LONGEST + 1, UINT64_MAX - 1, UINT64_MAX};
  enum { EDGES = sizeof edges / sizeof *edges };
  for (size_t w = 0; w < EDGES; w++)
    for (size_t r = 0; r < EDGES; r++)
      for (size_t off = 0; off < EDGES; off++)
        is_judged(LONGEST, edges[w], edges[r], edges[w] - edges[r] + edges[off]);
}

static void in_order(void) {
  stripring_u64_answer avail = stripring_scheduler_data_avail(WRONG);
  CHECK(is(avail.refusal, 20, 0, 0, 0) && avail.value == 0);
  avail = stripring_scheduler_data_avail(RIGHT);
  CHECK(is(avail.refusal, 0, 0, 0, 0) && avail.value == 4);
  CHECK(is(stripring_scheduler_data_avail((stripring_scheduler){RING_LEN, 11, 0, 11}).refusal, 5, RING_LEN, 11, 0));
  CHECK(is(stripring_scheduler_data_avail((stripring_scheduler){RING_LEN, 11, 0, 3}).refusal, 5, RING_LEN, 11, 0));
  CHECK(is(stripring_scheduler_data_avail((stripring_scheduler){0, 0, 0, 3}).refusal, 1, 0, 0, 0));
}

/* ---- by every call ---- */

/* Refused with 20, and every other number of the answer is 0. */
static bool is_20(const void *answer, size_t len) {
  static const uint64_t wanted[64] = {20};
  return len <= sizeof wanted && same(answer, wanted, len);
}
#define CHECK_20(type, ...) check(is_20((type[]){__VA_ARGS__}, sizeof(type)), "20: " #__VA_ARGS__, __FILE__, __LINE__)

static void scheduler_asked(void) {
  stripring_u64_answer (*const numbers[])(stripring_scheduler) = {
      stripring_scheduler_items_read,  stripring_scheduler_items_written, stripring_scheduler_read_off,
      stripring_scheduler_write_off,   stripring_scheduler_buf_len,       stripring_scheduler_is_zero_sized,
      stripring_scheduler_data_avail,  stripring_scheduler_space_avail,   stripring_scheduler_fill_state,
      stripring_scheduler_is_empty,    stripring_scheduler_is_full,       stripring_scheduler_is_nonempty,
      stripring_scheduler_is_nonfull,  stripring_scheduler_layout,        stripring_scheduler_block_0_off,
      stripring_scheduler_block_1_off, stripring_scheduler_block_2_off,   stripring_scheduler_block_0_len,
      stripring_scheduler_block_1_len, stripring_scheduler_block_2_len};
  for (size_t i = 0; i < sizeof numbers / sizeof *numbers; i++)
    CHECK_20(stripring_u64_answer, numbers[i](WRONG));
  stripring_block_answer (*const blocks[])(stripring_scheduler) = {
      stripring_scheduler_block_0, stripring_scheduler_block_1, stripring_scheduler_block_2,
      stripring_scheduler_next_read_block, stripring_scheduler_next_write_block};
  for (size_t i = 0; i < sizeof blocks / sizeof *blocks; i++)
    CHECK_20(stripring_block_answer, blocks[i](WRONG));
  CHECK_20(stripring_blocks_answer, stripring_scheduler_blocks(WRONG));
  for (uint64_t op = READ; op <= WRITE; op++) {
    CHECK_20(stripring_u64_answer, stripring_scheduler_operation_counter(WRONG, op));
    CHECK_20(stripring_u64_answer, stripring_scheduler_operation_offset(WRONG, op));
    CHECK_20(stripring_u64_answer, stripring_scheduler_max_operation_len(WRONG, op));
    CHECK_20(stripring_block_answer, stripring_scheduler_next_operation_block(WRONG, op));
    CHECK_20(stripring_next_answer, stripring_scheduler_schedule_next_contiguous_operation(WRONG, op, 9));
    CHECK_20(stripring_schedule_answer, stripring_scheduler_schedule_contiguous_operations(WRONG, op, 9));
  }
  CHECK_20(stripring_next_answer, stripring_scheduler_schedule_next_read(WRONG, 9));
  CHECK_20(stripring_next_answer, stripring_scheduler_schedule_next_write(WRONG, 9));
  CHECK_20(stripring_schedule_answer, stripring_scheduler_schedule_reads(WRONG, 9));
  CHECK_20(stripring_schedule_answer, stripring_scheduler_schedule_writes(WRONG, 9));
}

/* Before 6, of a length that no ring has, and of a list before 7 and 8. */
static void before_6_to_8(void) {
  const stripring_operation vast = {WRITE, 0, UINT64_MAX}, one = {WRITE, 0, 1}, read = {READ, 0, 1};
  const stripring_operations large = {1, vast, {0}}, too_long = {2, vast, one}, inconsistent = {2, read, one};
  CHECK_20(stripring_scheduler_answer, stripring_scheduler_try_register_read(WRONG, 5));
  CHECK_20(stripring_scheduler_answer, stripring_scheduler_try_register_write(WRONG, 7));
  CHECK_20(stripring_scheduler_answer, stripring_scheduler_try_register_write(WRONG, 0));
  CHECK_20(stripring_scheduler_answer, stripring_scheduler_try_register_operation_manually(WRONG, READ, UINT64_MAX));
  CHECK_20(stripring_scheduler_answer, stripring_scheduler_try_register_operation(WRONG, vast));
  CHECK_20(stripring_scheduler_answer, stripring_scheduler_try_register_operations(WRONG, large));
  CHECK_20(stripring_scheduler_answer, stripring_scheduler_try_register_operations(WRONG, too_long));
  CHECK_20(stripring_scheduler_answer, stripring_scheduler_try_register_operations(WRONG, inconsistent));
  CHECK(stripring_scheduler_try_register_read(RIGHT, 5).refusal.number == 6);
  CHECK(stripring_scheduler_try_register_write(RIGHT, 7).refusal.number == 6);
  CHECK(stripring_scheduler_try_register_operations(RIGHT, large).refusal.number == 6);
  CHECK(stripring_scheduler_try_register_operations(RIGHT, too_long).refusal.number == 7);
  CHECK(stripring_scheduler_try_register_operations(RIGHT, inconsistent).refusal.number == 8);
}

/* Before 9, and with memory that fits; no byte changes, nor the struct that is lent. */
static void before_9(size_t ring_len) {
  const uint8_t ring_before[RING_LEN] = "0123456789", bytes_before[BYTES_LEN] = "abcdefghi";
  const stripring_answer announced = {0};
  uint8_t ring[RING_LEN] = "0123456789", bytes[BYTES_LEN] = "abcdefghi";
  stripring_writing_end writer = {WRONG};
  stripring_reading_end reader = {WRONG};
  const stripring_receiver receiver = {.scheduler = WRONG};
  CHECK_20(stripring_copy_answer, stripring_copies_write(WRONG, ring, ring_len, bytes, BYTES_LEN));
  CHECK_20(stripring_copy_answer, stripring_copies_read(WRONG, ring, ring_len, bytes, BYTES_LEN));
  CHECK_20(stripring_wrote_answer, stripring_writing_end_write(writer, ring, ring_len, bytes, BYTES_LEN));
  CHECK_20(stripring_got_answer, stripring_reading_end_read(reader, ring, ring_len, bytes, BYTES_LEN));
  CHECK_20(stripring_moved_answer, stripring_writing_end_write_in_place(&writer, ring, ring_len, bytes, BYTES_LEN));
  CHECK_20(stripring_moved_answer, stripring_reading_end_read_in_place(&reader, ring, ring_len, bytes, BYTES_LEN));
  CHECK_20(stripring_ended_answer,
           stripring_receiver_read_with_fds(receiver, ring, ring_len, bytes, BYTES_LEN, 0, &announced, 1));
  CHECK_20(stripring_ended_answer,
           stripring_receiver_read_with_fds_impl(receiver, ring, ring_len, bytes, BYTES_LEN, 0, &announced, 1));
  CHECK_20(stripring_step_answer, stripring_call_begin_read(receiver, ring_len, 0, BYTES_LEN));
  CHECK(same(ring, ring_before, RING_LEN) && same(bytes, bytes_before, BYTES_LEN));
  CHECK(same(&writer.scheduler, &WRONG, sizeof WRONG) && same(&reader.scheduler, &WRONG, sizeof WRONG));
}

/* Before what is tested with the counter: 4, 5 and 10 of a writing end, 3, 5 and 10 of a reading end. */
static void before_the_counter(void) {
  const uint64_t reads[] = {20, 8, 2, 3}, read_numbers[] = {4, 5, 10, 0};
  const uint64_t writes[] = {20, 14, 6, 7}, written_numbers[] = {3, 5, 10, 0};
  for (size_t i = 0; i < 4; i++) {
    const stripring_read_counter read = {reads[i]};
    stripring_writing_end writer = {WRONG};
    CHECK_20(stripring_writing_end_answer, stripring_writing_end_take(writer, read));
    CHECK_20(stripring_refusal, stripring_writing_end_take_in_place(&writer, read));
    CHECK(same(&writer.scheduler, &WRONG, sizeof WRONG));
    CHECK(stripring_writing_end_take((stripring_writing_end){RIGHT}, read).refusal.number == read_numbers[i]);

    const stripring_written_counter written = {writes[i]};
    stripring_reading_end reader = {WRONG};
    CHECK_20(stripring_reading_end_answer, stripring_reading_end_take(reader, written));
    CHECK_20(stripring_refusal, stripring_reading_end_take_in_place(&reader, written));
    CHECK(same(&reader.scheduler, &WRONG, sizeof WRONG));
    CHECK(stripring_reading_end_take((stripring_reading_end){RIGHT}, written).refusal.number == written_numbers[i]);
  }
}

static void ends_and_receiver(void) {
  CHECK_20(stripring_writing_end_answer, stripring_writing_end_from_scheduler(WRONG));
  CHECK_20(stripring_reading_end_answer, stripring_reading_end_from_scheduler(WRONG));
  CHECK_20(stripring_written_counter_answer, stripring_writing_end_send((stripring_writing_end){WRONG}));
  CHECK_20(stripring_read_counter_answer, stripring_reading_end_send((stripring_reading_end){WRONG}));
  CHECK_20(stripring_receiver_answer, stripring_receiver_new(WRONG));
}

/* Before 12 of the stored errno, 13 of what is pending, and 11 of an answer that is missing. */
static void before_11_to_13(void) {
  const stripring_receiver receiver = {WRONG, {1, {.value = 5000}}, UINT64_MAX, 0};
  CHECK_20(stripring_ended_answer, stripring_receiver_service_chunk_acknowledgements(receiver, NULL, 0));
  CHECK_20(stripring_ended_answer, stripring_receiver_shutdown(receiver, NULL, 0));
  CHECK_20(stripring_step_answer, stripring_call_begin_read(receiver, RING_LEN, 0, 1));
  CHECK_20(stripring_step_answer, stripring_call_begin_service(receiver));
  CHECK_20(stripring_step_answer, stripring_call_begin_shutdown(receiver));
  for (uint64_t kind = 0; kind <= 4; kind++)
    for (uint64_t answer = 0; answer <= 5; answer++) {
      const stripring_call call = {.receiver = receiver, .source = RIGHT, .phase = {.kind = kind, .dst_len = 1}};
      CHECK_20(stripring_step_answer, stripring_call_answered(call, NULL, 0, (stripring_answer){.kind = answer}, 1));
    }
}

/* The copy by a made-up source tests it, and not the call that hands it on. */
static void a_made_up_source(void) {
  const stripring_call call = {.receiver = {.scheduler = RIGHT}, .source = WRONG, .phase = {.kind = 3}};
  stripring_step_answer step = stripring_call_answered(call, NULL, 0, (stripring_answer){.kind = 4}, 1);
  CHECK(step.refusal.number == 0 && same(&step.call.source, &WRONG, sizeof WRONG));
}

/* ---- a counter in the place of another ---- */

static void is_put(uint64_t op, uint64_t counter, uint64_t written, uint64_t read) {
  const stripring_scheduler wanted = {RING_LEN, written, read, data(RING_LEN, written, read)};
  stripring_scheduler_answer put = stripring_scheduler_try_with_counter(RIGHT, op, counter);
  CHECK(is(put.refusal, 0, 0, 0, 0) && same(&put.scheduler, &wanted, sizeof wanted));
}

static void with_counter(void) {
  is_put(READ, 5, 7, 5);
  is_put(READ, 17, 7, 17);
  is_put(WRITE, 13, 13, 3);
  is_put(WRITE, 6, 6, 3);
  is_put(UINT64_MAX, 6, 6, 3);
  CHECK(is(stripring_scheduler_try_with_counter(RIGHT, WRITE, 20).refusal, 3, RING_LEN, 20, 0));
  CHECK(is(stripring_scheduler_try_with_counter(RIGHT, READ, 20).refusal, 4, RING_LEN, 20, 0));
  CHECK(is(stripring_scheduler_try_with_counter(RIGHT, WRITE, 14).refusal, 5, RING_LEN, 14, 3));
  CHECK(is(stripring_scheduler_try_with_counter(RIGHT, READ, 8).refusal, 5, RING_LEN, 7, 8));
  const stripring_scheduler unsound = {RING_LEN, 11, 0, 11};
  CHECK(is(stripring_scheduler_try_with_counter(unsound, WRITE, 3).refusal, 5, RING_LEN, 11, 0));
  for (uint64_t op = READ; op <= WRITE; op++) {
    CHECK_20(stripring_scheduler_answer, stripring_scheduler_try_with_counter(WRONG, op, op == READ ? 3 : 7));
    CHECK_20(stripring_scheduler_answer, stripring_scheduler_try_with_counter(WRONG, op, 20));
  }
}

/* ---- hosts that hand on what calls answer ---- */

/* Pseudo-random numbers, the same in every run. */
static uint64_t random_number(void) {
  static uint64_t state = 1;
  state ^= state << 13;
  state ^= state >> 7;
  state ^= state << 17;
  return state;
}

/* counter + n mod 2L. What is left up to 2L is 0 where that is 2^64. */
static uint64_t later(uint64_t len, uint64_t counter, uint64_t n) {
  uint64_t left = 2 * len - counter;
  return left == 0 || n < left ? counter + n : n - left;
}

/* n bytes registered, by one of the calls that do it. */
static stripring_scheduler_answer registered(stripring_scheduler s, uint64_t op, uint64_t n) {
  switch (random_number() % 5) {
  case 0:
    return op == READ ? stripring_scheduler_try_register_read(s, n) : stripring_scheduler_try_register_write(s, n);
  case 1:
    return stripring_scheduler_try_register_operation_manually(s, op, n);
  case 2:
    return stripring_scheduler_try_register_operation(s, (stripring_operation){op, 0, n});
  case 3:
    return stripring_scheduler_try_register_operations(
        s, stripring_scheduler_schedule_contiguous_operations(s, op, n).operations);
  default:
    return stripring_scheduler_try_with_counter(s, op, later(s.buf_len, op == READ ? s.items_read : s.items_written, n));
  }
}

/* A host that registers, beside a count of its own. */
static void registers(uint64_t len, uint64_t at) {
  stripring_scheduler_answer s = stripring_scheduler_try_from_counters(len, at, at);
  uint64_t count = 0;
  for (unsigned step = 0; step < STEPS; step++) {
    uint64_t op = random_number() % 2, greatest = op == READ ? count : len - count;
    uint64_t n = random_number() % (greatest + 1);
    s = registered(s.scheduler, op, n);
    count = op == READ ? count - n : count + n;
    CHECK(s.refusal.number == 0 && s.scheduler.fill == count);
    is_right(s.scheduler);
  }
}

/* Two ends over one memory, beside counts that no length takes round: what each has moved, and what the other has heard of. */
struct pair {
  uint64_t len, written, read, heard_written, heard_read;
  stripring_writing_end writer;
  stripring_reading_end reader;
  uint8_t ring[RING_LEN];
};

/* Each step is made in place too, and comes to the same end. */
static void writes(struct pair *p) {
  const uint8_t src[BYTES_LEN] = {0};
  size_t asked = random_number() % (BYTES_LEN + 1);
  stripring_writing_end in_place = p->writer;
  stripring_moved_answer moved = stripring_writing_end_write_in_place(&in_place, p->ring, p->len, src, asked);
  stripring_wrote_answer wrote = stripring_writing_end_write(p->writer, p->ring, p->len, src, asked);
  CHECK(moved.refusal.number == 0 && wrote.refusal.number == 0 && same(&in_place, &wrote.end, sizeof in_place));
  p->writer = wrote.end;
  p->written += wrote.n;
}

static void reads(struct pair *p) {
  uint8_t dst[BYTES_LEN];
  size_t asked = random_number() % (BYTES_LEN + 1);
  stripring_reading_end in_place = p->reader;
  stripring_moved_answer moved = stripring_reading_end_read_in_place(&in_place, p->ring, p->len, dst, asked);
  stripring_got_answer got = stripring_reading_end_read(p->reader, p->ring, p->len, dst, asked);
  CHECK(moved.refusal.number == 0 && got.refusal.number == 0 && same(&in_place, &got.end, sizeof in_place));
  p->reader = got.end;
  p->read += got.n;
}

static void writer_takes(struct pair *p) {
  const stripring_read_counter counter = stripring_reading_end_send(p->reader).counter;
  stripring_writing_end in_place = p->writer;
  stripring_refusal refusal = stripring_writing_end_take_in_place(&in_place, counter);
  stripring_writing_end_answer took = stripring_writing_end_take(p->writer, counter);
  CHECK(refusal.number == 0 && took.refusal.number == 0 && same(&in_place, &took.end, sizeof in_place));
  p->writer = took.end;
  p->heard_read = p->read;
}

static void reader_takes(struct pair *p) {
  const stripring_written_counter counter = stripring_writing_end_send(p->writer).counter;
  stripring_reading_end in_place = p->reader;
  stripring_refusal refusal = stripring_reading_end_take_in_place(&in_place, counter);
  stripring_reading_end_answer took = stripring_reading_end_take(p->reader, counter);
  CHECK(refusal.number == 0 && took.refusal.number == 0 && same(&in_place, &took.end, sizeof in_place));
  p->reader = took.end;
  p->heard_written = p->written;
}

static void ends(uint64_t len) {
  void (*const steps[])(struct pair *) = {writes, reads, writer_takes, reader_takes};
  struct pair p = {.len = len, .writer = stripring_writing_end_new(len).end, .reader = stripring_reading_end_new(len).end};
  for (unsigned step = 0; step < STEPS; step++) {
    steps[random_number() % 4](&p);
    CHECK(p.writer.scheduler.fill == p.written - p.heard_read);
    CHECK(p.reader.scheduler.fill == p.heard_written - p.read);
    is_right(p.writer.scheduler);
    is_right(p.reader.scheduler);
  }
}

/* A read by the machine, of at most so many bytes: the receiver after it, and how many they were. */
static uint64_t reads_by_machine(stripring_receiver *receiver, const uint8_t *ring, uint64_t dst_len) {
  const stripring_answer announced = {.kind = 0}, sent_one = {.kind = 3, .value = 1};
  uint8_t dst[RING_LEN];
  stripring_step_answer step = stripring_call_begin_read(*receiver, RING_LEN, 0, dst_len);
  for (uint64_t place = 1; step.refusal.number == 0 && step.call.phase.kind < 2; place++)
    step = stripring_call_answered(step.call, ring, RING_LEN, step.call.phase.kind == 0 ? announced : sent_one, place);
  CHECK(step.refusal.number == 0 && step.call.phase.outcome.kind == 0);
  is_right(step.call.source);
  stripring_copy_answer copy = stripring_copies_read(step.call.source, ring, RING_LEN, dst, step.call.phase.outcome.n);
  CHECK(copy.refusal.number == 0 && same(&copy.scheduler, &step.call.receiver.scheduler, sizeof copy.scheduler));
  *receiver = step.call.receiver;
  return copy.n;
}

/* Chunks of one and two bytes, written by copies and read by the machine, the longer ones also in two reads. */
static void chunks(void) {
  uint8_t ring[RING_LEN] = {0};
  stripring_scheduler camera = stripring_scheduler_try_new(RING_LEN).scheduler;
  stripring_receiver receiver = stripring_receiver_new(camera).receiver;
  for (unsigned step = 0; step < STEPS; step++) {
    const uint8_t body_len = 1 + step % 2, chunk[RING_LEN] = {[HEADER_LEN - 1] = body_len};
    camera = stripring_copies_write(camera, ring, RING_LEN, chunk, HEADER_LEN + body_len).scheduler;
    is_right(camera);
    for (uint64_t left = body_len; left > 0;) {
      left -= reads_by_machine(&receiver, ring, 1 + random_number() % 2);
      CHECK(receiver.scheduler.fill == left);
      is_right(receiver.scheduler);
    }
    camera = stripring_scheduler_try_register_read(camera, HEADER_LEN + body_len).scheduler;
    is_right(camera);
  }
}

int main(void) {
  small_lengths();
  the_longest();
  in_order();
  scheduler_asked();
  before_6_to_8();
  before_9(RING_LEN - 1);
  before_9(RING_LEN);
  before_the_counter();
  ends_and_receiver();
  before_11_to_13();
  a_made_up_source();
  with_counter();
  for (uint64_t len = 1; len <= RING_LEN; len++) {
    registers(len, len);
    ends(len);
  }
  registers(LONGEST - 1, UINT64_MAX - 2);
  registers(LONGEST, UINT64_MAX);
  chunks();
  printf("fill: %u checks\n", held);
}
