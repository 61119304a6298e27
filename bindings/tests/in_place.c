/* The calls that change an end in place, each beside the call by value: the same answer, the same bytes, and the end after it in the
 * host's struct; a refused call leaves the struct as it was. Exit 1 at the first thing that is not so. */
#include "check.h"
#include "stripring.h"

#include <stdio.h>
#include <string.h>

enum { RING_LEN = 5, BYTES_LEN = 4 };

static bool same(const void *a, const void *b, size_t len) { return memcmp(a, b, len) == 0; }

/* ring_len is what the host lends: another number than RING_LEN is refused with 9. */
static void writes(stripring_scheduler s, size_t ring_len, size_t src_len) {
  const uint8_t src[BYTES_LEN] = "abcd";
  uint8_t by_value[RING_LEN] = {1, 2, 3, 4, 5}, in_place[RING_LEN] = {1, 2, 3, 4, 5};
  stripring_writing_end before = {s}, end = before;
  stripring_wrote_answer wrote = stripring_writing_end_write(before, by_value, ring_len, src, src_len);
  stripring_moved_answer moved = stripring_writing_end_write_in_place(&end, in_place, ring_len, src, src_len);
  CHECK(same(&moved.refusal, &wrote.refusal, sizeof moved.refusal));
  CHECK(moved.n == wrote.n && moved.remainder == wrote.remainder);
  CHECK(moved.n + moved.remainder == (moved.refusal.number == 0 ? src_len : 0));
  CHECK(same(&end, wrote.refusal.number == 0 ? &wrote.end : &before, sizeof end));
  CHECK(same(in_place, by_value, RING_LEN));
}

static void reads(stripring_scheduler s, size_t ring_len, size_t dst_len) {
  const uint8_t ring[RING_LEN] = {1, 2, 3, 4, 5};
  uint8_t by_value[BYTES_LEN] = "abcd", in_place[BYTES_LEN] = "abcd";
  stripring_reading_end before = {s}, end = before;
  stripring_got_answer got = stripring_reading_end_read(before, ring, ring_len, by_value, dst_len);
  stripring_moved_answer moved = stripring_reading_end_read_in_place(&end, ring, ring_len, in_place, dst_len);
  CHECK(same(&moved.refusal, &got.refusal, sizeof moved.refusal));
  CHECK(moved.n == got.n && moved.remainder == got.remainder);
  CHECK(moved.n + moved.remainder == (moved.refusal.number == 0 ? dst_len : 0));
  CHECK(same(&end, got.refusal.number == 0 ? &got.end : &before, sizeof end));
  CHECK(same(in_place, by_value, BYTES_LEN));
}

static void takes(stripring_scheduler s, uint64_t counter) {
  stripring_writing_end writer = {s}, writing = writer;
  stripring_writing_end_answer w = stripring_writing_end_take(writer, (stripring_read_counter){counter});
  stripring_refusal refusal = stripring_writing_end_take_in_place(&writing, (stripring_read_counter){counter});
  CHECK(same(&refusal, &w.refusal, sizeof refusal));
  CHECK(same(&writing, refusal.number == 0 ? &w.end : &writer, sizeof writing));

  stripring_reading_end reader = {s}, reading = reader;
  stripring_reading_end_answer r = stripring_reading_end_take(reader, (stripring_written_counter){counter});
  refusal = stripring_reading_end_take_in_place(&reading, (stripring_written_counter){counter});
  CHECK(same(&refusal, &r.refusal, sizeof refusal));
  CHECK(same(&reading, refusal.number == 0 ? &r.end : &reader, sizeof reading));
}

static void of_record(stripring_scheduler s) {
  for (size_t len = 0; len <= BYTES_LEN; len++) {
    writes(s, RING_LEN, len);
    writes(s, RING_LEN - 1, len);
    reads(s, RING_LEN, len);
    reads(s, RING_LEN - 1, len);
  }
  for (uint64_t counter = 0; counter <= 2 * RING_LEN; counter++)
    takes(s, counter);
}

int main(void) {
  for (uint64_t written = 0; written <= 2 * RING_LEN; written++)
    for (uint64_t read = 0; read <= 2 * RING_LEN; read++) {
      uint64_t fill = (written + 2 * RING_LEN - read) % (2 * RING_LEN);
      of_record((stripring_scheduler){RING_LEN, written, read, fill});
      of_record((stripring_scheduler){RING_LEN, written, read, fill + 1}); /* refused with 20 where not with 3 to 5 */
    }
  printf("in place: %u checks\n", held);
}
