/* stripring: rings in shared memory, proved right. The library's calls take and give numbers and flat structs.
 *
 * Whole programs, in C and in Rust: README.md beside this file in the sources, share/doc/stripring/README.md where it is installed.
 *
 * Any bits are legal in numbers and structs: no call traps, whatever it is given. A call keeps no pointer, has no memory of its own and
 * waits for nothing, so threads may call at the same time.
 *
 * Memory. A pointer and the length behind it lend memory for the time of the call; it stays the caller's.
 *
 * - A length counts the elements of one object of C, which has at most PTRDIFF_MAX bytes. A longer one is no legal input: no memory is as
 *   long, and nothing is said of what a call then does. So a ring of 2^63 bytes can be planned for, and not lent.
 * - Pointers are aligned as C asks: those to structs and to numbers of 64 bits, as `end`, `answers` and `plan`, to 8 bytes.
 * - A pointer may be NULL where its length is 0.
 * - Through a pointer to const a call only reads. What another pointer lends is written, and nothing else that is lent may overlap it.
 * - Structs are passed by value: copies, in and out.
 *
 * Order of stores. A host that shares the ring with another process puts a release fence between a write into the ring and the counter
 * or announcement that it sends, and an acquire fence between one that it receives and the read. The same for what goes back, or a byte
 * is overwritten before it is read. */
#ifndef STRIPRING_H
#define STRIPRING_H

#include <stdbool.h>
#include <stddef.h>
#include <stdint.h>

#ifdef __cplusplus
extern "C" {
#endif

/* The version of this header. As long as the first number is 0, structs and calls may change with the second: a program is linked with
 * the library of its header's first two numbers, which are in the shared library's name. */
#define STRIPRING_VERSION_MAJOR 0
#define STRIPRING_VERSION_MINOR 1
#define STRIPRING_VERSION_PATCH 0
#define STRIPRING_VERSION "0.1.0"

/* ---- Refusals ----
 *
 * A refused call changes nothing. It says so in `refusal`: its number, and the values of that number; every other field of the answer is
 * then 0. What the caller passed is as it was and stays good: a record, lent memory, and a call in progress, which still waits. */

#define STRIPRING_ACCEPTED 0
#define STRIPRING_ZERO_BUFFER_LENGTH 1          /* the ring's length is 0 */
#define STRIPRING_BUFFER_TOO_LARGE 2            /* the ring's length is above 2^63. a: length */
#define STRIPRING_ITEMS_WRITTEN_OUT_OF_BOUNDS 3 /* the written counter is not below twice the ring's length. a: length, b: written */
#define STRIPRING_ITEMS_READ_OUT_OF_BOUNDS 4    /* the read counter is not below twice the ring's length. a: length, b: read */
#define STRIPRING_DATA_AVAIL_OUT_OF_BOUNDS 5    /* there is more data than the ring's length. a: length, b: written, c: read */
#define STRIPRING_OPERATION_TOO_LARGE 6         /* a registered length is above the greatest. a: type, b: length, c: greatest */
#define STRIPRING_OPERATION_TOO_LONG 7          /* the lengths in a list sum above 2^64 - 1. a: excess */
#define STRIPRING_INCONSISTENT_OPERATION_TYPE 8 /* a list has reads and writes */
#define STRIPRING_RING_MEMORY 9                 /* the lent ring is not as long as the ring */
#define STRIPRING_RAN_BACK 10                   /* a taken counter ran back */
#define STRIPRING_ANSWER_MISSING 11             /* one more answer of the socket is needed than was lent */
#define STRIPRING_MISFIT 12                     /* a stored errno is not 1 to 4095, or an answer cannot be at its place. a: place */
#define STRIPRING_PENDING_FULL 13               /* 2^64 - 1 acknowledgements are pending */
#define STRIPRING_SIZE_OUT_OF_BOUNDS 14         /* rows are not 1 to 65535, or their bytes not 1 to 2^20. a: rows, b: bytes */
#define STRIPRING_NO_PLAN 15                    /* no plan exists, since one row and its header do not fit. a: bytes, b: length */
#define STRIPRING_EMPTY_RUN 16                  /* a run is empty. a: index */
#define STRIPRING_RUN_OUT_OF_PLACE 17           /* a run begins not where the one before ended, or ends past the last row. a: index */
#define STRIPRING_RUN_TOO_LONG 18               /* a run and its header do not fit into the ring. a: index */
#define STRIPRING_ROWS_LEFT 19                  /* the runs end before the last row. a: row */
#define STRIPRING_HELD_FILL_WRONG 20            /* the fill that a record holds is wrong */
#define STRIPRING_PLAN_TOO_SHORT 39             /* a lent plan is shorter than its runs. a: needed, b: lent */

/* `number` is 0 for accepted, and one of the above otherwise; values that a number lacks are 0. Of STRIPRING_MISFIT the place is 0 for a
 * stored errno, and 1 + the index of an answer. Of the runs an index counts from 0; of STRIPRING_ROWS_LEFT the row is the one reached, and
 * the bytes are those of one row. */
typedef struct stripring_refusal {
  uint64_t number;
  uint64_t a;
  uint64_t b;
  uint64_t c;
} stripring_refusal;

/* The sentence above of a refusal's number, for a message or a log. It is the header's own, and no call of the library. */
static inline const char *stripring_refusal_text(uint64_t number) {
  switch (number) {
  case STRIPRING_ACCEPTED:
    return "accepted";
  case STRIPRING_ZERO_BUFFER_LENGTH:
    return "the ring's length is 0";
  case STRIPRING_BUFFER_TOO_LARGE:
    return "the ring's length is above 2^63";
  case STRIPRING_ITEMS_WRITTEN_OUT_OF_BOUNDS:
    return "the written counter is not below twice the ring's length";
  case STRIPRING_ITEMS_READ_OUT_OF_BOUNDS:
    return "the read counter is not below twice the ring's length";
  case STRIPRING_DATA_AVAIL_OUT_OF_BOUNDS:
    return "there is more data than the ring's length";
  case STRIPRING_OPERATION_TOO_LARGE:
    return "a registered length is above the greatest";
  case STRIPRING_OPERATION_TOO_LONG:
    return "the lengths in a list sum above 2^64 - 1";
  case STRIPRING_INCONSISTENT_OPERATION_TYPE:
    return "a list has reads and writes";
  case STRIPRING_RING_MEMORY:
    return "the lent ring is not as long as the ring";
  case STRIPRING_RAN_BACK:
    return "a taken counter ran back";
  case STRIPRING_ANSWER_MISSING:
    return "one more answer of the socket is needed than was lent";
  case STRIPRING_MISFIT:
    return "a stored errno is not 1 to 4095, or an answer cannot be at its place";
  case STRIPRING_PENDING_FULL:
    return "2^64 - 1 acknowledgements are pending";
  case STRIPRING_SIZE_OUT_OF_BOUNDS:
    return "rows are not 1 to 65535, or their bytes not 1 to 2^20";
  case STRIPRING_NO_PLAN:
    return "no plan exists, since one row and its header do not fit";
  case STRIPRING_EMPTY_RUN:
    return "a run is empty";
  case STRIPRING_RUN_OUT_OF_PLACE:
    return "a run begins not where the one before ended, or ends past the last row";
  case STRIPRING_RUN_TOO_LONG:
    return "a run and its header do not fit into the ring";
  case STRIPRING_ROWS_LEFT:
    return "the runs end before the last row";
  case STRIPRING_HELD_FILL_WRONG:
    return "the fill that a record holds is wrong";
  case STRIPRING_PLAN_TOO_SHORT:
    return "a lent plan is shorter than its runs";
  default:
    return "no refusal has this number";
  }
}

/* ---- The record of a ring ----
 *
 * A call that takes a record, or an end, a receiver or a call in progress, which have one, tests it first. It is refused, in this order, with
 * STRIPRING_ZERO_BUFFER_LENGTH, STRIPRING_BUFFER_TOO_LARGE, STRIPRING_ITEMS_WRITTEN_OUT_OF_BOUNDS, STRIPRING_ITEMS_READ_OUT_OF_BOUNDS,
 * STRIPRING_DATA_AVAIL_OUT_OF_BOUNDS, STRIPRING_HELD_FILL_WRONG. These are *the record's refusals*. What else a call is refused with, after
 * them, stands beside it. */

/* Sound when buf_len is 1 to 2^63, both counters are below twice that, written - read, modulo twice that, is at most it, and `fill` is that
 * difference: how many bytes may be read. Every call tests this anew, the fill last. An offset is its counter modulo buf_len.
 *
 * Calls work the fill out: a host makes a record by stripring_scheduler_try_new or stripring_scheduler_try_from_counters, and hands on what
 * calls answer. In a record that a call has answered it may read `fill`, and needs no call of stripring_scheduler_data_avail. One that it
 * built or changed by hand is refused with STRIPRING_HELD_FILL_WRONG where the fill is wrong. */
typedef struct stripring_scheduler {
  uint64_t buf_len;
  uint64_t items_written;
  uint64_t items_read;
  uint64_t fill;
} stripring_scheduler;

/* ---- The two ends ----
 *
 * Both are made with one length and start empty. A host writes, sends the counter to the other process, and takes the one that comes back;
 * counters may be lost, late or repeated.
 *
 * A call that moves bytes or takes a counter comes twice: by value, with the end after it in the answer, and in place, which changes the
 * host's struct. `end` may not be NULL there, and lies in no memory that the call is lent beside it. A refused call leaves the struct as it
 * was. */

/* The two kinds of end. A writing end is offered read counters only, a reading end written ones. */
typedef struct stripring_writing_end {
  stripring_scheduler scheduler;
} stripring_writing_end;

typedef struct stripring_reading_end {
  stripring_scheduler scheduler;
} stripring_reading_end;

/* What an end sends to the other: its own counter. */
typedef struct stripring_written_counter {
  uint64_t counter;
} stripring_written_counter;

typedef struct stripring_read_counter {
  uint64_t counter;
} stripring_read_counter;

typedef struct stripring_writing_end_answer {
  stripring_refusal refusal;
  stripring_writing_end end;
} stripring_writing_end_answer;

/* An empty writing end of a ring of buf_len bytes. Refused with STRIPRING_ZERO_BUFFER_LENGTH and STRIPRING_BUFFER_TOO_LARGE alone. */
stripring_writing_end_answer stripring_writing_end_new(uint64_t buf_len);

/* A writing end that goes on from these counters, which are tested as a record's; the fill is worked out. */
stripring_writing_end_answer stripring_writing_end_from_counters(uint64_t buf_len, uint64_t items_written, uint64_t items_read);

/* A writing end that goes on from this scheduler. */
stripring_writing_end_answer stripring_writing_end_from_scheduler(stripring_scheduler scheduler);

/* The writing end after a write, how many bytes it wrote, and how many of the source found no space. */
typedef struct stripring_wrote_answer {
  stripring_refusal refusal;
  stripring_writing_end end;
  uint64_t n;
  uint64_t remainder;
} stripring_wrote_answer;

/* Writes min(src_len, the space this end knows of) bytes of src into the ring, which changes nowhere else. Refused with
 * STRIPRING_RING_MEMORY. */
stripring_wrote_answer stripring_writing_end_write(stripring_writing_end end, uint8_t *ring, size_t ring_len, const uint8_t *src,
                                                   size_t src_len);

/* What a copy in place answers: how many bytes were moved, and how many of those asked were left over. The end after it is in the host's
 * struct. */
typedef struct stripring_moved_answer {
  stripring_refusal refusal;
  uint64_t n;
  uint64_t remainder;
} stripring_moved_answer;

/* The same, and the end after it is stored in *end. Refused with STRIPRING_RING_MEMORY. */
stripring_moved_answer stripring_writing_end_write_in_place(stripring_writing_end *end, uint8_t *ring, size_t ring_len, const uint8_t *src,
                                                            size_t src_len);

typedef struct stripring_written_counter_answer {
  stripring_refusal refusal;
  stripring_written_counter counter;
} stripring_written_counter_answer;

/* The counter to send to the reading end. */
stripring_written_counter_answer stripring_writing_end_send(stripring_writing_end end);

/* Takes a counter of the reading end's. The record with it is tested for STRIPRING_ITEMS_READ_OUT_OF_BOUNDS and
 * STRIPRING_DATA_AVAIL_OUT_OF_BOUNDS; then it is refused with STRIPRING_RAN_BACK if the space would be smaller than before. */
stripring_writing_end_answer stripring_writing_end_take(stripring_writing_end end, stripring_read_counter counter);

/* The same, and the end with the counter is stored in *end. */
stripring_refusal stripring_writing_end_take_in_place(stripring_writing_end *end, stripring_read_counter counter);

typedef struct stripring_reading_end_answer {
  stripring_refusal refusal;
  stripring_reading_end end;
} stripring_reading_end_answer;

/* An empty reading end of a ring of buf_len bytes. Refused with STRIPRING_ZERO_BUFFER_LENGTH and STRIPRING_BUFFER_TOO_LARGE alone. */
stripring_reading_end_answer stripring_reading_end_new(uint64_t buf_len);

/* A reading end that goes on from these counters, which are tested as a record's; the fill is worked out. */
stripring_reading_end_answer stripring_reading_end_from_counters(uint64_t buf_len, uint64_t items_written, uint64_t items_read);

/* A reading end that goes on from this scheduler. */
stripring_reading_end_answer stripring_reading_end_from_scheduler(stripring_scheduler scheduler);

/* The reading end after a read, how many bytes it got, and how many of the destination it had no data for. */
typedef struct stripring_got_answer {
  stripring_refusal refusal;
  stripring_reading_end end;
  uint64_t n;
  uint64_t remainder;
} stripring_got_answer;

/* Fills the first min(dst_len, the data this end knows of) bytes of dst from the ring; the rest of dst stays. Refused with
 * STRIPRING_RING_MEMORY. */
stripring_got_answer stripring_reading_end_read(stripring_reading_end end, const uint8_t *ring, size_t ring_len, uint8_t *dst,
                                                size_t dst_len);

/* The same, and the end after it is stored in *end. Refused with STRIPRING_RING_MEMORY. */
stripring_moved_answer stripring_reading_end_read_in_place(stripring_reading_end *end, const uint8_t *ring, size_t ring_len, uint8_t *dst,
                                                           size_t dst_len);

typedef struct stripring_read_counter_answer {
  stripring_refusal refusal;
  stripring_read_counter counter;
} stripring_read_counter_answer;

/* The counter to send to the writing end. */
stripring_read_counter_answer stripring_reading_end_send(stripring_reading_end end);

/* Takes a counter of the writing end's. The record with it is tested for STRIPRING_ITEMS_WRITTEN_OUT_OF_BOUNDS and
 * STRIPRING_DATA_AVAIL_OUT_OF_BOUNDS; then it is refused with STRIPRING_RAN_BACK if the data would be less than before. */
stripring_reading_end_answer stripring_reading_end_take(stripring_reading_end end, stripring_written_counter counter);

/* The same, and the end with the counter is stored in *end. */
stripring_refusal stripring_reading_end_take_in_place(stripring_reading_end *end, stripring_written_counter counter);

/* ---- Copies by a scheduler ---- */

/* The scheduler after a copy, how many bytes were moved, and how many of those asked were left over. */
typedef struct stripring_copy_answer {
  stripring_refusal refusal;
  stripring_scheduler scheduler;
  uint64_t n;
  uint64_t remainder;
} stripring_copy_answer;

/* Writes min(src_len, space) bytes of src into the ring, which changes nowhere else, and registers them. Refused with
 * STRIPRING_RING_MEMORY. */
stripring_copy_answer stripring_copies_write(stripring_scheduler scheduler, uint8_t *ring, size_t ring_len, const uint8_t *src,
                                             size_t src_len);

/* Fills the first min(dst_len, data) bytes of dst from the ring, and registers them; the rest of dst stays. Refused with
 * STRIPRING_RING_MEMORY. */
stripring_copy_answer stripring_copies_read(stripring_scheduler scheduler, const uint8_t *ring, size_t ring_len, uint8_t *dst,
                                            size_t dst_len);

/* ---- The scheduler: how much of a ring is data, and where ----
 *
 * `op_type` is STRIPRING_OPERATION_READ, or any other number for a write. */

#define STRIPRING_OPERATION_READ 0
#define STRIPRING_OPERATION_WRITE 1

typedef struct stripring_u64_answer {
  stripring_refusal refusal;
  uint64_t value;
} stripring_u64_answer;

typedef struct stripring_scheduler_answer {
  stripring_refusal refusal;
  stripring_scheduler scheduler;
} stripring_scheduler_answer;

/* 2^63. */
uint64_t stripring_scheduler_max_buf_len(void);

/* An empty scheduler. Refused with STRIPRING_ZERO_BUFFER_LENGTH and STRIPRING_BUFFER_TOO_LARGE alone. */
stripring_scheduler_answer stripring_scheduler_try_new(uint64_t buf_len);

/* A scheduler with these counters, which are tested as a record's; the fill is worked out. */
stripring_scheduler_answer stripring_scheduler_try_from_counters(uint64_t buf_len, uint64_t items_written, uint64_t items_read);

/* The scheduler with this counter in the place of its own of this type: the read counter for STRIPRING_OPERATION_READ, else the written
 * one. The record itself is tested first, then the one with the counter: STRIPRING_ITEMS_WRITTEN_OUT_OF_BOUNDS or
 * STRIPRING_ITEMS_READ_OUT_OF_BOUNDS, then STRIPRING_DATA_AVAIL_OUT_OF_BOUNDS. */
stripring_scheduler_answer stripring_scheduler_try_with_counter(stripring_scheduler scheduler, uint64_t op_type, uint64_t counter);

/* The scheduler as it is, if it is sound. */
stripring_scheduler_answer stripring_scheduler_demand_soundness(stripring_scheduler scheduler);

/* The scheduler after `len` bytes were read. Refused with STRIPRING_OPERATION_TOO_LARGE. */
stripring_scheduler_answer stripring_scheduler_try_register_read(stripring_scheduler scheduler, uint64_t len);

/* The scheduler after `len` bytes were written. Refused with STRIPRING_OPERATION_TOO_LARGE. */
stripring_scheduler_answer stripring_scheduler_try_register_write(stripring_scheduler scheduler, uint64_t len);

/* The scheduler after `len` bytes were moved by an operation of this type. Refused with STRIPRING_OPERATION_TOO_LARGE. */
stripring_scheduler_answer stripring_scheduler_try_register_operation_manually(stripring_scheduler scheduler, uint64_t op_type,
                                                                               uint64_t len);

/* The read counter. */
stripring_u64_answer stripring_scheduler_items_read(stripring_scheduler scheduler);

/* The written counter. */
stripring_u64_answer stripring_scheduler_items_written(stripring_scheduler scheduler);

/* The counter that an operation of this type advances. */
stripring_u64_answer stripring_scheduler_operation_counter(stripring_scheduler scheduler, uint64_t op_type);

/* Where the next read starts. */
stripring_u64_answer stripring_scheduler_read_off(stripring_scheduler scheduler);

/* Where the next write starts. */
stripring_u64_answer stripring_scheduler_write_off(stripring_scheduler scheduler);

/* Where the next operation of this type starts. */
stripring_u64_answer stripring_scheduler_operation_offset(stripring_scheduler scheduler, uint64_t op_type);

/* The ring's length. */
stripring_u64_answer stripring_scheduler_buf_len(stripring_scheduler scheduler);

/* 0: a length of 0 is refused. */
stripring_u64_answer stripring_scheduler_is_zero_sized(stripring_scheduler scheduler);

/* Bytes that may be read: the fill of a sound record. */
stripring_u64_answer stripring_scheduler_data_avail(stripring_scheduler scheduler);

/* Bytes that may be written. */
stripring_u64_answer stripring_scheduler_space_avail(stripring_scheduler scheduler);

/* Bytes that an operation of this type may move. */
stripring_u64_answer stripring_scheduler_max_operation_len(stripring_scheduler scheduler, uint64_t op_type);

#define STRIPRING_FILL_EMPTY 0
#define STRIPRING_FILL_PARTIAL 1
#define STRIPRING_FILL_FULL 2

/* One of the above. */
stripring_u64_answer stripring_scheduler_fill_state(stripring_scheduler scheduler);

/* 1 if there is no data, else 0. */
stripring_u64_answer stripring_scheduler_is_empty(stripring_scheduler scheduler);

/* 1 if there is no space, else 0. */
stripring_u64_answer stripring_scheduler_is_full(stripring_scheduler scheduler);

/* 1 if there is data, else 0. */
stripring_u64_answer stripring_scheduler_is_nonempty(stripring_scheduler scheduler);

/* 1 if there is space, else 0. */
stripring_u64_answer stripring_scheduler_is_nonfull(stripring_scheduler scheduler);

/* ---- Blocks: the three parts of a ring, from its start ---- */

#define STRIPRING_BLOCK_FREE 0
#define STRIPRING_BLOCK_DATA 1

/* `typ` is one of the above; `no` is 0 for the block that is used first and 1 for the one that comes round. */
typedef struct stripring_block {
  uint64_t typ;
  uint64_t no;
  uint64_t off;
  uint64_t len;
} stripring_block;

typedef struct stripring_block_answer {
  stripring_refusal refusal;
  stripring_block block;
} stripring_block_answer;

typedef struct stripring_blocks_answer {
  stripring_refusal refusal;
  stripring_block block_0;
  stripring_block block_1;
  stripring_block block_2;
} stripring_blocks_answer;

/* A block of these numbers; a type or a number that is not 0 becomes 1. */
stripring_block stripring_block_new(uint64_t typ, uint64_t no, uint64_t off, uint64_t len);

#define STRIPRING_LAYOUT_DATA_FREE_DATA 0
#define STRIPRING_LAYOUT_FREE_DATA_FREE 1

/* One of the above. */
stripring_u64_answer stripring_scheduler_layout(stripring_scheduler scheduler);

/* The three blocks of the layout, in the order of the memory. */
stripring_blocks_answer stripring_scheduler_blocks(stripring_scheduler scheduler);

/* The first block, from the ring's start. */
stripring_block_answer stripring_scheduler_block_0(stripring_scheduler scheduler);

/* The second block, from the smaller offset. */
stripring_block_answer stripring_scheduler_block_1(stripring_scheduler scheduler);

/* The third block, from the larger offset. */
stripring_block_answer stripring_scheduler_block_2(stripring_scheduler scheduler);

/* Where the first block starts: 0. */
stripring_u64_answer stripring_scheduler_block_0_off(stripring_scheduler scheduler);

/* Where the second block starts. */
stripring_u64_answer stripring_scheduler_block_1_off(stripring_scheduler scheduler);

/* Where the third block starts. */
stripring_u64_answer stripring_scheduler_block_2_off(stripring_scheduler scheduler);

/* The length of the first block. */
stripring_u64_answer stripring_scheduler_block_0_len(stripring_scheduler scheduler);

/* The length of the second block. */
stripring_u64_answer stripring_scheduler_block_1_len(stripring_scheduler scheduler);

/* The length of the third block. */
stripring_u64_answer stripring_scheduler_block_2_len(stripring_scheduler scheduler);

/* The block that the next operation of this type works in. */
stripring_block_answer stripring_scheduler_next_operation_block(stripring_scheduler scheduler, uint64_t op_type);

/* The block that the next read works in. */
stripring_block_answer stripring_scheduler_next_read_block(stripring_scheduler scheduler);

/* The block that the next write works in. */
stripring_block_answer stripring_scheduler_next_write_block(stripring_scheduler scheduler);

/* ---- Operations: places of the ring that are read or written, and lists of at most two ---- */

/* `typ` is STRIPRING_OPERATION_READ or STRIPRING_OPERATION_WRITE; any number but 0 is taken for a write. */
typedef struct stripring_operation {
  uint64_t typ;
  uint64_t off;
  uint64_t len;
} stripring_operation;

/* An operation of these numbers; a type that is not 0 becomes 1. */
stripring_operation stripring_operation_new(uint64_t typ, uint64_t off, uint64_t len);

/* A read of 0 bytes at 0. */
stripring_operation stripring_operation_default(void);

/* The scheduler after this operation, by its type and length; its offset is not looked at. Refused with STRIPRING_OPERATION_TOO_LARGE. */
stripring_scheduler_answer stripring_scheduler_try_register_operation(stripring_scheduler scheduler, stripring_operation operation);

/* An operation where `some` is 1; none where it is 0. `remainder` is how many of the bytes asked are left over after it: all of them where
 * there is none. */
typedef struct stripring_next_answer {
  stripring_refusal refusal;
  uint64_t some;
  stripring_operation operation;
  uint64_t remainder;
} stripring_next_answer;

/* The next operation of this type of at most max_len bytes, to the end of its block; none where nothing is to move. */
stripring_next_answer stripring_scheduler_schedule_next_contiguous_operation(stripring_scheduler scheduler, uint64_t op_type,
                                                                             uint64_t max_len);

/* The next read of at most dst_len bytes. */
stripring_next_answer stripring_scheduler_schedule_next_read(stripring_scheduler scheduler, uint64_t dst_len);

/* The next write of at most src_len bytes. */
stripring_next_answer stripring_scheduler_schedule_next_write(stripring_scheduler scheduler, uint64_t src_len);

/* The first `count` of the two; what is behind is 0 in answers. A count above 1 is taken for two. */
typedef struct stripring_operations {
  uint64_t count;
  stripring_operation first;
  stripring_operation second;
} stripring_operations;

/* The operations, and how many of the bytes asked are left over after them. */
typedef struct stripring_schedule_answer {
  stripring_refusal refusal;
  stripring_operations operations;
  uint64_t remainder;
} stripring_schedule_answer;

/* The operations of this type that move min(max_len, greatest) bytes: at most two, none empty. Bytes are left over exactly where max_len is
 * above the greatest. */
stripring_schedule_answer stripring_scheduler_schedule_contiguous_operations(stripring_scheduler scheduler, uint64_t op_type,
                                                                             uint64_t max_len);

/* The reads that move min(dst_len, data) bytes. */
stripring_schedule_answer stripring_scheduler_schedule_reads(stripring_scheduler scheduler, uint64_t dst_len);

/* The writes that move min(src_len, space) bytes. */
stripring_schedule_answer stripring_scheduler_schedule_writes(stripring_scheduler scheduler, uint64_t src_len);

/* The scheduler after these operations. The list is tested, STRIPRING_OPERATION_TOO_LONG and then STRIPRING_INCONSISTENT_OPERATION_TYPE; then
 * each is registered after the one before it, and refused with STRIPRING_OPERATION_TOO_LARGE. Of the second operation the greatest length
 * that this names is the one after the first. */
stripring_scheduler_answer stripring_scheduler_try_register_operations(stripring_scheduler scheduler, stripring_operations list);

/* The calls of a list alone are refused with STRIPRING_OPERATION_TOO_LONG, then STRIPRING_INCONSISTENT_OPERATION_TYPE. */
typedef struct stripring_operations_answer {
  stripring_refusal refusal;
  stripring_operations operations;
} stripring_operations_answer;

/* The list as it is, if its lengths and types pass. */
stripring_operations_answer stripring_operations_try_new(stripring_operations list);

/* The same. */
stripring_operations_answer stripring_operations_container(stripring_operations list);

/* The same. */
stripring_operations_answer stripring_operations_into_container(stripring_operations list);

/* The sum of the lengths. */
stripring_u64_answer stripring_operations_cumulative_operation_length(stripring_operations list);

/* The first `count` operations, and where each starts in the linear buffer outside the ring. */
typedef struct stripring_starts_answer {
  stripring_refusal refusal;
  uint64_t count;
  uint64_t first_start;
  stripring_operation first;
  uint64_t second_start;
  stripring_operation second;
} stripring_starts_answer;

/* Each operation with where it starts in the linear buffer outside the ring. */
stripring_starts_answer stripring_operations_with_cumulative_offset(stripring_operations list);

/* An operation, and where it starts and ends in the linear buffer outside the ring. */
typedef struct stripring_range {
  uint64_t start;
  uint64_t end;
  stripring_operation op;
} stripring_range;

/* The first `count` of the two. */
typedef struct stripring_ranges {
  uint64_t count;
  stripring_range first;
  stripring_range second;
} stripring_ranges;

typedef struct stripring_ranges_answer {
  stripring_refusal refusal;
  stripring_ranges ranges;
} stripring_ranges_answer;

/* Each operation with where it starts and ends in the linear buffer outside the ring. */
stripring_ranges_answer stripring_operations_with_outside_buffer_range(stripring_operations list);

/* ---- Strips, how an image is cut for a ring ----
 *
 * A strip is a run of rows that is one chunk: its header of 8 bytes and its rows take at most buf_len bytes, the ring's length. A plan is the
 * runs of a whole image. It is lent as numbers, two to a run; `plan_len` counts the numbers, and one that is left over at the end is no
 * run.
 *
 * Each call is refused with STRIPRING_ZERO_BUFFER_LENGTH, STRIPRING_BUFFER_TOO_LARGE, STRIPRING_SIZE_OUT_OF_BOUNDS, STRIPRING_NO_PLAN, in
 * this order, and then with what is named. */

/* Rows that follow one another: the first one, from 0, and how many. An array of n runs is lent as `(uint64_t *)runs, 2 * n`. */
typedef struct stripring_run {
  uint64_t first;
  uint64_t count;
} stripring_run;

/* A plan in three numbers: how many strips, the rows of each but the last, and the rows of the last. One strip alone is both. */
typedef struct stripring_strips_answer {
  stripring_refusal refusal;
  uint64_t count;
  uint64_t height;
  uint64_t last;
} stripring_strips_answer;

/* The plan with the fewest strips, every one but the last as tall as fits, in three numbers: so many runs propose wants lent. */
stripring_strips_answer stripring_planner_outline(uint64_t rows, uint64_t row_bytes, uint64_t buf_len);

/* How many runs were written, from the front of the plan on. */
typedef struct stripring_propose_answer {
  stripring_refusal refusal;
  uint64_t count;
} stripring_propose_answer;

/* Writes the runs of that plan to the front of `plan`, whose rest stays. Refused with STRIPRING_PLAN_TOO_SHORT where they have no room, and
 * then `plan` is as it was. */
stripring_propose_answer stripring_planner_propose(uint64_t rows, uint64_t row_bytes, uint64_t buf_len, uint64_t *plan, size_t plan_len);

/* Whether a plan from anywhere is one: no run is empty, the first begins at row 0, each other where the one before ended, the last ends at
 * the last row, and each fits. The first bad run is named, by STRIPRING_EMPTY_RUN, STRIPRING_RUN_OUT_OF_PLACE or STRIPRING_RUN_TOO_LONG,
 * tested in that order; where none is bad, STRIPRING_ROWS_LEFT. */
stripring_refusal stripring_planner_check(uint64_t rows, uint64_t row_bytes, uint64_t buf_len, const uint64_t *plan, size_t plan_len);

/* ---- States and failures of the receiver ----
 *
 * An errno that is not 1 to 4095 is refused with STRIPRING_MISFIT, place 0. */

#define STRIPRING_FAILURE_IO 0
#define STRIPRING_FAILURE_PROTOCOL 1

/* The other process broke the protocol. */
#define STRIPRING_VIOLATION_INVALID_CHUNK_ANNOUNCEMENT 1 /* a byte that is not 0 announced a chunk */
#define STRIPRING_VIOLATION_HEADER_OVERFLOW 2            /* the ring is too short for any chunk's header */
#define STRIPRING_VIOLATION_UNKNOWN_HEADER 3             /* a chunk's header is of an unknown format */
#define STRIPRING_VIOLATION_INVALID_CHUNK_LENGTH 4       /* a chunk is empty */
#define STRIPRING_VIOLATION_BODY_OVERFLOW 5              /* a chunk's body is too long for the ring */

/* Why a stream fails. `kind` STRIPRING_FAILURE_IO: the socket's Linux errno `value`; 32 is the end of the stream. Any other
 * (STRIPRING_FAILURE_PROTOCOL in answers): the violation `value`, and a number that none has is taken for
 * STRIPRING_VIOLATION_INVALID_CHUNK_LENGTH.
 *
 * `needed` and `room` are bytes: of STRIPRING_VIOLATION_HEADER_OVERFLOW 8 and the ring's length, of STRIPRING_VIOLATION_BODY_OVERFLOW the
 * body's length and the ring's length less 8. A receiver tests the room for a header once the byte is 0, and for a body once the header's
 * format is known; it gives these two exactly where more is needed than there is room for. A host may store any numbers in them, which are
 * answered as they are. Of all other failures they are 0 in answers and not looked at otherwise. */
typedef struct stripring_failure {
  uint64_t kind;
  uint64_t value;
  uint64_t needed;
  uint64_t room;
} stripring_failure;

typedef struct stripring_failure_answer {
  stripring_refusal refusal;
  stripring_failure failure;
} stripring_failure_answer;

/* The failure as it is. */
stripring_failure_answer stripring_failure_normalize(stripring_failure failure);

/* `error` if the failure is errno 32, else the failure. */
stripring_failure_answer stripring_failure_advance_failure_towards_error(stripring_failure failure, stripring_failure error);

#define STRIPRING_STATE_NORMAL 0
#define STRIPRING_STATE_DRAINING 1
#define STRIPRING_STATE_TERMINATED 2

/* `kind` is one of the above, and any other is taken for STRIPRING_STATE_TERMINATED. The failure of a normal state is 0 in answers and not
 * looked at otherwise. */
typedef struct stripring_state {
  uint64_t kind;
  stripring_failure failure;
} stripring_state;

/* A failure where `some` is 1; none where it is 0. */
typedef struct stripring_potential_failure_answer {
  stripring_refusal refusal;
  uint64_t some;
  stripring_failure failure;
} stripring_potential_failure_answer;

/* The failure of a state; a normal one has none. */
stripring_potential_failure_answer stripring_state_failure(stripring_state state);

typedef struct stripring_state_answer {
  stripring_refusal refusal;
  stripring_state state;
} stripring_state_answer;

/* The state with another failure; a normal one stays. */
stripring_state_answer stripring_state_with_failure(stripring_state state, stripring_failure failure);

/* The state with another failure where `some` is not 0; normal where it is. Then the failure is not looked at. */
stripring_state_answer stripring_state_with_potential_failure(stripring_state state, uint64_t some, stripring_failure failure);

/* The state, but normal if its failure is errno 11. */
stripring_state_answer stripring_state_normalize(stripring_state state);

/* The state advanced by `to`: it only gets more terminal. */
stripring_state_answer stripring_state_advance_state_towards_termination(stripring_state state, stripring_state to);

/* ---- The receiver of announced chunks ----
 *
 * The other process writes a chunk into the ring, a header of 8 bytes and then the body, and sends a byte 0. The header is a number of 64
 * bits, most significant byte first: 2 bits 0, 14 bits tag, 48 bits body length. A chunk that is read to its end is acknowledged by one byte
 * that goes back. The receiver's scheduler registers header and body itself.
 *
 * Calls over a run of answers take what the socket answers all at once; the machine below takes one answer at a time. Each call tests the
 * receiver's record first, then the lent ring (STRIPRING_RING_MEMORY), then the errno stored in its state (STRIPRING_MISFIT, place 0). */

/* The last is 0 until a shutdown of the socket has succeeded; 1 in answers. */
typedef struct stripring_receiver {
  stripring_scheduler scheduler;
  stripring_state state;
  uint64_t pending_ack_count;
  uint64_t notification_socket_shutdown_issued;
} stripring_receiver;

typedef struct stripring_receiver_answer {
  stripring_refusal refusal;
  stripring_receiver receiver;
} stripring_receiver_answer;

/* A receiver over this scheduler, in the normal state, with nothing pending. */
stripring_receiver_answer stripring_receiver_new(stripring_scheduler scheduler);

#define STRIPRING_ANSWER_RECEIVED 0 /* the byte `value`, with so many descriptors */
#define STRIPRING_ANSWER_CLOSED 1   /* by the other side */
#define STRIPRING_ANSWER_FAILED 2   /* with the Linux errno `value` */
#define STRIPRING_ANSWER_SENT 3     /* `value` bytes */
#define STRIPRING_ANSWER_DONE 4     /* a shutdown */

/* An answer of the host's socket. What a kind does not use is not looked at. */
typedef struct stripring_answer {
  uint64_t kind;
  uint64_t value;
  uint64_t descriptors;
} stripring_answer;

#define STRIPRING_OUTCOME_READ 0
#define STRIPRING_OUTCOME_DONE 1
#define STRIPRING_OUTCOME_FAILED 2

/* What an accepted call of the receiver comes to, and beside it `fds`, how many descriptors came with it: none but with a read. `kind`
 * STRIPRING_OUTCOME_READ: `n` bytes read. STRIPRING_OUTCOME_DONE: acknowledgements sent, or the socket shut down. Any other
 * (STRIPRING_OUTCOME_FAILED in answers): the failure. An `n` or a `failure` that a kind does not use is 0 in answers and not looked at
 * otherwise. */
typedef struct stripring_outcome {
  uint64_t kind;
  uint64_t n;
  uint64_t fds;
  stripring_failure failure;
} stripring_outcome;

/* The receiver after a call, what the call came to, and how many of the socket's answers it used. */
typedef struct stripring_ended_answer {
  stripring_refusal refusal;
  stripring_receiver receiver;
  stripring_outcome outcome;
  uint64_t used;
} stripring_ended_answer;

/* Reads into dst, of which the first outcome.n bytes are written. The end of the stream is a read of 0 bytes. Refused with
 * STRIPRING_PENDING_FULL, and with STRIPRING_ANSWER_MISSING and STRIPRING_MISFIT for the answers. */
stripring_ended_answer stripring_receiver_read_with_fds(stripring_receiver receiver, const uint8_t *ring, size_t ring_len, uint8_t *dst,
                                                        size_t dst_len, uint64_t max_new_fds, const stripring_answer *answers,
                                                        size_t answers_len);

/* The same, but the end of the stream is errno 32. */
stripring_ended_answer stripring_receiver_read_with_fds_impl(stripring_receiver receiver, const uint8_t *ring, size_t ring_len,
                                                             uint8_t *dst, size_t dst_len, uint64_t max_new_fds,
                                                             const stripring_answer *answers, size_t answers_len);

/* Sends the pending acknowledgements, in batches of at most 128. Refused with STRIPRING_ANSWER_MISSING and STRIPRING_MISFIT. */
stripring_ended_answer stripring_receiver_service_chunk_acknowledgements(stripring_receiver receiver, const stripring_answer *answers,
                                                                         size_t answers_len);

/* Drains with errno 32, and shuts the socket down unless that was done. Refused with STRIPRING_ANSWER_MISSING and STRIPRING_MISFIT. */
stripring_ended_answer stripring_receiver_shutdown(stripring_receiver receiver, const stripring_answer *answers, size_t answers_len);

/* ---- The machine: begin a call, and until it is finished do what it waits for and hand in the answer ---- */

/* The outcome that a call still ends with. `told` 0: whatever comes of what it waits for. Any other (1 in answers): unless that fails. */
typedef struct stripring_ending {
  uint64_t told;
  stripring_outcome outcome;
} stripring_ending;

#define STRIPRING_PHASE_RECEIVE 0  /* one byte with at most `max_new_fds` descriptors, for a read into `dst_len` bytes */
#define STRIPRING_PHASE_SEND 1     /* `batch` acknowledgement bytes */
#define STRIPRING_PHASE_SHUTDOWN 2 /* of the socket */
#define STRIPRING_PHASE_FINISHED 3 /* with `outcome` */

/* `kind` says what the host is to do; any other number is taken for STRIPRING_PHASE_FINISHED. What a kind does not use is 0 in answers and
 * not looked at otherwise. Nor is a batch that is handed in: it is the smaller of 128 and what is pending. */
typedef struct stripring_phase {
  uint64_t kind;
  uint64_t max_new_fds;
  uint64_t dst_len;
  uint64_t batch;
  stripring_ending ending;
  stripring_outcome outcome;
} stripring_phase;

/* A call in progress: the receiver so far, the scheduler that a read copies its bytes by, and where the call is. The receiver counts what was
 * received, sent and shut down so far, and can be taken from the call at any time, finished or not. */
typedef struct stripring_call {
  stripring_receiver receiver;
  stripring_scheduler source;
  stripring_phase phase;
} stripring_call;

/* The call in progress after a call of the machine. Where that is refused, the caller keeps the one that it passed. */
typedef struct stripring_step_answer {
  stripring_refusal refusal;
  stripring_call call;
} stripring_step_answer;

/* Begins a read into dst_len bytes. The end of the stream is errno 32. Refused with STRIPRING_RING_MEMORY, STRIPRING_MISFIT for the stored
 * errno, STRIPRING_PENDING_FULL.
 *
 * The host copies the bytes, once, by stripring_copies_read(call.source, ring, ring_len, dst, n); what that answers is not needed. It does so
 * before the first send, STRIPRING_PHASE_SEND, where n is phase.ending.outcome.n: the acknowledgement allows the other process to overwrite
 * them. Where nothing is sent it does so when the call is finished with a read, of phase.outcome.n bytes. */
stripring_step_answer stripring_call_begin_read(stripring_receiver receiver, size_t ring_len, uint64_t max_new_fds, uint64_t dst_len);

/* Begins to send the pending acknowledgements. Refused with STRIPRING_MISFIT for the stored errno. */
stripring_step_answer stripring_call_begin_service(stripring_receiver receiver);

/* Begins to drain and shut down. Refused with STRIPRING_MISFIT for the stored errno. */
stripring_step_answer stripring_call_begin_shutdown(stripring_receiver receiver);

/* The call after this answer, the place-th that it takes, from 1. A receive or a send that was interrupted (errno 4) goes on waiting; a call
 * that is finished stays as it is. The ring is looked at, its length too, where a byte was received and only there, for the header: else none
 * need be lent. Refused with STRIPRING_RING_MEMORY where a byte was received, STRIPRING_MISFIT for the stored errno (place 0) and for an
 * answer that the phase cannot have, STRIPRING_PENDING_FULL where a receive is waited for.
 *
 * A call is a value, and a host can make one up: what it waits for is asked anew by the rules of the receiver that it comes with. One that
 * waits for a receive of a terminated stream is finished with the stream's failure, whatever byte came. Its `source` is handed on as it is:
 * the copy by it tests it. */
stripring_step_answer stripring_call_answered(stripring_call call, const uint8_t *ring, size_t ring_len, stripring_answer answer,
                                              uint64_t place);

/* ---- Two values, the same or different ---- */

/* The same value where `different` is 0, and then `new_` is `old` in answers and not looked at otherwise. The source's `new`, which C++ has
 * taken. */
typedef struct stripring_diff {
  uint64_t different;
  uint64_t old;
  uint64_t new_;
} stripring_diff;

/* The same value, or the old and the new one. */
stripring_diff stripring_diff_new(uint64_t old, uint64_t new_);

/* Whether `different` is 0, whatever the values. */
bool stripring_diff_is_same(stripring_diff diff);

/* Whether `different` is not 0. */
bool stripring_diff_is_different(stripring_diff diff);

/* The old value, or the same one. */
uint64_t stripring_diff_old_value(stripring_diff diff);

/* The new value, or the same one. */
uint64_t stripring_diff_new_value(stripring_diff diff);

/* ---- Arithmetic modulo 1 to 2^64. A modulus is its number, and 0 is the full range, 2^64 ---- */

/* A number where `some` is 1; none where it is 0, and then `value` is 0. */
typedef struct stripring_option_u64 {
  uint64_t some;
  uint64_t value;
} stripring_option_u64;

/* 0. */
uint64_t stripring_modulus_new_full_range(void);

/* The modulus; none for 0. */
stripring_option_u64 stripring_modulus_try_new(uint64_t modulus);

/* Whether it is the full range. */
bool stripring_modulus_is_full_range(uint64_t modulus);

/* The modulus as a number; none for the full range. */
stripring_option_u64 stripring_modulus_modulus(uint64_t modulus);

/* Whether the value is below the modulus. */
bool stripring_modulus_contains(uint64_t modulus, uint64_t value);

/* Twice the modulus: the full range for 2^63, none for more. */
stripring_option_u64 stripring_modulus_double(uint64_t modulus);

/* The value, reduced. */
uint64_t stripring_modulus_new_number(uint64_t modulus, uint64_t value);

/* The value if it is below the modulus, else none. */
stripring_option_u64 stripring_modulus_try_new_number(uint64_t modulus, uint64_t value);

/* Minus the value, which is reduced first; 0 for 0. */
uint64_t stripring_modulus_neg(uint64_t modulus, uint64_t value);

/* a - b, both reduced first. */
uint64_t stripring_modulus_sub(uint64_t modulus, uint64_t a, uint64_t b);

/* a + b, both reduced first. */
uint64_t stripring_modulus_add(uint64_t modulus, uint64_t a, uint64_t b);

#ifdef __cplusplus
}
#endif

#endif
