/* Strips: what is proposed, as numbers and as runs, what the check says of a plan, and that a refused call changes no number that is
 * lent. Exit 1 at the first thing that is not so. */
#include "check.h"
#include "stripring.h"

#include <stdio.h>
#include <string.h>

enum { ROWS = 10, ROW_BYTES = 4, BUF_LEN = 20, MOST_RUNS = 12 };

/* Numbers in a plan of so many runs. */
#define NUMBERS(runs) (2 * (size_t)(runs))

_Static_assert(sizeof(stripring_run) == NUMBERS(1) * sizeof(uint64_t), "an array of runs is the numbers of a plan");

static const stripring_run PLAN[] = {{0, 3}, {3, 3}, {6, 3}, {9, 1}};
enum { PLAN_RUNS = sizeof PLAN / sizeof PLAN[0] };

static bool is(stripring_refusal r, uint64_t number, uint64_t a, uint64_t b) {
  return r.number == number && r.a == a && r.b == b && r.c == 0;
}

static bool same(const stripring_run *a, const stripring_run *b, size_t runs) {
  return memcmp(a, b, runs * sizeof *a) == 0;
}

/* Runs that no call proposes, to see what a call leaves. */
static void fill(stripring_run *plan) { memset(plan, 0xa5, MOST_RUNS * sizeof *plan); }

static stripring_propose_answer propose(uint64_t buf_len, stripring_run *plan, size_t runs) {
  return stripring_planner_propose(ROWS, ROW_BYTES, buf_len, (uint64_t *)plan, NUMBERS(runs));
}

static stripring_refusal verdict(uint64_t rows, const stripring_run *plan, size_t runs) {
  return stripring_planner_check(rows, ROW_BYTES, BUF_LEN, (const uint64_t *)plan, NUMBERS(runs));
}

static void proposed(void) {
  stripring_run plan[MOST_RUNS], untouched[MOST_RUNS];
  fill(plan);
  fill(untouched);
  stripring_propose_answer answer = propose(BUF_LEN, plan, MOST_RUNS);
  CHECK(is(answer.refusal, 0, 0, 0) && answer.count == PLAN_RUNS);
  CHECK(same(plan, PLAN, PLAN_RUNS));
  CHECK(same(plan + PLAN_RUNS, untouched, MOST_RUNS - PLAN_RUNS));

  fill(plan);
  CHECK(propose(BUF_LEN, plan, PLAN_RUNS).count == PLAN_RUNS && same(plan, PLAN, PLAN_RUNS));
  CHECK(propose(12, plan, MOST_RUNS).count == ROWS);
  for (uint64_t row = 0; row < ROWS; row++)
    CHECK(plan[row].first == row && plan[row].count == 1);
}

static void outlined(void) {
  stripring_strips_answer strips = stripring_planner_outline(ROWS, ROW_BYTES, BUF_LEN);
  CHECK(is(strips.refusal, 0, 0, 0) && strips.count == PLAN_RUNS && strips.height == 3 && strips.last == 1);
  strips = stripring_planner_outline(ROWS, ROW_BYTES, UINT64_C(1) << 63);
  CHECK(strips.count == 1 && strips.height == ROWS && strips.last == ROWS);
  strips = stripring_planner_outline(65535, 1, 9);
  CHECK(strips.count == 65535 && strips.height == 1 && strips.last == 1);
}

/* A plan that is lent with a run too few, or with half of it. */
static void too_short(void) {
  stripring_run plan[MOST_RUNS], untouched[MOST_RUNS];
  fill(plan);
  fill(untouched);
  stripring_propose_answer answer = propose(BUF_LEN, plan, PLAN_RUNS - 1);
  CHECK(is(answer.refusal, 39, PLAN_RUNS, PLAN_RUNS - 1) && answer.count == 0);
  answer = stripring_planner_propose(ROWS, ROW_BYTES, BUF_LEN, (uint64_t *)plan, NUMBERS(PLAN_RUNS) - 1);
  CHECK(is(answer.refusal, 39, PLAN_RUNS, PLAN_RUNS - 1) && answer.count == 0);
  answer = propose(BUF_LEN, NULL, 0);
  CHECK(is(answer.refusal, 39, PLAN_RUNS, 0) && answer.count == 0);
  CHECK(same(plan, untouched, MOST_RUNS));
}

static void checked(void) {
  const stripring_run other[] = {{0, 1}, {1, 2}, {3, 3}, {6, 3}, {9, 1}};
  CHECK(is(verdict(ROWS, PLAN, PLAN_RUNS), 0, 0, 0));
  CHECK(is(verdict(ROWS, other, 5), 0, 0, 0));
  CHECK(is(verdict(ROWS, PLAN, PLAN_RUNS - 1), 19, 9, 0));
  CHECK(is(verdict(ROWS, NULL, 0), 19, 0, 0));
  /* half a run is none */
  CHECK(is(stripring_planner_check(ROWS, ROW_BYTES, BUF_LEN, (const uint64_t *)PLAN, 3), 19, 3, 0));
}

static void bad_runs(void) {
  const stripring_run empty[] = {{0, 3}, {4, 0}}, gap[] = {{0, 3}, {4, 3}}, overlap[] = {{0, 3}, {2, 3}};
  const stripring_run past_the_end[] = {{0, 3}, {3, UINT64_MAX}}, behind_the_end[] = {{0, 3}, {3, 1}};
  const stripring_run too_long[] = {{0, 4}};
  CHECK(is(verdict(ROWS, empty, 2), 16, 1, 0));
  CHECK(is(verdict(ROWS, gap, 2), 17, 1, 0));
  CHECK(is(verdict(ROWS, overlap, 2), 17, 1, 0));
  CHECK(is(verdict(ROWS, past_the_end, 2), 17, 1, 0));
  CHECK(is(verdict(3, behind_the_end, 2), 17, 1, 0));
  CHECK(is(verdict(ROWS, too_long, 1), 18, 0, 0));
}

/* Refused by every call, whatever plan is lent. */
static void sizes(uint64_t rows, uint64_t buf_len, uint64_t number, uint64_t a, uint64_t b) {
  stripring_run plan[MOST_RUNS], untouched[MOST_RUNS];
  fill(plan);
  fill(untouched);
  stripring_strips_answer strips = stripring_planner_outline(rows, ROW_BYTES, buf_len);
  CHECK(is(strips.refusal, number, a, b) && strips.count == 0 && strips.height == 0 && strips.last == 0);
  stripring_propose_answer answer =
      stripring_planner_propose(rows, ROW_BYTES, buf_len, (uint64_t *)plan, NUMBERS(MOST_RUNS));
  CHECK(is(answer.refusal, number, a, b) && answer.count == 0);
  CHECK(same(plan, untouched, MOST_RUNS));
  CHECK(is(stripring_planner_check(rows, ROW_BYTES, buf_len, (const uint64_t *)PLAN, NUMBERS(PLAN_RUNS)), number, a, b));
  CHECK(is(stripring_planner_check(rows, ROW_BYTES, buf_len, NULL, 0), number, a, b));
}

int main(void) {
  const uint64_t above = (UINT64_C(1) << 63) + 1;
  proposed();
  outlined();
  too_short();
  checked();
  bad_runs();
  sizes(ROWS, 11, 15, ROW_BYTES, 11);
  sizes(0, 0, 1, 0, 0);
  sizes(0, above, 2, above, 0);
  sizes(0, 5, 14, 0, ROW_BYTES);
  sizes(65536, BUF_LEN, 14, 65536, ROW_BYTES);
  printf("strips: %u checks\n", held);
}
