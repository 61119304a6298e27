//! Strips: what is proposed, what the check says of a plan, and that a refused call changes no run that is lent.

use stripring::planner::{Run, Strips, check, outline, propose};
use stripring::{Refusal, abi};

const ROWS: u64 = 10;
const ROW_BYTES: u64 = 4;
const BUF_LEN: u64 = 20;

fn plan<const N: usize>(runs: [(u64, u64); N]) -> [Run; N] {
    runs.map(|(first, count)| Run { first, count })
}

fn verdict<const N: usize>(runs: [(u64, u64); N]) -> Result<(), Refusal> {
    check(ROWS, ROW_BYTES, BUF_LEN, &plan(runs))
}

#[test]
fn as_tall_as_fits_and_the_rest_last() {
    let proposed = propose(ROWS, ROW_BYTES, BUF_LEN).unwrap();
    assert_eq!(proposed, plan([(0, 3), (3, 3), (6, 3), (9, 1)]));
    let strips = Strips {
        count: 4,
        height: 3,
        last: 1,
    };
    assert_eq!(outline(ROWS, ROW_BYTES, BUF_LEN), Ok(strips));
}

#[test]
fn one_row_a_strip_and_all_rows_in_one() {
    let proposed = propose(ROWS, ROW_BYTES, 12).unwrap();
    assert_eq!(
        proposed,
        [0, 1, 2, 3, 4, 5, 6, 7, 8, 9].map(|first| Run { first, count: 1 })
    );
    assert_eq!(propose(ROWS, ROW_BYTES, 1 << 63).unwrap(), plan([(0, 10)]));
    assert_eq!(propose(7, 8, 64).unwrap(), plan([(0, 7)]));
    assert_eq!(propose(8, 8, 64).unwrap(), plan([(0, 7), (7, 1)]));
}

#[test]
fn what_is_proposed_is_accepted() {
    for (rows, row_bytes, buf_len) in [(10, 4, 20), (65535, 1, 9), (65535, 1 << 20, 1 << 30)] {
        let proposed = propose(rows, row_bytes, buf_len).unwrap();
        assert_eq!(check(rows, row_bytes, buf_len, &proposed), Ok(()));
    }
}

#[test]
fn a_row_that_does_not_fit_has_no_plan() {
    let no_plan = Refusal::NoPlan {
        row_bytes: 4,
        buf_len: 11,
    };
    assert_eq!(outline(ROWS, ROW_BYTES, 11), Err(no_plan));
    assert_eq!(propose(ROWS, ROW_BYTES, 11), Err(no_plan));
    assert_eq!(check(ROWS, ROW_BYTES, 11, &[]), Err(no_plan));
}

#[test]
fn the_ring_before_the_image() {
    let refused = |rows, row_bytes, buf_len| {
        let refusal = propose(rows, row_bytes, buf_len).unwrap_err();
        assert_eq!(outline(rows, row_bytes, buf_len), Err(refusal));
        assert_eq!(check(rows, row_bytes, buf_len, &[]), Err(refusal));
        (refusal.number(), refusal.values())
    };
    assert_eq!(refused(0, 4, 0), (1, [0, 0, 0]));
    assert_eq!(refused(0, 4, u64::MAX), (2, [u64::MAX, 0, 0]));
    assert_eq!(refused(0, 4, 5), (14, [0, 4, 0]));
    assert_eq!(refused(65536, 4, 20), (14, [65536, 4, 0]));
    assert_eq!(refused(10, (1 << 20) + 1, 20), (14, [10, (1 << 20) + 1, 0]));
}

#[test]
fn too_short_a_plan_stays_as_it_was() {
    let mut lent = plan([(7, 7); 3]);
    let answer = abi::planner_propose(ROWS, ROW_BYTES, BUF_LEN, &mut lent);
    let too_short = Refusal::PlanTooShort { needed: 4, lent: 3 };
    assert_eq!(
        (Refusal::from(answer.refusal), answer.count),
        (too_short, 0)
    );
    assert_eq!(lent, plan([(7, 7); 3]));
}

#[test]
fn behind_its_runs_too() {
    let mut lent = plan([(7, 7); 6]);
    let answer = abi::planner_propose(ROWS, ROW_BYTES, BUF_LEN, &mut lent);
    assert_eq!((answer.refusal.number, answer.count), (0, 4));
    assert_eq!(lent, plan([(0, 3), (3, 3), (6, 3), (9, 1), (7, 7), (7, 7)]));
}

#[test]
fn the_first_bad_run_is_named() {
    assert_eq!(verdict([(0, 3), (4, 0)]), Err(Refusal::EmptyRun { run: 1 }));
    let out_of_place = Err(Refusal::RunOutOfPlace { run: 1 });
    assert_eq!(verdict([(0, 3), (4, 3)]), out_of_place);
    assert_eq!(verdict([(0, 3), (2, 3)]), out_of_place);
    assert_eq!(verdict([(0, 3), (3, u64::MAX)]), out_of_place);
    assert_eq!(
        check(3, ROW_BYTES, BUF_LEN, &plan([(0, 3), (3, 1)])),
        out_of_place
    );
    assert_eq!(verdict([(0, 4)]), Err(Refusal::RunTooLong { run: 0 }));
    assert_eq!(verdict([(0, 3)]), Err(Refusal::RowsLeft { reached: 3 }));
    assert_eq!(verdict([]), Err(Refusal::RowsLeft { reached: 0 }));
}

#[test]
fn a_refusal_is_a_sentence_with_its_values() {
    let told = |refusal: Refusal| refusal.to_string();
    assert_eq!(
        told(verdict([(0, 3), (4, 0)]).unwrap_err()),
        "refused with 16: run 1 is empty"
    );
    assert_eq!(
        told(propose(ROWS, ROW_BYTES, 11).unwrap_err()),
        "refused with 15: no plan exists: a row of 4 bytes and its header do not fit into a ring of 11"
    );
    assert_eq!(
        told(propose(0, 4, 5).unwrap_err()),
        "refused with 14: 0 rows of 4 bytes are not 1 to 65535 rows of 1 to 2^20 bytes"
    );
}
