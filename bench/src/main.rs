//! Times of the static library stripring beside the unchanged Rust and beside other rings.

mod best;
mod planner;
mod rings;
mod rust;
mod sched;
mod stripring;

fn main() {
    sched::print_table();
    rings::print_table();
    planner::print_table();
}
