//! The mode of document 02's No. 10: a clock that was set back is silence. The original is asked on a clock of its own; the request's cases stand beside it, by hand.
use diff::destination::SET_BACK;
use diff::tally::{run, run_set_back};
use diff::{modes, receive};

#[test]
fn pools_are_made_in_the_mode_that_is_asked_for() {
    run("pools made with a mode, against the paper's words", modes::making);
}

#[test]
fn a_number_that_is_no_mode_is_refused_by_every_call() {
    run("numbers that are no mode, by every call", modes::no_mode);
}

#[test]
fn a_continuation_before_its_sessions_last_time_is_a_stray() {
    run("continuations at every reading, in both modes and kinds, against the paper's words", modes::continuations);
}

#[test]
fn a_first_frame_before_a_sessions_last_time_takes_its_slot() {
    run("first frames at every reading, in both modes and kinds, against the paper's words", modes::first_frames);
}

#[test]
fn an_idle_slot_is_free_in_either_mode() {
    run("idle slots at every reading, in both modes and kinds, against the paper's words", modes::idle_slots);
}

#[test]
fn a_clock_set_back_within_a_message() {
    run("a clock set back within a message, in both modes and kinds, against the paper's words", modes::a_clock_set_back);
}

#[test]
fn every_first_byte_and_size() {
    run_set_back("set back: receiving, every first byte and size", || receive::every_first_byte(SET_BACK));
}

#[test]
fn every_size_and_index_of_a_slot() {
    run_set_back("set back: receiving, every size and index of a slot", || receive::every_slot(SET_BACK));
}

#[test]
fn a_frame_that_lacks_a_byte() {
    run_set_back("set back: receiving, every length of a frame, against the paper's words where a byte is cut", || receive::every_cut(SET_BACK));
}

#[test]
fn two_slots_over_a_small_alphabet() {
    run_set_back("set back: receiving, two slots over a small alphabet", || receive::two_slots(SET_BACK));
}

#[test]
fn any_possible_pool() {
    run_set_back("set back: receiving on any possible pool", || receive::any_pool(SET_BACK, 43, 500_000));
}

#[test]
fn the_slot_that_a_frame_takes() {
    run_set_back("set back: choosing a slot, by a single call and in a batch", || receive::slots_chosen(SET_BACK, 53, 200_000));
}

#[test]
fn an_impossible_pool() {
    run_set_back("set back: receiving on impossible pools, against the paper's words", || receive::impossible_pools(SET_BACK, 44, 100_000));
}

#[test]
fn counters_at_their_end() {
    run_set_back("set back: counters at their end, against the paper's words", || receive::counters_at_the_end(SET_BACK));
}

#[test]
fn names_told_apart() {
    run_set_back("set back: receiving where one name could be taken for another", || receive::told_apart(SET_BACK));
}

#[test]
fn pools_with_all_slots_in_use() {
    run_set_back("set back: receiving with all slots in use", || receive::all_slots_in_use(SET_BACK, 52, 10));
}

#[test]
fn traffic() {
    run_set_back("set back: receiving traffic", || receive::traffic(SET_BACK, 45, 1_000_000));
}

#[test]
fn batches() {
    run_set_back("set back: batches", || receive::batches(SET_BACK, 47, 1_000_000));
}

#[test]
fn numbers_wider_than_their_fields() {
    run_set_back("set back: numbers wider than their fields", || receive::wide_numbers(SET_BACK, 48, 100_000));
}

#[test]
fn pools_of_the_safe_api() {
    run_set_back("set back: the safe pool, all its calls", || receive::safe_pools(SET_BACK, 50, 250_000));
}
