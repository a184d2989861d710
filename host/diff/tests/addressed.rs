//! The kind of document 02's No. 12: the key has the destination. The original is asked under PGNs of its own; the request's cases stand beside it, by hand.
use diff::destination::{ADDRESSED, ADDRESSED_SET_BACK};
use diff::tally::{run, run_set_back};
use diff::{kinds, receive};

#[test]
fn pools_are_made_of_the_kind_that_is_asked_for() {
    run("pools made with a kind, against the paper's words", kinds::making);
}

#[test]
fn a_number_that_is_no_kind_is_refused_by_every_call() {
    run("numbers that are no kind, by every call", kinds::no_kind);
}

#[test]
fn an_identifier_that_is_too_wide_is_refused_before_all_else() {
    run("identifiers too wide for a pool, whatever the pool is", kinds::too_wide);
}

#[test]
fn the_last_identifier_is_read() {
    run("the last identifier of 29 bits, on a pool", kinds::the_last_identifier);
}

#[test]
fn a_pool_is_refused_at_the_other_kinds_entry() {
    run("pools at the other kind's entry", kinds::at_the_other_kinds_entry);
}

#[test]
fn two_displays_get_one_answer_each() {
    run("two displays, in both kinds, against the paper's words", kinds::two_displays);
}

#[test]
fn a_pgn_that_goes_to_everybody_is_answered_alike_in_both_kinds() {
    run("PGNs that go to everybody, one kind beside the other", || kinds::to_everybody(34, 50_000));
}

#[test]
fn a_part_that_its_pgn_does_not_allow_makes_a_pool_impossible() {
    run("parts of a slot, in both kinds, against the paper's words", kinds::parts);
}

#[test]
fn a_session_is_found_by_its_destination() {
    run("sessions found by their destination", kinds::found_by_destination);
}

#[test]
fn a_reset_makes_the_part_none() {
    run("resets by the identifier, against the paper's words", kinds::resets);
}

#[test]
fn the_preference_among_free_slots_goes_by_the_source_alone() {
    run("the slot that is preferred, in both kinds, against the paper's words", kinds::preferred);
}

#[test]
fn every_first_byte_and_size() {
    run("by the identifier: receiving, every first byte and size", || receive::every_first_byte(ADDRESSED));
}

#[test]
fn every_size_and_index_of_a_slot() {
    run("by the identifier: receiving, every size and index of a slot", || receive::every_slot(ADDRESSED));
}

#[test]
fn a_frame_that_lacks_a_byte() {
    run("by the identifier: receiving, every length of a frame, against the paper's words where a byte is cut", || receive::every_cut(ADDRESSED));
}

#[test]
fn two_slots_over_a_small_alphabet() {
    run("by the identifier: receiving, two slots over a small alphabet", || receive::two_slots(ADDRESSED));
}

#[test]
fn any_possible_pool() {
    run("by the identifier: receiving on any possible pool", || receive::any_pool(ADDRESSED, 73, 500_000));
}

#[test]
fn the_slot_that_a_frame_takes() {
    run("by the identifier: choosing a slot", || receive::slots_chosen(ADDRESSED, 83, 200_000));
}

#[test]
fn an_impossible_pool() {
    run("by the identifier: receiving on impossible pools, against the paper's words", || receive::impossible_pools(ADDRESSED, 74, 200_000));
}

#[test]
fn counters_at_their_end() {
    run("by the identifier: counters at their end, against the paper's words", || receive::counters_at_the_end(ADDRESSED));
}

#[test]
fn names_told_apart() {
    run("by the identifier: receiving where one name could be taken for another", || receive::told_apart(ADDRESSED));
}

#[test]
fn pools_with_all_slots_in_use() {
    run("by the identifier: receiving with all slots in use", || receive::all_slots_in_use(ADDRESSED, 82, 20));
}

#[test]
fn traffic() {
    run("by the identifier: receiving traffic", || receive::traffic(ADDRESSED, 75, 1_000_000));
}

#[test]
fn numbers_wider_than_their_fields() {
    run("by the identifier: numbers wider than their fields", || receive::wide_numbers(ADDRESSED, 78, 100_000));
}

#[test]
fn pools_of_the_safe_api() {
    run("by the identifier: the safe pool, all its calls", || receive::safe_pools(ADDRESSED, 80, 250_000));
}

#[test]
fn any_possible_pool_set_back() {
    run_set_back("by the identifier, set back: receiving on any possible pool", || receive::any_pool(ADDRESSED_SET_BACK, 93, 300_000));
}

#[test]
fn the_slot_that_a_frame_takes_set_back() {
    run_set_back("by the identifier, set back: choosing a slot", || receive::slots_chosen(ADDRESSED_SET_BACK, 103, 100_000));
}

#[test]
fn an_impossible_pool_set_back() {
    run_set_back("by the identifier, set back: receiving on impossible pools, against the paper's words", || receive::impossible_pools(ADDRESSED_SET_BACK, 94, 50_000));
}

#[test]
fn traffic_set_back() {
    run_set_back("by the identifier, set back: receiving traffic", || receive::traffic(ADDRESSED_SET_BACK, 95, 500_000));
}

#[test]
fn pools_of_the_safe_api_set_back() {
    run_set_back("by the identifier, set back: the safe pool, all its calls", || receive::safe_pools(ADDRESSED_SET_BACK, 100, 100_000));
}
