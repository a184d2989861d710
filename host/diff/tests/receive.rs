use diff::destination::AS_ORIGINAL;
use diff::{receive, tally::run};

#[test]
fn every_first_byte_and_size_is_answered_as_the_original_does() {
    run("receiving, every first byte and size", || receive::every_first_byte(AS_ORIGINAL));
}

#[test]
fn every_size_and_index_of_a_slot_is_answered_as_the_original_does() {
    run("receiving, every size and index of a slot", || receive::every_slot(AS_ORIGINAL));
}

#[test]
fn a_frame_that_lacks_a_byte_is_rejected_or_breaks_its_session() {
    run("receiving, every length of a frame, against the paper's words where a byte is cut", || receive::every_cut(AS_ORIGINAL));
}

#[test]
fn two_slots_over_a_small_alphabet_are_answered_as_the_original_does() {
    run("receiving, two slots over a small alphabet", || receive::two_slots(AS_ORIGINAL));
}

#[test]
fn pools_are_made_as_the_paper_says() {
    run("pools made, against the paper's words", receive::making);
}

#[test]
fn any_possible_pool_is_answered_as_the_original_does() {
    run("receiving on any possible pool", || receive::any_pool(AS_ORIGINAL, 3, 1_000_000));
}

#[test]
fn the_slot_that_a_frame_takes_is_the_originals() {
    run("choosing a slot, by a single call and in a batch", || receive::slots_chosen(AS_ORIGINAL, 13, 300_000));
}

#[test]
fn an_impossible_pool_is_refused_and_unchanged() {
    run("receiving on impossible pools, against the paper's words", || receive::impossible_pools(AS_ORIGINAL, 4, 500_000));
}

#[test]
fn counters_stop_at_their_end() {
    run("counters at their end, against the paper's words", || receive::counters_at_the_end(AS_ORIGINAL));
}

#[test]
fn the_names_are_told_apart_where_one_could_be_taken_for_another() {
    run("receiving where one name could be taken for another", || receive::told_apart(AS_ORIGINAL));
}

#[test]
fn pools_with_all_slots_in_use_are_answered_as_the_original_does() {
    run("receiving with all slots in use", || receive::all_slots_in_use(AS_ORIGINAL, 12, 40));
}

#[test]
fn traffic_is_answered_as_the_original_does() {
    run("receiving traffic", || receive::traffic(AS_ORIGINAL, 5, 2_000_000));
}

#[test]
fn batches_leave_what_single_calls_of_the_original_leave() {
    run("batches", || receive::batches(AS_ORIGINAL, 7, 1_500_000));
}

#[test]
fn a_number_is_written_only_where_its_field_has_changed() {
    run("numbers wider than their fields", || receive::wide_numbers(AS_ORIGINAL, 8, 300_000));
}

#[test]
fn pools_of_the_safe_api_answer_as_the_original_does() {
    run("the safe pool, all its calls", || receive::safe_pools(AS_ORIGINAL, 10, 500_000));
}

#[test]
fn a_batch_takes_rows_of_any_lengths() {
    run("the safe batch, rows of any lengths", || receive::any_rows(11, 500_000));
}
