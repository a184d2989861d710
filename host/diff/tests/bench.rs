use diff::{bench, tally::run};

#[test]
fn every_payload_is_split_as_the_original_does() {
    run("the splitter, every length", bench::every_split);
}

#[test]
fn every_message_is_judged_as_the_original_does() {
    run("strict reassembly, every length", bench::every_message);
}

#[test]
fn a_flag_at_every_frame_is_told_first() {
    run("the bench, a flag at every frame, against the paper's words", bench::every_wide);
}

#[test]
fn random_captures_are_judged_as_the_original_does() {
    run("the bench, random", || bench::random(6, 300_000));
}

#[test]
fn the_shortest_row_decides() {
    run("the bench, rows of unequal lengths", || bench::unequal_rows(9, 100_000));
}
