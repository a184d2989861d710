use diff::{frames, tally::run};

#[test]
fn every_frame_index_is_answered_as_the_original_does() {
    run("frames, every index", frames::every_index);
}

#[test]
fn every_payload_length_is_framed_as_the_original_does() {
    run("frames, every length", frames::every_length);
}

#[test]
fn random_builders_are_stepped_alike() {
    run("frames, random", || frames::random(2, 1_000_000));
}
