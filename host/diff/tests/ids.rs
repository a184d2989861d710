use diff::{ids, tally::run};

#[test]
fn every_pf_is_read_as_the_original_reads_it() {
    run("identifiers read, every PF", ids::every_pf);
}

#[test]
fn every_flag_is_refused() {
    run("identifiers too wide, against the paper's words", ids::every_flag);
}

#[test]
fn every_pgn_is_built_as_the_original_builds_it() {
    run("identifiers built, every PGN", ids::every_pgn);
}

#[test]
fn random_identifiers_are_read_and_built_alike() {
    run("identifiers, random", || ids::random(1, 1_000_000));
}
