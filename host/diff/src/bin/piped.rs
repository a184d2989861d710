//! A smaller run of everything, for the archive in another process (HINGEFROST_DRIVER, host/driver.c): what stands behind the
//! entries there is held to the original here, and every entry is called. cargo run --offline --release --features piped --bin piped
use diff::destination::{ADDRESSED, ADDRESSED_SET_BACK, AS_ORIGINAL, SET_BACK};
use diff::tally::{run, run_set_back};
use diff::{bench, frames, ids, kinds, modes, receive};

fn main() {
    run("rt's x86-64 archive in a process of its own", || {
        let mut steps = ids::random(21, 5_000);
        steps += frames::random(22, 5_000);
        steps += receive::making();
        steps += receive::counters_at_the_end(AS_ORIGINAL);
        steps += receive::told_apart(AS_ORIGINAL);
        steps += receive::any_pool(AS_ORIGINAL, 23, 5_000);
        steps += receive::slots_chosen(AS_ORIGINAL, 31, 5_000);
        steps += receive::impossible_pools(AS_ORIGINAL, 24, 2_000);
        steps += receive::traffic(AS_ORIGINAL, 25, 20_000);
        steps += receive::batches(AS_ORIGINAL, 26, 100_000);
        steps += receive::wide_numbers(AS_ORIGINAL, 28, 5_000);
        steps += receive::safe_pools(AS_ORIGINAL, 29, 10_000);
        steps += receive::all_slots_in_use(AS_ORIGINAL, 30, 1);
        steps += modes::making();
        steps += modes::no_mode();
        steps += modes::continuations();
        steps += modes::first_frames();
        steps += modes::idle_slots();
        steps += modes::a_clock_set_back();
        steps += bench::every_split();
        steps + bench::random(27, 60_000)
    });
    run_set_back("rt's x86-64 archive in a process of its own, set back", || {
        let mut steps = receive::any_pool(SET_BACK, 63, 5_000);
        steps += receive::slots_chosen(SET_BACK, 71, 2_000);
        steps += receive::impossible_pools(SET_BACK, 64, 2_000);
        steps += receive::traffic(SET_BACK, 65, 10_000);
        steps += receive::batches(SET_BACK, 66, 50_000);
        steps + receive::safe_pools(SET_BACK, 69, 5_000)
    });
    run("rt's x86-64 archive in a process of its own, by the identifier", || {
        let mut steps = kinds::making();
        steps += kinds::no_kind();
        steps += kinds::too_wide();
        steps += kinds::the_last_identifier();
        steps += kinds::at_the_other_kinds_entry();
        steps += kinds::two_displays();
        steps += kinds::to_everybody(80, 1_000);
        steps += kinds::parts();
        steps += kinds::found_by_destination();
        steps += kinds::resets();
        steps += kinds::preferred();
        steps += receive::counters_at_the_end(ADDRESSED);
        steps += receive::any_pool(ADDRESSED, 83, 5_000);
        steps += receive::slots_chosen(ADDRESSED, 91, 5_000);
        steps += receive::impossible_pools(ADDRESSED, 84, 2_000);
        steps += receive::traffic(ADDRESSED, 85, 20_000);
        steps += receive::wide_numbers(ADDRESSED, 88, 5_000);
        steps += receive::safe_pools(ADDRESSED, 93, 10_000);
        steps + receive::all_slots_in_use(ADDRESSED, 90, 1)
    });
    run_set_back("rt's x86-64 archive in a process of its own, by the identifier, set back", || {
        let mut steps = receive::any_pool(ADDRESSED_SET_BACK, 103, 5_000);
        steps += receive::slots_chosen(ADDRESSED_SET_BACK, 111, 2_000);
        steps += receive::impossible_pools(ADDRESSED_SET_BACK, 104, 2_000);
        steps += receive::traffic(ADDRESSED_SET_BACK, 105, 10_000);
        steps + receive::safe_pools(ADDRESSED_SET_BACK, 109, 5_000)
    });
    #[cfg(feature = "piped")]
    println!("entries called: {}", port::raw::calls().iter().filter(|&&n| n > 0).count());
}
