//! What a run compared: its steps, and of each call how often it gave each kind of answer. host/test holds both to host/floors.
use std::cell::RefCell;
use std::collections::BTreeMap;

thread_local! {
    static SEEN: RefCell<BTreeMap<(&'static str, u32), u64>> = const { RefCell::new(BTreeMap::new()) };
}

/// One answer of a call was compared: a refusal's number, or a kind.
pub fn answered(call: &'static str, answer: u32) {
    SEEN.with_borrow_mut(|seen| *seen.entry((call, answer)).or_default() += 1);
}

/// A run on this thread: says how many steps it compared, and which answers it saw, on lines of their own (the test harness puts a sign for each test
/// between them).
pub fn run(name: &str, compared: impl FnOnce() -> u64) {
    run_under("", name, compared);
}

/// The same of pools in No. 10's mode: its answers are counted apart.
pub fn run_set_back(name: &str, compared: impl FnOnce() -> u64) {
    run_under("set_back_", name, compared);
}

fn run_under(mode: &str, name: &str, compared: impl FnOnce() -> u64) {
    SEEN.take();
    let steps = compared();
    let seen: String = SEEN.take().iter().map(|((call, answer), n)| format!("\nseen {mode}{call} {} {n}", answer_name(*answer))).collect();
    println!("\n{name}: {steps} steps alike{seen}");
}

/// A kind by its name; a refusal by its number.
pub fn answer_name(answer: u32) -> String {
    use port::raw::{END, FRAGMENT_CONSUMED, LOST, MESSAGE_COMPLETE, NOT_LISTED, POOL_FULL, REJECTED};
    match answer {
        0 => "given".into(),
        END => "End".into(),
        NOT_LISTED => "NotListed".into(),
        REJECTED => "Rejected".into(),
        POOL_FULL => "PoolFull".into(),
        LOST => "Lost".into(),
        FRAGMENT_CONSUMED => "FragmentConsumed".into(),
        MESSAGE_COMPLETE => "MessageComplete".into(),
        number => number.to_string(),
    }
}
