//! Writes the list that the program `replay` is held to: crates/replay/stdin, calls, and crates/replay/stdout, what the
//! original answered to them, an Ignored under the name that goes with the counter that it raised. Nothing of the port is
//! called, so it needs no archive: cargo run --offline --release -p diff --features piped --bin replay_list
//!
//! The calls are made by a generator with a fixed seed: runs of several senders with losses, repeats, damage, silences around
//! 500 ms and a clock that goes back, on pools of 0 to 8; builders at any place; and pools of 9, 17, 31 and 32 with all slots in use.
//! Then pools of the mode in which a clock that was set back is silence, with a clock that is often set, for which the original is asked
//! on a clock of its own; and one as the original again.
use diff::clock::OnItsOwnClock;
use diff::ids;
use diff::receive::{self, asked, message_of, often_set_back, seldom_set_back, Heard, Original};
use diff::rng::Rng;
use diff::tally::answer_name;
use reference::hooks::{Parts, Progress};
use reference::protocol::messages::stand_for;
use reference::protocol::transport::can_id::CanIdBuilder;
use reference::protocol::transport::fast_packet::assembler::FastPacketAssembler;
use reference::protocol::transport::fast_packet::builder::FastPacketBuilder;
use std::fmt::Write;

const LIST: &[u32] = &[127_489, 129_029];

fn hex(bytes: &[u8]) -> String {
    bytes.iter().map(|b| format!("{b:02X}")).collect()
}

/// How a clock goes on: from this reading, now and then otherwise (once in so many), else by less than this.
type Clock = fn(&mut Rng, u64, u64, u64) -> u64;

fn run<const N: usize>(r: &mut Rng, frames: usize, calls: &mut String, answers: &mut String) {
    run_on(FastPacketAssembler::<N>::with_pool(LIST), seldom_set_back, N, r, frames, calls, answers);
}

/// The same in the mode of a clock that was set back.
fn run_set_back<const N: usize>(r: &mut Rng, frames: usize, calls: &mut String, answers: &mut String) {
    run_on(OnItsOwnClock::<N>::with_pool(LIST), often_set_back, N, r, frames, calls, answers);
}

fn run_on(mut a: impl Original, clock: Clock, size: usize, r: &mut Rng, frames: usize, calls: &mut String, answers: &mut String) {
    let mut now = r.pick(&[0, 1000, u64::MAX - 1_000_000]);
    let mut senders: Vec<(u8, u32, Vec<[u8; 8]>, usize)> = vec![];
    // more senders of longer messages, closer frames and fewer silences, so that a large pool fills up too
    let (most, pace, steady) = if size > 8 { (2 * size, 3, 1000) } else { (size + 3, 20, 30) };
    let mut filled = false;
    for i in 0..frames {
        now = clock(r, now, steady, pace);
        if senders.is_empty() || senders.len() < most && r.one_in(3) {
            let len = if r.one_in(2) { r.pick(&[1, 5, 6, 7, 13, 14, 20, 26]) } else { 1 + r.below(40) as usize };
            let len = if size > 8 { 40 + r.below(80) as usize } else if r.one_in(20) { 223 } else { len };
            let payload = r.vec(len);
            senders.push((r.below(size as u64 + 2) as u8, r.pick(&[127_489, 127_489, 129_029, 5]), receive::frames(r.below(8) as u8, &payload), 0));
        }
        let k = r.below(senders.len() as u64) as usize;
        let (source, pgn, fs, at) = &mut senders[k];
        let (source, pgn, mut data) = (*source, *pgn, fs[*at]);
        if r.one_in(25) {
            data[r.below(2) as usize] = r.byte();
        }
        if !r.one_in(40) {
            *at += 1;
        }
        if *at >= fs.len() || r.one_in(60) {
            senders.swap_remove(k);
        }
        let first = if i == 0 { char::from_digit(size as u32, 36).unwrap() } else { '.' };
        writeln!(calls, "{first}{now:016X}{pgn:08X}{source:02X}{}", hex(&data)).unwrap();
        let (result, said) = asked(&mut a, &Heard { now, pgn, source, data });
        let (kind, c) = (answer_name(said.kind), a.counters());
        writeln!(answers, "{kind} {} {} {} {} {} {}", c[0], c[1], c[2], c[3], c[4], hex(message_of(&result))).unwrap();
        filled |= (0..size).all(|k| a.slot(k).in_progress);
    }
    assert!(size <= 8 || filled, "all slots of {size} in use at some time");
}

fn build(r: &mut Rng, calls: &mut String, answers: &mut String) {
    let payload: Vec<u8> = (0..300).map(|i| (7 * i + 1) as u8).collect();
    let len = if r.one_in(2) { r.pick(&[0, 1, 6, 7, 8, 9, 13, 14, 222, 223, 224, 300]) } else { r.below(300) as usize };
    let sent = if r.one_in(3) { 0 } else { r.below(len as u64 + 2) as usize };
    let address = r.byte();
    let p = Parts {
        pgn: if r.one_in(8) { r.next() as u32 } else { r.pick(&[127_489, 60_928, 60_929, 126_208, 0x3_FFFF, 0x4_0000]) },
        source: r.byte(),
        destination: r.one_in(2).then_some(address),
        priority: r.byte(),
        sequence: r.byte(),
        fast: !r.one_in(3) || len > 8,
    };
    let index = r.byte();
    let line = format!(
        "B{:08X}{:02X}{:04X}{:02X}{:02X}{:02X}{index:02X}{sent:04X}{len:04X}",
        p.pgn, p.source, p.destination.map_or(256, u16::from), p.priority, p.sequence, p.fast as u8
    );
    writeln!(calls, "{line:.<43}").unwrap();
    stand_for(LIST);
    let mut it = FastPacketBuilder::new(0, 0, None, &payload[..len]).build();
    it.set_parts(p);
    it.set_progress(index, sent);
    let (what, id, data, n) = match it.next() {
        None => ("End".to_string(), 0, [0; 8], 0),
        Some(Err(e)) => (format!("Refused {}", ids::numbered(&e).0), 0, [0; 8], 0),
        Some(Ok(f)) => ("Frame".to_string(), f.id.0, f.data, f.len),
    };
    writeln!(answers, "{what} {id} {} {n} {} {}", hex(&data), it.progress().0, it.progress().1).unwrap();
    // What the original would trap at is not in the list.
    assert!(p.fast || len <= 8 || CanIdBuilder { priority: p.priority % 8, pgn: p.pgn, source_address: p.source, destination: p.destination }.build().is_err());
}

fn main() {
    let mut r = Rng::new(20_261_107);
    let (mut calls, mut answers) = (String::new(), String::new());
    for _ in 0..3 {
        let runs: [fn(&mut Rng, usize, &mut String, &mut String); 9] = [run::<0>, run::<1>, run::<2>, run::<3>, run::<4>, run::<5>, run::<6>, run::<7>, run::<8>];
        for (size, one) in runs.into_iter().enumerate() {
            one(&mut r, if size == 0 { 20 } else { 150 }, &mut calls, &mut answers);
        }
    }
    for _ in 0..1500 {
        build(&mut r, &mut calls, &mut answers);
    }
    for one in [run::<9>, run::<17>, run::<31>, run::<32>] {
        one(&mut r, 400, &mut calls, &mut answers);
    }
    writeln!(calls, "{:.<43}", "M01").unwrap();
    for one in [run_set_back::<1>, run_set_back::<2>, run_set_back::<4>, run_set_back::<8>] {
        one(&mut r, 150, &mut calls, &mut answers);
    }
    run_set_back::<32>(&mut r, 400, &mut calls, &mut answers);
    writeln!(calls, "{:.<43}", "M00").unwrap();
    run::<4>(&mut r, 150, &mut calls, &mut answers);
    let dir = concat!(env!("CARGO_MANIFEST_DIR"), "/../../crates/replay/");
    std::fs::write(format!("{dir}stdin"), &calls).unwrap();
    std::fs::write(format!("{dir}stdout"), &answers).unwrap();
    println!("{} calls", answers.lines().count());
}
