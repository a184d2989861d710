//! Both sides over the same inputs in one process, repetitions interleaved: nanoseconds an item of the original (median),
//! and of the port the ratio to it (median of the ratios of neighbours, with lower and upper quartile).
//!
//! cargo run --offline --profile speed --bin bench [repetitions] [frames] [receiving, first, building, identifiers or oracle] [set-back]
//!
//! With the last word the port receives in the mode in which a clock that was set back is silence. The original has no such mode: where a workload's clock goes
//! back it answers otherwise, and its time is the measure all the same.
mod workloads;
use diff::reading::{read, Reading};
use port::assembler::{Mode, Rows};
use port::raw::{self, Pool, Told};
use reference::error::CanIdBuildError;
use reference::oracle as bench_oracle;
use reference::protocol::messages::stand_for;
use reference::protocol::transport::can_id::{CanId, CanIdBuilder};
use reference::protocol::transport::fast_packet::assembler::{FastPacketAssembler, ProcessResult};
use reference::protocol::transport::fast_packet::builder::FastPacketBuilder;
use std::hint::black_box;
use std::time::Instant;

/// The original over rows: messages end to end in the arena, its answers (which have no numbers of their own) and lengths beside.
#[inline(never)]
fn original<const N: usize>(list: &'static [u32], w: &Rows, t: &mut Told) -> usize {
    let mut a = FastPacketAssembler::<N>::with_pool(list);
    let mut at = 0;
    for i in 0..w.len() {
        let d: &[u8; 8] = w.data[i * 8..i * 8 + 8].try_into().unwrap();
        match a.process_frame(w.times[i], w.pgns[i], w.sources[i], d) {
            ProcessResult::Ignored => (t.kinds[i], t.lengths[i]) = (Reading::Ignored as u8, 0),
            ProcessResult::FragmentConsumed => (t.kinds[i], t.lengths[i]) = (Reading::FragmentConsumed as u8, 0),
            ProcessResult::MessageComplete(m) => {
                (t.kinds[i], t.lengths[i]) = (Reading::MessageComplete as u8, m.len as u8);
                t.arena[at..at + m.len].copy_from_slice(&m.payload[..m.len]);
                at += m.len;
            }
        }
    }
    at
}

/// A single call: with the counters lent, by value, or by the identifier, on a pool whose key has the destination.
#[derive(Clone, Copy)]
enum Call {
    Lent,
    ByValue,
    ById,
}

/// The port, one call a frame.
#[inline(never)]
fn one_by_one(mode: Mode, size: usize, list: &[u32], w: &Rows, call: Call, t: &mut Told) -> usize {
    let kind = if matches!(call, Call::ById) { raw::ADDRESSED } else { raw::ORIGINAL };
    let (mut p, mut c) = (fresh(mode, kind, size), [0; 5]);
    let (mut payload, mut length) = ([0; 223], 0);
    let mut at = 0;
    for i in 0..w.len() {
        let d: &[u8; 8] = w.data[i * 8..i * 8 + 8].try_into().unwrap();
        let kind = match call {
            Call::Lent => p.process_frame(&mut c, list, w.times[i], w.pgns[i], w.sources[i], d, &mut payload, &mut length),
            Call::ByValue => p.receive(&mut c, list, w.times[i], w.pgns[i], w.sources[i], d, &mut payload, &mut length),
            Call::ById => p.process_frame_by_id(&mut c, list, w.times[i], w.pgns[i] << 8 | w.sources[i] as u32, d, &mut payload, &mut length),
        };
        match kind {
            raw::NOT_LISTED | raw::REJECTED | raw::POOL_FULL | raw::LOST | raw::FRAGMENT_CONSUMED => (t.kinds[i], t.lengths[i]) = (kind as u8, 0),
            raw::MESSAGE_COMPLETE => {
                (t.kinds[i], t.lengths[i]) = (raw::MESSAGE_COMPLETE as u8, length as u8);
                t.arena[at..at + length].copy_from_slice(&payload[..length]);
                at += length;
            }
            number => panic!("refused by {number}"),
        }
    }
    at
}

fn fresh(mode: Mode, kind: u32, size: usize) -> Pool {
    let mut p = Pool::ZEROS;
    assert_eq!(p.made_with_kind(size, mode.number(), kind), 0);
    p
}

/// The port, in batches of `chunk` frames.
#[inline(never)]
fn in_batches(mode: Mode, size: usize, list: &[u32], w: &Rows, chunk: usize, t: &mut Told) -> usize {
    let (mut p, mut c) = (fresh(mode, raw::ORIGINAL, size), [0; 5]);
    let (mut i, mut at) = (0, 0);
    while i < w.len() {
        let end = (i + chunk).min(w.len());
        let mut counts = [0; 2];
        let number = p.process_frames(
            &mut c, list, &w.times[i..end], &w.pgns[i..end], &w.sources[i..end], &w.data[8 * i..8 * end], &mut t.kinds[i..end], &mut t.lengths[i..end], &mut t.arena[at..], &mut counts,
        );
        assert!(number == 0 && counts[0] as usize == end - i);
        i = end;
        at += counts[1] as usize;
    }
    at
}

/// Runs the first, the reference, and the others in turn; items for each run.
fn compare(name: &str, items: usize, reps: usize, runs: &mut [(&str, &mut dyn FnMut())]) {
    let mut times = vec![vec![]; runs.len()];
    for rep in 0..reps + 2 {
        for (k, (_, run)) in runs.iter_mut().enumerate() {
            let from = Instant::now();
            run();
            let ns = from.elapsed().as_nanos() as f64 / items as f64;
            if rep >= 2 {
                times[k].push(ns);
            }
        }
    }
    let quartiles = |mut v: Vec<f64>| {
        v.sort_by(f64::total_cmp);
        (v[v.len() / 4], v[v.len() / 2], v[v.len() * 3 / 4])
    };
    let o = quartiles(times[0].clone());
    print!("| {name} | {:.1} [{:.1}..{:.1}] |", o.1, o.0, o.2);
    for t in &times[1..] {
        let q = quartiles(t.iter().zip(&times[0]).map(|(p, o)| p / o).collect());
        print!(" {:.2} [{:.2}..{:.2}] |", q.1, q.0, q.2);
    }
    println!();
}

fn head(columns: &[&str]) {
    println!("\n| | original, ns | {} |", columns.join(" | "));
    println!("|---|---|{}", "---|".repeat(columns.len()));
}

fn receiving<const N: usize>(mode: Mode, reps: usize, title: &str, workloads: Vec<(&str, Vec<u32>, Rows)>) {
    let told = if mode == Mode::AsOriginal { "" } else { ", set back is silence" };
    println!("\n{title}{told}, pool of {N}, a frame:");
    head(&["single call", "by value", "by identifier", "batch of 1", "batch of 16", "batch of 64", "batch of 256", "batch of 1024"]);
    for (name, list, w) in workloads {
        let leaked: &'static [u32] = list.clone().leak();
        let mut t: Vec<Told> = (0..9).map(|_| Told::room(w.len(), 8 * w.len() + 300)).collect();
        let [t0, t1, t2, t3, t4, t5, t6, t7, t8] = &mut t[..] else { unreachable!() };
        compare(name, w.len(), reps, &mut [
            ("original", &mut || { black_box(original::<N>(leaked, black_box(&w), t0)); }),
            ("single", &mut || { black_box(one_by_one(mode, N, &list, black_box(&w), Call::Lent, t1)); }),
            ("by value", &mut || { black_box(one_by_one(mode, N, &list, black_box(&w), Call::ByValue, t6)); }),
            ("by identifier", &mut || { black_box(one_by_one(mode, N, &list, black_box(&w), Call::ById, t8)); }),
            ("1", &mut || { black_box(in_batches(mode, N, &list, black_box(&w), 1, t2)); }),
            ("16", &mut || { black_box(in_batches(mode, N, &list, black_box(&w), 16, t3)); }),
            ("64", &mut || { black_box(in_batches(mode, N, &list, black_box(&w), 64, t4)); }),
            ("256", &mut || { black_box(in_batches(mode, N, &list, black_box(&w), 256, t5)); }),
            ("1024", &mut || { black_box(in_batches(mode, N, &list, black_box(&w), 1024, t7)); }),
        ]);
        let readings = t[1].kinds.iter().map(|kind| read(*kind as u32) as u8).collect();
        let set_back = mode == Mode::SetBackIsSilence && !w.times.is_sorted();
        assert!(set_back || Told { kinds: readings, ..t[1].clone() } == t[0], "both sides answer alike");
        assert!(t[2..].iter().all(|x| *x == t[1]), "the calls of the port answer alike");
    }
}

/// The original's accessors, all four in one call, as the port's reading is: neither side is inlined into the loop.
#[inline(never)]
fn parts_one(id: u32) -> (u8, u32, Option<u8>, u8) {
    (CanId(id).priority(), CanId(id).pgn(), CanId(id).destination(), CanId(id).source_address())
}
#[inline(never)]
fn build_one(priority: u8, pgn: u32, source: u8, destination: Option<u8>) -> Result<CanId, CanIdBuildError> {
    CanIdBuilder { priority, pgn, source_address: source, destination }.build()
}

fn identifiers(reps: usize, n: usize) {
    println!("\nIdentifiers, one:");
    head(&["port"]);
    let mut r = diff::rng::Rng::new(9);
    let ids: Vec<u32> = (0..n).map(|_| r.next() as u32 >> 3).collect();
    compare("reading all four parts", n, reps, &mut [
        ("original", &mut || for &id in black_box(&ids) { black_box(parts_one(id)); }),
        ("port", &mut || for &id in black_box(&ids) { let _ = black_box(port::can_id::CanId(id).read()); }),
    ]);
    // priority and destination are numbers that neither compiler knows, since the archive cannot be made for one of them
    let (priority, nobody) = black_box((6, None));
    let none = black_box(256);
    compare("building", n, reps, &mut [
        ("original", &mut || for &id in black_box(&ids) { let _ = black_box(build_one(priority, id >> 8 & 0x3_FFFF, id as u8, nobody)); }),
        ("port", &mut || for &id in black_box(&ids) {
            let mut value = 0;
            let number = raw::hf_can_id_build(priority, id >> 8 & 0x3_FFFF, id as u8, none, &mut value);
            black_box((number, value));
        }),
    ]);
}

fn building(reps: usize, n: usize) {
    println!("\nBuilding, a whole message frame by frame:");
    head(&["port, step on numbers", "port, iterator"]);
    stand_for(&[127_489]);
    let payload: Vec<u8> = (0..223).map(|i| i as u8).collect();
    for (name, pgn, len) in [("223 bytes, 32 frames", 127_489, 223), ("26 bytes, 4 frames", 127_489, 26), ("8 bytes, raw", 65_280, 8)] {
        let p = &payload[..len];
        let times = n / (len / 7 + 1);
        compare(name, times, reps, &mut [
            ("original", &mut || for _ in 0..times {
                for f in FastPacketBuilder::new(pgn, 35, None, black_box(p)).build() { black_box(f.unwrap()); }
            }),
            ("step", &mut || {
                let (mut held, mut b, mut data, mut frame) = (0, [0; 6], [0; 8], [0; 3]);
                for _ in 0..times {
                    held = raw::builder_new(pgn, 35, raw::NONE, black_box(p), &[127_489], held, &mut b);
                    let mut after = [0, 0];
                    while raw::next_frame(&b, after[0] as u8, after[1] as usize, p, &mut data, &mut frame, &mut after) == 0 {
                        black_box((&data, &frame));
                    }
                }
            }),
            ("iterator", &mut || {
                let (mut held, mut b, mut data, mut frame) = (0, [0; 6], [0; 8], [0; 3]);
                for _ in 0..times {
                    held = raw::builder_new(pgn, 35, raw::NONE, black_box(p), &[127_489], held, &mut b);
                    let mut place = [0, 0];
                    raw::hf_raw_builder_build(&b, &mut place);
                    while raw::frame_iterator_next(&b, &mut place, p, &mut data, &mut frame) == 0 {
                        black_box((&data, &frame));
                    }
                }
            }),
        ]);
    }
}

fn oracle(reps: usize, n: usize) {
    println!("\nThe bench, a frame:");
    head(&["port"]);
    for (name, len) in [("strict reassembly, 223 bytes", 223), ("strict reassembly, 26 bytes", 26)] {
        let mut frames = vec![];
        let mut rows = port::oracle::Frames::default();
        let mut k = 0usize;
        while frames.len() < n {
            let payload: Vec<u8> = (0..len).map(|j| (k * 7 + j) as u8).collect();
            for f in bench_oracle::fast_packet_frames(0x19F2_0123, (k % 8) as u8, &payload) {
                rows.push(f.id, f.data.clone().try_into().unwrap(), 8);
                frames.push(f);
            }
            k += 1;
        }
        let (mut list, mut arena) = (vec![0; 3 * k], vec![0; len * k]);
        compare(name, frames.len(), reps, &mut [
            ("original", &mut || { black_box(bench_oracle::reassemble(black_box(&frames), 35, 127_489).unwrap()); }),
            ("port", &mut || { black_box(port::oracle::reassemble(black_box(&rows), 35, 127_489, &mut list, &mut arena).unwrap()); }),
        ]);
    }
    let mut frames = vec![bench_oracle::Frame { id: 0x18EE_FF23, data: vec![0; 8] }];
    let mut rows = port::oracle::Frames::default();
    rows.push(0x18EE_FF23, [0; 8], 8);
    let count = n / 4;
    for i in 0..count {
        let mut p = [0u8; 26];
        p[19] = 0xFF;
        p[11..15].copy_from_slice(&(i as u32).to_le_bytes());
        for f in bench_oracle::fast_packet_frames(0x19F2_0123, (i % 8) as u8, &p) {
            rows.push(f.id, f.data.clone().try_into().unwrap(), 8);
            frames.push(f);
        }
    }
    compare("transmit check", frames.len(), reps, &mut [
        ("original", &mut || bench_oracle::check_tx(black_box(&frames), 35, count, 0).unwrap()),
        ("port", &mut || port::oracle::check_tx(black_box(&rows), 35, count, 0).unwrap()),
    ]);
    let payload: Vec<u8> = (0..223).map(|i| i as u8).collect();
    let mut row = port::oracle::Frames::room(32);
    compare("splitter, 223 bytes", 32 * (n / 32), reps, &mut [
        ("original", &mut || for _ in 0..n / 32 { black_box(bench_oracle::fast_packet_frames(0x19F2_0123, 3, black_box(&payload))); }),
        ("port", &mut || for _ in 0..n / 32 { black_box(port::oracle::fast_packet_frames(0x19F2_0123, 3, black_box(&payload), &mut row).unwrap()); }),
    ]);
}

fn main() {
    let number = |k: usize, other: usize| std::env::args().nth(k).and_then(|x| x.parse().ok()).unwrap_or(other);
    let (reps, n) = (number(1, 31), number(2, 16_384));
    println!("{reps} repetitions, interleaved, {n} frames each; the port as the ratio to the original: median [lower quartile..upper quartile]");
    let only = std::env::args().nth(3);
    let wanted = |name: &str| only.as_deref().is_none_or(|o| o == name);
    let mode = if std::env::args().nth(4).is_some_and(|word| word == "set-back") { Mode::SetBackIsSilence } else { Mode::AsOriginal };
    if wanted("receiving") {
        receiving::<4>(mode, reps, "Receiving", workloads::all(n, 4));
        receiving::<8>(mode, reps, "Receiving", workloads::all(n, 8));
        receiving::<32>(mode, reps, "Receiving", workloads::all(n, 32));
    }
    if wanted("first") {
        receiving::<4>(mode, reps, "First frames", workloads::first_frames(n, 4));
        receiving::<8>(mode, reps, "First frames", workloads::first_frames(n, 8));
        receiving::<32>(mode, reps, "First frames", workloads::first_frames(n, 32));
    }
    if wanted("building") {
        building(reps, n);
    }
    if wanted("identifiers") {
        identifiers(reps, n);
    }
    if wanted("oracle") {
        oracle(reps, n);
    }
}
