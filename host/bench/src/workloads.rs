//! Eight receive workloads, and one more for a large pool: rows of frames for a pool of some size. Then first frames alone.
use diff::receive::frames;
use diff::rng::Rng;
use port::assembler::Rows;

/// A strictly ascending list of n PGNs, with 127489 and 129029 among them.
pub fn list(n: usize) -> Vec<u32> {
    let mut l: Vec<u32> = (0..n as u32 - 2).map(|i| 126_000 + 27 * i).chain([127_489, 129_029]).collect();
    l.sort_unstable();
    l.dedup();
    l
}

/// Messages of one to six bytes.
pub fn single(n: usize) -> Rows {
    let mut w = Rows::default();
    for i in 0..n {
        w.push(i as u64, 127_489, (i % 7) as u8, frames((i % 8) as u8, &[i as u8; 6][..1 + i % 6])[0]);
    }
    w
}

/// `wide` sources in step, each sending messages of `len` bytes.
pub fn interleaved(n: usize, wide: usize, len: usize) -> Rows {
    let mut w = Rows::default();
    let mut i = 0;
    while w.len() < n {
        let all: Vec<_> = (0..wide).map(|k| frames(((i + k) % 8) as u8, &(0..len).map(|j| (i * 31 + j + k) as u8).collect::<Vec<_>>())).collect();
        for f in 0..all[0].len() {
            for (k, one) in all.iter().enumerate() {
                let t = w.len() as u64;
                w.push(t, 129_029, k as u8, one[f]);
            }
        }
        i += 1;
    }
    w
}

/// A full pool, and first frames that it refuses.
pub fn full(n: usize, size: usize) -> Rows {
    let mut w = begun(size);
    for i in 0..n - size {
        w.push(1, 127_489, 200 + (i % 8) as u8, frames((i % 8) as u8, &[9; 20])[0]);
    }
    w
}

/// Several senders, with losses, repeats, damage, silences around 500 ms and a clock that goes back.
pub fn mixed(n: usize, size: usize, seed: u64) -> Rows {
    let mut w = Rows::default();
    let mut r = Rng::new(seed);
    let mut t = 1000u64;
    let mut open: Vec<(u8, u32, Vec<[u8; 8]>, usize)> = vec![];
    while w.len() < n {
        match r.below(40) {
            0 => t += 501,
            1 => t = t.saturating_sub(600),
            2 => t += 500,
            _ => t += r.below(20),
        }
        if open.is_empty() || open.len() < size + 3 && r.one_in(3) {
            let len = match r.below(4) {
                0 => 1 + r.below(6),
                1 => 7 + r.below(20),
                2 => 223,
                _ => 1 + r.below(223),
            } as usize;
            let pgn = if r.one_in(10) { 5 } else { r.pick(&[127_489, 129_029]) };
            let payload = r.vec(len);
            open.push((r.below(size as u64 + 2) as u8, pgn, frames(r.below(8) as u8, &payload), 0));
        }
        let k = r.below(open.len() as u64) as usize;
        let (source, pgn, fs, at) = &mut open[k];
        let mut f = fs[*at];
        if r.one_in(60) {
            f[r.below(2) as usize] = r.byte();
        }
        w.push(t, *pgn, *source, f);
        if !r.one_in(80) {
            *at += 1;
        }
        if *at >= fs.len() || r.one_in(100) {
            open.swap_remove(k);
        }
    }
    w
}

pub fn all(n: usize, size: usize) -> Vec<(&'static str, Vec<u32>, Rows)> {
    let mut all = vec![
        ("single frames, list of 6", list(6), single(n)),
        ("one source, 223 bytes, list of 6", list(6), interleaved(n, 1, 223)),
        ("8 sources, 26 bytes, list of 6", list(6), interleaved(n, 8, 26)),
        ("8 sources, 223 bytes, list of 6", list(6), interleaved(n, 8, 223)),
        ("full pool, list of 6", list(6), full(n, size)),
        ("mixed and damaged, list of 6", list(6), mixed(n, size, 1)),
        ("mixed and damaged, list of 184", list(184), mixed(n, size, 2)),
        ("one source, 223 bytes, list of 184", list(184), interleaved(n, 1, 223)),
    ];
    if size > 8 {
        all.push(("a source for each slot, 26 bytes, list of 6", list(6), interleaved(n, size, 26)));
    }
    all
}

/// Whose slot a first frame comes to: one that its source had last, or one of another source.
#[derive(Clone, Copy)]
enum Sender {
    Same,
    Others,
}

impl Sender {
    fn source(self, i: usize) -> u8 {
        match self {
            Sender::Same => 200,
            Sender::Others => 200 + (i % 8) as u8,
        }
    }
}

/// `busy` slots hold a message of their own source.
fn begun(busy: usize) -> Rows {
    let mut w = Rows::default();
    for k in 0..busy {
        w.push(0, 129_029, k as u8, frames(0, &[7; 200])[0]);
    }
    w
}

/// First frames that open a free slot behind `busy` live ones. None would leave the slot free: a frame out of turn breaks each, which costs both sides little.
fn opening(n: usize, busy: usize, sender: Sender) -> Rows {
    let mut w = begun(busy);
    for i in 0..(n - busy) / 2 {
        let fs = frames((i % 8) as u8, &[9; 20]);
        w.push(1, 127_489, sender.source(i), fs[0]);
        w.push(1, 127_489, sender.source(i), fs[2]);
    }
    w
}

/// First frames 501 ms apart: whatever is in the pool has expired.
fn expired(n: usize, size: usize, sender: Sender) -> Rows {
    let mut w = begun(size);
    for i in 0..n - size {
        w.push(501 * (i as u64 + 1), 127_489, sender.source(i), frames((i % 8) as u8, &[9; 20])[0]);
    }
    w
}

/// First frames of the messages that a pool holds, `busy` of them, from slot to slot.
fn restarted(n: usize, busy: usize) -> Rows {
    let mut w = begun(busy);
    for i in 0..n - busy {
        w.push(1, 129_029, (i % busy) as u8, frames(0, &[7; 200])[0]);
    }
    w
}

pub fn first_frames(n: usize, size: usize) -> Vec<(&'static str, Vec<u32>, Rows)> {
    vec![
        ("empty, a source and its slot", list(6), opening(n, 0, Sender::Same)),
        ("empty, other sources", list(6), opening(n, 0, Sender::Others)),
        ("half full, a source and its slot", list(6), opening(n, size / 2, Sender::Same)),
        ("half full, other sources", list(6), opening(n, size / 2, Sender::Others)),
        ("full", list(6), full(n, size)),
        ("full, each message begun again", list(6), restarted(n, size)),
        ("all expired, a source and its slot", list(6), expired(n, size, Sender::Same)),
        ("all expired, other sources", list(6), expired(n, size, Sender::Others)),
        ("one message, begun again", list(6), restarted(n, 1)),
    ]
}
