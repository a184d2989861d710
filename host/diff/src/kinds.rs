//! The kinds of a pool, document 02's No. 12: making one of each, numbers that are no kind, and the request's own cases, by every call and with the exact answer, counters
//! and pool that each must leave.
use crate::destination::{Chosen, ADDRESSED, ADDRESSED_SET_BACK, AS_ORIGINAL, CHOICES, SET_BACK};
use crate::modes::{continuation, first_frame, never_heard, open_at, opened, reset, NEITHER};
use crate::receive::{
    batch_refused, by_every_call, called, called_by_id, called_by_pgn, frames, head, heard, made_with_kind, one_row, pool_of, possible, refused_by_every_call, sizes_asked_for, Answer,
    Heard, Pair, Slots, LENT, LIMIT, NO_CUT, PART, REFUSED, REFUSED_AS_TOO_WIDE, SINGLE_CALLS, USED,
};
use crate::rng::Rng;
use port::assembler::{self as ours, Addressed, Mode, Original};
use port::error::ImpossiblePool;
use port::raw::{self, Pool, SLOT_NUMBERS};
use reference::hooks::Slot;

// ---- making

/// Pools of every size, and above, in each mode and of each kind, and by numbers that are neither. A pool that is refused is of size 0, in the mode and of the kind asked
/// for, or as the original where that is none; its slots are as they were.
pub fn making() -> u64 {
    let numbers_asked_for: Vec<(u32, u32)> = [(0, 0), (0, 1), (1, 0), (1, 1)].into_iter().chain(NEITHER.into_iter().flat_map(|n| [(0, n), (1, n), (n, 1), (n, n)])).collect();
    let mut steps = 0;
    for size in sizes_asked_for() {
        for &(mode, kind) in &numbers_asked_for {
            let (none, too_large) = (mode > 1 || kind > 1, size > LIMIT);
            let number_left = |n: u32| if n > 1 { 0 } else { n };
            let (size_left, before) = if none || too_large { (0, USED) } else { (size, Pool::ZEROS) };
            let left = Pool { size: size_left, mode: number_left(mode), kind: number_left(kind), ..before };
            let mut p = USED;
            assert_eq!((made_with_kind(&mut p, size, mode, kind), p), ((none || too_large) as u32, left), "mode {mode}, kind {kind}, size {size}");
            steps += 1;
        }
        for mode in [Mode::AsOriginal, Mode::SetBackIsSilence] {
            assert_eq!(ours::Pool::with_kind(size, mode, Original), ours::Pool::with_mode(size, mode), "`with_mode` makes them of the original's kind");
            let addressed = ours::Pool::with_kind(size, mode, Addressed).map(|p| (p.size(), p.mode()));
            assert_eq!(addressed, if size > LIMIT { Err(ImpossiblePool) } else { Ok((size, mode)) });
        }
    }
    steps
}

/// A pool whose number is no kind: 1 by every call of either kind, whatever its slots and the frame are, and nothing changed, also not numbers wider than their fields.
pub fn no_kind() -> u64 {
    let mut r = Rng::new(33);
    CHOICES.into_iter().map(|chosen| NEITHER.into_iter().map(|kind| never_heard(&mut r, chosen, |p| p.kind = kind)).sum::<u64>()).sum()
}

// ---- what no pool hears

/// A list that has every PGN of the cases.
const LIST: [u32; 3] = [126_208, 127_489, 129_029];

/// Numbers of 2^29 and more; the second is P3 with one flag.
const WIDE: [u32; 7] = [0x2000_0000, 0x2DED_1023, 0x3FFF_FFFF, 0x4000_0000, 0x8DED_1023, 0x99F2_0123, u32::MAX];

/// An identifier that is too wide: 8 by every call that takes one, before all else, whatever the pool, the list and the length are, and nothing changed.
pub fn too_wide() -> u64 {
    let full = pool_of(ADDRESSED, 4, &[open_at(ADDRESSED, 1000); LIMIT]);
    let bent = |bend: fn(&mut Pool)| {
        let mut p = full.clone();
        bend(&mut p);
        p
    };
    let mut steps = 0;
    for before in [
        full.clone(),
        bent(|p| p.size = 0),
        bent(|p| p.size = LIMIT + 1),
        bent(|p| p.heads[2] = 8),
        bent(|p| p.heads[PART] = 0),
        bent(|p| p.heads[PART] = 257),
        bent(|p| p.kind = raw::ORIGINAL),
        bent(|p| p.kind = 2),
        bent(|p| p.mode = 2),
        pool_of(AS_ORIGINAL, 4, &[Slot::FRESH; LIMIT]),
    ] {
        let (mut p, mut c) = (before.clone(), [7; 5]);
        for id in WIDE {
            for list in [&[][..], &LIST] {
                for (length, by_value) in SINGLE_CALLS.into_iter().chain([(Some(0), false), (Some(usize::MAX), false)]) {
                    let got = called_by_id(&mut p, &mut c, list, &continuation(ADDRESSED, 1000), id, length, by_value);
                    assert_eq!(got, REFUSED_AS_TOO_WIDE, "{id:#010X} on {before:?}");
                    steps += 1;
                }
            }
        }
        assert_eq!((p, c), (before, [7; 5]), "nothing has changed");
    }
    steps
}

/// The last number that is not too wide, 0x1FFFFFFF, is read: PGN 0x3FFFF, to nobody, of source 255.
pub fn the_last_identifier() -> u64 {
    let h = Heard { now: 7, pgn: 0x3_FFFF, source: 255, data: [0, 20, 21, 22, 23, 24, 25, 26] };
    assert_eq!(h.id(), 0x1FFF_FFFF);
    for chosen in [ADDRESSED, ADDRESSED_SET_BACK] {
        let (kind, slots) = by_every_call(chosen, 1, &[Slot::FRESH; LIMIT], &[0x3_FFFF], &h);
        assert_eq!((kind, slots[0]), (raw::FRAGMENT_CONSUMED, opened(Slot::FRESH, &h)));
        let (kind, slots) = by_every_call(chosen, 1, &[Slot::FRESH; LIMIT], &LIST, &h);
        assert_eq!((kind, slots[0]), (raw::NOT_LISTED, Slot::FRESH));
    }
    4
}

/// A pool at the other kind's entry: 1, whether the PGN is listed or not, whatever the frame is, and also where the pool has no slot. The batch is of the original's kind,
/// and 1 comes before 27 there.
pub fn at_the_other_kinds_entry() -> u64 {
    let mut steps = 0;
    for chosen in CHOICES {
        let own = open_at(chosen, 1000);
        for (size, slot) in [(0, Slot::FRESH), (1, Slot::FRESH), (1, own), (4, own), (LIMIT, own)] {
            let before = pool_of(chosen, size, &[slot; LIMIT]);
            let short = Heard { data: [0, 2, 21, 22, 23, 24, 25, 26], ..continuation(chosen, 1000) };
            let other_pgns = [126_208, 127_489, 5].map(|pgn| Heard { pgn, ..first_frame(chosen, 35, 1000) });
            for h in [continuation(chosen, 1000), first_frame(chosen, 35, 1000), first_frame(chosen, 36, 1000), short].into_iter().chain(other_pgns) {
                for list in [&[][..], &LIST] {
                    let (mut p, mut c) = (before.clone(), [7; 5]);
                    for (length, by_value) in SINGLE_CALLS.into_iter().chain([(Some(0), false)]) {
                        let got = match chosen.addressed {
                            true => called_by_pgn(&mut p, &mut c, list, &h, length, by_value),
                            false => called_by_id(&mut p, &mut c, list, &h, h.id(), length, by_value),
                        };
                        assert_eq!(got, REFUSED, "{chosen:?}, {h:?}");
                        steps += 1;
                    }
                    assert_eq!((&p, c), (&before, [7; 5]), "nothing has changed");
                    for cut in (0..=NO_CUT).filter(|_| chosen.addressed) {
                        assert_eq!(batch_refused(&before, [7; 5], list, &one_row(&h), cut), 1);
                        steps += 1;
                    }
                }
            }
        }
    }
    steps
}

// ---- two displays

/// A message by its frames, from source 35 with sequence 0.
fn sent(pgn: u32, payload: &[u8]) -> Vec<Heard> {
    frames(0, payload).into_iter().map(|data| Heard { now: 1000, pgn, source: 35, data }).collect()
}

/// The same to two displays at once, in turn.
fn sent_in_turn(pgns: [u32; 2], [one, other]: [&[u8]; 2]) -> Vec<Heard> {
    sent(pgns[0], one).into_iter().zip(sent(pgns[1], other)).flat_map(|(a, b)| [a, b]).collect()
}

/// These frames from a fresh pool of four, held to the original, and by every single call: each kind, each message, and the slots that are left. How many calls there were.
fn come_to(chosen: Chosen, frames: &[Heard], due: &[(u32, &[u8])], left: [[u64; SLOT_NUMBERS]; 2]) -> u64 {
    assert_eq!(frames.len(), due.len());
    let list = [126_208, 127_489];
    let mut pair = Pair::fresh(chosen, 4, &list);
    let held: Vec<Answer> = frames.iter().map(|h| pair.hear(h, None)).collect();
    for (length, by_value) in SINGLE_CALLS {
        let (mut p, mut c) = (pool_of(chosen, 4, &[Slot::FRESH; LIMIT]), [0; 5]);
        for ((h, (kind, message)), held) in frames.iter().zip(due).zip(&held) {
            let got = called(&mut p, &mut c, &list, h, length, by_value);
            assert_eq!((got.kind, &got.payload[..got.length], &got), (*kind, *message, held), "{chosen:?}, {h:?}");
        }
        assert_eq!([head(&p, 0), head(&p, 1)], left, "{chosen:?}");
        assert_eq!(c, pair.counters());
    }
    (1 + SINGLE_CALLS.len() as u64) * frames.len() as u64
}

const FRESH: [u64; SLOT_NUMBERS] = [0; SLOT_NUMBERS];
/// A slot of source 35 after a reset, last heard at 1000: its part is none, and its source is kept.
const ENDED: [u64; SLOT_NUMBERS] = [0, 35, 0, 0, 0, 0, 0, 0, 1000];

/// "One gateway's two 126208 answers to two displays at once": two messages, both whole, where the key has the destination; in the original's kind what the original makes of
/// them, of 14 bytes none and of 8 one that is half of each.
pub fn two_displays() -> u64 {
    const TAKEN: (u32, &[u8]) = (raw::FRAGMENT_CONSUMED, &[]);
    const LOST: (u32, &[u8]) = (raw::LOST, &[]);
    fn whole(message: &[u8]) -> (u32, &[u8]) {
        (raw::MESSAGE_COMPLETE, message)
    }
    let long: [&[u8]; 2] = [b"abcdefghijklmn", b"ABCDEFGHIJKLMN"];
    let short: [&[u8]; 2] = [b"abcdefgh", b"ABCDEFGH"];
    let (displays, one_key) = ([126_208 + 16, 126_208 + 17], [126_208; 2]);
    let mut steps = 0;
    for chosen in [ADDRESSED, ADDRESSED_SET_BACK] {
        steps += come_to(chosen, &sent_in_turn(displays, long), &[TAKEN, TAKEN, TAKEN, TAKEN, whole(long[0]), whole(long[1])], [ENDED, ENDED]);
        steps += come_to(chosen, &sent_in_turn(displays, short), &[TAKEN, TAKEN, whole(short[0]), whole(short[1])], [ENDED, ENDED]);
        // half heard: the part is the destination plus 1
        let half = |part| [1, 35, 0, 0, 126_208, part, 14, 6, 1000];
        steps += come_to(chosen, &sent_in_turn(displays, long)[..2], &[TAKEN; 2], [half(17), half(18)]);
        let ends = [126_208, 126_208 + 255];
        steps += come_to(chosen, &sent_in_turn(ends, long)[..2], &[TAKEN; 2], [half(1), half(256)]);
        // a PGN that goes to everybody has none, and one sender's two messages are one
        let everybody = sent_in_turn([127_489; 2], long);
        steps += come_to(chosen, &everybody[..2], &[TAKEN; 2], [[1, 35, 0, 0, 127_489, 0, 14, 6, 1000], FRESH]);
        steps += come_to(chosen, &everybody, &[TAKEN, TAKEN, TAKEN, LOST, LOST, LOST], [ENDED, FRESH]);
    }
    for chosen in [AS_ORIGINAL, SET_BACK] {
        steps += come_to(chosen, &sent_in_turn(one_key, long), &[TAKEN, TAKEN, TAKEN, LOST, LOST, LOST], [ENDED, FRESH]);
        steps += come_to(chosen, &sent_in_turn(one_key, short), &[TAKEN, TAKEN, whole(b"ABCDEFgh"), LOST], [ENDED, FRESH]);
        steps += come_to(chosen, &sent_in_turn(one_key, long)[..2], &[TAKEN; 2], [[1, 35, 0, 0, 126_208, 0, 14, 6, 1000], FRESH]);
    }
    steps
}

/// PGNs that go to everybody, on any possible pool of them: the key has none, so both kinds answer alike and leave the same, but for the kind itself.
pub fn to_everybody(seed: u64, steps: u64) -> u64 {
    const TO_EVERYBODY: [u32; 3] = [127_489, 129_029, 130_824];
    let mut r = Rng::new(seed);
    for _ in 0..steps {
        let [one, other] = r.pick(&[[AS_ORIGINAL, ADDRESSED], [SET_BACK, ADDRESSED_SET_BACK]]);
        let now = r.pick(&[500, 1000, 100_000]);
        let slots: Slots = std::array::from_fn(|_| match possible(one, &mut r, now) {
            s if s.in_progress => Slot { pgn: r.pick(&TO_EVERYBODY), ..s },
            idle => idle,
        });
        let size = r.below(LIMIT as u64 + 1) as usize;
        let mut h = heard(one, &mut r, &slots[..size], now);
        if !TO_EVERYBODY.contains(&h.pgn) {
            h.pgn = r.pick(&TO_EVERYBODY);
        }
        let list = r.pick(&one.lists());
        for (length, by_value) in SINGLE_CALLS.into_iter().chain([(Some(r.below(8) as usize), false)]) {
            let left = [one, other].map(|chosen| {
                let (mut p, mut c) = (pool_of(chosen, size, &slots), [7; 5]);
                let got = called(&mut p, &mut c, list, &h, length, by_value);
                (got, c, Pool { kind: 0xEE, ..p })
            });
            assert_eq!(left[0], left[1], "{h:?}, length {length:?}");
        }
    }
    steps
}

// ---- the part of a slot

/// A PGN, a number for the part, and whether a slot in progress may have them: in the original's kind, and where the key has the destination. By hand, from the request.
const PARTS: [(u32, u64, [bool; 2]); 27] = [
    (126_208, 0, [true, false]),
    (126_208, 1, [false, true]),
    (126_208, 16, [false, true]),
    (126_208, 17, [false, true]),
    (126_208, 256, [false, true]),
    (126_208, 257, [false, false]),
    (126_208, 0xFFFF, [false, false]),
    (126_208, 0x1_0000, [true, false]), // read as none
    (126_208, 0x1_0011, [false, true]), // read as that of 16
    (127_489, 0, [true, true]),
    (127_489, 1, [false, false]),
    (127_489, 16, [false, false]),
    (127_489, 17, [false, false]),
    (127_489, 256, [false, false]),
    (127_489, 257, [false, false]),
    (127_489, 0x1_0000, [true, true]),
    (0, 0, [true, false]),
    (0, 1, [false, true]),
    (0xEFFF, 0, [true, false]), // the last PF that has a destination, and the first that has none
    (0xEFFF, 1, [false, true]),
    (0xF000, 0, [true, true]),
    (0xF000, 1, [false, false]),
    (126_209, 17, [false, true]), // PGNs that no identifier has
    (0xFFFF_EF00, 0, [true, false]),
    (0xFFFF_EF00, 256, [false, true]),
    (0xFFFF_F000, 0, [true, true]),
    (0xFFFF_F000, 256, [false, false]),
];

/// Each row of the table in a slot in progress within the size: 1 by every call, listed or not, or the pool is heard. Idle, or past the size, the part is not looked at.
pub fn parts() -> u64 {
    let mut steps = 0;
    for chosen in CHOICES {
        for (pgn, part, allowed) in PARTS {
            let own = Slot { source: 9, ..open_at(chosen, 1000) };
            for (in_progress, size) in [(true, 2), (false, 2), (true, 1), (false, 1)] {
                let mut before = pool_of(chosen, size, &std::array::from_fn(|k| if k == 1 { Slot { in_progress, ..own } } else { Slot::FRESH }));
                (before.heads[SLOT_NUMBERS + 4], before.heads[SLOT_NUMBERS + PART]) = (pgn as u64, part);
                let h = first_frame(chosen, 35, 1000);
                for list in [&[][..], &LIST] {
                    if in_progress && size == 2 && !allowed[chosen.kind() as usize] {
                        refused_by_every_call(&before, list, &h);
                    } else {
                        // the frame is not listed, or opens the first slot
                        let (kind, raised, first) = match list.is_empty() {
                            true => (raw::NOT_LISTED, [7, 7, 7, 7, 8], Slot::FRESH),
                            false => (raw::FRAGMENT_CONSUMED, [7; 5], opened(Slot::FRESH, &h)),
                        };
                        let mut after = pool_of(chosen, size, &[first; LIMIT]);
                        after.heads[SLOT_NUMBERS..].copy_from_slice(&before.heads[SLOT_NUMBERS..]);
                        after.bytes[223..].copy_from_slice(&before.bytes[223..]);
                        for (length, by_value) in SINGLE_CALLS {
                            let (mut p, mut c) = (before.clone(), [7; 5]);
                            assert_eq!(called(&mut p, &mut c, list, &h, length, by_value), Answer { kind, length: 0, ..LENT }, "{chosen:?}, PGN {pgn}, part {part}");
                            assert_eq!((&p, c), (&after, raised), "{chosen:?}, PGN {pgn}, part {part}");
                        }
                    }
                    steps += 3;
                }
            }
        }
    }
    steps
}

/// A session is found by its own destination and no other, from the first to the last; by a PGN that no identifier has, never, and its slot is taken all the same.
pub fn found_by_destination() -> u64 {
    let mut steps = 0;
    for chosen in [ADDRESSED, ADDRESSED_SET_BACK] {
        for destination in [0, 1, 16, 17, 254, 255] {
            let own = Slot { pgn: 126_208 + destination, ..open_at(chosen, 1000) };
            for heard_by in [0, 1, 15, 16, 17, 18, 254, 255] {
                let h = Heard { pgn: 126_208 + heard_by, ..continuation(chosen, 1000) };
                let (kind, slots) = by_every_call(chosen, 1, &[own; LIMIT], &LIST, &h);
                assert_eq!((kind, slots[0] != own), if heard_by == destination { (raw::FRAGMENT_CONSUMED, true) } else { (raw::LOST, false) }, "{destination}, {heard_by}");
                steps += 1;
            }
        }
        // 126209 to 16, beside 126208 to 16 and to 17
        let mut before = pool_of(chosen, 1, &[open_at(chosen, 1000); LIMIT]);
        before.heads[4] = 126_209;
        for pgn in [126_208 + 16, 126_208 + 17, 126_464 + 16] {
            for (h, due) in [(continuation(chosen, 1000), raw::LOST), (first_frame(chosen, 35, 1000), raw::POOL_FULL)] {
                for (length, by_value) in SINGLE_CALLS {
                    let (mut p, mut c) = (before.clone(), [7; 5]);
                    assert_eq!(called(&mut p, &mut c, &[126_208, 126_209, 126_464], &Heard { pgn, ..h }, length, by_value).kind, due);
                    assert_eq!(p, before);
                    steps += 1;
                }
            }
        }
    }
    steps
}

/// "A reset makes the part none": of a message that is whole, of a frame out of turn and of one cut short; the source, the buffer and the time are kept.
pub fn resets() -> u64 {
    let mut steps = 0;
    for chosen in [ADDRESSED, ADDRESSED_SET_BACK] {
        let h = continuation(chosen, 1000);
        for (expected, data, length, kind) in [(8, h.data, 8, raw::MESSAGE_COMPLETE), (14, [2, 11, 12, 13, 14, 15, 16, 17], 8, raw::LOST), (14, h.data, 7, raw::LOST)] {
            let (mut p, mut c) = (pool_of(chosen, 1, &[Slot { expected, ..open_at(chosen, 1000) }; LIMIT]), [7; 5]);
            assert_eq!(head(&p, 0), [1, 35, 0, 0, 126_208, 17, expected as u64, 6, 1000]);
            assert_eq!(called(&mut p, &mut c, &LIST, &Heard { data, ..h }, Some(length), false).kind, kind);
            assert_eq!((head(&p, 0), p.bytes[5]), (&ENDED[..], 0x77));
            steps += 1;
        }
    }
    steps
}

/// The preference among free slots goes by the source alone, in both kinds; before it comes the key, silent or not.
pub fn preferred() -> u64 {
    let mut steps = 0;
    for chosen in CHOICES {
        let [pgn, other_pgn] = chosen.two_pgns();
        let silent = |pgn| Slot { pgn, ..open_at(chosen, 499) };
        let live = open_at(chosen, 1000);
        let idle = |source| Slot { source, ..reset(live) };
        let h = Heard { pgn: other_pgn, ..first_frame(chosen, 35, 1000) };
        for (slots, taken) in [
            ([idle(9), silent(pgn), idle(9)], 1),
            ([idle(9), idle(35), idle(9)], 1),
            ([live, idle(9), idle(35)], 2),
            ([live, idle(9), silent(pgn)], 2),
            ([silent(pgn), silent(other_pgn), idle(35)], 1),
            ([live, idle(9), idle(10)], 1),
        ] {
            let before: Slots = std::array::from_fn(|k| slots[k % 3]);
            let mut after = before;
            after[taken] = opened(before[taken], &h);
            assert_eq!(by_every_call(chosen, 3, &before, &LIST, &h), (raw::FRAGMENT_CONSUMED, after), "{chosen:?}");
            steps += 1;
        }
    }
    steps
}
