//! The modes of a pool, document 02's No. 10: making one in each, numbers that are no mode, and the request's own cases, by every call, in both of No. 12's kinds and with
//! the exact answer, counters and pool that each must leave.
use crate::destination::{Chosen, ADDRESSED, AS_ORIGINAL, CHOICES};
use crate::receive::{
    batched, called, lent, made_as, made_with_mode, one_row, pool_of, refused, refused_by_every_call, sizes_asked_for, widened, Answer, Heard, Slots, LENT, LIMIT, SINGLE_CALLS, USED,
};
use crate::rng::Rng;
use port::assembler::{self as ours, Mode, Rows};
use port::error::ImpossiblePool;
use port::raw::{self, Counters, Pool};
use reference::hooks::Slot;

/// Numbers that are no mode, and no kind; some have one in their low bits.
pub const NEITHER: [u32; 7] = [2, 3, 255, 256, 257, 1 << 31, u32::MAX];

/// Pools of every size, and above, in each mode and by numbers that are none. A pool that is refused is of size 0, in the mode asked for, or as the original where
/// that is none; its slots are as they were.
pub fn making() -> u64 {
    let mut steps = 0;
    for size in sizes_asked_for() {
        for (mode, number) in [(Mode::AsOriginal, 0), (Mode::SetBackIsSilence, 1)] {
            let left = if size > LIMIT { Pool { size: 0, mode: number, kind: 0, ..USED } } else { Pool { size, mode: number, ..Pool::ZEROS } };
            let mut p = USED;
            assert_eq!((made_with_mode(&mut p, size, number), p), ((size > LIMIT) as u32, left));
            let ours = ours::Pool::with_mode(size, mode);
            assert_eq!(ours.as_ref().map(|p| (p.size(), p.mode())), if size > LIMIT { Err(&ImpossiblePool) } else { Ok((size, mode)) });
            assert_eq!(ours == ours::Pool::new(size), mode == Mode::AsOriginal || size > LIMIT, "`new` makes them as the original");
            steps += 1;
        }
        for mode in NEITHER {
            let mut p = USED;
            assert_eq!((made_with_mode(&mut p, size, mode), p), (1, Pool { size: 0, mode: 0, kind: 0, ..USED }), "mode {mode}, size {size}");
            steps += 1;
        }
    }
    steps
}

/// A pool whose number is no mode: 1 by every call of either kind, whatever its slots and the frame are, and nothing changed, also not numbers wider than their fields.
pub fn no_mode() -> u64 {
    let mut r = Rng::new(32);
    [AS_ORIGINAL, ADDRESSED].into_iter().map(|chosen| NEITHER.into_iter().map(|mode| never_heard(&mut r, chosen, |p| p.mode = mode)).sum::<u64>()).sum()
}

/// Pools of every kind of slot, bent so that every call refuses them.
pub(crate) fn never_heard(r: &mut Rng, chosen: Chosen, bend: impl Fn(&mut Pool)) -> u64 {
    let mut steps = 0;
    let own = open_at(chosen, 1000);
    let impossible = Slot { sequence: 8, ..own };
    for (size, slot) in [(0, Slot::FRESH), (1, Slot::FRESH), (4, own), (LIMIT, own), (LIMIT + 1, own), (1, impossible)] {
        let mut p = pool_of(chosen, size, &[slot; LIMIT]);
        bend(&mut p);
        let wide = Pool { heads: widened(r, &p.heads), ..p.clone() };
        let first = |source, now| first_frame(chosen, source, now);
        for h in [continuation(chosen, 1000), continuation(chosen, 999), first(35, 1000), first(36, 999), short_first_frame(chosen, 0), Heard { pgn: 5, ..first(35, 1000) }] {
            for list in [&[][..], &[chosen.named(h.pgn)]] {
                refused_by_every_call(&p, list, &h);
                refused(&p, [7; 5], list, &h, Some(r.below(8) as usize), false);
                refused_by_every_call(&wide, list, &h);
                steps += 3;
            }
        }
    }
    steps
}

// ---- the request's cases: a pool of one slot

/// A session of source 35 with 6 of 14 bytes, last heard at this time.
pub(crate) fn open_at(chosen: Chosen, last_time: u64) -> Slot {
    let [pgn, _] = chosen.two_pgns();
    Slot { in_progress: true, source: 35, pgn, sequence: 0, bytes: [0x77; 223], expected: 14, current: 6, last_index: 0, last_time }
}

/// Its next frame.
pub(crate) fn continuation(chosen: Chosen, now: u64) -> Heard {
    let [pgn, _] = chosen.two_pgns();
    Heard { now, pgn, source: 35, data: [1, 11, 12, 13, 14, 15, 16, 17] }
}

/// A first frame of the session's key, or by another source of another.
pub(crate) fn first_frame(chosen: Chosen, source: u8, now: u64) -> Heard {
    Heard { source, data: [0, 20, 21, 22, 23, 24, 25, 26], ..continuation(chosen, now) }
}

/// A message that needs no slot, with the session's key.
fn short_first_frame(chosen: Chosen, now: u64) -> Heard {
    Heard { data: [0, 2, 21, 22, 23, 24, 25, 26], ..continuation(chosen, now) }
}

fn with_bytes(slot: Slot, at: usize, more: &[u8]) -> Slot {
    let mut bytes = slot.bytes;
    bytes[at..at + more.len()].copy_from_slice(more);
    Slot { bytes, ..slot }
}

/// The slot once its next frame was taken.
fn continued(slot: Slot, now: u64) -> Slot {
    Slot { current: 13, last_index: 1, last_time: now, ..with_bytes(slot, 6, &[11, 12, 13, 14, 15, 16, 17]) }
}

/// The slot once a first frame was taken there.
pub(crate) fn opened(slot: Slot, h: &Heard) -> Slot {
    let begun = Slot { in_progress: true, source: h.source, pgn: h.pgn, sequence: 0, expected: 20, current: 6, last_index: 0, last_time: h.now, ..slot };
    with_bytes(begun, 0, &[21, 22, 23, 24, 25, 26])
}

/// The slot after a reset: "source, buffer and time kept".
pub(crate) fn reset(slot: Slot) -> Slot {
    Slot { in_progress: false, pgn: 0, sequence: 0, expected: 0, current: 0, last_index: 0, ..slot }
}

const EXPIRED: [u32; 5] = [1, 0, 0, 0, 0];
const EXHAUSTED: [u32; 5] = [0, 1, 0, 0, 0];
const LOST: [u32; 5] = [0, 0, 0, 1, 0];
const UNKNOWN: [u32; 5] = [0, 0, 0, 0, 1];
const NOTHING: [u32; 5] = [0; 5];

/// What a call must leave: its kind and message, the counters that it raises, and the slot.
#[derive(Clone, Copy)]
struct Due<'a> {
    kind: u32,
    message: &'a [u8],
    raised: Counters,
    slot: Slot,
}

fn due(kind: u32, raised: Counters, slot: Slot) -> Due<'static> {
    Due { kind, message: &[], raised, slot }
}

/// One slot in a pool that has memory for more.
fn alone(chosen: Chosen, slot: Slot) -> Slots {
    std::array::from_fn(|k| if k == 0 { slot } else { open_at(chosen, 1000) })
}

/// One frame on a pool of one slot by every call of its kind: exactly this answer, these counters and this pool. How many calls there were.
fn leaves(chosen: Chosen, slot: Slot, h: &Heard, due: Due) -> u64 {
    let list = chosen.two_pgns().map(|pgn| chosen.named(pgn));
    let mut payload = LENT.payload;
    if due.kind == raw::MESSAGE_COMPLETE {
        payload = [0; 223];
        payload[..due.message.len()].copy_from_slice(due.message);
    }
    let answer = Answer { kind: due.kind, payload, length: due.message.len() };
    let (before, after) = (pool_of(chosen, 1, &alone(chosen, slot)), pool_of(chosen, 1, &alone(chosen, due.slot)));
    let counters = due.raised.map(|n| 7 + n);
    for (length, by_value) in SINGLE_CALLS {
        let (mut p, mut c) = (before.clone(), [7; 5]);
        let got = called(&mut p, &mut c, &list, h, length, by_value);
        assert_eq!((got, c, p), (answer.clone(), counters, after.clone()), "{chosen:?}, {h:?} on {slot:?}");
    }
    let single = SINGLE_CALLS.len() as u64;
    if chosen.addressed {
        return single;
    }
    let (mut p, mut c, mut told) = (before, [7; 5], lent(1, 20));
    assert_eq!(batched(&mut p, &mut c, &list, &one_row(h), &mut told), (0, 1, due.message.len()));
    assert_eq!((told.kinds[0] as u32, told.lengths[0] as usize, &told.arena[..due.message.len()]), (due.kind, due.message.len(), due.message));
    assert_eq!((c, p), (counters, after), "a batch: {chosen:?}, {h:?} on {slot:?}");
    single + 1
}

const MAX: u64 = u64::MAX;

/// Last time and now; whether the slot is then silent over 500 as the original has it, and where a clock that was set back is silence. By hand, from the request.
const READINGS: [(u64, u64, [bool; 2]); 26] = [
    (1000, 999, [false, true]),
    (1000, 1000, [false, false]),
    (1000, 1001, [false, false]),
    (1000, 1500, [false, false]),
    (1000, 1501, [true, true]),
    (1000, 0, [false, true]), // P12
    (1000, 499, [false, true]),
    (1000, 500, [false, true]),
    (1000, MAX, [true, true]),
    (6 * 3_600_000, 3_600_000, [false, true]), // five hours back
    (0, 0, [false, false]),
    (0, 1, [false, false]),
    (1, 0, [false, true]),
    (0, 500, [false, false]),
    (500, 0, [false, true]),
    (0, 501, [true, true]),
    (501, 0, [false, true]),
    (0, MAX, [true, true]),
    (MAX, 0, [false, true]),
    (1, MAX, [true, true]),
    (MAX, 1, [false, true]),
    (MAX, MAX, [false, false]),
    (MAX - 1, MAX, [false, false]),
    (MAX, MAX - 1, [false, true]),
    (MAX - 500, MAX, [false, false]),
    (MAX - 501, MAX, [true, true]),
];

/// Each row of the table for every choice: what is chosen, last time, now, silent.
fn readings() -> impl Iterator<Item = (Chosen, u64, u64, bool)> {
    READINGS.into_iter().flat_map(|(last, now, silent)| CHOICES.into_iter().map(move |chosen| (chosen, last, now, silent[chosen.mode.number() as usize])))
}

/// A continuation is taken, and its time is now; of a silent session it is a stray, and the session stays in progress with its time. The same of one that ends its
/// message, of one out of turn, which resets a session that is not silent, and of one cut short.
pub fn continuations() -> u64 {
    let mut steps = 0;
    for (chosen, last, now, silent) in readings() {
        let own = open_at(chosen, last);
        let stray = due(raw::LOST, LOST, own);
        let h = continuation(chosen, now);
        steps += leaves(chosen, own, &h, if silent { stray } else { due(raw::FRAGMENT_CONSUMED, NOTHING, continued(own, now)) });
        let out_of_turn = Heard { data: [2, 11, 12, 13, 14, 15, 16, 17], ..h };
        steps += leaves(chosen, own, &out_of_turn, if silent { stray } else { due(raw::LOST, LOST, reset(own)) });
        let [_, other_pgn] = chosen.two_pgns();
        for other_key in [Heard { source: 36, ..h }, Heard { pgn: other_pgn, ..h }] {
            steps += leaves(chosen, own, &other_key, stray);
        }
        let unlisted = Heard { pgn: 5, ..h };
        steps += leaves(chosen, own, &unlisted, due(raw::NOT_LISTED, UNKNOWN, own));

        let nearly = Slot { expected: 8, ..own };
        let ended = Slot { last_time: now, ..with_bytes(reset(nearly), 6, &[11, 12]) };
        let whole = Due { kind: raw::MESSAGE_COMPLETE, message: &[0x77, 0x77, 0x77, 0x77, 0x77, 0x77, 11, 12], raised: NOTHING, slot: ended };
        steps += leaves(chosen, nearly, &h, if silent { due(raw::LOST, LOST, nearly) } else { whole });

        let (mut p, mut c) = (pool_of(chosen, 1, &alone(chosen, own)), [7; 5]);
        let got = called(&mut p, &mut c, &[chosen.named(h.pgn)], &h, Some(7), false);
        let left = if silent { own } else { reset(own) };
        assert_eq!((got, c, p), (Answer { kind: raw::LOST, length: 0, ..LENT }, [7, 7, 7, 8, 7], pool_of(chosen, 1, &alone(chosen, left))), "cut to seven bytes");
        steps += 1;
    }
    steps
}

/// A first frame of the session's key opens there, and of a silent session counts it as expired; one of another key finds the pool full, or takes the slot of a silent
/// session and counts that. A message that needs no slot touches none.
pub fn first_frames() -> u64 {
    let mut steps = 0;
    for (chosen, last, now, silent) in readings() {
        let own = open_at(chosen, last);
        let counted = if silent { EXPIRED } else { NOTHING };
        let again = first_frame(chosen, 35, now);
        steps += leaves(chosen, own, &again, due(raw::FRAGMENT_CONSUMED, counted, opened(own, &again)));
        let [_, other_pgn] = chosen.two_pgns();
        for other_key in [Heard { source: 36, ..again }, Heard { pgn: other_pgn, ..again }] {
            let other = if silent { due(raw::FRAGMENT_CONSUMED, EXPIRED, opened(own, &other_key)) } else { due(raw::POOL_FULL, EXHAUSTED, own) };
            steps += leaves(chosen, own, &other_key, other);
        }
        let short = short_first_frame(chosen, now);
        steps += leaves(chosen, own, &short, Due { kind: raw::MESSAGE_COMPLETE, message: &[21, 22], raised: NOTHING, slot: own });
    }
    steps
}

/// An idle slot is free in either mode, whatever its time, and none expires there.
pub fn idle_slots() -> u64 {
    let mut steps = 0;
    for (chosen, last, now, _) in readings() {
        let idle = reset(open_at(chosen, last));
        for source in [35, 36] {
            let h = first_frame(chosen, source, now);
            steps += leaves(chosen, idle, &h, due(raw::FRAGMENT_CONSUMED, NOTHING, opened(idle, &h)));
        }
        steps += leaves(chosen, idle, &continuation(chosen, now), due(raw::LOST, LOST, idle));
    }
    steps
}

/// From a fresh pool, by the calls alone, frame by frame and, where the kind has it, in a batch: the clock is set back by 1 ms within a message, and comes back; P12;
/// the message begins again before its time, and comes to its end.
pub fn a_clock_set_back() -> u64 {
    let frames: Vec<(u64, [u8; 8])> = vec![
        (1000, [0, 20, 1, 2, 3, 4, 5, 6]),
        (999, [1, 7, 8, 9, 10, 11, 12, 13]),
        (1000, [1, 7, 8, 9, 10, 11, 12, 13]),
        (0, [2, 14, 15, 16, 17, 18, 19, 20]),
        (0, [0, 8, 1, 2, 3, 4, 5, 6]),
        (0, [1, 7, 8, 0xFF, 0xFF, 0xFF, 0xFF, 0xFF]),
    ];
    let kinds_due = [
        [raw::FRAGMENT_CONSUMED, raw::FRAGMENT_CONSUMED, raw::LOST, raw::LOST, raw::FRAGMENT_CONSUMED, raw::MESSAGE_COMPLETE],
        [raw::FRAGMENT_CONSUMED, raw::LOST, raw::FRAGMENT_CONSUMED, raw::LOST, raw::FRAGMENT_CONSUMED, raw::MESSAGE_COMPLETE],
    ];
    let counters_due = [[0, 0, 0, 2, 0], [1, 0, 0, 2, 0]];
    let mut steps = 0;
    for chosen in CHOICES {
        let (kinds, counters) = (kinds_due[chosen.mode.number() as usize], counters_due[chosen.mode.number() as usize]);
        let heard = |(now, data): &(u64, [u8; 8])| Heard { data: *data, ..continuation(chosen, *now) };
        let list = [chosen.named(continuation(chosen, 0).pgn)];
        let mut fresh = USED;
        assert_eq!(made_as(chosen, &mut fresh, 4), 0);
        let mut left = vec![];
        for (length, by_value) in SINGLE_CALLS {
            let (mut p, mut c) = (fresh.clone(), [0; 5]);
            for (h, kind) in frames.iter().map(heard).zip(kinds) {
                assert_eq!(called(&mut p, &mut c, &list, &h, length, by_value).kind, kind, "{chosen:?}, {h:?}");
                steps += 1;
            }
            assert_eq!(c, counters, "{chosen:?}");
            left.push(p);
        }
        if !chosen.addressed {
            let mut rows = Rows::default();
            frames.iter().map(heard).for_each(|h| rows.push(h.now, h.pgn, h.source, h.data));
            let (mut p, mut c, mut told) = (fresh, [0; 5], lent(frames.len(), 8));
            assert_eq!(batched(&mut p, &mut c, &list, &rows, &mut told), (0, frames.len(), 8));
            assert_eq!((told.kinds, c, &told.arena[..]), (kinds.map(|kind| kind as u8).to_vec(), counters, &[1, 2, 3, 4, 5, 6, 7, 8][..]), "{chosen:?}");
            steps += frames.len() as u64;
            left.push(p);
        }
        assert!(left.iter().all(|p| *p == left[0]), "{chosen:?}");
    }
    steps
}
