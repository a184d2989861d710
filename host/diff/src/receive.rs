//! The receive call: one frame on any pool, and runs of frames. Compared after every call: answer (through `reading`), payload
//! (all 223 bytes), length, counters, and every slot left behind with its buffer, those past the size too. Where a byte that is
//! needed was cut the original would fill it up: there document 02's No. 5 decides, in its own words (`cut_short`). Every run takes what is chosen when a pool is
//! made: one mode and one kind are the original's, for the other mode it is asked on a clock of its own (`clock`), for the other kind under PGNs of its own (`destination`).
use crate::clock::{silent, OnItsOwnClock};
use crate::destination::{part_allowed, sorted, Chosen, AS_ORIGINAL};
use crate::ids::TOO_WIDE;
use crate::reading::{kind_of, read, Reading, Said};
use crate::rng::Rng;
use crate::tally::answered;
use port::assembler::{self as ours, Addressed, Mode, PoolKind, Rows};
use port::can_id::CanId;
use port::error::{ImpossiblePool, NoRoom, TooWide};
use port::fast_packet;
use port::raw::{self, Counters, Pool, Told, POOL_BYTES, POOL_HEADS, SLOT_NUMBERS};
use reference::hooks::{PoolState, Slot};
use reference::protocol::transport::fast_packet::assembler::{CompletedMessage, FastPacketAssembler, ProcessResult};
use std::collections::{BTreeMap, BTreeSet};

/// A frame as it is heard; the PGN is the original's, with the destination where the pool's key has one.
#[derive(Clone, Copy, Debug)]
pub struct Heard {
    pub now: u64,
    pub pgn: u32,
    pub source: u8,
    pub data: [u8; 8],
}

impl Heard {
    /// Its identifier, in which PGN and destination stand together as they do here. The priority, which is in no key, is another from reading to reading.
    pub fn id(&self) -> u32 {
        (self.now % 8) as u32 * (1 << 26) + self.pgn % (1 << 18) * (1 << 8) + self.source as u32
    }
    /// The same with some of a driver's flags, so that it is none.
    pub fn wide_id(&self) -> u32 {
        self.id() + TOO_WIDE * (1 + self.data[7] as u32 % 7)
    }
}

/// The most slots of a pool: "Raise the pool limit to 32" (document 02, No. 7). In the paper's own words, and not by the port's name for it.
pub const LIMIT: usize = 32;

/// Sizes where a pool of up to 8 and one of up to 32 could part, and a table of 16 or 32 could end.
pub const LARGE: [usize; 4] = [9, 17, 31, 32];

/// A size: one in two up to 8, and of the others every second one of `LARGE`.
fn any_size(r: &mut Rng) -> usize {
    match r.below(4) {
        0 | 1 => r.below(9) as usize,
        2 => r.pick(&LARGE),
        _ => 9 + r.below(LIMIT as u64 - 8) as usize,
    }
}

/// The original, whatever its number of sessions is.
pub trait Original {
    fn slot(&self, i: usize) -> Slot;
    fn set_slot(&mut self, i: usize, slot: &Slot);
    fn set_counters(&mut self, counters: [u32; 5]);
    fn counters(&self) -> [u32; 5];
    fn handles(&self, pgn: u32) -> bool;
    fn process(&mut self, h: &Heard) -> ProcessResult;
}

impl<const N: usize> Original for FastPacketAssembler<N> {
    fn slot(&self, i: usize) -> Slot {
        PoolState::slot(self, i)
    }
    fn set_slot(&mut self, i: usize, slot: &Slot) {
        PoolState::set_slot(self, i, slot)
    }
    fn set_counters(&mut self, counters: [u32; 5]) {
        PoolState::set_counters(self, counters)
    }
    fn counters(&self) -> [u32; 5] {
        [self.expired_sessions(), self.pool_exhausted(), self.rejected_frames(), self.lost_fragments(), self.unknown_pgn()]
    }
    fn handles(&self, pgn: u32) -> bool {
        FastPacketAssembler::handles(self, pgn)
    }
    fn process(&mut self, h: &Heard) -> ProcessResult {
        self.process_frame(h.now, h.pgn, h.source, &h.data)
    }
}

/// One call of the original, and what it says about the port's answer.
pub fn asked(o: &mut dyn Original, h: &Heard) -> (ProcessResult, Said) {
    let before = o.counters();
    let result = o.process(h);
    let said = Said::by(&result, before, o.counters(), o.handles(h.pgn));
    (result, said)
}

/// A function for each number of sessions, in a row by that number: the original has it as a constant of its type.
macro_rules! by_size {
    ($one:ident) => {
        by_size!($one: 0 1 2 3 4 5 6 7 8 9 10 11 12 13 14 15 16 17 18 19 20 21 22 23 24 25 26 27 28 29 30 31 32)
    };
    ($one:ident: $($size:literal)*) => {
        [$($one::<$size>),*]
    };
}

fn original(mode: Mode, size: usize, list: &'static [u32]) -> Box<dyn Original> {
    fn with<const N: usize>(mode: Mode, list: &'static [u32]) -> Box<dyn Original> {
        match mode {
            Mode::AsOriginal => Box::new(FastPacketAssembler::<N>::with_pool(list)),
            Mode::SetBackIsSilence => Box::new(OnItsOwnClock::<N>::with_pool(list)),
        }
    }
    type With = fn(Mode, &'static [u32]) -> Box<dyn Original>;
    const WITH: [With; LIMIT + 1] = by_size!(with);
    WITH[size](mode, list)
}

/// Every slot that a pool has memory for, within its size and past it.
pub(crate) type Slots = [Slot; LIMIT];

/// What a call leaves: a refusal's number or a kind, and the message's bytes and length.
#[derive(Clone, Debug, PartialEq, Eq)]
pub struct Answer {
    pub(crate) kind: u32,
    pub(crate) payload: [u8; 223],
    pub(crate) length: usize,
}

/// An answer as it is lent to the port.
pub(crate) const LENT: Answer = Answer { kind: 0xEE, payload: [0xEE; 223], length: 0xEE };
/// What is left with refusal 1, and with 8: the payload as it was lent, and length 0.
pub(crate) const REFUSED: Answer = Answer { kind: 1, payload: LENT.payload, length: 0 };
pub(crate) const REFUSED_AS_TOO_WIDE: Answer = Answer { kind: 8, ..REFUSED };

/// Rows as they are lent to a batch.
pub(crate) fn lent(frames: usize, arena: usize) -> Told {
    Told { kinds: vec![0xEE; frames], lengths: vec![0xEE; frames], arena: vec![0xEE; arena] }
}

/// The bytes of the message, or none.
pub fn message_of(r: &ProcessResult) -> &[u8] {
    match r {
        ProcessResult::MessageComplete(m) => &m.payload[..m.len],
        _ => &[],
    }
}

/// What the original's answer leaves in the message's place: without one, the payload as it was lent and length 0.
fn message_left(r: &ProcessResult) -> ([u8; 223], usize) {
    match r {
        ProcessResult::MessageComplete(m) => (m.payload, m.len),
        _ => (LENT.payload, 0),
    }
}

/// The numbers of a slot that the original has, in a pool of the port. The part of an idle slot is not looked at: here it is any, by the slot's size, and 0 where the slot
/// is fresh or was reset.
fn head_of(chosen: Chosen, s: &Slot) -> [u64; SLOT_NUMBERS] {
    let (pgn, part) = if s.in_progress { chosen.in_the_port(s.pgn) } else { (s.pgn, s.expected as u16) };
    [s.in_progress as u64, s.source as u64, s.sequence as u64, s.last_index as u64, pgn as u64, part as u64, s.expected as u64, s.current as u64, s.last_time]
}

/// The place of the part of the key among a slot's numbers.
pub(crate) const PART: usize = 5;

/// The numbers of slot k.
pub(crate) fn head(p: &Pool, k: usize) -> &[u64] {
    &p.heads[SLOT_NUMBERS * k..SLOT_NUMBERS * (k + 1)]
}

fn lay(chosen: Chosen, p: &mut Pool, k: usize, s: &Slot) {
    p.heads[SLOT_NUMBERS * k..SLOT_NUMBERS * (k + 1)].copy_from_slice(&head_of(chosen, s));
    p.bytes[223 * k..223 * k + 223].copy_from_slice(&s.bytes);
}

pub(crate) fn pool_of(chosen: Chosen, size: usize, slots: &Slots) -> Pool {
    let mut p = Pool { size, mode: chosen.mode.number(), kind: chosen.kind(), ..Pool::ZEROS };
    slots.iter().enumerate().for_each(|(k, s)| lay(chosen, &mut p, k, s));
    p
}

fn stands(chosen: Chosen, p: &Pool, k: usize, s: &Slot) -> bool {
    head(p, k) == head_of(chosen, s) && p.bytes[223 * k..223 * k + 223] == s.bytes
}

/// Step 1 of document 01, in its own words and those of document 02's No. 10 and No. 12, over numbers that are no wider than their fields.
pub fn impossible(p: &Pool) -> bool {
    (p.size > LIMIT || p.mode > 1 || p.kind > 1)
        || (0..p.size).any(|k| {
            let [in_progress, _, sequence, last_index, pgn, part, expected, current, _] = head(p, k).try_into().unwrap();
            let wrong_size = !(7..=223).contains(&expected) || current != 6 + 7 * last_index || current >= expected;
            in_progress != 0 && (sequence > 7 || wrong_size || !part_allowed(p.kind, pgn as u32, part))
        })
}

/// What document 02's No. 5 says of a frame that lacks a byte: "Rejected", or the live session of this slot broken, "as one out of turn does".
#[derive(Clone, Copy, Debug, PartialEq, Eq)]
pub enum CutShort {
    Rejected,
    Breaks(usize),
}

/// No. 5, in its own words, over the original's list and the slots of the pool's size; none where no byte that is needed was cut.
pub fn cut_short(mode: Mode, list: &[u32], slots: &[Slot], h: &Heard, length: usize) -> Option<CutShort> {
    if !list.contains(&h.pgn) {
        return None;
    }
    if length == 0 {
        return Some(CutShort::Rejected);
    }
    let (sequence, index) = (h.data[0] / 32, h.data[0] % 32);
    if index == 0 {
        let n = h.data[1] as usize;
        return (length == 1 || (1..=223).contains(&n) && length < 2 + n.min(6)).then_some(CutShort::Rejected);
    }
    let live = |s: &Slot| s.in_progress && (s.source, s.pgn, s.sequence) == (h.source, h.pgn, sequence) && !silent(mode, h.now, s.last_time);
    let k = slots.iter().position(live)?;
    (length < 1 + (slots[k].expected - slots[k].current).min(7)).then_some(CutShort::Breaks(k))
}

/// Does to the original what No. 5 says, and gives the kind that is due.
fn set_cut_short(chosen: Chosen, o: &mut dyn Original, cut: CutShort) -> u32 {
    let mut counters = o.counters();
    let (kind, counter) = match cut {
        CutShort::Rejected => (raw::REJECTED, &mut counters[2]),
        CutShort::Breaks(k) => {
            let s = o.slot(k);
            o.set_slot(k, &Slot { in_progress: false, pgn: 0, sequence: 0, expected: 0, current: 0, last_index: 0, ..s });
            (raw::LOST, &mut counters[3])
        }
    };
    *counter = counter.saturating_add(1);
    o.set_counters(counters);
    answered(if chosen.addressed { "cut_short_by_id" } else { "cut_short" }, kind);
    kind
}

/// The single calls of eight bytes, as `length` and `by_value` of `called`.
pub(crate) const SINGLE_CALLS: [(Option<usize>, bool); 3] = [(None, false), (None, true), (Some(8), false)];

/// One call of the port, of the pool's kind: with a length, by the lent counters, or by the counters by value.
pub(crate) fn called(p: &mut Pool, counters: &mut Counters, list: &[u32], h: &Heard, length: Option<usize>, by_value: bool) -> Answer {
    if p.kind == raw::ADDRESSED {
        called_by_id(p, counters, list, h, h.id(), length, by_value)
    } else {
        called_by_pgn(p, counters, list, h, length, by_value)
    }
}

/// The same by the calls of the original's kind, whatever the pool's is.
pub(crate) fn called_by_pgn(p: &mut Pool, counters: &mut Counters, list: &[u32], h: &Heard, length: Option<usize>, by_value: bool) -> Answer {
    answer(|payload, left| match length {
        Some(n) => ("receive_with_length", p.process_frame_with_length(counters, list, h.now, h.pgn, h.source, &h.data, n, payload, left)),
        None if by_value => ("receive_by_value", p.receive(counters, list, h.now, h.pgn, h.source, &h.data, payload, left)),
        None => ("receive", p.process_frame(counters, list, h.now, h.pgn, h.source, &h.data, payload, left)),
    })
}

/// The same by those of the other kind, with any identifier.
pub(crate) fn called_by_id(p: &mut Pool, counters: &mut Counters, list: &[u32], h: &Heard, id: u32, length: Option<usize>, by_value: bool) -> Answer {
    answer(|payload, left| match length {
        Some(n) => ("receive_by_id_with_length", p.process_frame_by_id_with_length(counters, list, h.now, id, &h.data, n, payload, left)),
        None if by_value => ("receive_by_id_by_value", p.receive_by_id(counters, list, h.now, id, &h.data, payload, left)),
        None => ("receive_by_id", p.process_frame_by_id(counters, list, h.now, id, &h.data, payload, left)),
    })
}

/// What a call, told with its name, leaves in an answer that is lent to it.
fn answer(call: impl FnOnce(&mut [u8; 223], &mut usize) -> (&'static str, u32)) -> Answer {
    let mut a = LENT.clone();
    let (name, kind) = call(&mut a.payload, &mut a.length);
    answered(name, kind);
    Answer { kind, ..a }
}

/// The same of a batch: a refusal's number or 0, the frames taken and the arena's bytes taken.
#[allow(clippy::too_many_arguments)]
fn batched_in(
    p: &mut Pool, counters: &mut Counters, list: &[u32], times: &[u64], pgns: &[u32], sources: &[u8], data: &[u8], kinds: &mut [u8], lengths: &mut [u8], arena: &mut [u8],
) -> (u32, usize, usize) {
    let mut counts = [0xEE; 2];
    let number = p.process_frames(counters, list, times, pgns, sources, data, kinds, lengths, arena, &mut counts);
    answered("batch", number);
    (number, counts[0] as usize, counts[1] as usize)
}

pub(crate) fn batched(p: &mut Pool, counters: &mut Counters, list: &[u32], rows: &Rows, told: &mut Told) -> (u32, usize, usize) {
    batched_in(p, counters, list, &rows.times, &rows.pgns, &rows.sources, &rows.data, &mut told.kinds, &mut told.lengths, &mut told.arena)
}

/// A pool made by the entry over numbers that stood there.
fn made(p: &mut Pool, size: usize) -> u32 {
    let number = p.made_anew(size);
    answered("pool", number);
    number
}

/// The same by the entry that takes a mode.
pub(crate) fn made_with_mode(p: &mut Pool, size: usize, mode: u32) -> u32 {
    let number = p.made_with_mode(size, mode);
    answered("pool_with_mode", number);
    number
}

/// The same by the entry that takes a kind too.
pub(crate) fn made_with_kind(p: &mut Pool, size: usize, mode: u32, kind: u32) -> u32 {
    let number = p.made_with_kind(size, mode, kind);
    answered("pool_with_kind", number);
    number
}

/// The same of what is chosen, by the entry that takes no more than that.
pub(crate) fn made_as(chosen: Chosen, p: &mut Pool, size: usize) -> u32 {
    match chosen.mode {
        _ if chosen.addressed => made_with_kind(p, size, chosen.mode.number(), raw::ADDRESSED),
        Mode::AsOriginal => made(p, size),
        Mode::SetBackIsSilence => made_with_mode(p, size, raw::SET_BACK_IS_SILENCE),
    }
}

/// Numbers of a pool that no call left.
pub(crate) const USED: Pool = Pool { size: 0xEE, mode: 0xEE, kind: 0xEE, heads: [0xEE << 32; POOL_HEADS], bytes: [0xEE; POOL_BYTES] };

/// Both sides, with the list that the port is lent and the strictly ascending one that the original takes.
pub struct Pair {
    chosen: Chosen,
    size: usize,
    list: Vec<u32>,
    sorted: &'static [u32],
    o: Box<dyn Original>,
    p: Pool,
    counters: Counters,
    past: Vec<Slot>,
    heard: usize,
}

impl Pair {
    /// Fresh pools.
    pub fn fresh(chosen: Chosen, size: usize, list: &[u32]) -> Pair {
        let mut p = USED;
        let number = made_as(chosen, &mut p, size);
        assert_eq!((number, p.size, p.mode, p.kind), (0, size, chosen.mode.number(), chosen.kind()));
        for k in 0..LIMIT {
            assert!(stands(chosen, &p, k, &Slot::FRESH), "a fresh slot");
        }
        if (chosen, size) == (AS_ORIGINAL, 4) {
            let mut by_default = USED;
            assert_eq!((by_default.made_by_default(), &by_default), (0, &p));
        }
        let sorted = sorted(chosen, list);
        Pair { chosen, size, list: list.to_vec(), sorted, o: original(chosen.mode, size, sorted), p, counters: [0; 5], past: vec![Slot::FRESH; LIMIT - size], heard: 0 }
    }
    /// Sets every slot, within the size and past it, and the counters.
    pub fn set(&mut self, slots: &Slots, counters: Counters) {
        for (k, s) in slots.iter().enumerate() {
            lay(self.chosen, &mut self.p, k, s);
            if k < self.size {
                self.o.set_slot(k, s);
            }
        }
        self.o.set_counters(counters);
        self.counters = counters;
        self.past = slots[self.size..].to_vec();
    }
    pub fn slots(&self) -> Slots {
        std::array::from_fn(|k| if k < self.size { self.o.slot(k) } else { self.past[k - self.size] })
    }
    pub fn counters(&self) -> Counters {
        self.counters
    }
    /// How many slots within the size are in progress.
    fn in_use(&self) -> usize {
        (0..self.size).filter(|k| head(&self.p, *k)[0] != 0).count()
    }
    /// One call, and all that it leaves. `length` is that of the entry with a length.
    pub fn hear(&mut self, h: &Heard, length: Option<usize>) -> Answer {
        assert_eq!(self.chosen.heard_as(h.pgn), h.pgn, "a PGN that can be heard");
        self.heard += 1;
        if self.heard.is_multiple_of(8) {
            self.turn_away(h);
        }
        let before = length.is_none().then(|| (self.p.clone(), self.counters));
        let got = called(&mut self.p, &mut self.counters, &self.list, h, length, false);
        if let Some((mut p, mut counters)) = before {
            let a = called(&mut p, &mut counters, &self.list, h, None, true);
            assert!(a == got && p == self.p && counters == self.counters, "the two calls of the port, {h:?}");
        }
        let mut heard = *h;
        let mut cut = None;
        if let Some(n) = length {
            // As the original's own advice has it (fast_packet/mod.rs).
            let mut data = [0xFF; 8];
            let len = n.min(8);
            data[..len].copy_from_slice(&h.data[..len]);
            assert_eq!(fast_packet::fill_short(h.data, n), data, "{:?} cut to {n}", h.data);
            heard.data = data;
            cut = cut_short(self.chosen.mode, self.sorted, &self.slots()[..self.size], h, n);
        }
        if let Some(cut) = cut {
            let due = Answer { kind: set_cut_short(self.chosen, &mut *self.o, cut), payload: LENT.payload, length: 0 };
            assert_eq!(got, due, "{h:?}, length {length:?}, size {}", self.size);
        } else {
            let (result, said) = asked(&mut *self.o, &heard);
            said.hold(got.kind, &(h, length, self.size));
            assert_eq!((got.payload, got.length), message_left(&result), "{h:?}, length {length:?}, size {}", self.size);
        }
        assert_eq!(self.counters, self.o.counters(), "counters after {h:?}");
        for k in 0..LIMIT {
            let s = if k < self.size { self.o.slot(k) } else { self.past[k - self.size] };
            assert!(stands(self.chosen, &self.p, k, &s), "slot {k} after {h:?}: {s:?}, {:?}", head(&self.p, k));
        }
        got
    }
    /// Calls that no pool of this kind hears, between those that it does: 8 for an identifier that is too wide, 1 at the other kind's entry, and nothing has moved.
    fn turn_away(&mut self, h: &Heard) {
        let (before, counters) = (self.p.clone(), self.counters);
        let by_pgn = Heard { pgn: self.chosen.named(h.pgn), ..*h };
        for (length, by_value) in SINGLE_CALLS {
            let too_wide = called_by_id(&mut self.p, &mut self.counters, &self.list, h, h.wide_id(), length, by_value);
            let at_the_other = if self.chosen.addressed {
                called_by_pgn(&mut self.p, &mut self.counters, &self.list, &by_pgn, length, by_value)
            } else {
                called_by_id(&mut self.p, &mut self.counters, &self.list, h, h.id(), length, by_value)
            };
            assert_eq!((too_wide, at_the_other), (REFUSED_AS_TOO_WIDE, REFUSED), "{h:?}");
        }
        assert!(self.p == before && self.counters == counters, "nothing has moved");
    }
}

/// Calls on a pool that document 01 calls impossible, or whose number is no mode or no kind: refusal 1 at the entry of either kind, whatever the PGN, but 8 before it for
/// an identifier that is too wide; and nothing changed.
pub fn refused(before: &Pool, counters: Counters, list: &[u32], h: &Heard, length: Option<usize>, by_value: bool) {
    let (mut p, mut c) = (before.clone(), counters);
    assert_eq!(called_by_pgn(&mut p, &mut c, list, h, length, by_value), REFUSED, "{before:?}");
    assert_eq!(called_by_id(&mut p, &mut c, list, h, h.id(), length, by_value), REFUSED, "{before:?}");
    assert_eq!(called_by_id(&mut p, &mut c, list, h, h.wide_id(), length, by_value), REFUSED_AS_TOO_WIDE, "{before:?}");
    assert_eq!(&p, before, "the pool comes back unchanged with a refusal");
    assert_eq!(c, counters);
}

/// The frames of a message, by the original's splitter.
pub fn frames(sequence: u8, payload: &[u8]) -> Vec<[u8; 8]> {
    reference::oracle::fast_packet_frames(0, sequence, payload).into_iter().map(|f| f.data.try_into().unwrap()).collect()
}

// ---- small spaces, whole

/// Every first byte and announced size, on pools of one and four.
pub fn every_first_byte(chosen: Chosen) -> u64 {
    let [pgn, _] = chosen.two_pgns();
    let mut steps = 0;
    for size in [0, 1, 4] {
        let mut p = Pair::fresh(chosen, size, &[chosen.named(pgn)]);
        for b0 in 0..=255u8 {
            for b1 in 0..=255u8 {
                p.hear(&Heard { now: 7 * b1 as u64, pgn, source: b0 / 64, data: [b0, b1, 1, 2, 3, 4, 5, 6] }, None);
                steps += 1;
            }
        }
    }
    steps
}

/// A slot in progress of every valid expected size and last index, of source 9 and sequence 3, last heard at 1000.
fn valid_slots(pgn: u32) -> impl Iterator<Item = Slot> {
    let bytes: [u8; 223] = std::array::from_fn(|i| i as u8 ^ 0xA5);
    let slot = move |expected, last_index: u8| {
        Slot { in_progress: true, source: 9, pgn, sequence: 3, bytes, expected, current: 6 + 7 * last_index as usize, last_index, last_time: 1000 }
    };
    (7..=223).flat_map(move |expected| (0..32).map(move |last_index| slot(expected, last_index))).filter(|s| s.current < s.expected)
}

/// Every valid slot, under every frame index, in time and late, and in No. 10's mode before its time.
pub fn every_slot(chosen: Chosen) -> u64 {
    let [pgn, _] = chosen.two_pgns();
    let mut steps = 0;
    let mut p = Pair::fresh(chosen, 1, &[chosen.named(pgn)]);
    for slot in valid_slots(pgn) {
        for index in 0..32u8 {
            let now = [1000, 1500, 1501, 0][(index as usize + slot.expected) % 4];
            p.set(&std::array::from_fn(|_| slot), [0; 5]);
            let in_turn = match chosen.mode {
                Mode::AsOriginal => 1500,
                Mode::SetBackIsSilence => [1000, 1500, 999, 0][(index as usize + slot.expected) % 4],
            };
            p.hear(&Heard { now: if index == slot.last_index + 1 { in_turn } else { now }, pgn, source: 9, data: [3 << 5 | index, 20, 1, 2, 3, 4, 5, 6] }, None);
            steps += 1;
        }
    }
    steps
}

/// Lengths of a frame, and past its end.
const LENGTHS: [usize; 11] = [0, 1, 2, 3, 4, 5, 6, 7, 8, 9, usize::MAX];

/// Every announced size at every length, listed and not, where no slot is free and where one is.
pub fn every_cut_first_frame(chosen: Chosen) -> u64 {
    let [pgn, _] = chosen.two_pgns();
    let mut steps = 0;
    for (size, listed) in [(0, true), (1, true), (4, true), (4, false)] {
        let mut p = Pair::fresh(chosen, size, &[if listed { chosen.named(pgn) } else { 5 }]);
        for announced in 0..=255u8 {
            for length in LENGTHS {
                p.hear(&Heard { now: 1000 * announced as u64, pgn, source: 9, data: [3 << 5, announced, 1, 2, 3, 4, 5, 6] }, Some(length));
                steps += 1;
            }
        }
    }
    steps
}

/// Every valid slot, under a continuation of every length: in turn, out of turn, of another key, and late.
pub fn every_cut_continuation(chosen: Chosen) -> u64 {
    let [pgn, _] = chosen.two_pgns();
    let mut steps = 0;
    let mut p = Pair::fresh(chosen, 1, &[chosen.named(pgn)]);
    for slot in valid_slots(pgn) {
        let next = slot.last_index + 1;
        for length in LENGTHS {
            for (now, sequence, index) in [(1500, 3, next), (0, 3, next), (1501, 3, next), (1000, 2, next), (1000, 3, next % 31 + 1)] {
                p.set(&std::array::from_fn(|_| slot), [7; 5]);
                p.hear(&Heard { now, pgn, source: 9, data: [sequence << 5 | index, 20, 1, 2, 3, 4, 5, 6] }, Some(length));
                steps += 1;
            }
        }
    }
    steps
}

/// Both.
pub fn every_cut(chosen: Chosen) -> u64 {
    every_cut_first_frame(chosen) + every_cut_continuation(chosen)
}

/// Two slots over a small alphabet of states, under a small alphabet of frames.
pub fn two_slots(chosen: Chosen) -> u64 {
    let pgns = chosen.two_pgns();
    let mut alphabet = vec![Slot::FRESH];
    for source in [1, 2] {
        alphabet.push(Slot { source, bytes: [source; 223], last_time: 1000, ..Slot::FRESH });
        for pgn in pgns {
            for (sequence, last_time) in [(0, 1000), (1, 1000), (0, 499), (1, 500), (0, 2000)] {
                for (expected, last_index) in [(7, 0), (14, 1)] {
                    alphabet.push(Slot { in_progress: true, source, pgn, sequence, bytes: [expected as u8; 223], expected, current: 6 + 7 * last_index as usize, last_index, last_time });
                }
            }
        }
    }
    let mut steps = 0;
    let mut p = Pair::fresh(chosen, 2, &pgns.map(|pgn| chosen.named(pgn)));
    for a in &alphabet {
        for b in &alphabet {
            for now in [999, 1000, 1001] {
                for source in [1, 2] {
                    for pgn in pgns {
                        for (b0, b1) in [(0x00, 6), (0x00, 7), (0x20, 14), (0x01, 9), (0x22, 9)] {
                            let mut slots = [Slot::FRESH; LIMIT];
                            (slots[0], slots[1], slots[5]) = (*a, *b, *a);
                            p.set(&slots, [0; 5]);
                            p.hear(&Heard { now, pgn, source, data: [b0, b1, 11, 12, 13, 14, 15, 16] }, None);
                            steps += 1;
                        }
                    }
                }
            }
        }
    }
    steps
}

/// Sizes of every kind, and above.
pub(crate) fn sizes_asked_for() -> impl Iterator<Item = usize> {
    (0..1000).chain([usize::MAX, 1 << 32, LIMIT | 1 << 40])
}

/// Making pools of every size, and above: as the original.
pub fn making() -> u64 {
    let mut steps = 0;
    for size in sizes_asked_for() {
        let mut p = Pool::ZEROS;
        let number = made(&mut p, size);
        assert_eq!((number, p.size, p.mode, p.kind), if size > LIMIT { (1, 0, 0, 0) } else { (0, size, 0, 0) });
        assert_eq!((p.heads, p.bytes), ([0; POOL_HEADS], [0; POOL_BYTES]));
        let ours = ours::Pool::new(size);
        assert_eq!(ours.as_ref().map(|p| (p.size(), p.mode())), if size > LIMIT { Err(&ImpossiblePool) } else { Ok((size, Mode::AsOriginal)) });
        assert_eq!(ours.as_ref().map_or_else(|e| e.number(), |_| 0), number);
        if size == 4 {
            assert_eq!(ours, Ok(ours::Pool::default()));
        }
        // over a pool that was in use: every number and byte, or with a refusal none
        let mut q = USED;
        assert_eq!(made(&mut q, size), number);
        assert_eq!(q, if size > LIMIT { Pool { size: 0, mode: 0, kind: 0, ..USED } } else { p });
        steps += 2;
    }
    steps
}

// ---- the batch

/// The original over rows, as document 01's steps and the batch's promise have it: it stops before the first frame whose
/// message has no room in the arena.
fn over_rows<A: Original + Copy>(mut a: A, size: usize, slots: &Slots, counters: Counters, rows: &Rows, told: &mut Told) -> Left {
    for (k, s) in slots.iter().enumerate().take(size) {
        a.set_slot(k, s);
    }
    a.set_counters(counters);
    let (mut said, mut used) = (vec![], 0);
    for i in 0..rows.len() {
        let mut next = a;
        let (result, one) = asked(&mut next, &heard_in(rows, i));
        let message = message_of(&result);
        if used + message.len() > told.arena.len() {
            break;
        }
        told.arena[used..used + message.len()].copy_from_slice(message);
        (told.kinds[i], told.lengths[i]) = (one.kind as u8, message.len() as u8);
        a = next;
        used += message.len();
        said.push(one);
    }
    let slots = std::array::from_fn(|k| if k < size { a.slot(k) } else { slots[k] });
    Left { said, used, slots, counters: a.counters() }
}

fn originally<const N: usize>(mode: Mode, slots: &Slots, counters: Counters, list: &'static [u32], rows: &Rows, told: &mut Told) -> Left {
    match mode {
        Mode::AsOriginal => over_rows(FastPacketAssembler::<N>::with_pool(list), N, slots, counters, rows, told),
        Mode::SetBackIsSilence => over_rows(OnItsOwnClock::<N>::with_pool(list), N, slots, counters, rows, told),
    }
}

/// What the original leaves of rows: what it said of each frame taken, the arena's bytes taken, slots and counters.
pub struct Left {
    said: Vec<Said>,
    used: usize,
    slots: Slots,
    counters: Counters,
}

pub(crate) fn one_row(h: &Heard) -> Rows {
    let mut rows = Rows::default();
    rows.push(h.now, h.pgn, h.source, h.data);
    rows
}

fn heard_in(rows: &Rows, i: usize) -> Heard {
    Heard { now: rows.times[i], pgn: rows.pgns[i], source: rows.sources[i], data: rows.data[8 * i..8 * i + 8].try_into().unwrap() }
}

type Originally = fn(Mode, &Slots, Counters, &'static [u32], &Rows, &mut Told) -> Left;
const ORIGINALLY: [Originally; LIMIT + 1] = by_size!(originally);

/// One batch on any possible pool of the original's kind, and all that it leaves: answers, messages, the rest of the lent rows, counters, slots.
#[allow(clippy::too_many_arguments)]
pub fn batch(chosen: Chosen, size: usize, slots: &Slots, counters: Counters, list: &[u32], rows: &Rows, room: usize, spare: usize) -> Left {
    let n = rows.len();
    let (mut got, mut want) = (lent(n + spare, room), lent(n + spare, room));
    let mut p = pool_of(chosen, size, slots);
    let mut c = counters;
    let (number, taken, used) = batched(&mut p, &mut c, list, rows, &mut got);
    let left = ORIGINALLY[size](chosen.mode, slots, counters, sorted(chosen, list), rows, &mut want);
    assert_eq!((number, taken, used), (0, left.said.len(), left.used), "frames and bytes taken of {n}, room {room}");
    for (i, said) in left.said.iter().enumerate() {
        said.hold(got.kinds[i] as u32, &(i, heard_in(rows, i), size));
        answered("batch_row", got.kinds[i] as u32);
    }
    assert_eq!(got, want, "kinds, lengths, arena");
    assert_eq!(c, left.counters, "counters");
    for (k, s) in left.slots.iter().enumerate() {
        assert!(stands(chosen, &p, k, s), "slot {k}: {s:?}, {:?}", head(&p, k));
    }
    left
}

/// The row that `batch_refused` leaves out no element of.
pub(crate) const NO_CUT: usize = 5;

/// A batch that is refused changes nothing: 1 for an impossible pool, a number that is no mode or any but the original's kind, 27 for a row that is too short, 1 before 27.
pub fn batch_refused(before: &Pool, counters: Counters, list: &[u32], rows: &Rows, cut: usize) -> u32 {
    let n = rows.len();
    let (mut p, mut c) = (before.clone(), counters);
    let mut told = lent(n, 500);
    let all = told.clone();
    let short = |k: usize, len: usize| if cut == k { len.saturating_sub(1) } else { len };
    let (kinds, lengths) = (short(3, n), short(4, n));
    let (number, taken, used) = batched_in(
        &mut p, &mut c, list, &rows.times, &rows.pgns[..short(0, n)], &rows.sources[..short(1, n)], &rows.data[..short(2, 8 * n)],
        &mut told.kinds[..kinds], &mut told.lengths[..lengths], &mut told.arena,
    );
    let want = if before.kind != raw::ORIGINAL || impossible(before) { 1 } else { 27 };
    assert_eq!((number, taken, used, c), (want, 0, 0, counters));
    assert_eq!((&p, told), (before, all), "a refusal changes nothing");
    number
}

/// Batches of traffic from any possible pool of the original's kind, some of them with too little room, gone on with from where they stopped.
pub fn batches(chosen: Chosen, seed: u64, steps: u64) -> u64 {
    let mut r = Rng::new(seed);
    let mut done = 0;
    while done < steps {
        let size = any_size(&mut r);
        let list = r.pick(&chosen.lists());
        let mut now = r.pick(&[1000, 100_000]);
        let mut slots: Slots = if r.one_in(2) { [Slot::FRESH; LIMIT] } else { std::array::from_fn(|_| possible(chosen, &mut r, now)) };
        let mut counters = [r.below(1000) as u32; 5];
        for _ in 0..8 {
            let mut rows = Rows::default();
            let mut senders: Vec<(u8, u32, Vec<[u8; 8]>)> = vec![];
            for _ in 0..r.pick(&[0, 1, 2, 16, 64, 256]) {
                now = match chosen.mode {
                    Mode::AsOriginal if r.one_in(50) => now.saturating_sub(600),
                    Mode::AsOriginal => now + r.pick(&[0, 1, 5, 5, 5, 5, 5, 5, 5, 499, 500, 501]),
                    Mode::SetBackIsSilence => often_set_back(&mut r, now, 100, 10),
                };
                if senders.is_empty() || r.one_in(4) {
                    let len = r.pick(&[1, 6, 7, 13, 14, 26, 223]);
                    let payload = r.vec(len);
                    let mut f = frames(r.below(4) as u8, &payload);
                    f.reverse();
                    senders.push((r.below(4) as u8, r.pick(chosen.pgns()), f));
                }
                let k = r.below(senders.len() as u64) as usize;
                let (source, pgn, f) = &mut senders[k];
                let mut data = f.pop().unwrap();
                if r.one_in(30) {
                    data[r.below(2) as usize] = r.byte();
                }
                rows.push(now, *pgn, *source, data);
                if f.is_empty() {
                    senders.swap_remove(k);
                }
            }
            if !rows.is_empty() && r.one_in(4) {
                let cut = r.below(5) as usize;
                batch_refused(&pool_of(chosen, size, &slots), counters, list, &rows, cut);
            }
            let room = r.pick(&[0, 10, 100, 300, 10_000]);
            let left = batch(chosen, size, &slots, counters, list, &rows, room, r.below(3) as usize);
            (slots, counters) = (left.slots, left.counters);
            done += rows.len().max(1) as u64;
        }
        // the pool that was left, made impossible
        if size > 0 {
            let mut bad = slots;
            bad[r.below(size as u64) as usize] = Slot { in_progress: true, sequence: 8, ..Slot::FRESH };
            let mut rows = Rows::default();
            rows.push(0, 127_489, 0, [0, 1, 2, 3, 4, 5, 6, 7]);
            batch_refused(&pool_of(chosen, size, &bad), counters, list, &rows, r.below(6) as usize);
            batch_refused(&pool_of(chosen, LIMIT + 1, &slots), counters, list, &rows, NO_CUT);
            done += 2;
        }
    }
    done
}

// ---- numbers wider than their fields

/// What is read from number i of the heads.
fn field(i: usize, n: u64) -> u64 {
    match i % SLOT_NUMBERS {
        0 => (n != 0) as u64,
        1..=3 => n & 0xFF,
        4 => n & 0xFFFF_FFFF,
        5 => n & 0xFFFF,
        _ => n,
    }
}

/// Numbers from which the same heads are read, most of them wider than their fields.
pub(crate) fn widened(r: &mut Rng, heads: &[u64; POOL_HEADS]) -> [u64; POOL_HEADS] {
    std::array::from_fn(|i| {
        let any = r.next();
        match i % SLOT_NUMBERS {
            _ if r.one_in(4) => heads[i],
            0 => heads[i] * r.pick(&[2, 256, 1 << 32, u64::MAX]),
            1..=3 => heads[i] | r.pick(&[1, 1 << 24, any]) << 8,
            4 => heads[i] | r.pick(&[1, u64::MAX, any]) << 32,
            5 => heads[i] | r.pick(&[1, 1 << 16, any]) << 16,
            _ => heads[i],
        }
    })
}

/// The rule: a number is written only where the field that is read from it has changed.
fn laid_on(old: &[u64; POOL_HEADS], new: &[u64; POOL_HEADS]) -> [u64; POOL_HEADS] {
    std::array::from_fn(|i| if field(i, old[i]) == new[i] { old[i] } else { new[i] })
}

fn heads_of(chosen: Chosen, slots: &Slots) -> [u64; POOL_HEADS] {
    pool_of(chosen, LIMIT, slots).heads
}

/// Calls on pools with numbers wider than their fields: the same answers as on the narrow ones, which are held to the original,
/// and each number of the heads by the rule; after a refusal, all of them as they were.
pub fn wide_numbers(chosen: Chosen, seed: u64, steps: u64) -> u64 {
    let mut r = Rng::new(seed);
    let (mut seen, mut kinds) = ([0u64; 6], BTreeMap::<u32, u64>::new());
    for _ in 0..steps {
        let now = r.pick(&[500, 1000, 100_000]);
        let mut slots: Slots = std::array::from_fn(|_| possible(chosen, &mut r, now));
        let (size, list) = (any_size(&mut r), r.pick(&chosen.lists()[1..]));
        let h = heard(chosen, &mut r, &slots[..size], now);
        let length = r.one_in(3).then_some(8);
        let counters = [r.below(1000) as u32; 5];
        let by_value = r.one_in(2);
        let bytes = |slots: &Slots| -> [u8; POOL_BYTES] { std::array::from_fn(|i| slots[i / 223].bytes[i % 223]) };
        if r.one_in(4) {
            // refusal 1: too large, or one slot that cannot be
            let size = if r.one_in(2) { LIMIT + 1 + r.below(3) as usize } else { 1 + size.min(LIMIT - 1) };
            slots[0] = if size > LIMIT { slots[0] } else { Slot { in_progress: true, sequence: 8, ..slots[0] } };
            let before = Pool { heads: widened(&mut r, &heads_of(chosen, &slots)), ..pool_of(chosen, size, &slots) };
            refused(&before, counters, list, &h, length, by_value);
            let (mut p, mut c, mut told) = (before.clone(), counters, lent(1, 300));
            assert_eq!(batched(&mut p, &mut c, list, &one_row(&h), &mut told), (1, 0, 0));
            assert_eq!((p, c, told), (before, counters, lent(1, 300)), "a batch's refusal changes no lent memory");
            seen[0] += 1;
            continue;
        }
        let before = Pool { heads: widened(&mut r, &heads_of(chosen, &slots)), ..pool_of(chosen, size, &slots) };
        if chosen.addressed || r.one_in(2) {
            let mut pair = Pair::fresh(chosen, size, list);
            pair.set(&slots, counters);
            let want = pair.hear(&h, length);
            let (mut p, mut c) = (before.clone(), counters);
            let got = called(&mut p, &mut c, list, &h, length, by_value);
            assert_eq!((&got, c, p.bytes), (&want, pair.counters(), pair.p.bytes), "{h:?}");
            assert_eq!(p.heads, laid_on(&before.heads, &pair.p.heads), "the numbers of {:?} after {h:?}", before.heads);
            seen[match read(got.kind) {
                Reading::Ignored => 1,
                Reading::FragmentConsumed => 2,
                Reading::MessageComplete => 3,
            }] += 1;
            *kinds.entry(got.kind).or_default() += 1;
        } else {
            let mut rows = Rows::default();
            for _ in 0..r.below(6) {
                let h = heard(chosen, &mut r, &slots[..size], now);
                rows.push(h.now, h.pgn, h.source, h.data);
            }
            let n = rows.len();
            let (mut p, mut c, mut told) = (before.clone(), counters, lent(n, 1000));
            if n > 0 && r.one_in(3) {
                // refusal 27
                let number = batched_in(&mut p, &mut c, list, &rows.times, &rows.pgns, &rows.sources[..n - 1], &rows.data, &mut told.kinds, &mut told.lengths, &mut told.arena);
                assert_eq!((number, p, c, told), ((27, 0, 0), before, counters, lent(n, 1000)), "a refusal changes no lent memory");
                seen[4] += 1;
                continue;
            }
            let left = batch(chosen, size, &slots, counters, list, &rows, 1000, 0);
            assert_eq!(batched(&mut p, &mut c, list, &rows, &mut told), (0, left.said.len(), left.used));
            assert!(told.kinds.iter().zip(&left.said).all(|(kind, said)| *kind as u32 == said.kind), "the kinds of {:?}", before.heads);
            let after = (laid_on(&before.heads, &heads_of(chosen, &left.slots)), bytes(&left.slots), left.counters);
            assert_eq!((p.heads, p.bytes, c), after, "the numbers of {:?} after a batch", before.heads);
            seen[5] += 1;
        }
    }
    // a pool whose key has the destination has no batches
    let ways = if chosen.addressed { &seen[..4] } else { &seen[..] };
    assert!(steps < 1000 || ways.iter().all(|&n| n > steps / 100), "each way out: {seen:?}");
    assert!(steps < 1000 || kinds.len() == 6 && kinds.values().all(|&n| n > steps / 1000), "each kind: {kinds:?}");
    steps
}

// ---- random runs

/// Announced sizes and lengths at the edges.
const SIZES: [u8; 16] = [0, 1, 5, 6, 7, 8, 12, 13, 14, 20, 26, 221, 222, 223, 224, 255];
const SILENCES: [u64; 8] = [0, 1, 499, 500, 501, 502, 1000, 1 << 40];

/// A slot that document 01 calls possible, near the clock; where the key has the destination, some are of a PGN that no frame can have.
pub(crate) fn possible(chosen: Chosen, r: &mut Rng, now: u64) -> Slot {
    let in_progress = !r.one_in(3);
    let time = match r.below(4) {
        0 => now.saturating_sub(r.pick(&SILENCES)),
        1 => now.saturating_add(r.pick(&SILENCES)),
        2 => r.next(),
        _ => now.saturating_sub(r.below(700)),
    };
    let expected = if r.one_in(2) { 7 + r.below(217) as usize } else { r.pick(&[7, 8, 13, 14, 20, 21, 26, 222, 223]) };
    let last_index = r.below((expected as u64 - 7) / 7 + 1) as u8;
    if in_progress {
        let pgn = if chosen.addressed && r.one_in(8) { r.next() as u32 } else { r.pick(chosen.pgns()) };
        Slot { in_progress, source: r.below(4) as u8, pgn, sequence: r.below(3) as u8, bytes: r.bytes(), expected, current: 6 + 7 * last_index as usize, last_index, last_time: time }
    } else {
        // an idle slot may hold anything
        Slot { in_progress, source: r.below(4) as u8, pgn: r.next() as u32, sequence: r.byte(), bytes: r.bytes(), expected: r.next() as usize, current: r.next() as usize, last_index: r.byte(), last_time: time }
    }
}

/// A frame, often one that fits a slot, and in No. 10's mode often one before its last time.
pub(crate) fn heard(chosen: Chosen, r: &mut Rng, slots: &[Slot], now: u64) -> Heard {
    let mut h = Heard { now, pgn: r.pick(chosen.pgns()), source: r.below(4) as u8, data: r.bytes() };
    match r.below(4) {
        0 => h.data = [(r.below(3) as u8) << 5, r.pick(&SIZES), h.data[2], h.data[3], h.data[4], h.data[5], h.data[6], h.data[7]],
        1 => {}
        _ if !slots.is_empty() => {
            let s = slots[r.below(slots.len() as u64) as usize];
            (h.pgn, h.source) = (chosen.heard_as(s.pgn), s.source);
            let index = if r.one_in(8) { r.below(32) as u8 } else { s.last_index.wrapping_add(1) };
            h.data[0] = s.sequence << 5 | index % 32;
            if r.one_in(3) {
                let by = r.pick(&SILENCES);
                h.now = if chosen.mode == Mode::SetBackIsSilence && r.one_in(2) { s.last_time.saturating_sub(by) } else { s.last_time.saturating_add(by) };
            }
            if r.one_in(6) {
                h.data[0] &= 0xE0;
                h.data[1] = r.pick(&SIZES);
            }
        }
        _ => {}
    }
    h
}

/// Single calls on random possible pools: any time, any idle slot, any counters below the end.
pub fn any_pool(chosen: Chosen, seed: u64, steps: u64) -> u64 {
    let mut r = Rng::new(seed);
    let lists = chosen.lists();
    let mut pairs: Vec<Pair> = (0..=LIMIT).flat_map(|size| lists.map(|l| Pair::fresh(chosen, size, l))).collect();
    for _ in 0..steps {
        let now = if r.one_in(4) { r.next() } else { r.pick(&[0, 500, 1000, 100_000, u64::MAX]) };
        let slots: Slots = std::array::from_fn(|_| possible(chosen, &mut r, now));
        let k = any_size(&mut r) * lists.len() + r.below(lists.len() as u64) as usize;
        let p = &mut pairs[k];
        let counters = std::array::from_fn(|_| if r.one_in(2) { r.next() as u32 >> 1 } else { r.pick(&[0, 1, u32::MAX - 1]) });
        p.set(&slots, counters);
        let h = heard(chosen, &mut r, &slots[..p.size], now);
        let length = if r.one_in(3) { Some(if r.one_in(4) { r.next() as usize } else { r.below(10) as usize }) } else { None };
        p.hear(&h, length);
    }
    steps
}

/// Which slot a frame takes: few sources, keys and times, so that each candidate of a search stands at many slots of a pool or at none; the same frame by a
/// single call and in a batch.
pub fn slots_chosen(chosen: Chosen, seed: u64, steps: u64) -> u64 {
    let [pgn, other] = chosen.two_pgns();
    // where the key has the destination, few of those too
    let (pgns, list) = (if chosen.addressed { [pgn, other] } else { [pgn; 2] }, [chosen.named(pgn)]);
    let mut r = Rng::new(seed);
    let mut pairs: Vec<Pair> = (0..=LIMIT).map(|size| Pair::fresh(chosen, size, &list)).collect();
    for _ in 0..steps {
        let now = r.pick(&[0, 500, 501, 1000, 100_000, u64::MAX]);
        // of four slots so many in progress, and of four in progress so many silent
        let (busy, silent, sources) = (r.below(5), r.below(5), 1 + r.below(12));
        let slots: Slots = std::array::from_fn(|_| Slot {
            in_progress: r.below(4) < busy,
            source: r.below(sources) as u8,
            pgn: r.pick(&pgns),
            sequence: r.below(8) as u8,
            bytes: r.bytes(),
            expected: 20,
            current: 6,
            last_index: 0,
            last_time: match r.below(4) < silent {
                true if chosen.mode == Mode::SetBackIsSilence && r.one_in(2) => now.saturating_add(1),
                true => now.saturating_sub(501),
                false => now.saturating_sub(r.below(501)),
            },
        });
        let index = if r.one_in(4) { 1 } else { 0 };
        let h = Heard { now, pgn: r.pick(&pgns), source: r.below(sources + 1) as u8, data: [(r.below(8) as u8) << 5 | index, 20, 1, 2, 3, 4, 5, 6] };
        let size = any_size(&mut r);
        let p = &mut pairs[size];
        p.set(&slots, [0; 5]);
        p.hear(&h, None);
        if chosen.addressed {
            batch_refused(&pool_of(chosen, size, &slots), [0; 5], &list, &one_row(&h), NO_CUT);
        } else {
            batch(chosen, size, &slots, [0; 5], &list, &one_row(&h), 20, 0);
        }
    }
    steps
}

/// Single calls on pools that document 01 calls impossible, by one slot or by their size; one slot in four by the part of its key. A pool that was bent and is possible all
/// the same is heard.
pub fn impossible_pools(chosen: Chosen, seed: u64, steps: u64) -> u64 {
    let mut r = Rng::new(seed);
    let mut done = 0;
    while done < steps {
        let now = 1000;
        let mut slots: Slots = std::array::from_fn(|_| possible(chosen, &mut r, now));
        let size = if r.one_in(6) { LIMIT + 1 + (r.next() >> r.below(64)).min(u64::MAX - LIMIT as u64 - 1) as usize } else { any_size(&mut r).max(1) };
        let mut bent = None;
        if size <= LIMIT {
            let k = r.below(size as u64) as usize;
            let s = &mut slots[k];
            s.in_progress = true;
            match r.below(8) {
                0 => s.sequence = 8 + r.below(248) as u8,
                1 => s.expected = r.pick(&[0, 1, 6, 224, 255, POOL_BYTES, usize::MAX]),
                2 => s.current = s.current.wrapping_add(r.pick(&[1, 7, usize::MAX])),
                3 => s.last_index = s.last_index.wrapping_add(1),
                4 => (s.last_index, s.current) = (31, 223),
                5 => s.current = s.expected,
                _ => bent = Some((k, r.pick(&[0, 1, 17, 256, 257, 0xFFFF]))),
            }
        }
        let mut p = pool_of(chosen, size, &slots);
        if let Some((k, part)) = bent {
            p.heads[SLOT_NUMBERS * k + PART] = part;
        }
        let h = heard(chosen, &mut r, &slots[..size.min(LIMIT)], now);
        let mut counters = std::array::from_fn(|_| r.next() as u32);
        let length = r.one_in(3).then_some(r.below(10) as usize);
        let (list, by_value) = (r.pick(&chosen.lists()), h.now % 2 == 0);
        if impossible(&p) {
            refused(&p, counters, list, &h, length, by_value);
            done += 1;
        } else {
            assert_ne!(called(&mut p, &mut counters, list, &h, length, by_value).kind, 1, "{h:?} on a pool that is possible all the same");
        }
    }
    steps
}

/// Where a counter stands at its end the original would trap; the port stays there, and all else is as it was below, where it is held
/// to the original: the name too.
pub fn counters_at_the_end(chosen: Chosen) -> u64 {
    let (now, silent_at) = match chosen.mode {
        Mode::AsOriginal => (0, 501),
        Mode::SetBackIsSilence => (1000, 999),
    };
    let [pgn, _] = chosen.two_pgns();
    let busy = Slot { in_progress: true, source: 1, pgn, expected: 7, current: 6, last_time: now, ..Slot::FRESH };
    let mut slots = [Slot::FRESH; LIMIT];
    slots[0] = busy;
    let list = [chosen.named(pgn)];
    let mut steps = 0;
    for (h, which, kind) in [
        (Heard { now, pgn: 5, source: 0, data: [0; 8] }, 4, raw::NOT_LISTED),
        (Heard { now, pgn, source: 0, data: [0; 8] }, 2, raw::REJECTED),
        (Heard { now, pgn, source: 0, data: [1; 8] }, 3, raw::LOST),
        (Heard { now, pgn, source: 1, data: [2; 8] }, 3, raw::LOST),
        (Heard { now, pgn, source: 0, data: [0, 7, 0, 0, 0, 0, 0, 0] }, 1, raw::POOL_FULL),
        (Heard { now: silent_at, pgn, source: 0, data: [0, 7, 0, 0, 0, 0, 0, 0] }, 0, raw::FRAGMENT_CONSUMED),
    ] {
        let mut pair = Pair::fresh(chosen, 1, &list);
        pair.set(&slots, [7; 5]);
        let below = pair.hear(&h, None);
        assert_eq!(below.kind, kind, "{h:?}");
        for at in [u32::MAX - 2, u32::MAX - 1, u32::MAX] {
            let (mut before, mut after) = ([7; 5], [7; 5]);
            (before[which], after[which]) = (at, at.saturating_add(1));
            for (length, by_value) in SINGLE_CALLS {
                let (mut p, mut c) = (pool_of(chosen, 1, &slots), before);
                let got = called(&mut p, &mut c, &list, &h, length, by_value);
                assert_eq!((&got, &p, c), (&below, &pair.p, after), "{h:?}");
                steps += 1;
            }
            if chosen.addressed {
                continue;
            }
            let (mut p, mut c, mut told) = (pool_of(chosen, 1, &slots), before, lent(1, 0));
            assert_eq!(batched(&mut p, &mut c, &list, &one_row(&h), &mut told), (0, 1, 0));
            assert_eq!((told.kinds[0] as u32, told.lengths[0], &p, c), (kind, 0, &pair.p, after), "{h:?}");
            steps += 1;
        }
    }
    steps
}

// ---- where one name could be taken for another

/// Every slot in progress and live up to 1500 ms, each of another source.
fn full_pool(pgn: u32) -> Slots {
    std::array::from_fn(|k| Slot { in_progress: true, source: 10 + k as u8, pgn, sequence: 3, bytes: [k as u8; 223], expected: 223, current: 6, last_index: 0, last_time: 1000 })
}

/// One frame on the same pool by every call of its kind, each held to the original: the kind that all of them give, and the slots that they leave.
pub(crate) fn by_every_call(chosen: Chosen, size: usize, slots: &Slots, list: &[u32], h: &Heard) -> (u32, Slots) {
    let mut pair = Pair::fresh(chosen, size, list);
    pair.set(slots, [7; 5]);
    let first = (pair.hear(h, None), pair.slots());
    pair.set(slots, [7; 5]);
    assert_eq!((pair.hear(h, Some(8)), pair.slots()), first, "with a length, {h:?}");
    if chosen.addressed {
        batch_refused(&pool_of(chosen, size, slots), [7; 5], list, &one_row(h), NO_CUT);
    } else {
        let left = batch(chosen, size, slots, [7; 5], list, &one_row(h), 223, 0);
        assert_eq!((left.said[0].kind, left.slots), (first.0.kind, first.1), "a batch of one, {h:?}");
    }
    (first.0.kind, first.1)
}

/// The same on an impossible pool: 1 by every call.
pub(crate) fn refused_by_every_call(before: &Pool, list: &[u32], h: &Heard) {
    for (length, by_value) in SINGLE_CALLS {
        refused(before, [7; 5], list, h, length, by_value);
    }
    assert_eq!(batch_refused(before, [7; 5], list, &one_row(h), NO_CUT), 1);
}

/// Every announced size where no slot is free: 0 and over 223 is Rejected all the same, and 1 to 6 bytes need no slot. Where the PGN is
/// not listed nothing else is asked.
pub fn no_slot_free(chosen: Chosen) -> u64 {
    let [pgn, _] = chosen.two_pgns();
    let full = full_pool(pgn);
    let mut steps = 0;
    for size in [0, 1, 4, 8].into_iter().chain(LARGE) {
        for announced in 0..=255 {
            let h = Heard { now: 1500, pgn, source: 1, data: [0, announced, 1, 2, 3, 4, 5, 6] };
            let kind = match announced {
                0 | 224..=255 => raw::REJECTED,
                1..=6 => raw::MESSAGE_COMPLETE,
                7..=223 => raw::POOL_FULL,
            };
            assert_eq!(by_every_call(chosen, size, &full, &[chosen.named(pgn)], &h), (kind, full), "{announced} on a full pool of {size}");
            assert_eq!(by_every_call(chosen, size, &full, &[129_029], &h), (raw::NOT_LISTED, full), "unlisted, {announced} on a full pool of {size}");
            steps += 2;
        }
    }
    steps
}

/// A continuation of a session with every last index, in time and late (in No. 10's mode also before its time), in turn and out of turn: a late session stays as it
/// is, and one whose frame is out of turn has ended.
pub fn late_and_out_of_turn(chosen: Chosen) -> u64 {
    let [pgn, _] = chosen.two_pgns();
    let list = [chosen.named(pgn)];
    let late: &[u64] = match chosen.mode {
        Mode::AsOriginal => &[1501],
        Mode::SetBackIsSilence => &[1501, 999, 0],
    };
    let mut steps = 0;
    for size in [1, 4, 8].into_iter().chain(LARGE) {
        for last_index in 0..=30u8 {
            let mut slots = full_pool(pgn);
            let own = &mut slots[size - 1];
            (own.last_index, own.current) = (last_index, 6 + 7 * last_index as usize);
            let mut ended = slots;
            ended[size - 1] = Slot { in_progress: false, pgn: 0, sequence: 0, expected: 0, current: 0, last_index: 0, ..slots[size - 1] };
            for index in (last_index.saturating_sub(1)..=last_index + 2).filter(|i| (1..=31).contains(i)) {
                let h = |now| Heard { now, pgn, source: 10 + size as u8 - 1, data: [3 << 5 | index, 1, 2, 3, 4, 5, 6, 7] };
                for &now in late {
                    assert_eq!(by_every_call(chosen, size, &slots, &list, &h(now)), (raw::LOST, slots), "at {now}: index {index} after {last_index}");
                    steps += 1;
                }
                let (kind, left) = by_every_call(chosen, size, &slots, &list, &h(1500));
                if index != last_index + 1 {
                    assert_eq!((kind, left), (raw::LOST, ended), "out of turn: index {index} after {last_index}");
                } else {
                    assert_eq!(kind, if last_index < 30 { raw::FRAGMENT_CONSUMED } else { raw::MESSAGE_COMPLETE }, "in turn: index {index}");
                }
                steps += 1;
            }
        }
    }
    steps
}

/// Impossible pools by their size and by each field, under frames of every kind: 1, also where the PGN is not listed.
pub fn unlisted_on_impossible_pools(chosen: Chosen) -> u64 {
    let [pgn, _] = chosen.two_pgns();
    let full = full_pool(pgn);
    let bad = |bend: fn(&mut Slot)| {
        let mut slots = full;
        bend(&mut slots[3]);
        (4, slots)
    };
    let mut steps = 0;
    for (size, slots) in [
        (LIMIT + 1, full),
        (usize::MAX, full),
        bad(|s| s.sequence = 8),
        bad(|s| s.expected = 6),
        bad(|s| s.expected = 224),
        bad(|s| s.current = 7),
        bad(|s| (s.expected, s.current, s.last_index) = (13, 13, 1)),
    ] {
        let p = pool_of(chosen, size, &slots);
        assert!(impossible(&p));
        for (b0, b1) in [(0, 0), (0, 6), (0, 7), (0, 224), (1, 0), (3 << 5 | 1, 0), (3 << 5 | 2, 0)] {
            for list in [&[][..], &[129_029], &[chosen.named(pgn)]] {
                refused_by_every_call(&p, list, &Heard { now: 1500, pgn, source: 13, data: [b0, b1, 1, 2, 3, 4, 5, 6] });
                steps += 1;
            }
        }
    }
    steps
}

/// All three.
pub fn told_apart(chosen: Chosen) -> u64 {
    no_slot_free(chosen) + late_and_out_of_turn(chosen) + unlisted_on_impossible_pools(chosen)
}

// ---- traffic

/// The next reading of a clock that goes on by less than `pace`, and now and then is silent around 500 ms, or goes back.
pub fn seldom_set_back(r: &mut Rng, now: u64, steady: u64, pace: u64) -> u64 {
    match r.below(steady) {
        0 => now.saturating_add(501),
        1 => now.saturating_sub(600),
        2 => now.saturating_add(500),
        3 => now.saturating_add(499),
        _ => now.saturating_add(r.below(pace)),
    }
}

const HOUR: u64 = 3_600_000;

/// The same of a clock that is set as well: back by 1 ms up to hours, to its first and last readings and beside them; and that stands.
pub fn often_set_back(r: &mut Rng, now: u64, steady: u64, pace: u64) -> u64 {
    match r.below(steady) {
        0 | 1 => now.saturating_sub(1),
        2 => now.saturating_sub(r.pick(&[2, 499, 500, 501, 600])),
        3 => now.saturating_sub(1 + r.below(6 * HOUR)),
        4 => r.pick(&[0, 1, 500, 501, 6 * HOUR, u64::MAX - 501, u64::MAX - 500, u64::MAX - 1, u64::MAX]),
        5 => now.saturating_add(500),
        6 => now.saturating_add(501),
        7 => now,
        _ => now.saturating_add(r.below(pace)),
    }
}

/// Runs of traffic from a fresh pool: several senders, losses, repeats, damage, silences around 500 ms, a clock that goes
/// back, full pools, keys that collide, lists that are not in order.
pub fn traffic(chosen: Chosen, seed: u64, steps: u64) -> u64 {
    let mut r = Rng::new(seed);
    let mut filled = BTreeSet::new();
    let mut done = 0;
    while done < steps {
        let size = any_size(&mut r);
        // more senders, closer frames and fewer silences, so that a large pool fills up too
        let (most, pace, steady) = if size > 8 { (3 * size, 3, 1000) } else { (size + 3, 20, 40) };
        let mut p = Pair::fresh(chosen, size, r.pick(&chosen.lists()[1..]));
        let mut now = r.pick(&[0, 1000, u64::MAX - 5_000_000]);
        // a sender: source, PGN, the frames that are left
        let mut senders: Vec<(u8, u32, Vec<[u8; 8]>, usize)> = vec![];
        for _ in 0..2000 {
            now = match chosen.mode {
                Mode::AsOriginal => seldom_set_back(&mut r, now, steady, pace),
                Mode::SetBackIsSilence => often_set_back(&mut r, now, steady, pace),
            };
            if senders.is_empty() || senders.len() < most && r.one_in(3) {
                let len = if r.one_in(2) { r.pick(&[1, 5, 6, 7, 13, 14, 20, 222, 223]) } else { 1 + r.below(223) as usize };
                let payload = r.vec(len);
                senders.push((r.below(size as u64 + 2) as u8, r.pick(chosen.pgns()), frames(r.below(8) as u8, &payload), 0));
            }
            let k = r.below(senders.len() as u64) as usize;
            let (source, pgn, fs, at) = &mut senders[k];
            let mut h = Heard { now, pgn: *pgn, source: *source, data: fs[*at] };
            if r.one_in(60) {
                h.data[r.below(2) as usize] = r.byte();
            }
            if !r.one_in(80) {
                *at += 1;
            }
            if *at >= fs.len() || r.one_in(100) {
                senders.swap_remove(k);
            }
            p.hear(&h, r.one_in(4).then_some(r.pick(&[8, 8, 8, 9, 7, 3, 1, 0])));
            if p.in_use() == size {
                filled.insert(size);
            }
            done += 1;
        }
    }
    assert!(steps < 1_000_000 || LARGE.iter().all(|size| filled.contains(size)), "all slots in use at some time, by sizes: {filled:?}");
    done
}

// ---- all slots in use

/// The k-th of 64 keys that share sources and PGNs: source, PGN and sequence.
fn key(chosen: Chosen, k: usize) -> (u8, u32, u8) {
    ((k % 8) as u8, chosen.two_pgns()[k / 8 % 2], sequence(k))
}

fn sequence(k: usize) -> u8 {
    (k / 16) as u8
}

/// Places 0 to n - 1 in any order.
fn shuffled(r: &mut Rng, n: usize) -> Vec<usize> {
    let mut order: Vec<usize> = (0..n).collect();
    (1..n).rev().for_each(|i| order.swap(i, r.below(i as u64 + 1) as usize));
    order
}

/// A message of 7 bytes or more: the number of its key, its bytes, its frames.
struct Message {
    key: usize,
    payload: Vec<u8>,
    frames: Vec<[u8; 8]>,
}

fn any_message(r: &mut Rng, k: usize) -> Message {
    let length = 7 + r.below(217) as usize;
    let payload = r.vec(length);
    Message { key: k, frames: frames(sequence(k), &payload), payload }
}

/// A pool, and all the frames that it was given, for batches of the same.
struct Filled {
    pair: Pair,
    rows: Rows,
}

impl Filled {
    fn hear(&mut self, now: u64, k: usize, data: [u8; 8]) -> Answer {
        let (source, pgn, _) = key(self.pair.chosen, k);
        self.rows.push(now, pgn, source, data);
        self.pair.hear(&Heard { now, pgn, source, data }, self.rows.len().is_multiple_of(3).then_some(8))
    }
    /// A first frame is taken, and then so many slots are in use.
    fn open(&mut self, now: u64, k: usize, first: [u8; 8], in_use: usize) {
        assert_eq!((self.hear(now, k, first).kind, self.pair.in_use()), (raw::FRAGMENT_CONSUMED, in_use));
    }
    /// Each message from its second frame on, the senders in any order; no two readings are over 500 apart. In No. 10's mode each sender has a clock of its own, up
    /// to 500 on at each of its frames: so the readings go back and forth by seconds, and none is before its own message's last one.
    fn bring_to_an_end(&mut self, r: &mut Rng, messages: &[Message]) {
        let slots = self.pair.slots();
        let opened = |m: &Message| slots.iter().find(|s| (s.source, s.pgn, s.sequence) == key(self.pair.chosen, m.key)).unwrap().last_time;
        let mut left: Vec<(&Message, usize, u64)> = messages.iter().map(|m| (m, 1, opened(m))).collect();
        while !left.is_empty() {
            let which = r.below(left.len() as u64) as usize;
            let (m, at, last) = left[which];
            let now = match self.pair.chosen.mode {
                Mode::AsOriginal => 1000 + r.below(501),
                Mode::SetBackIsSilence => last + r.below(501),
            };
            let got = self.hear(now, m.key, m.frames[at]);
            if at + 1 < m.frames.len() {
                assert_eq!(got.kind, raw::FRAGMENT_CONSUMED);
                left[which] = (m, at + 1, now);
            } else {
                assert_eq!((got.kind, &got.payload[..got.length]), (raw::MESSAGE_COMPLETE, &m.payload[..]));
                left.swap_remove(which);
            }
        }
    }
    /// All frames again from a fresh pool, in batches of any length, leave the same.
    fn in_batches(&self, r: &mut Rng) {
        let (size, list) = (self.pair.size, &self.pair.list[..]);
        let (mut slots, mut counters, mut from) = ([Slot::FRESH; LIMIT], [0; 5], 0);
        while from < self.rows.len() {
            let to = self.rows.len().min(from + 1 + r.below(300) as usize);
            let mut rows = Rows::default();
            for h in (from..to).map(|i| heard_in(&self.rows, i)) {
                rows.push(h.now, h.pgn, h.source, h.data);
            }
            let after = batch(self.pair.chosen, size, &slots, counters, list, &rows, 223 * rows.len(), 0);
            (slots, counters, from) = (after.slots, after.counters, to);
        }
        assert_eq!((slots, counters), (self.pair.slots(), self.pair.counters()), "batches leave what the single calls leave");
    }
}

/// Pools filled to the last slot. Then another key finds the pool full, six bytes need no slot, and a key that is there begins again; every message comes to
/// its end; filled again and left silent over 500 ms, or in No. 10's mode with the clock set back by 1 ms, every slot is taken from its old message.
pub fn all_slots_in_use(chosen: Chosen, seed: u64, rounds: u64) -> u64 {
    let silent_at = match chosen.mode {
        Mode::AsOriginal => 3501,
        Mode::SetBackIsSilence => 2999,
    };
    let mut r = Rng::new(seed);
    let mut steps = 0;
    for size in [1, 4, 8].into_iter().chain(LARGE) {
        for _ in 0..rounds {
            let list = chosen.two_pgns().map(|pgn| chosen.named(pgn));
            let mut f = Filled { pair: Pair::fresh(chosen, size, &list), rows: Rows::default() };
            let messages: Vec<Message> = shuffled(&mut r, size).into_iter().map(|k| any_message(&mut r, k)).collect();
            for (done, m) in messages.iter().enumerate() {
                f.open(1000, m.key, m.frames[0], done + 1);
            }
            assert_eq!(f.hear(1500, size, frames(sequence(size), &[7; 7])[0]).kind, raw::POOL_FULL);
            assert_eq!(f.hear(1500, size, frames(sequence(size), &[6; 6])[0]).kind, raw::MESSAGE_COMPLETE);
            let again = &messages[r.below(size as u64) as usize];
            f.open(1500, again.key, again.frames[0], size);
            f.bring_to_an_end(&mut r, &messages);
            assert_eq!(f.pair.in_use(), 0);
            let first = |k: usize| [sequence(k) << 5, 7, 1, 2, 3, 4, 5, 6];
            for (done, k) in shuffled(&mut r, size).into_iter().enumerate() {
                f.open(3000, k, first(k), done + 1);
            }
            for k in shuffled(&mut r, size) {
                f.open(silent_at, size + k, first(size + k), size);
            }
            assert_eq!(f.pair.counters(), [size as u32, 1, 0, 0, 0]);
            steps += f.rows.len() as u64;
            if !chosen.addressed {
                f.in_batches(&mut r);
                steps += f.rows.len() as u64;
            }
        }
    }
    steps
}

// ---- the safe API

/// The original's slot k beside the one that the port's method reads.
fn reads<Kind: PoolKind>(chosen: Chosen, p: &ours::Pool<Kind>, o: &dyn Original, k: usize) -> bool {
    let (s, b) = (p.slot(k), o.slot(k));
    let (pgn, part) = if b.in_progress { chosen.in_the_port(b.pgn) } else { (b.pgn, 0) };
    s == Some(ours::Slot {
        in_progress: b.in_progress, source_address: b.source, sequence_id: b.sequence, last_frame_index: b.last_index, pgn, destination: part.checked_sub(1).map(|d| d as u8),
        expected_size: b.expected, current_size: b.current, last_seen_ms: b.last_time, buffer: &b.bytes,
    })
}

/// An answer of the safe API beside the original's; `same` compares the messages.
fn hold_safe<M>(call: &'static str, got: &ours::ProcessResult<M>, (result, said): &(ProcessResult, Said), h: &Heard, same: impl Fn(&M, &CompletedMessage) -> bool) {
    answered(call, kind_of(got));
    said.hold(kind_of(got), h);
    assert_eq!(got.is_ignored(), matches!(result, ProcessResult::Ignored), "{h:?}");
    if let (ours::ProcessResult::MessageComplete(ours), ProcessResult::MessageComplete(theirs)) = (got, result) {
        assert!(same(ours, theirs), "the message of {h:?}");
    }
}

/// The calls of a pool as a program holds it, which differ from kind to kind.
trait Calls {
    /// The name under which its single calls are counted.
    const NAME: &'static str;
    /// A fresh pool as a program makes it.
    fn fresh(mode: Mode, size: usize) -> Self;
    /// One single call: with a length, by the counters by value, or by the lent counters.
    fn single(&mut self, list: &[u32], h: &Heard, length: Option<usize>, by_value: bool) -> ours::ProcessResult;
    /// What pools of the other kind have not: batches, or identifiers that are too wide.
    fn its_own(&mut self, chosen: Chosen, r: &mut Rng, o: &mut dyn Original, list: &[u32], slots: &[Slot], h: &Heard);
}

impl Calls for ours::Pool {
    const NAME: &'static str = "safe";
    fn fresh(mode: Mode, size: usize) -> Self {
        match mode {
            Mode::AsOriginal => ours::Pool::new(size).unwrap(),
            Mode::SetBackIsSilence => ours::Pool::with_mode(size, mode).unwrap(),
        }
    }
    fn single(&mut self, list: &[u32], h: &Heard, length: Option<usize>, by_value: bool) -> ours::ProcessResult {
        match length {
            Some(n) => self.process_frame_with_length(list, h.now, h.pgn, h.source, &h.data, n),
            None if by_value => self.receive(list, h.now, h.pgn, h.source, &h.data),
            None => self.process_frame(list, h.now, h.pgn, h.source, &h.data),
        }
    }
    fn its_own(&mut self, chosen: Chosen, r: &mut Rng, o: &mut dyn Original, list: &[u32], slots: &[Slot], h: &Heard) {
        let (mut rows, mut want) = (Rows::default(), vec![]);
        for _ in 0..r.below(6) {
            let h = heard(chosen, r, slots, h.now);
            rows.push(h.now, h.pgn, h.source, h.data);
            want.push(asked(o, &h));
        }
        let mut told = ours::Told::room(rows.len(), 223 * rows.len());
        let taken = self.process_frames(list, &rows, 0, &mut told).unwrap();
        let complete: Vec<_> = want.iter().enumerate().filter(|(_, (r, _))| matches!(r, ProcessResult::MessageComplete(_))).map(|(k, (r, _))| (k, message_of(r))).collect();
        assert_eq!((taken.frames, taken.used), (rows.len(), complete.iter().map(|(_, m)| m.len()).sum()));
        assert_eq!(told.messages(taken).collect::<Vec<_>>(), complete);
        assert_eq!(told.results(taken).count(), rows.len());
        for (k, (got, want)) in told.results(taken).zip(&want).enumerate() {
            hold_safe("safe_row", &got, want, &heard_in(&rows, k), |ours, theirs| *ours == &theirs.payload[..theirs.len]);
        }
    }
}

impl Calls for ours::Pool<Addressed> {
    const NAME: &'static str = "safe_by_id";
    fn fresh(mode: Mode, size: usize) -> Self {
        ours::Pool::with_kind(size, mode, Addressed).unwrap()
    }
    fn single(&mut self, list: &[u32], h: &Heard, length: Option<usize>, by_value: bool) -> ours::ProcessResult {
        by_id(self, list, h, CanId(h.id()), length, by_value).unwrap()
    }
    fn its_own(&mut self, _: Chosen, _: &mut Rng, _: &mut dyn Original, list: &[u32], _: &[Slot], h: &Heard) {
        let before = self.clone();
        for (length, by_value) in SINGLE_CALLS {
            assert_eq!(by_id(self, list, h, CanId(h.wide_id()), length, by_value), Err(TooWide), "{h:?}");
            answered(Self::NAME, TooWide.number());
        }
        assert_eq!(*self, before, "a refusal changes nothing");
    }
}

fn by_id(p: &mut ours::Pool<Addressed>, list: &[u32], h: &Heard, id: CanId, length: Option<usize>, by_value: bool) -> Result<ours::ProcessResult, TooWide> {
    match length {
        Some(n) => p.process_frame_by_id_with_length(list, h.now, id, &h.data, n),
        None if by_value => p.receive_by_id(list, h.now, id, &h.data),
        None => p.process_frame_by_id(list, h.now, id, &h.data),
    }
}

/// Pools as a program holds them, from fresh on: each of the calls in turn, and after each all that the methods read.
pub fn safe_pools(chosen: Chosen, seed: u64, steps: u64) -> u64 {
    if chosen.addressed {
        safe_pools_of::<Addressed>(chosen, seed, steps)
    } else {
        safe_pools_of::<ours::Original>(chosen, seed, steps)
    }
}

fn safe_pools_of<Kind: PoolKind>(chosen: Chosen, seed: u64, steps: u64) -> u64
where
    ours::Pool<Kind>: Calls,
{
    let call = <ours::Pool<Kind> as Calls>::NAME;
    let mut r = Rng::new(seed);
    let mut done = 0;
    while done < steps {
        let size = any_size(&mut r);
        let list = r.pick(&chosen.lists()[1..]);
        let (mut o, mut p) = (original(chosen.mode, size, sorted(chosen, list)), ours::Pool::<Kind>::fresh(chosen.mode, size));
        let mut now = r.pick(&[0, 1000, u64::MAX - 5_000_000]);
        for _ in 0..500 {
            let slots: Vec<Slot> = (0..size).map(|k| o.slot(k)).collect();
            now = match chosen.mode {
                Mode::AsOriginal if r.one_in(20) => now.saturating_sub(600),
                Mode::AsOriginal => now.saturating_add(r.pick(&[0, 1, 5, 5, 5, 500, 501])),
                Mode::SetBackIsSilence => often_set_back(&mut r, now, 20, 6),
            };
            let h = heard(chosen, &mut r, &slots, now);
            match r.below(4) {
                which @ 0..=2 => {
                    let length = (which == 2).then(|| r.below(10) as usize);
                    let got = p.single(list, &h, length, which == 1);
                    if let Some(cut) = length.and_then(|n| cut_short(chosen.mode, sorted(chosen, list), &slots, &h, n)) {
                        answered(call, kind_of(&got));
                        assert_eq!(kind_of(&got), set_cut_short(chosen, &mut *o, cut), "{h:?}, length {length:?}");
                    } else {
                        let sent = length.unwrap_or(8);
                        let filled = Heard { data: std::array::from_fn(|i| if i < sent { h.data[i] } else { 0xFF }), ..h };
                        hold_safe(call, &got, &asked(&mut *o, &filled), &filled, |ours, theirs| (ours.payload, ours.len) == (theirs.payload, theirs.len));
                    }
                }
                _ => p.its_own(chosen, &mut r, &mut *o, list, &slots, &Heard { now, ..h }),
            }
            assert_eq!([p.expired_sessions(), p.pool_exhausted(), p.rejected_frames(), p.lost_fragments(), p.unknown_pgn()], o.counters());
            assert!((0..size).all(|k| reads(chosen, &p, &*o, k)) && p.slot(size).is_none() && (p.size(), p.mode()) == (size, chosen.mode), "slots after {h:?}");
            done += 1;
        }
    }
    done
}

/// Batches of rows of any lengths, from any frame on: a panic is a difference. 27 exactly where a row is shorter than the times, and
/// then nothing has changed.
pub fn any_rows(seed: u64, steps: u64) -> u64 {
    let mut r = Rng::new(seed);
    for _ in 0..steps {
        let list = r.pick(&AS_ORIGINAL.lists());
        let mut p = ours::Pool::new(any_size(&mut r)).unwrap();
        let mut length = |most| r.below(most) as usize;
        let (times, pgns, sources, data) = (length(6), length(6), length(6), length(50));
        let (kinds, lengths, arena) = (length(6), length(6), length(40));
        let mut told = Told { kinds: vec![0xEE; kinds], lengths: vec![0xEE; lengths], arena: vec![0xEE; arena] }.for_safe_call();
        let from = if r.one_in(10) { r.next() as usize } else { r.below(8) as usize };
        let rows = Rows { times: vec![7; times], pgns: (0..pgns).map(|_| r.pick(AS_ORIGINAL.pgns())).collect(), sources: vec![1; sources], data: r.vec(data).iter().map(|b| b % 12).collect() };
        let n = times.saturating_sub(from);
        let left = |len: usize, each: usize| len.saturating_sub(from.saturating_mul(each)) / each;
        let short = [left(pgns, 1), left(sources, 1), left(data, 8), kinds, lengths].into_iter().any(|len| len < n);
        let before = (p.clone(), told.clone());
        match p.process_frames(list, &rows, from, &mut told) {
            Ok(taken) => {
                assert!(!short && taken.frames <= n && taken.used <= arena);
                assert_eq!((told.results(taken).count(), told.messages(taken).map(|(_, m)| m.len()).sum::<usize>()), (taken.frames, taken.used));
                answered("rows", 0);
            }
            Err(NoRoom) => {
                assert!(short && (p, told) == before, "a refusal changes nothing");
                answered("rows", NoRoom.number());
            }
        }
    }
    steps
}
