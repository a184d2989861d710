//! From frames to messages: the original's `FastPacketAssembler`, but for the PGN list, which is lent to each call, and for its
//! Ignored, which here says why. So one call is enough: nothing is asked before it.
use crate::can_id::CanId;
use crate::error::{never_given, ImpossiblePool, NoRoom, TooWide};
use crate::fast_packet::MAX_FAST_PACKET_PAYLOAD;
use crate::raw;
use std::marker::PhantomData;

/// What a session is where now is earlier than its last time, because the clock was set back. Chosen when a pool is made; it stays with it.
#[derive(Clone, Copy, Debug, Default, PartialEq, Eq)]
pub enum Mode {
    /// Silent for 0 ms, as in the original: it can live until the clock has come back.
    #[default]
    AsOriginal,
    /// Silent over 500 ms: free and expired for a first frame, and no continuation finds it.
    SetBackIsSilence,
}

impl Mode {
    /// The number that it has at the entries.
    pub fn number(self) -> u32 {
        match self {
            Self::AsOriginal => raw::AS_ORIGINAL,
            Self::SetBackIsSilence => raw::SET_BACK_IS_SILENCE,
        }
    }
    /// The other way round.
    fn from_number(number: u32) -> Self {
        match number {
            raw::AS_ORIGINAL => Self::AsOriginal,
            raw::SET_BACK_IS_SILENCE => Self::SetBackIsSilence,
            other => never_given(other),
        }
    }
}

/// Which key the messages of a pool have. Chosen when a pool is made; it is in the pool's type, so that no call meets a pool of the other kind.
pub trait PoolKind: sealed::Sealed {
    /// The number that it has at the entries.
    const NUMBER: u32;
}

/// Source, PGN and sequence, as in the original: the calls take PGN and source.
#[derive(Clone, Copy, Debug, PartialEq, Eq)]
pub struct Original;

/// The destination too, or none where PF is 240 or more: the calls take the identifier. One sender's answers to two displays at once are two messages.
#[derive(Clone, Copy, Debug, PartialEq, Eq)]
pub struct Addressed;

impl PoolKind for Original {
    const NUMBER: u32 = raw::ORIGINAL;
}

impl PoolKind for Addressed {
    const NUMBER: u32 = raw::ADDRESSED;
}

/// No program adds a kind: the archive has these two.
mod sealed {
    pub trait Sealed {}
    impl Sealed for super::Original {}
    impl Sealed for super::Addressed {}
}

/// A pool of sessions and its five counters, as the calls leave them: no other way leads to one, so none is impossible.
#[derive(Clone, Debug, PartialEq, Eq)]
pub struct Pool<Kind = Original> {
    numbers: raw::Pool,
    counters: raw::Counters,
    kind: PhantomData<Kind>,
}

/// What a frame got: of a single call with a copy of the message, of a batch with the message as it stands in the arena. The counter
/// that a case names went up by one, unless it stands at its end.
#[allow(clippy::large_enum_variant)]
#[derive(Clone, Debug, PartialEq, Eq)]
pub enum ProcessResult<Message = CompletedMessage> {
    /// The list lent to the call does not have the PGN (`unknown_pgn`).
    NotListed,
    /// A first frame announced 0 or more than 223 bytes, or was cut short, or a frame came without a byte (`rejected_frames`).
    Rejected,
    /// A first frame began a message of 7 bytes or more, and no slot was free or had its key (`pool_exhausted`).
    PoolFull,
    /// A continuation found no live session (a silent one stays as it is), or it came out of turn or without a byte that its session
    /// needs, which ended the session (`lost_fragments`).
    Lost,
    /// The frame was taken, and more of its message is missing.
    FragmentConsumed,
    /// The frame brought this message to its end.
    MessageComplete(Message),
}

impl<Message> ProcessResult<Message> {
    /// What the original answers `Ignored` to: the frame was not taken.
    pub fn is_ignored(&self) -> bool {
        matches!(self, Self::NotListed | Self::Rejected | Self::PoolFull | Self::Lost)
    }
    /// A kind under its name; none for a number that is no kind of a frame, or without its message.
    fn named(kind: u32, message: impl FnOnce() -> Option<Message>) -> Option<Self> {
        match kind {
            raw::NOT_LISTED => Some(Self::NotListed),
            raw::REJECTED => Some(Self::Rejected),
            raw::POOL_FULL => Some(Self::PoolFull),
            raw::LOST => Some(Self::Lost),
            raw::FRAGMENT_CONSUMED => Some(Self::FragmentConsumed),
            raw::MESSAGE_COMPLETE => message().map(Self::MessageComplete),
            _ => None,
        }
    }
}

#[derive(Clone, Debug, PartialEq, Eq)]
pub struct CompletedMessage {
    /// The message, and zeros after it.
    pub payload: [u8; MAX_FAST_PACKET_PAYLOAD],
    pub len: usize,
}

/// What a slot of the pool holds. An idle slot keeps its last source, buffer and time.
#[derive(Clone, Copy, Debug, PartialEq, Eq)]
pub struct Slot<'a> {
    pub in_progress: bool,
    pub source_address: u8,
    pub sequence_id: u8,
    pub last_frame_index: u8,
    pub pgn: u32,
    /// That of its key: none while idle, in a pool of the original's kind, and where PF is 240 or more.
    pub destination: Option<u8>,
    pub expected_size: usize,
    pub current_size: usize,
    pub last_seen_ms: u64,
    pub buffer: &'a [u8],
}

/// How many frames a batch took, and how many bytes of the arena.
#[derive(Clone, Copy, Debug, PartialEq, Eq)]
pub struct Taken {
    pub frames: usize,
    pub used: usize,
}

impl<Kind: PoolKind> Pool<Kind> {
    /// A fresh pool of up to 32 slots in a mode and of a kind of one's choice, counters at 0; more slots are refused.
    pub fn with_kind(size: usize, mode: Mode, _: Kind) -> Result<Self, ImpossiblePool> {
        Self::made(|numbers| numbers.made_with_kind(size, mode.number(), Kind::NUMBER))
    }
    fn made(call: impl FnOnce(&mut raw::Pool) -> u32) -> Result<Self, ImpossiblePool> {
        let mut pool = Self { numbers: raw::Pool::ZEROS, counters: [0; raw::COUNTERS], kind: PhantomData };
        match call(&mut pool.numbers) {
            0 => Ok(pool),
            ImpossiblePool::NUMBER => Err(ImpossiblePool),
            other => never_given(other),
        }
    }

    pub fn size(&self) -> usize {
        self.numbers.size
    }
    /// The mode that it was made with.
    pub fn mode(&self) -> Mode {
        Mode::from_number(self.numbers.mode)
    }
    pub fn expired_sessions(&self) -> u32 {
        self.counters[0]
    }
    pub fn pool_exhausted(&self) -> u32 {
        self.counters[1]
    }
    pub fn rejected_frames(&self) -> u32 {
        self.counters[2]
    }
    pub fn lost_fragments(&self) -> u32 {
        self.counters[3]
    }
    pub fn unknown_pgn(&self) -> u32 {
        self.counters[4]
    }
    /// Slot k of the pool's size.
    pub fn slot(&self, k: usize) -> Option<Slot<'_>> {
        if k >= self.numbers.size {
            return None;
        }
        let head = self.numbers.heads.chunks_exact(raw::SLOT_NUMBERS).nth(k)?;
        Some(Slot {
            in_progress: head[0] != 0,
            source_address: head[1] as u8,
            sequence_id: head[2] as u8,
            last_frame_index: head[3] as u8,
            pgn: head[4] as u32,
            destination: head[5].checked_sub(1).map(|destination| destination as u8),
            expected_size: head[6] as usize,
            current_size: head[7] as usize,
            last_seen_ms: head[8],
            buffer: self.numbers.bytes.chunks_exact(MAX_FAST_PACKET_PAYLOAD).nth(k)?,
        })
    }
}

impl Pool {
    /// A fresh pool of up to 32 slots, as the original, counters at 0; more slots are refused.
    pub fn new(size: usize) -> Result<Self, ImpossiblePool> {
        Self::made(|numbers| numbers.made_anew(size))
    }
    /// The same in a mode of one's choice.
    pub fn with_mode(size: usize, mode: Mode) -> Result<Self, ImpossiblePool> {
        Self::made(|numbers| numbers.made_with_mode(size, mode.number()))
    }

    pub fn process_frame(&mut self, pgns: &[u32], now_ms: u64, pgn: u32, source_address: u8, data: &[u8; 8]) -> ProcessResult {
        answer(|payload, length| self.numbers.process_frame(&mut self.counters, pgns, now_ms, pgn, source_address, data, payload, length))
    }
    /// The same by the call that has the counters by value: fewer copies of the pool.
    pub fn receive(&mut self, pgns: &[u32], now_ms: u64, pgn: u32, source_address: u8, data: &[u8; 8]) -> ProcessResult {
        answer(|payload, length| self.numbers.receive(&mut self.counters, pgns, now_ms, pgn, source_address, data, payload, length))
    }
    /// Of the frame's bytes only the first min(frame_length, 8) were sent; at 8 or more it is `process_frame`. A frame of a listed PGN without a byte is
    /// Rejected, and so is a first frame that lacks its size or a byte of the message; a continuation that lacks a byte its live session needs is Lost
    /// and ends the session.
    pub fn process_frame_with_length(&mut self, pgns: &[u32], now_ms: u64, pgn: u32, source_address: u8, data: &[u8; 8], frame_length: usize) -> ProcessResult {
        answer(|payload, length| self.numbers.process_frame_with_length(&mut self.counters, pgns, now_ms, pgn, source_address, data, frame_length, payload, length))
    }
    /// Many frames in one call, those of `rows` from `from` on; past the end there are none. It stops before the first frame whose
    /// message has no room in the arena. Refused where a row is shorter than that of the times; the other refusal of a batch, of an
    /// impossible pool, has no case here, since no value of `Pool` is one.
    pub fn process_frames(&mut self, pgns: &[u32], rows: &Rows, from: usize, told: &mut Told) -> Result<Taken, NoRoom> {
        fn rest<T>(row: &[T], from: usize) -> &[T] {
            row.get(from..).unwrap_or(&[])
        }
        let mut counts = [0; raw::COUNTS];
        let number = self.numbers.process_frames(
            &mut self.counters, pgns, rest(&rows.times, from), rest(&rows.pgns, from), rest(&rows.sources, from), rest(&rows.data, from.saturating_mul(8)),
            &mut told.numbers.kinds, &mut told.numbers.lengths, &mut told.numbers.arena, &mut counts,
        );
        match number {
            0 => Ok(Taken { frames: counts[0] as usize, used: counts[1] as usize }),
            NoRoom::NUMBER => Err(NoRoom),
            other => never_given(other),
        }
    }
}

impl Pool<Addressed> {
    /// `Pool::process_frame` for a frame by its identifier; one that is too wide is refused, and nothing has changed.
    pub fn process_frame_by_id(&mut self, pgns: &[u32], now_ms: u64, id: CanId, data: &[u8; 8]) -> Result<ProcessResult, TooWide> {
        answer_by_id(|payload, length| self.numbers.process_frame_by_id(&mut self.counters, pgns, now_ms, id.0, data, payload, length))
    }
    /// `Pool::receive` likewise.
    pub fn receive_by_id(&mut self, pgns: &[u32], now_ms: u64, id: CanId, data: &[u8; 8]) -> Result<ProcessResult, TooWide> {
        answer_by_id(|payload, length| self.numbers.receive_by_id(&mut self.counters, pgns, now_ms, id.0, data, payload, length))
    }
    /// `Pool::process_frame_with_length` likewise.
    pub fn process_frame_by_id_with_length(&mut self, pgns: &[u32], now_ms: u64, id: CanId, data: &[u8; 8], frame_length: usize) -> Result<ProcessResult, TooWide> {
        answer_by_id(|payload, length| self.numbers.process_frame_by_id_with_length(&mut self.counters, pgns, now_ms, id.0, data, frame_length, payload, length))
    }
}

impl Default for Pool {
    /// Four slots, as the original.
    fn default() -> Self {
        let mut pool = Self { numbers: raw::Pool::ZEROS, counters: [0; raw::COUNTERS], kind: PhantomData };
        pool.numbers.made_by_default();
        pool
    }
}

/// A single call's kind with its message, or the number that is no kind. Refusal 1 is for pools that no value of `Pool` is; it has no case of its own.
fn named(call: impl FnOnce(&mut [u8; MAX_FAST_PACKET_PAYLOAD], &mut usize) -> u32) -> Result<ProcessResult, u32> {
    let (mut payload, mut len) = ([0; MAX_FAST_PACKET_PAYLOAD], 0);
    let kind = call(&mut payload, &mut len);
    ProcessResult::named(kind, || Some(CompletedMessage { payload, len })).ok_or(kind)
}

fn answer(call: impl FnOnce(&mut [u8; MAX_FAST_PACKET_PAYLOAD], &mut usize) -> u32) -> ProcessResult {
    named(call).unwrap_or_else(|number| never_given(number))
}

fn answer_by_id(call: impl FnOnce(&mut [u8; MAX_FAST_PACKET_PAYLOAD], &mut usize) -> u32) -> Result<ProcessResult, TooWide> {
    named(call).map_err(|number| match number {
        TooWide::NUMBER => TooWide,
        other => never_given(other),
    })
}

/// Rows of frames: a time, a PGN, a source and eight bytes of `data` each.
#[derive(Clone, Debug, Default, PartialEq, Eq)]
pub struct Rows {
    pub times: Vec<u64>,
    pub pgns: Vec<u32>,
    pub sources: Vec<u8>,
    pub data: Vec<u8>,
}

impl Rows {
    pub fn push(&mut self, now_ms: u64, pgn: u32, source_address: u8, data: [u8; 8]) {
        self.times.push(now_ms);
        self.pgns.push(pgn);
        self.sources.push(source_address);
        self.data.extend_from_slice(&data);
    }
    pub fn len(&self) -> usize {
        self.times.len()
    }
    pub fn is_empty(&self) -> bool {
        self.times.is_empty()
    }
}

/// Room for a batch's answers: what each frame got, and the messages end to end in an arena.
#[derive(Clone, Debug, PartialEq, Eq)]
pub struct Told {
    pub(crate) numbers: raw::Told,
}

impl Told {
    pub fn room(frames: usize, arena: usize) -> Told {
        Told { numbers: raw::Told::room(frames, arena) }
    }
    /// What the frames that a batch took got, in their order.
    pub fn results(&self, taken: Taken) -> impl Iterator<Item = ProcessResult<&[u8]>> {
        let raw::Told { kinds, lengths, arena } = &self.numbers;
        let mut rest = arena.as_slice();
        kinds.iter().zip(lengths).take(taken.frames).map_while(move |(kind, length)| {
            ProcessResult::named(*kind as u32, || {
                let (message, after) = rest.split_at_checked(*length as usize)?;
                rest = after;
                Some(message)
            })
        })
    }
    /// The messages of the frames that a batch took: which of them brought it to its end, and its bytes.
    pub fn messages(&self, taken: Taken) -> impl Iterator<Item = (usize, &[u8])> {
        self.results(taken).enumerate().filter_map(|(row, result)| match result {
            ProcessResult::MessageComplete(message) => Some((row, message)),
            _ => None,
        })
    }
}
