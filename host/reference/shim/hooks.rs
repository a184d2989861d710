//! Doors to the private state of the originals. They are opened in the tests.rs files beside them.

/// A session of the assembler.
#[derive(Clone, Copy, PartialEq, Eq, Debug)]
pub struct Slot {
    pub in_progress: bool,
    pub source: u8,
    pub pgn: u32,
    pub sequence: u8,
    pub bytes: [u8; 223],
    pub expected: usize,
    pub current: usize,
    pub last_index: u8,
    pub last_time: u64,
}

impl Slot {
    pub const FRESH: Slot = Slot { in_progress: false, source: 0, pgn: 0, sequence: 0, bytes: [0; 223], expected: 0, current: 0, last_index: 0, last_time: 0 };
}

/// The assembler's sessions and counters.
pub trait PoolState {
    fn slot(&self, i: usize) -> Slot;
    fn set_slot(&mut self, i: usize, slot: &Slot);
    fn set_counters(&mut self, counters: [u32; 5]);
}

/// The parts of a frame builder but for its payload.
#[derive(Clone, Copy, PartialEq, Eq, Debug)]
pub struct Parts {
    pub pgn: u32,
    pub source: u8,
    pub destination: Option<u8>,
    pub priority: u8,
    pub sequence: u8,
    pub fast: bool,
}

/// A frame iterator's place, and its builder's parts.
pub trait Progress {
    fn progress(&self) -> (u8, usize);
    fn set_progress(&mut self, frame_index: u8, bytes_sent: usize);
    fn parts(&self) -> Parts;
    fn set_parts(&mut self, parts: Parts);
}

/// The number that the next frame builder takes.
pub struct Here;
pub trait GlobalSequence {
    fn set(n: u8);
    fn get() -> u8;
}
