//! The entries as they are, on numbers, arrays and slices: any numbers, also those of no possible pool, or wider than their
//! fields. Programs call the modules beside this one, which stand on it; the differential runs and the benchmark call it too.
//! What a declaration asks of a caller is kept by the types.
#![allow(clippy::too_many_arguments)]
use crate::assembler;
use crate::entries::*;
use crate::fast_packet::MAX_FAST_PACKET_PAYLOAD;
use crate::oracle::Frames;

pub use crate::entries::{
    hf_can_id_build, hf_can_id_build_to, hf_can_id_build_with, hf_can_id_read, hf_fill_short, hf_frame_count, hf_raw_builder_build, hf_raw_builder_to_destination,
    hf_raw_builder_with_priority, hf_raw_builder_with_sequence_id,
};
#[cfg(feature = "piped")]
pub use crate::entries::calls;

// ---- the sizes of what is lent

pub const POOL_SLOTS: usize = 32;
pub const SLOT_NUMBERS: usize = 9;
pub const POOL_HEADS: usize = POOL_SLOTS * SLOT_NUMBERS;
pub const POOL_BYTES: usize = POOL_SLOTS * MAX_FAST_PACKET_PAYLOAD;
pub const COUNTERS: usize = 5;
pub const BUILDER_NUMBERS: usize = 6;
pub const PLACE_NUMBERS: usize = 2;
pub const FRAME_NUMBERS: usize = 3;
pub const COUNTS: usize = 2;
pub const VALUES: usize = 5;

// ---- the modes of a pool: whether a slot whose last time is after now is silent over 500 ms; any other number is no mode

pub const AS_ORIGINAL: u32 = 0;
pub const SET_BACK_IS_SILENCE: u32 = 1;

// ---- the kinds of a pool: whether its key has the destination; any other number is no kind

pub const ORIGINAL: u32 = 0;
pub const ADDRESSED: u32 = 1;

// ---- the kinds of an answer that is no refusal, of a single call and of a batch's row; 101 was Ignored, and is given no more

pub const END: u32 = 100;
pub const FRAGMENT_CONSUMED: u32 = 102;
pub const MESSAGE_COMPLETE: u32 = 103;
pub const NOT_LISTED: u32 = 104;
pub const REJECTED: u32 = 105;
pub const POOL_FULL: u32 = 106;
pub const LOST: u32 = 107;

/// What stands for no destination, and for a setter that is not called.
pub const NONE: u16 = 256;

pub fn address(destination: Option<u8>) -> u16 {
    destination.map_or(NONE, u16::from)
}

// ---- frames

pub fn builder_new(pgn: u32, source_address: u8, destination: u16, payload: &[u8], pgns: &[u32], sequence_id: u8, builder: &mut [u64; BUILDER_NUMBERS]) -> u8 {
    unsafe { hf_raw_builder_new(pgn, source_address, destination, payload.as_ptr(), payload.len(), pgns.as_ptr(), pgns.len(), sequence_id, builder) }
}

#[inline]
pub fn next_frame(
    builder: &[u64; BUILDER_NUMBERS], frame_index: u8, bytes_sent: usize, payload: &[u8], data: &mut [u8; 8], frame: &mut [u64; FRAME_NUMBERS], after: &mut [u64; PLACE_NUMBERS],
) -> u32 {
    unsafe { hf_raw_next_frame(builder, frame_index, bytes_sent, payload.as_ptr(), payload.len(), data, frame, after) }
}

#[inline]
pub fn frame_iterator_next(builder: &[u64; BUILDER_NUMBERS], place: &mut [u64; PLACE_NUMBERS], payload: &[u8], data: &mut [u8; 8], frame: &mut [u64; FRAME_NUMBERS]) -> u32 {
    unsafe { hf_raw_frame_iterator_next(builder, place, payload.as_ptr(), payload.len(), data, frame) }
}

// ---- pools

/// Slot k: nine numbers of `heads` from 9 * k on (in progress, source, sequence, last index, PGN, part, expected size, current
/// size, last time) and 223 of `bytes` from 223 * k on. The part is the destination's in the key: 0 for none, or the destination plus 1.
#[derive(Clone, Debug, PartialEq, Eq)]
pub struct Pool {
    pub size: usize,
    pub mode: u32,
    pub kind: u32,
    pub heads: [u64; POOL_HEADS],
    pub bytes: [u8; POOL_BYTES],
}

/// Expired, exhausted, rejected, lost, unknown.
pub type Counters = [u32; COUNTERS];

/// Rows for a batch's answers: a kind and a message's length for each frame, and the messages end to end.
#[derive(Clone, Debug, PartialEq, Eq)]
pub struct Told {
    pub kinds: Vec<u8>,
    pub lengths: Vec<u8>,
    pub arena: Vec<u8>,
}

impl Told {
    pub fn room(frames: usize, arena: usize) -> Told {
        Told { kinds: vec![0; frames], lengths: vec![0; frames], arena: vec![0; arena] }
    }
    /// The same rows, whatever their lengths, for the safe call.
    pub fn for_safe_call(self) -> assembler::Told {
        assembler::Told { numbers: self }
    }
}

impl Pool {
    pub const ZEROS: Pool = Pool { size: 0, mode: 0, kind: 0, heads: [0; POOL_HEADS], bytes: [0; POOL_BYTES] };

    pub fn made_anew(&mut self, size: usize) -> u32 {
        hf_raw_pool_new(size, &mut self.heads, &mut self.bytes, &mut self.size, &mut self.mode, &mut self.kind)
    }
    pub fn made_by_default(&mut self) -> u32 {
        hf_raw_pool_default(&mut self.heads, &mut self.bytes, &mut self.size, &mut self.mode, &mut self.kind)
    }
    pub fn made_with_mode(&mut self, size: usize, mode: u32) -> u32 {
        hf_raw_pool_with_mode(size, mode, &mut self.heads, &mut self.bytes, &mut self.size, &mut self.mode, &mut self.kind)
    }
    pub fn made_with_kind(&mut self, size: usize, mode: u32, kind: u32) -> u32 {
        hf_raw_pool_with_kind(size, mode, kind, &mut self.heads, &mut self.bytes, &mut self.size, &mut self.mode, &mut self.kind)
    }
    #[inline]
    pub fn process_frame(
        &mut self, counters: &mut Counters, pgns: &[u32], now_ms: u64, pgn: u32, source_address: u8, data: &[u8; 8], payload: &mut [u8; MAX_FAST_PACKET_PAYLOAD], length: &mut usize,
    ) -> u32 {
        unsafe {
            hf_raw_process_frame(
                self.size, self.mode, self.kind, &mut self.heads, &mut self.bytes, counters, pgns.as_ptr(), pgns.len(), now_ms, pgn, source_address, data, payload, length,
            )
        }
    }
    #[inline]
    pub fn receive(
        &mut self, counters: &mut Counters, pgns: &[u32], now_ms: u64, pgn: u32, source_address: u8, data: &[u8; 8], payload: &mut [u8; MAX_FAST_PACKET_PAYLOAD], length: &mut usize,
    ) -> u32 {
        unsafe {
            hf_raw_receive(
                self.size, self.mode, self.kind, &mut self.heads, &mut self.bytes, counters, pgns.as_ptr(), pgns.len(), now_ms, pgn, source_address, data, payload, length,
            )
        }
    }
    pub fn process_frame_with_length(
        &mut self, counters: &mut Counters, pgns: &[u32], now_ms: u64, pgn: u32, source_address: u8, data: &[u8; 8], frame_length: usize, payload: &mut [u8; MAX_FAST_PACKET_PAYLOAD],
        length: &mut usize,
    ) -> u32 {
        unsafe {
            hf_raw_process_frame_with_length(
                self.size, self.mode, self.kind, &mut self.heads, &mut self.bytes, counters, pgns.as_ptr(), pgns.len(), now_ms, pgn, source_address, data, frame_length, payload, length,
            )
        }
    }
    #[inline]
    pub fn process_frame_by_id(
        &mut self, counters: &mut Counters, pgns: &[u32], now_ms: u64, id: u32, data: &[u8; 8], payload: &mut [u8; MAX_FAST_PACKET_PAYLOAD], length: &mut usize,
    ) -> u32 {
        unsafe {
            hf_raw_process_frame_by_id(self.size, self.mode, self.kind, &mut self.heads, &mut self.bytes, counters, pgns.as_ptr(), pgns.len(), now_ms, id, data, payload, length)
        }
    }
    #[inline]
    pub fn receive_by_id(
        &mut self, counters: &mut Counters, pgns: &[u32], now_ms: u64, id: u32, data: &[u8; 8], payload: &mut [u8; MAX_FAST_PACKET_PAYLOAD], length: &mut usize,
    ) -> u32 {
        unsafe { hf_raw_receive_by_id(self.size, self.mode, self.kind, &mut self.heads, &mut self.bytes, counters, pgns.as_ptr(), pgns.len(), now_ms, id, data, payload, length) }
    }
    pub fn process_frame_by_id_with_length(
        &mut self, counters: &mut Counters, pgns: &[u32], now_ms: u64, id: u32, data: &[u8; 8], frame_length: usize, payload: &mut [u8; MAX_FAST_PACKET_PAYLOAD], length: &mut usize,
    ) -> u32 {
        unsafe {
            hf_raw_process_frame_by_id_with_length(
                self.size, self.mode, self.kind, &mut self.heads, &mut self.bytes, counters, pgns.as_ptr(), pgns.len(), now_ms, id, data, frame_length, payload, length,
            )
        }
    }
    pub fn process_frames(
        &mut self, counters: &mut Counters, pgns: &[u32], times: &[u64], frame_pgns: &[u32], sources: &[u8], data: &[u8], kinds: &mut [u8], lengths: &mut [u8], arena: &mut [u8],
        counts: &mut [u64; COUNTS],
    ) -> u32 {
        unsafe {
            hf_raw_process_frames(
                self.size, self.mode, self.kind, &mut self.heads, &mut self.bytes, counters, pgns.as_ptr(), pgns.len(), times.as_ptr(), times.len(), frame_pgns.as_ptr(),
                frame_pgns.len(), sources.as_ptr(), sources.len(), data.as_ptr(), data.len(), kinds.as_mut_ptr(), kinds.len(), lengths.as_mut_ptr(), lengths.len(), arena.as_mut_ptr(),
                arena.len(), counts,
            )
        }
    }
}

// ---- the bench

pub fn reassemble(f: &Frames, source: u8, pgn: u32, list: &mut [usize], arena: &mut [u8], values: &mut [u64; VALUES]) -> u32 {
    unsafe {
        hf_reassemble(
            f.ids.as_ptr(), f.ids.len(), f.bytes.as_ptr(), f.bytes.len(), f.lens.as_ptr(), f.lens.len(), source, pgn, list.as_mut_ptr(), list.len(), arena.as_mut_ptr(), arena.len(), values,
        )
    }
}

pub fn fast_packet_frames(id: u32, sequence: u8, payload: &[u8], row: &mut Frames, frames: &mut usize) -> u32 {
    unsafe {
        hf_fast_packet_frames(
            id, sequence, payload.as_ptr(), payload.len(), row.ids.as_mut_ptr(), row.ids.len(), row.bytes.as_mut_ptr(), row.bytes.len(), row.lens.as_mut_ptr(), row.lens.len(), frames,
        )
    }
}

pub fn check_tx(f: &Frames, source: u8, expected: usize, hours_base: u32, values: &mut [u64; VALUES]) -> u32 {
    unsafe { hf_check_tx(f.ids.as_ptr(), f.ids.len(), f.bytes.as_ptr(), f.bytes.len(), f.lens.as_ptr(), f.lens.len(), source, expected, hours_base, values) }
}
