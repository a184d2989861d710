//! The entries of the proved library. host/diff/tests/declarations.rs holds these declarations to the Rattle source and to
//! host/hingefrost.h. An entry without a slice is safe as it is: its types say all that a caller must keep.
use crate::fast_packet::MAX_FAST_PACKET_PAYLOAD;
use crate::raw::{POOL_BYTES, POOL_HEADS};

unsafe extern "C" {
    // ---- crates/ffi_c/src/ids.rt
    pub safe fn hf_can_id_read(id: u32, parts: &mut [u32; 4]) -> u32;
    pub safe fn hf_can_id_build(priority: u8, pgn: u32, source_address: u8, destination: u16, value: &mut u32) -> u32;
    pub safe fn hf_can_id_build_with(pgn: u32, source_address: u8, priority: u16, destination: u16, value: &mut u32) -> u32;
    pub safe fn hf_can_id_build_to(pgn: u32, source_address: u8, priority: u8, destination: u8, value: &mut u32) -> u32;

    // ---- crates/ffi_c/src/short_frames.rt
    pub safe fn hf_fill_short(data: &mut [u8; 8], len: usize);

    // ---- crates/ffi_c/src/frames.rt
    pub unsafe fn hf_raw_builder_new(
        pgn: u32, source_address: u8, destination: u16, payload: *const u8, payload_len: usize, pgns: *const u32, pgns_len: usize, sequence_id: u8, builder: &mut [u64; 6],
    ) -> u8;
    pub safe fn hf_raw_builder_with_sequence_id(builder: &mut [u64; 6], sequence_id: u8);
    pub safe fn hf_raw_builder_with_priority(builder: &mut [u64; 6], priority: u8);
    pub safe fn hf_raw_builder_to_destination(builder: &mut [u64; 6], destination: u8);
    pub safe fn hf_raw_builder_build(builder: &[u64; 6], place: &mut [u64; 2]);
    pub unsafe fn hf_raw_next_frame(
        builder: &[u64; 6], frame_index: u8, bytes_sent: usize, payload: *const u8, payload_len: usize, data: &mut [u8; 8], frame: &mut [u64; 3], after: &mut [u64; 2],
    ) -> u32;
    pub unsafe fn hf_raw_frame_iterator_next(
        builder: &[u64; 6], place: &mut [u64; 2], payload: *const u8, payload_len: usize, data: &mut [u8; 8], frame: &mut [u64; 3],
    ) -> u32;

    // ---- crates/ffi_c/src/pools.rt
    pub safe fn hf_raw_pool_new(wanted: usize, heads: &mut [u64; POOL_HEADS], bytes: &mut [u8; POOL_BYTES], size: &mut usize, mode: &mut u32, kind: &mut u32) -> u32;
    pub safe fn hf_raw_pool_default(heads: &mut [u64; POOL_HEADS], bytes: &mut [u8; POOL_BYTES], size: &mut usize, mode: &mut u32, kind: &mut u32) -> u32;
    pub safe fn hf_raw_pool_with_mode(
        wanted: usize, asked: u32, heads: &mut [u64; POOL_HEADS], bytes: &mut [u8; POOL_BYTES], size: &mut usize, mode: &mut u32, kind: &mut u32,
    ) -> u32;
    pub safe fn hf_raw_pool_with_kind(
        wanted: usize, asked: u32, asked_kind: u32, heads: &mut [u64; POOL_HEADS], bytes: &mut [u8; POOL_BYTES], size: &mut usize, mode: &mut u32, kind: &mut u32,
    ) -> u32;
    pub unsafe fn hf_raw_process_frame(
        size: usize, mode: u32, kind: u32, heads: &mut [u64; POOL_HEADS], bytes: &mut [u8; POOL_BYTES], counters: &mut [u32; 5], pgns: *const u32, pgns_len: usize, now_ms: u64,
        pgn: u32, source_address: u8, data: &[u8; 8], payload: &mut [u8; MAX_FAST_PACKET_PAYLOAD], length: &mut usize,
    ) -> u32;
    pub unsafe fn hf_raw_receive(
        size: usize, mode: u32, kind: u32, heads: &mut [u64; POOL_HEADS], bytes: &mut [u8; POOL_BYTES], counters: &mut [u32; 5], pgns: *const u32, pgns_len: usize, now_ms: u64,
        pgn: u32, source_address: u8, data: &[u8; 8], payload: &mut [u8; MAX_FAST_PACKET_PAYLOAD], length: &mut usize,
    ) -> u32;
    pub unsafe fn hf_raw_process_frame_with_length(
        size: usize, mode: u32, kind: u32, heads: &mut [u64; POOL_HEADS], bytes: &mut [u8; POOL_BYTES], counters: &mut [u32; 5], pgns: *const u32, pgns_len: usize, now_ms: u64,
        pgn: u32, source_address: u8, data: &[u8; 8], frame_length: usize, payload: &mut [u8; MAX_FAST_PACKET_PAYLOAD], length: &mut usize,
    ) -> u32;
    pub unsafe fn hf_raw_process_frame_by_id(
        size: usize, mode: u32, kind: u32, heads: &mut [u64; POOL_HEADS], bytes: &mut [u8; POOL_BYTES], counters: &mut [u32; 5], pgns: *const u32, pgns_len: usize, now_ms: u64,
        id: u32, data: &[u8; 8], payload: &mut [u8; MAX_FAST_PACKET_PAYLOAD], length: &mut usize,
    ) -> u32;
    pub unsafe fn hf_raw_receive_by_id(
        size: usize, mode: u32, kind: u32, heads: &mut [u64; POOL_HEADS], bytes: &mut [u8; POOL_BYTES], counters: &mut [u32; 5], pgns: *const u32, pgns_len: usize, now_ms: u64,
        id: u32, data: &[u8; 8], payload: &mut [u8; MAX_FAST_PACKET_PAYLOAD], length: &mut usize,
    ) -> u32;
    pub unsafe fn hf_raw_process_frame_by_id_with_length(
        size: usize, mode: u32, kind: u32, heads: &mut [u64; POOL_HEADS], bytes: &mut [u8; POOL_BYTES], counters: &mut [u32; 5], pgns: *const u32, pgns_len: usize, now_ms: u64,
        id: u32, data: &[u8; 8], frame_length: usize, payload: &mut [u8; MAX_FAST_PACKET_PAYLOAD], length: &mut usize,
    ) -> u32;

    // ---- crates/ffi_c/src/batches.rt
    pub unsafe fn hf_raw_process_frames(
        size: usize, mode: u32, kind: u32, heads: &mut [u64; POOL_HEADS], bytes: &mut [u8; POOL_BYTES], counters: &mut [u32; 5], pgns: *const u32, pgns_len: usize,
        times: *const u64, times_len: usize, frame_pgns: *const u32, frame_pgns_len: usize, sources: *const u8, sources_len: usize, data: *const u8, data_len: usize,
        kinds: *mut u8, kinds_len: usize, lengths: *mut u8, lengths_len: usize, arena: *mut u8, arena_len: usize, counts: &mut [u64; 2],
    ) -> u32;

    // ---- crates/ffi_c/src/bench_entries.rt
    pub unsafe fn hf_reassemble(
        ids: *const u32, ids_len: usize, bytes: *const u8, bytes_len: usize, lens: *const usize, lens_len: usize, source: u8, pgn: u32,
        list: *mut usize, list_len: usize, arena: *mut u8, arena_len: usize, values: &mut [u64; 5],
    ) -> u32;
    pub safe fn hf_frame_count(ids: usize, bytes: usize, lens: usize) -> usize;
    pub unsafe fn hf_fast_packet_frames(
        id: u32, sequence: u8, payload: *const u8, payload_len: usize, ids: *mut u32, ids_len: usize, bytes: *mut u8, bytes_len: usize, lens: *mut usize, lens_len: usize,
        frames: &mut usize,
    ) -> u32;
    pub unsafe fn hf_check_tx(
        ids: *const u32, ids_len: usize, bytes: *const u8, bytes_len: usize, lens: *const usize, lens_len: usize, source: u8, expected: usize, hours_base: u32, values: &mut [u64; 5],
    ) -> u32;
}
