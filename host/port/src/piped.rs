//! The same entries in another process: each call goes by pipes to host/driver.c's program, which links the archive. This is
//! how rt's x86-64 archive is held to the original on a machine that is not x86-64 and runs the kit all the same.
//!
//! A call is: the entry's number, its numbers, its slices (with a flag where they come back). The answer is what the entry
//! returned, and the slices that come back. Everything is little-endian.
#![allow(clippy::missing_safety_doc, clippy::too_many_arguments)]
use crate::fast_packet::MAX_FAST_PACKET_PAYLOAD;
use crate::raw::{POOL_BYTES, POOL_HEADS};
use std::io::{BufReader, BufWriter, Read, Write};
use std::process::{Child, ChildStdin, ChildStdout, Command, Stdio};
use std::sync::atomic::{AtomicU64, Ordering};
use std::sync::Mutex;

struct Driver {
    _child: Child,
    to: BufWriter<ChildStdin>,
    from: BufReader<ChildStdout>,
}

static DRIVER: Mutex<Option<Driver>> = Mutex::new(None);

/// The driver's command stands in HINGEFROST_DRIVER, words apart by spaces.
fn start() -> Driver {
    let command = std::env::var("HINGEFROST_DRIVER").expect("HINGEFROST_DRIVER names the driver's command");
    let mut words = command.split_whitespace();
    let mut child = Command::new(words.next().unwrap()).args(words).stdin(Stdio::piped()).stdout(Stdio::piped()).spawn().expect("the driver starts");
    Driver { to: BufWriter::new(child.stdin.take().unwrap()), from: BufReader::new(child.stdout.take().unwrap()), _child: child }
}

enum Slice {
    In(*const u8, usize),
    Back(*mut u8, usize),
}

/// A slice of n elements, which the caller answers for.
unsafe fn i<T>(p: *const T, n: usize) -> Slice {
    Slice::In(p.cast(), n * std::mem::size_of::<T>())
}

unsafe fn o<T>(p: *mut T, n: usize) -> Slice {
    Slice::Back(p.cast(), n * std::mem::size_of::<T>())
}

fn lent<T>(x: &T) -> Slice {
    Slice::In((x as *const T).cast(), std::mem::size_of::<T>())
}

fn back<T>(x: &mut T) -> Slice {
    Slice::Back((x as *mut T).cast(), std::mem::size_of::<T>())
}

/// How many entries there are; their numbers are in the order of host/hingefrost.h.
const ENTRIES: usize = 27;

/// How often each entry was called.
static CALLS: [AtomicU64; ENTRIES] = [const { AtomicU64::new(0) }; ENTRIES];

pub fn calls() -> [u64; ENTRIES] {
    std::array::from_fn(|entry| CALLS[entry].load(Ordering::Relaxed))
}

fn call(entry: u64, numbers: &[u64], slices: &[Slice]) -> u64 {
    CALLS[entry as usize].fetch_add(1, Ordering::Relaxed);
    let mut guard = DRIVER.lock().unwrap();
    let d = guard.get_or_insert_with(start);
    let mut word = |x: u64| d.to.write_all(&x.to_le_bytes()).unwrap();
    word(entry);
    word(numbers.len() as u64);
    numbers.iter().for_each(|&x| word(x));
    word(slices.len() as u64);
    for s in slices {
        let (p, n, back) = match *s {
            Slice::In(p, n) => (p, n, 0),
            Slice::Back(p, n) => (p as *const u8, n, 1),
        };
        d.to.write_all(&(n as u64).to_le_bytes()).unwrap();
        d.to.write_all(&u64::to_le_bytes(back)).unwrap();
        d.to.write_all(unsafe { std::slice::from_raw_parts(if n == 0 { std::ptr::dangling() } else { p }, n) }).unwrap();
    }
    d.to.flush().unwrap();
    let mut r = [0; 8];
    d.from.read_exact(&mut r).expect("the driver answers");
    for s in slices {
        if let Slice::Back(p, n) = *s {
            if n > 0 {
                d.from.read_exact(unsafe { std::slice::from_raw_parts_mut(p, n) }).expect("the driver answers");
            }
        }
    }
    u64::from_le_bytes(r)
}

pub fn hf_can_id_read(id: u32, parts: &mut [u32; 4]) -> u32 {
    call(0, &[id as u64], &[back(parts)]) as u32
}
pub fn hf_can_id_build(priority: u8, pgn: u32, source_address: u8, destination: u16, value: &mut u32) -> u32 {
    call(1, &[priority as u64, pgn as u64, source_address as u64, destination as u64], &[back(value)]) as u32
}
pub fn hf_can_id_build_with(pgn: u32, source_address: u8, priority: u16, destination: u16, value: &mut u32) -> u32 {
    call(2, &[pgn as u64, source_address as u64, priority as u64, destination as u64], &[back(value)]) as u32
}
pub fn hf_can_id_build_to(pgn: u32, source_address: u8, priority: u8, destination: u8, value: &mut u32) -> u32 {
    call(3, &[pgn as u64, source_address as u64, priority as u64, destination as u64], &[back(value)]) as u32
}
pub fn hf_fill_short(data: &mut [u8; 8], len: usize) {
    call(4, &[len as u64], &[back(data)]);
}
pub unsafe fn hf_raw_builder_new(
    pgn: u32, source_address: u8, destination: u16, payload: *const u8, payload_len: usize, pgns: *const u32, pgns_len: usize, sequence_id: u8, builder: &mut [u64; 6],
) -> u8 {
    call(5, &[pgn as u64, source_address as u64, destination as u64, sequence_id as u64], &[i(payload, payload_len), i(pgns, pgns_len), back(builder)]) as u8
}
pub fn hf_raw_builder_with_sequence_id(builder: &mut [u64; 6], sequence_id: u8) {
    call(6, &[sequence_id as u64], &[back(builder)]);
}
pub fn hf_raw_builder_with_priority(builder: &mut [u64; 6], priority: u8) {
    call(7, &[priority as u64], &[back(builder)]);
}
pub fn hf_raw_builder_to_destination(builder: &mut [u64; 6], destination: u8) {
    call(8, &[destination as u64], &[back(builder)]);
}
pub fn hf_raw_builder_build(builder: &[u64; 6], place: &mut [u64; 2]) {
    call(10, &[], &[lent(builder), back(place)]);
}
pub unsafe fn hf_raw_next_frame(
    builder: &[u64; 6], frame_index: u8, bytes_sent: usize, payload: *const u8, payload_len: usize, data: &mut [u8; 8], frame: &mut [u64; 3], after: &mut [u64; 2],
) -> u32 {
    call(9, &[frame_index as u64, bytes_sent as u64], &[lent(builder), i(payload, payload_len), back(data), back(frame), back(after)]) as u32
}
pub unsafe fn hf_raw_frame_iterator_next(builder: &[u64; 6], place: &mut [u64; 2], payload: *const u8, payload_len: usize, data: &mut [u8; 8], frame: &mut [u64; 3]) -> u32 {
    call(11, &[], &[lent(builder), back(place), i(payload, payload_len), back(data), back(frame)]) as u32
}
pub fn hf_raw_pool_new(wanted: usize, heads: &mut [u64; POOL_HEADS], bytes: &mut [u8; POOL_BYTES], size: &mut usize, mode: &mut u32, kind: &mut u32) -> u32 {
    call(12, &[wanted as u64], &[back(heads), back(bytes), back(size), back(mode), back(kind)]) as u32
}
pub fn hf_raw_pool_default(heads: &mut [u64; POOL_HEADS], bytes: &mut [u8; POOL_BYTES], size: &mut usize, mode: &mut u32, kind: &mut u32) -> u32 {
    call(13, &[], &[back(heads), back(bytes), back(size), back(mode), back(kind)]) as u32
}
pub fn hf_raw_pool_with_mode(wanted: usize, asked: u32, heads: &mut [u64; POOL_HEADS], bytes: &mut [u8; POOL_BYTES], size: &mut usize, mode: &mut u32, kind: &mut u32) -> u32 {
    call(14, &[wanted as u64, asked as u64], &[back(heads), back(bytes), back(size), back(mode), back(kind)]) as u32
}
pub fn hf_raw_pool_with_kind(
    wanted: usize, asked: u32, asked_kind: u32, heads: &mut [u64; POOL_HEADS], bytes: &mut [u8; POOL_BYTES], size: &mut usize, mode: &mut u32, kind: &mut u32,
) -> u32 {
    call(15, &[wanted as u64, asked as u64, asked_kind as u64], &[back(heads), back(bytes), back(size), back(mode), back(kind)]) as u32
}
pub unsafe fn hf_raw_process_frame(
    size: usize, mode: u32, kind: u32, heads: &mut [u64; POOL_HEADS], bytes: &mut [u8; POOL_BYTES], counters: &mut [u32; 5], pgns: *const u32, pgns_len: usize, now_ms: u64, pgn: u32, source_address: u8,
    data: &[u8; 8], payload: &mut [u8; MAX_FAST_PACKET_PAYLOAD], length: &mut usize,
) -> u32 {
    call(16, &[size as u64, mode as u64, kind as u64, now_ms, pgn as u64, source_address as u64], &[back(heads), back(bytes), back(counters), i(pgns, pgns_len), lent(data), back(payload), back(length)]) as u32
}
pub unsafe fn hf_raw_receive(
    size: usize, mode: u32, kind: u32, heads: &mut [u64; POOL_HEADS], bytes: &mut [u8; POOL_BYTES], counters: &mut [u32; 5], pgns: *const u32, pgns_len: usize, now_ms: u64, pgn: u32, source_address: u8,
    data: &[u8; 8], payload: &mut [u8; MAX_FAST_PACKET_PAYLOAD], length: &mut usize,
) -> u32 {
    call(17, &[size as u64, mode as u64, kind as u64, now_ms, pgn as u64, source_address as u64], &[back(heads), back(bytes), back(counters), i(pgns, pgns_len), lent(data), back(payload), back(length)]) as u32
}
pub unsafe fn hf_raw_process_frame_with_length(
    size: usize, mode: u32, kind: u32, heads: &mut [u64; POOL_HEADS], bytes: &mut [u8; POOL_BYTES], counters: &mut [u32; 5], pgns: *const u32, pgns_len: usize, now_ms: u64, pgn: u32, source_address: u8,
    data: &[u8; 8], frame_length: usize, payload: &mut [u8; MAX_FAST_PACKET_PAYLOAD], length: &mut usize,
) -> u32 {
    call(18, &[size as u64, mode as u64, kind as u64, now_ms, pgn as u64, source_address as u64, frame_length as u64], &[back(heads), back(bytes), back(counters), i(pgns, pgns_len), lent(data), back(payload), back(length)]) as u32
}
pub unsafe fn hf_raw_process_frame_by_id(
    size: usize, mode: u32, kind: u32, heads: &mut [u64; POOL_HEADS], bytes: &mut [u8; POOL_BYTES], counters: &mut [u32; 5], pgns: *const u32, pgns_len: usize, now_ms: u64, id: u32,
    data: &[u8; 8], payload: &mut [u8; MAX_FAST_PACKET_PAYLOAD], length: &mut usize,
) -> u32 {
    call(19, &[size as u64, mode as u64, kind as u64, now_ms, id as u64], &[back(heads), back(bytes), back(counters), i(pgns, pgns_len), lent(data), back(payload), back(length)]) as u32
}
pub unsafe fn hf_raw_receive_by_id(
    size: usize, mode: u32, kind: u32, heads: &mut [u64; POOL_HEADS], bytes: &mut [u8; POOL_BYTES], counters: &mut [u32; 5], pgns: *const u32, pgns_len: usize, now_ms: u64, id: u32,
    data: &[u8; 8], payload: &mut [u8; MAX_FAST_PACKET_PAYLOAD], length: &mut usize,
) -> u32 {
    call(20, &[size as u64, mode as u64, kind as u64, now_ms, id as u64], &[back(heads), back(bytes), back(counters), i(pgns, pgns_len), lent(data), back(payload), back(length)]) as u32
}
pub unsafe fn hf_raw_process_frame_by_id_with_length(
    size: usize, mode: u32, kind: u32, heads: &mut [u64; POOL_HEADS], bytes: &mut [u8; POOL_BYTES], counters: &mut [u32; 5], pgns: *const u32, pgns_len: usize, now_ms: u64, id: u32,
    data: &[u8; 8], frame_length: usize, payload: &mut [u8; MAX_FAST_PACKET_PAYLOAD], length: &mut usize,
) -> u32 {
    call(21, &[size as u64, mode as u64, kind as u64, now_ms, id as u64, frame_length as u64], &[back(heads), back(bytes), back(counters), i(pgns, pgns_len), lent(data), back(payload), back(length)]) as u32
}
pub unsafe fn hf_raw_process_frames(
    size: usize, mode: u32, kind: u32, heads: &mut [u64; POOL_HEADS], bytes: &mut [u8; POOL_BYTES], counters: &mut [u32; 5], pgns: *const u32, pgns_len: usize,
    times: *const u64, times_len: usize, frame_pgns: *const u32, frame_pgns_len: usize, sources: *const u8, sources_len: usize, data: *const u8, data_len: usize,
    kinds: *mut u8, kinds_len: usize, lengths: *mut u8, lengths_len: usize, arena: *mut u8, arena_len: usize, counts: &mut [u64; 2],
) -> u32 {
    call(22, &[size as u64, mode as u64, kind as u64], &[back(heads), back(bytes), back(counters), i(pgns, pgns_len), i(times, times_len), i(frame_pgns, frame_pgns_len), i(sources, sources_len), i(data, data_len), o(kinds, kinds_len), o(lengths, lengths_len), o(arena, arena_len), back(counts)]) as u32
}
pub unsafe fn hf_reassemble(
    ids: *const u32, ids_len: usize, bytes: *const u8, bytes_len: usize, lens: *const usize, lens_len: usize, source: u8, pgn: u32, list: *mut usize, list_len: usize,
    arena: *mut u8, arena_len: usize, values: &mut [u64; 5],
) -> u32 {
    call(23, &[source as u64, pgn as u64], &[i(ids, ids_len), i(bytes, bytes_len), i(lens, lens_len), o(list, list_len), o(arena, arena_len), back(values)]) as u32
}
pub fn hf_frame_count(ids: usize, bytes: usize, lens: usize) -> usize {
    call(24, &[ids as u64, bytes as u64, lens as u64], &[]) as usize
}
pub unsafe fn hf_fast_packet_frames(
    id: u32, sequence: u8, payload: *const u8, payload_len: usize, ids: *mut u32, ids_len: usize, bytes: *mut u8, bytes_len: usize, lens: *mut usize, lens_len: usize,
    frames: &mut usize,
) -> u32 {
    call(25, &[id as u64, sequence as u64], &[i(payload, payload_len), o(ids, ids_len), o(bytes, bytes_len), o(lens, lens_len), back(frames)]) as u32
}
pub unsafe fn hf_check_tx(
    ids: *const u32, ids_len: usize, bytes: *const u8, bytes_len: usize, lens: *const usize, lens_len: usize, source: u8, expected: usize, hours_base: u32,
    values: &mut [u64; 5],
) -> u32 {
    call(26, &[source as u64, expected as u64, hours_base as u64], &[i(ids, ids_len), i(bytes, bytes_len), i(lens, lens_len), back(values)]) as u32
}
