//! The frame builder: made, set, and stepped at any index and bytes sent.
use crate::ids::{named, numbered};
use crate::rng::Rng;
use crate::tally::answered;
use port::{builder as ours, can_frame, can_id, error, raw};
use reference::error::CanIdBuildError;
use reference::hooks::{GlobalSequence, Here, Parts, Progress};
use reference::protocol::messages::stand_for;
use reference::protocol::transport::can_frame::CanFrame;
use reference::protocol::transport::can_id::CanIdBuilder;
use reference::protocol::transport::fast_packet::builder::FastPacketBuilder;
use std::sync::{Mutex, MutexGuard};

/// The original counts its builders in one number for the whole program: one run at a time.
static COUNT: Mutex<()> = Mutex::new(());
fn alone() -> MutexGuard<'static, ()> {
    COUNT.lock().unwrap_or_else(|e| e.into_inner())
}

/// Lists that live for ever, as the original wants them; each is strictly ascending.
const LISTS: [&[u32]; 4] = [&[], &[127_489], &[60_928, 126_208, 126_720, 127_489, 129_029], &[0, 1, 0x3_FFFF, 0x4_0000, 0xFFFF_FFFF]];
const PGNS: [u32; 12] = [127_489, 60_928, 126_208, 126_720, 129_029, 0, 1, 0xEF00, 0x3_FFFF, 0x4_0000, 0x1_F0FF, 0xFFFF_FFFF];
/// Payload lengths at the edges of the framing.
const EDGES: [usize; 19] = [0, 1, 2, 5, 6, 7, 8, 9, 12, 13, 14, 20, 62, 221, 222, 223, 224, 255, 300];

/// What asking for the next frame leaves: the answer, eight bytes, and the identifier, length and what a refusal carries.
type Told = (u32, [u8; 8], [u64; 3]);

/// Of the original; what it gave is counted too.
fn told(item: &Option<Result<CanFrame, CanIdBuildError>>) -> Told {
    let told = match item {
        Some(Ok(f)) => (0, f.data, [f.id.0 as u64, f.len as u64, 0]),
        Some(Err(e)) => refused(numbered(e)),
        None => (raw::END, [0; 8], [0; 3]),
    };
    answered("original_frame", told.0);
    told
}

/// A refusal: zeros in the frame's place.
fn refused((number, carried): (u32, u64)) -> Told {
    (number, [0; 8], [0, 0, carried])
}

/// The original's item, with the port's types.
fn as_ours(item: Option<Result<CanFrame, CanIdBuildError>>) -> Option<Result<can_frame::CanFrame, error::CanIdBuildError>> {
    item.map(|r| r.map(|f| can_frame::CanFrame { id: can_id::CanId(f.id.0), data: f.data, len: f.len }).map_err(|e| named(&e)))
}

fn numbers(p: Parts) -> [u64; 6] {
    [p.pgn as u64, p.source as u64, p.destination.map_or(256, u64::from), p.priority as u64, p.sequence as u64, p.fast as u64]
}

/// The entry of the iterator, put over what stood there; the place goes on.
fn turn(b: &[u64; 6], place: &mut [u64; 2], payload: &[u8]) -> Told {
    let (mut data, mut frame) = ([0xEE; 8], [0xEE; 3]);
    let answer = raw::frame_iterator_next(b, place, payload, &mut data, &mut frame);
    answered("frame", answer);
    (answer, data, frame)
}

/// The place before the first frame.
fn placed(b: &[u64; 6]) -> [u64; 2] {
    let mut place = [0xEE; 2];
    raw::hf_raw_builder_build(b, &mut place);
    place
}

/// One step of any builder. Document 01 gives refusal 2 where the original traps: not fast with over 8 bytes.
pub fn step(parts: Parts, index: u8, sent: usize, payload: &[u8]) {
    let b = numbers(parts);
    let (mut data, mut frame, mut after) = ([0xEE; 8], [0xEE; 3], [0xEE; 2]);
    let answer = raw::next_frame(&b, index, sent, payload, &mut data, &mut frame, &mut after);
    answered("frame", answer);
    let got = (answer, data, frame);
    assert_eq!(placed(&b), [0, 0]);
    let mut place = [index as u64, sent as u64];
    assert_eq!((turn(&b, &mut place, payload), place), (got, after), "the iterator and the step");
    // an index in a number wider than its field, which is written only where the index changes
    let wide = index as u64 + 300 * 256;
    place = [wide, sent as u64];
    assert_eq!(turn(&b, &mut place, payload), got);
    assert_eq!(place, [if after[0] == index as u64 { wide } else { after[0] }, after[1]], "a wide place");
    let want = if traps(parts, sent, payload) {
        (refused((2, 0)), [index as u64, payload.len() as u64])
    } else {
        stand_for(&[]);
        let mut it = FastPacketBuilder::new(0, 0, None, payload).build();
        it.set_parts(parts);
        it.set_progress(index, sent);
        let item = told(&it.next());
        (item, [it.progress().0 as u64, it.progress().1 as u64])
    };
    assert_eq!((got, after), want, "{parts:?}, index {index}, sent {sent}, {} bytes", payload.len());
    if answer == 0 {
        let said = can_id::Parts { priority: parts.priority % 8, pgn: parts.pgn, source_address: parts.source, destination: parts.destination };
        assert_eq!(can_id::CanId(frame[0] as u32).read(), Ok(said), "a frame's identifier is read as what was asked for");
    }
}

/// Where the original would copy over 8 bytes into a raw frame.
fn traps(p: Parts, sent: usize, payload: &[u8]) -> bool {
    !p.fast && (9..=223).contains(&payload.len()) && sent < payload.len() && CanIdBuilder { priority: p.priority % 8, pgn: p.pgn, source_address: p.source, destination: p.destination }.build().is_ok()
}

/// A new builder, its setters, and all its frames to the End and beyond.
pub fn message(pgn: u32, source: u8, destination: Option<u8>, payload: &[u8], list: &'static [u32], held: u8, sequence: Option<u8>, priority: Option<u8>, to: Option<u8>) -> u64 {
    let _one = alone();
    stand_for(list);
    // The original holds its number below 8; a caller of the port may hold any.
    Here::set(held % 8);
    let mut o = FastPacketBuilder::new(pgn, source, destination, payload);
    let (mut p, next) = ours::FastPacketBuilder::new(pgn, source, destination, payload, list, held);
    let mut b = [0xEE; 6];
    assert_eq!((next, raw::builder_new(pgn, source, raw::address(destination), payload, list, held, &mut b)), (Here::get(), Here::get()), "the number held from {held}");
    if let Some(s) = sequence {
        (o, p) = (o.with_sequence_id(s), p.with_sequence_id(s));
        raw::hf_raw_builder_with_sequence_id(&mut b, s);
    }
    if let Some(x) = priority {
        (o, p) = (o.with_priority(x), p.with_priority(x));
        raw::hf_raw_builder_with_priority(&mut b, x);
    }
    let mut it = o.build();
    // The original has no setter for the destination: its field is set through the door.
    if let Some(d) = to {
        let parts = it.parts();
        it.set_parts(Parts { destination: Some(d), ..parts });
        p = p.to_destination(d);
        raw::hf_raw_builder_to_destination(&mut b, d);
    }
    assert_eq!(b, numbers(it.parts()), "the builder of {pgn:#X}, {source}, {destination:?}, {} bytes", payload.len());
    let (mut at, mut place) = (p.build(), placed(&b));
    let mut steps = 0;
    let mut over = 0;
    while over < 3 {
        let want = it.next();
        assert_eq!(turn(&b, &mut place, payload), told(&want), "frame {steps} of {pgn:#X}, {source}, {destination:?}, {} bytes", payload.len());
        assert_eq!(place, [it.progress().0 as u64, it.progress().1 as u64]);
        over += want.is_none() as u32;
        assert_eq!(at.next(), as_ours(want), "frame {steps} of {pgn:#X}, {source}, {destination:?}, {} bytes", payload.len());
        steps += 1;
    }
    steps
}

/// Every frame index at every edge of payload and bytes sent, fast and raw.
pub fn every_index() -> u64 {
    let _one = alone();
    let mut steps = 0;
    let payload: Vec<u8> = (0..300).map(|i| (i * 7 + 1) as u8).collect();
    for index in 0..=255 {
        for len in EDGES {
            for sent in EDGES.into_iter().chain([len.wrapping_sub(1), len + 1, usize::MAX]) {
                for (pgn, destination, fast) in [(127_489, None, true), (60_928, Some(255), false), (60_929, Some(1), true)] {
                    step(Parts { pgn, source: 35, destination, priority: 6, sequence: index % 9, fast }, index, sent, &payload[..len]);
                    steps += 1;
                }
            }
        }
    }
    steps
}

/// Every payload length from 0 to 300, listed and not: the whole message.
pub fn every_length() -> u64 {
    let mut steps = 0;
    let payload: Vec<u8> = (0..300).map(|i| (i * 13 + 5) as u8).collect();
    for len in 0..=300 {
        for list in LISTS {
            for held in [0, 7, 8, 255] {
                steps += message(127_489, 35, None, &payload[..len], list, held, None, None, None);
                steps += message(126_208, 1, Some(16), &payload[..len], list, held, Some(held), Some(held), None);
                steps += message(126_208, 1, None, &payload[..len], list, held, None, None, Some(3));
            }
        }
    }
    steps
}

pub fn random(seed: u64, wanted: u64) -> u64 {
    let mut r = Rng::new(seed);
    let mut steps = 0;
    let bytes = r.vec(300);
    while steps < wanted {
        let len = if r.one_in(2) { r.pick(&EDGES) } else { r.below(301) as usize };
        let from = r.below(300 - len as u64 + 1) as usize;
        let payload = &bytes[from..from + len];
        let pgn = if r.one_in(4) { r.next() as u32 >> r.below(16) } else { r.pick(&PGNS) };
        let (source, address) = (r.byte(), r.byte());
        let destination = if r.one_in(2) { None } else { Some(address) };
        if r.one_in(8) {
            let (s, p, d) = (r.byte(), r.byte(), r.byte());
            let list = r.pick(&LISTS);
            steps += message(pgn, source, destination, payload, list, r.byte(), r.one_in(2).then_some(s), r.one_in(2).then_some(p), r.one_in(4).then_some(d));
        } else {
            let _one = alone();
            let sent = match r.below(5) {
                0 => 0,
                1 => r.pick(&EDGES),
                2 => (len + 2).saturating_sub(r.below(5) as usize),
                3 => r.next() as usize,
                _ => r.below(len as u64 + 1) as usize,
            };
            step(Parts { pgn, source, destination, priority: r.byte(), sequence: r.byte(), fast: !r.one_in(3) }, r.byte(), sent, payload);
            steps += 1;
        }
    }
    steps
}
