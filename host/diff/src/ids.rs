//! Identifiers: read and built.
use crate::rng::Rng;
use crate::tally::answered;
use port::can_id as ours;
use port::error::{CanIdBuildError as OurError, TooWide};
use port::raw;
use reference::error::CanIdBuildError;
use reference::protocol::transport::can_id::{CanId, CanIdBuilder};

/// Document 01's number for each of the original's errors, and what it carries.
pub fn numbered(e: &CanIdBuildError) -> (u32, u64) {
    match *e {
        CanIdBuildError::InvalidData => (2, 0),
        CanIdBuildError::InvalidDestination => (3, 0),
        CanIdBuildError::InvalidForBroadcast => (4, 0),
        CanIdBuildError::InvalidForFocusedMessage { pgn } => (5, pgn as u64),
        CanIdBuildError::PsFocusMessageMustBeNull => (6, 0),
        CanIdBuildError::EmptyPayload => (7, 0),
    }
}

/// The original's error under its name in the port, which has none for number 3: `never` in host/floors counts that the original gave it to no question.
pub fn named(e: &CanIdBuildError) -> OurError {
    match *e {
        CanIdBuildError::InvalidData => OurError::InvalidData,
        CanIdBuildError::InvalidDestination => unreachable!("the original gave InvalidDestination"),
        CanIdBuildError::InvalidForBroadcast => OurError::InvalidForBroadcast,
        CanIdBuildError::InvalidForFocusedMessage { pgn } => OurError::InvalidForFocusedMessage { pgn },
        CanIdBuildError::PsFocusMessageMustBeNull => OurError::PsFocusMessageMustBeNull,
        CanIdBuildError::EmptyPayload => OurError::EmptyPayload,
    }
}

/// The original's answer as the entries give it: a number, and the identifier or what the refusal carries. What the original gave is counted too.
fn told(r: &Result<CanId, CanIdBuildError>) -> (u32, u32) {
    let told = match r {
        Ok(id) => (0, id.0),
        Err(e) => (numbered(e).0, numbered(e).1 as u32),
    };
    answered("original_identifier", told.0);
    told
}

/// The answer of an entry, put over what stood there.
fn entry(call: impl FnOnce(&mut u32) -> u32) -> (u32, u32) {
    let mut value = 0xEEEE_EEEE;
    let number = call(&mut value);
    answered("identifier", number);
    (number, value)
}

/// The original's answer, with the port's types.
fn as_ours(r: Result<CanId, CanIdBuildError>) -> Result<ours::CanId, OurError> {
    r.map(|id| ours::CanId(id.0)).map_err(|e| named(&e))
}

/// The first number that is no identifier. Below it the original is asked; from it on document 02's No. 4 decides.
pub const TOO_WIDE: u32 = 1 << 29;

/// The entry that reads, and the port's own type over it.
pub fn read(id: u32) {
    let lent = [0xEEEE_EEEE; 4];
    let mut parts = lent;
    let number = raw::hf_can_id_read(id, &mut parts);
    answered("reading", number);
    if id >= TOO_WIDE {
        assert_eq!((number, parts), (8, lent), "reading {id:#010X}: 8, and the parts as they were");
        assert_eq!(ours::CanId(id).read(), Err(TooWide), "reading {id:#010X}");
        return;
    }
    let o = CanId(id);
    let want = [o.priority() as u32, o.pgn(), o.source_address() as u32, raw::address(o.destination()) as u32];
    assert_eq!((number, parts), (0, want), "reading {id:#010X}");
    let parts = ours::Parts { priority: o.priority(), pgn: o.pgn(), source_address: o.source_address(), destination: o.destination() };
    assert_eq!(ours::CanId(id).read(), Ok(parts), "reading {id:#010X}");
}

/// From public fields, which the original lets a caller set to anything.
pub fn build(priority: u8, pgn: u32, source_address: u8, destination: Option<u8>) {
    let want = CanIdBuilder { priority, pgn, source_address, destination }.build();
    let got = entry(|value| raw::hf_can_id_build(priority, pgn, source_address, raw::address(destination), value));
    assert_eq!(got, told(&want), "building {priority} {pgn:#X} {source_address} {destination:?}");
    let built = ours::CanIdBuilder { priority, pgn, source_address, destination }.build();
    assert_eq!(built, as_ours(want), "building {priority} {pgn:#X} {source_address} {destination:?}");
    if let Ok(id) = built {
        assert_eq!(id.read(), Ok(ours::Parts { priority, pgn, source_address, destination }), "what was built is read back");
    }
}

/// By the setters, under both of their names.
pub fn build_with(pgn: u32, source: u8, priority: Option<u8>, destination: Option<u8>) {
    let (mut b, mut p) = (CanId::builder(pgn, source), ours::CanId::builder(pgn, source));
    if let Some(x) = priority {
        (b, p) = (b.with_priority(x), p.with_priority(x));
    }
    if let Some(x) = destination {
        (b, p) = (b.to_destination(x), p.to_destination(x));
    }
    let want = b.build();
    let got = entry(|value| raw::hf_can_id_build_with(pgn, source, raw::address(priority), raw::address(destination), value));
    assert_eq!(got, told(&want), "setting {pgn:#X} {source} {priority:?} {destination:?}");
    assert_eq!(p.build(), as_ours(want), "setting {pgn:#X} {source} {priority:?} {destination:?}");
    if let (Some(x), Some(d)) = (priority, destination) {
        let want = CanIdBuilder::new(pgn, source).priority(x).destination(d).build();
        assert_eq!(entry(|value| raw::hf_can_id_build_to(pgn, source, x, d, value)), told(&want), "setting {pgn:#X} {source} {x} {d}");
        assert_eq!(ours::CanIdBuilder::new(pgn, source).priority(x).destination(d).build(), as_ours(want), "setting {pgn:#X} {source} {x} {d}");
    }
}

/// Every PF with these bits above it, at these values of PS and source.
fn with_every_pf(high: std::ops::Range<u32>, ends: &[u32]) -> u64 {
    let mut steps = 0;
    for top in high.flat_map(|high| (0..256).map(move |pf| high << 24 | pf << 16)) {
        for (ps, source) in ends.iter().flat_map(|&ps| ends.iter().map(move |&source| (ps, source))) {
            read(top | ps << 8 | source);
            steps += 1;
        }
    }
    steps
}

/// Every PF with every priority, reserved bit and data page, at the edges of the other fields.
pub fn every_pf() -> u64 {
    with_every_pf(0..32, &[0, 1, 35, 254, 255])
}

/// Every PF with every flag above the 29 bits, and every bit between.
pub fn every_flag() -> u64 {
    with_every_pf(32..256, &[0, 255])
}

/// Every PGN of 18 bits and some above, to nobody and to an address, at the bounds of the priority.
pub fn every_pgn() -> u64 {
    let mut steps = 0;
    for pgn in (0..0x4_0400).chain([0x8_0000, 0xFFFF_FFFF, 0x8000_0000, 0x1_0000_F000]).map(|n: u64| n as u32) {
        for (priority, destination) in [(6, None), (6, Some(255)), (7, None), (0, Some(0)), (8, None), (255, Some(1))] {
            build(priority, pgn, (pgn % 251) as u8, destination);
            steps += 1;
        }
        build_with(pgn, 35, Some((pgn % 256) as u8), Some((pgn % 253) as u8));
        build_with(pgn, 35, None, None);
        steps += 2;
    }
    steps
}

pub fn random(seed: u64, steps: u64) -> u64 {
    let mut r = Rng::new(seed);
    for _ in 0..steps {
        match r.below(3) {
            0 => read(r.next() as u32 >> r.pick(&[0, 3, 3, 3])),
            1 => {
                let pgn = if r.one_in(4) { r.next() as u32 } else { r.below(0x4_0000) as u32 & r.pick(&[!0, !0xFF]) };
                let destination = if r.one_in(2) { None } else { Some(r.byte()) };
                build(if r.one_in(4) { r.byte() } else { r.below(8) as u8 }, pgn, r.byte(), destination);
            }
            _ => {
                let pgn = r.below(0x4_1000) as u32 & r.pick(&[!0, !0xFF]);
                let (p, d) = (r.byte(), r.byte());
                build_with(pgn, r.byte(), if r.one_in(3) { None } else { Some(p) }, if r.one_in(3) { None } else { Some(d) });
            }
        }
    }
    steps
}
