//! The port's answers beside the original's. Where the original says Ignored the port says why: its four names are read as Ignored,
//! and each is held to the counter that the original raised in that very call.
use port::assembler as ours;
use port::raw::{self, Counters};
use reference::protocol::transport::fast_packet::assembler::ProcessResult;
use std::fmt::Debug;

/// What the original answers, but for the message.
#[derive(Clone, Copy, Debug, PartialEq, Eq)]
pub enum Reading {
    Ignored,
    FragmentConsumed,
    MessageComplete,
}

/// The reading: a kind of the port as the original's answer.
pub fn read(kind: u32) -> Reading {
    match kind {
        raw::NOT_LISTED | raw::REJECTED | raw::POOL_FULL | raw::LOST => Reading::Ignored,
        raw::FRAGMENT_CONSUMED => Reading::FragmentConsumed,
        raw::MESSAGE_COMPLETE => Reading::MessageComplete,
        number => panic!("{number} is no kind that a frame on a possible pool gets"),
    }
}

/// The name of an Ignored, by the counter that the original raised with it: exactly one of four, and by one.
pub fn named_by_counter(before: Counters, after: Counters) -> u32 {
    match std::array::from_fn(|k| after[k] - before[k]) {
        [0, 1, 0, 0, 0] => raw::POOL_FULL,
        [0, 0, 1, 0, 0] => raw::REJECTED,
        [0, 0, 0, 1, 0] => raw::LOST,
        [0, 0, 0, 0, 1] => raw::NOT_LISTED,
        raised => panic!("the original said Ignored and raised {raised:?}"),
    }
}

/// The number of an answer of the safe API.
pub fn kind_of<Message>(answer: &ours::ProcessResult<Message>) -> u32 {
    match answer {
        ours::ProcessResult::NotListed => raw::NOT_LISTED,
        ours::ProcessResult::Rejected => raw::REJECTED,
        ours::ProcessResult::PoolFull => raw::POOL_FULL,
        ours::ProcessResult::Lost => raw::LOST,
        ours::ProcessResult::FragmentConsumed => raw::FRAGMENT_CONSUMED,
        ours::ProcessResult::MessageComplete(_) => raw::MESSAGE_COMPLETE,
    }
}

/// What one call of the original says about the port's answer: how it must read, its name, and whether the PGN is listed.
#[derive(Clone, Copy, Debug)]
pub struct Said {
    pub reading: Reading,
    pub kind: u32,
    pub handled: bool,
}

impl Said {
    /// From the answer, the counters around the call, and the original's `handles`.
    pub fn by(answer: &ProcessResult, before: Counters, after: Counters, handled: bool) -> Said {
        let (reading, kind) = match answer {
            ProcessResult::Ignored => (Reading::Ignored, named_by_counter(before, after)),
            ProcessResult::FragmentConsumed => (Reading::FragmentConsumed, raw::FRAGMENT_CONSUMED),
            ProcessResult::MessageComplete(_) => (Reading::MessageComplete, raw::MESSAGE_COMPLETE),
        };
        Said { reading, kind, handled }
    }
    /// Holds a kind of the port to it; `call` is what a difference is told with.
    pub fn hold(&self, kind: u32, call: &dyn Debug) {
        assert_eq!(read(kind), self.reading, "the answer, its four names read as Ignored: {kind}, {call:?}");
        assert_eq!(kind, self.kind, "the name that goes with the original's counter, {call:?}");
        assert_eq!(kind != raw::NOT_LISTED, self.handled, "NotListed exactly where the original does not handle the PGN, {call:?}");
    }
}
