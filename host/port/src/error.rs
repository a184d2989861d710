//! Refusals: the original's errors, and document 01's numbers where the original has none.
use std::fmt;

/// Why an identifier or a frame was not built. The original's `InvalidDestination`, number 3, is not among these: no call gives it.
#[derive(Clone, Copy, Debug, PartialEq, Eq)]
pub enum CanIdBuildError {
    /// A PGN over 18 bits, a priority over 7, or a payload over 223 bytes.
    InvalidData,
    /// No destination, and PF below 240.
    InvalidForBroadcast,
    /// A destination, and PF 240 or more; `pgn` is the PF, as in the original.
    InvalidForFocusedMessage { pgn: u8 },
    /// A destination, and a PGN whose low byte is not 0.
    PsFocusMessageMustBeNull,
    /// A payload of no bytes.
    EmptyPayload,
}

impl CanIdBuildError {
    /// Document 01's number.
    pub fn number(self) -> u32 {
        match self {
            Self::InvalidData => 2,
            Self::InvalidForBroadcast => 4,
            Self::InvalidForFocusedMessage { .. } => 5,
            Self::PsFocusMessageMustBeNull => 6,
            Self::EmptyPayload => 7,
        }
    }
    /// The other way round.
    pub(crate) fn from_number(number: u32, carried: u64) -> Self {
        match number {
            2 => Self::InvalidData,
            4 => Self::InvalidForBroadcast,
            5 => Self::InvalidForFocusedMessage { pgn: carried as u8 },
            6 => Self::PsFocusMessageMustBeNull,
            7 => Self::EmptyPayload,
            other => never_given(other),
        }
    }
}

impl fmt::Display for CanIdBuildError {
    fn fmt(&self, f: &mut fmt::Formatter) -> fmt::Result {
        match self {
            Self::InvalidData => f.write_str("PGN, priority or payload is too large"),
            Self::InvalidForBroadcast => f.write_str("this PGN wants a destination: its PF is below 240"),
            Self::InvalidForFocusedMessage { pgn } => write!(f, "this PGN takes no destination: its PF is {pgn}"),
            Self::PsFocusMessageMustBeNull => f.write_str("a PGN with a destination ends in a byte of 0"),
            Self::EmptyPayload => f.write_str("the payload is empty"),
        }
    }
}

impl std::error::Error for CanIdBuildError {}

/// Why an identifier is not read: it is 2^29 or more.
#[derive(Clone, Copy, Debug, PartialEq, Eq)]
pub struct TooWide;

impl TooWide {
    pub(crate) const NUMBER: u32 = 8;

    /// Document 02's number.
    pub fn number(self) -> u32 {
        Self::NUMBER
    }
}

impl fmt::Display for TooWide {
    fn fmt(&self, f: &mut fmt::Formatter) -> fmt::Result {
        f.write_str("an identifier has 29 bits")
    }
}

impl std::error::Error for TooWide {}

/// Why a pool was not made: more than 32 slots were asked for.
#[derive(Clone, Copy, Debug, PartialEq, Eq)]
pub struct ImpossiblePool;

impl ImpossiblePool {
    pub(crate) const NUMBER: u32 = 1;

    /// Document 01's number.
    pub fn number(self) -> u32 {
        Self::NUMBER
    }
}

impl fmt::Display for ImpossiblePool {
    fn fmt(&self, f: &mut fmt::Formatter) -> fmt::Result {
        f.write_str("a pool has at most 32 slots")
    }
}

impl std::error::Error for ImpossiblePool {}

/// Why a batch was not run: one of its rows, in or out, is shorter than that of the times.
#[derive(Clone, Copy, Debug, PartialEq, Eq)]
pub struct NoRoom;

impl NoRoom {
    pub(crate) const NUMBER: u32 = 27;

    /// Document 01's number.
    pub fn number(self) -> u32 {
        Self::NUMBER
    }
}

impl fmt::Display for NoRoom {
    fn fmt(&self, f: &mut fmt::Formatter) -> fmt::Result {
        f.write_str("a row of the batch is shorter than that of the times")
    }
}

impl std::error::Error for NoRoom {}

/// A refusal of the bench. Its parts are private, so that a program has none but those that the calls gave it.
#[derive(Clone, Copy, Debug, PartialEq, Eq)]
pub struct Refusal<const N: usize> {
    number: u32,
    carried: [u64; N],
}

impl<const N: usize> Refusal<N> {
    pub(crate) fn new(number: u32, carried: [u64; N]) -> Self {
        Self { number, carried }
    }
    /// Document 01's number.
    pub fn number(self) -> u32 {
        self.number
    }
    /// What it carries (docs/REFUSALS.md), then zeros.
    pub fn carried(self) -> [u64; N] {
        self.carried
    }
}

impl<const N: usize> fmt::Display for Refusal<N> {
    fn fmt(&self, f: &mut fmt::Formatter) -> fmt::Result {
        write!(f, "refusal {}", self.number)?;
        if N > 0 {
            write!(f, ", {:?}", self.carried)?;
        }
        Ok(())
    }
}

impl<const N: usize> std::error::Error for Refusal<N> {}

/// For a number that the proved calls never give here: another archive is linked than this crate is made for.
pub(crate) fn never_given(number: u32) -> ! {
    unreachable!("the archive answered {number}, which this call never gives")
}
