//! Identifiers: the original's `CanId` and `CanIdBuilder`.
use crate::error::{CanIdBuildError, TooWide, never_given};
use crate::raw;

/// A 29-bit identifier. A driver may have left flags in bits 29 to 31: `read` refuses a number that has any of them.
#[derive(Clone, Copy, Debug, PartialEq, Eq)]
pub struct CanId(pub u32);

/// What an identifier says.
#[derive(Clone, Copy, Debug, PartialEq, Eq)]
pub struct Parts {
    pub priority: u8,
    pub pgn: u32,
    pub source_address: u8,
    pub destination: Option<u8>,
}

impl CanId {
    pub const DEFAULT_PRIORITY: u8 = 6;
    pub const MAX_PRIORITY: u8 = 7;

    pub fn builder(pgn: u32, source_address: u8) -> CanIdBuilder {
        CanIdBuilder::new(pgn, source_address)
    }
    /// What the identifier says, all four parts by one call of the archive.
    #[inline]
    pub fn read(&self) -> Result<Parts, TooWide> {
        let mut p = [0; 4];
        match raw::hf_can_id_read(self.0, &mut p) {
            0 => Ok(Parts { priority: p[0] as u8, pgn: p[1], source_address: p[2] as u8, destination: u8::try_from(p[3]).ok() }),
            TooWide::NUMBER => Err(TooWide),
            other => never_given(other),
        }
    }
}

/// The parts of an identifier that is to be built. The fields may be set to anything: `build` refuses what does not fit.
#[derive(Clone, Copy, Debug, PartialEq, Eq)]
pub struct CanIdBuilder {
    pub priority: u8,
    pub pgn: u32,
    pub source_address: u8,
    pub destination: Option<u8>,
}

impl CanIdBuilder {
    pub fn new(pgn: u32, source_address: u8) -> Self {
        Self { priority: CanId::DEFAULT_PRIORITY, pgn, source_address, destination: None }
    }
    /// Keeps the low 3 bits.
    pub fn with_priority(mut self, priority: u8) -> Self {
        self.priority = priority & CanId::MAX_PRIORITY;
        self
    }
    pub fn to_destination(mut self, destination: u8) -> Self {
        self.destination = Some(destination);
        self
    }
    /// `with_priority` under its other name.
    pub fn priority(self, priority: u8) -> Self {
        self.with_priority(priority)
    }
    /// `to_destination` under its other name.
    pub fn destination(self, destination: u8) -> Self {
        self.to_destination(destination)
    }
    pub fn build(self) -> Result<CanId, CanIdBuildError> {
        let mut value = 0;
        match raw::hf_can_id_build(self.priority, self.pgn, self.source_address, raw::address(self.destination), &mut value) {
            0 => Ok(CanId(value)),
            number => Err(CanIdBuildError::from_number(number, value as u64)),
        }
    }
}
