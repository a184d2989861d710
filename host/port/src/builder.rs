//! From a payload to frames: the original's `FastPacketBuilder` and `FrameIterator`.
use crate::can_frame::CanFrame;
use crate::can_id::CanId;
use crate::error::CanIdBuildError;
use crate::raw;

/// What all frames of a message have in common, and the payload that it borrows.
#[derive(Clone, Debug, PartialEq, Eq)]
pub struct FastPacketBuilder<'a> {
    numbers: [u64; raw::BUILDER_NUMBERS],
    payload: &'a [u8],
}

/// The frames of a message, one by one. After a refusal none follow.
#[derive(Clone, Debug, PartialEq, Eq)]
pub struct FrameIterator<'a> {
    builder: FastPacketBuilder<'a>,
    place: [u64; raw::PLACE_NUMBERS],
}

impl<'a> FastPacketBuilder<'a> {
    /// The builder, and the number that the caller holds from now on and gives to the next. The frames are fast where `pgns` has
    /// the PGN or the payload is over 8 bytes.
    pub fn new(pgn: u32, source_address: u8, destination: Option<u8>, payload: &'a [u8], pgns: &[u32], sequence_id: u8) -> (Self, u8) {
        let mut numbers = [0; raw::BUILDER_NUMBERS];
        let held = raw::builder_new(pgn, source_address, raw::address(destination), payload, pgns, sequence_id, &mut numbers);
        (Self { numbers, payload }, held)
    }
    /// Keeps the low 3 bits.
    pub fn with_sequence_id(mut self, sequence_id: u8) -> Self {
        raw::hf_raw_builder_with_sequence_id(&mut self.numbers, sequence_id);
        self
    }
    /// Keeps the low 3 bits.
    pub fn with_priority(mut self, priority: u8) -> Self {
        raw::hf_raw_builder_with_priority(&mut self.numbers, priority);
        self
    }
    pub fn to_destination(mut self, destination: u8) -> Self {
        raw::hf_raw_builder_to_destination(&mut self.numbers, destination);
        self
    }
    pub fn build(self) -> FrameIterator<'a> {
        let mut place = [0; raw::PLACE_NUMBERS];
        raw::hf_raw_builder_build(&self.numbers, &mut place);
        FrameIterator { builder: self, place }
    }
}

impl Iterator for FrameIterator<'_> {
    type Item = Result<CanFrame, CanIdBuildError>;

    #[inline]
    fn next(&mut self) -> Option<Self::Item> {
        let (mut data, mut frame) = ([0; 8], [0; raw::FRAME_NUMBERS]);
        let answer = raw::frame_iterator_next(&self.builder.numbers, &mut self.place, self.builder.payload, &mut data, &mut frame);
        let [id, len, carried] = frame;
        match answer {
            0 => Some(Ok(CanFrame { id: CanId(id as u32), data, len: len as usize })),
            raw::END => None,
            number => Some(Err(CanIdBuildError::from_number(number, carried))),
        }
    }
}
