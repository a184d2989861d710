//! What the builder and the assembler share: the limit, and a frame cut short.
use crate::raw;

/// A message's bytes, at most.
pub const MAX_FAST_PACKET_PAYLOAD: usize = 223;

/// The first min(len, 8) bytes, and 0xFF for the rest. A frame that was heard short goes to `Pool::process_frame_with_length` as it is: filled up, it would
/// be taken for one of eight bytes.
pub fn fill_short(mut data: [u8; 8], len: usize) -> [u8; 8] {
    raw::hf_fill_short(&mut data, len);
    data
}
