//! The bench: the original's `reassemble`, `fast_packet_frames` and `check_tx`, over rows of numbers.
use crate::error::Refusal;
use crate::raw;

/// A row of frames: identifiers, eight bytes a frame, lengths. The shortest of the three decides how many there are.
#[derive(Clone, Debug, Default, PartialEq, Eq)]
pub struct Frames {
    pub ids: Vec<u32>,
    pub bytes: Vec<u8>,
    pub lens: Vec<usize>,
}

impl Frames {
    pub fn room(n: usize) -> Frames {
        Frames { ids: vec![0; n], bytes: vec![0; 8 * n], lens: vec![0; n] }
    }
    pub fn push(&mut self, id: u32, data: [u8; 8], len: usize) {
        self.ids.push(id);
        self.bytes.extend_from_slice(&data);
        self.lens.push(len);
    }
    /// How many frames the rows hold.
    pub fn len(&self) -> usize {
        raw::hf_frame_count(self.ids.len(), self.bytes.len(), self.lens.len())
    }
    pub fn is_empty(&self) -> bool {
        self.len() == 0
    }
}

/// The number of messages; the list gets sequence, start and length of each, the arena their bytes, end to end.
pub fn reassemble(f: &Frames, source: u8, pgn: u32, list: &mut [usize], arena: &mut [u8]) -> Result<usize, Refusal<5>> {
    let mut values = [0; raw::VALUES];
    match raw::reassemble(f, source, pgn, list, arena, &mut values) {
        0 => Ok(values[0] as usize),
        number => Err(Refusal::new(number, values)),
    }
}

/// The number of frames laid into the row.
pub fn fast_packet_frames(id: u32, sequence: u8, payload: &[u8], row: &mut Frames) -> Result<usize, Refusal<0>> {
    let mut frames = 0;
    match raw::fast_packet_frames(id, sequence, payload, row, &mut frames) {
        0 => Ok(frames),
        number => Err(Refusal::new(number, [])),
    }
}

/// Whether a capture is the firmware's transmission: `expected` messages of 127489, hours from `hours_base` on.
pub fn check_tx(f: &Frames, source: u8, expected: usize, hours_base: u32) -> Result<(), Refusal<5>> {
    let mut values = [0; raw::VALUES];
    match raw::check_tx(f, source, expected, hours_base, &mut values) {
        0 => Ok(()),
        number => Err(Refusal::new(number, values)),
    }
}
