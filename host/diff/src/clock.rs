//! Document 02's No. 10: the mode in which a clock that was set back counts as silence. The original has no such mode, and is asked all the same: on a clock of
//! its own, by which each slot is as long silent as No. 10 says.
use crate::receive::{asked, Heard, Original};
use crate::tally::answered;
use port::assembler::Mode;
use reference::hooks::Slot;
use reference::protocol::transport::fast_packet::assembler::{FastPacketAssembler, ProcessResult};

/// "Silent over 500", in the papers' own words: "Silence is now minus last time, or 0 if now is earlier"; by No. 10's mode "also .. if now is earlier than its last
/// time".
pub fn silent(mode: Mode, now: u64, last_time: u64) -> bool {
    match mode {
        Mode::AsOriginal => now.saturating_sub(last_time) > 500,
        Mode::SetBackIsSilence => now < last_time || now - last_time > 500,
    }
}

/// What the original's own clock says at every call.
const NOON: u64 = 1000;

/// A silent slot was last heard long before noon, any other as long before noon as it was before `now`.
fn by_its_own_clock(now: u64, last_time: u64) -> u64 {
    if silent(Mode::SetBackIsSilence, now, last_time) {
        0
    } else {
        NOON - (now - last_time)
    }
}

/// The original on a clock of its own; `times` are the slots' last times by the clock that is set.
#[derive(Clone, Copy)]
pub struct OnItsOwnClock<const N: usize> {
    original: FastPacketAssembler<N>,
    times: [u64; N],
}

impl<const N: usize> OnItsOwnClock<N> {
    pub fn with_pool(list: &'static [u32]) -> Self {
        Self { original: FastPacketAssembler::with_pool(list), times: [0; N] }
    }
    /// The original as it is, on the clock that is set: the kind that it gives to this frame, and its counters then.
    fn as_it_is(&self, h: &Heard) -> (u32, [u32; 5]) {
        let mut original = self.original;
        (0..N).for_each(|k| Original::set_slot(&mut original, k, &self.slot(k)));
        let (_, said) = asked(&mut original, h);
        (said.kind, Original::counters(&original))
    }
}

impl<const N: usize> Original for OnItsOwnClock<N> {
    fn slot(&self, i: usize) -> Slot {
        Slot { last_time: self.times[i], ..Original::slot(&self.original, i) }
    }
    fn set_slot(&mut self, i: usize, slot: &Slot) {
        self.times[i] = slot.last_time;
        Original::set_slot(&mut self.original, i, slot);
    }
    fn set_counters(&mut self, counters: [u32; 5]) {
        Original::set_counters(&mut self.original, counters);
    }
    fn counters(&self) -> [u32; 5] {
        Original::counters(&self.original)
    }
    fn handles(&self, pgn: u32) -> bool {
        self.original.handles(pgn)
    }
    /// A slot that the original heard at noon was heard now; any other keeps its time. What the original as it is would have answered otherwise is counted.
    fn process(&mut self, h: &Heard) -> ProcessResult {
        let as_it_is = self.as_it_is(h);
        for (k, last_time) in self.times.into_iter().enumerate() {
            let slot = Original::slot(&self.original, k);
            Original::set_slot(&mut self.original, k, &Slot { last_time: by_its_own_clock(h.now, last_time), ..slot });
        }
        let (result, said) = asked(&mut self.original, &Heard { now: NOON, ..*h });
        for (k, time) in self.times.iter_mut().enumerate() {
            if Original::slot(&self.original, k).last_time == NOON {
                *time = h.now;
            }
        }
        if (said.kind, self.counters()) != as_it_is {
            answered("otherwise", said.kind);
        }
        result
    }
}
