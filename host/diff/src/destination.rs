//! Document 02's No. 12: the kind of pool whose key has the destination. The original's key has none, and it is asked all the same: under a PGN with the destination in its
//! low byte, which is 0 in a PGN that has one. So the runs tell frames and slots in progress as the original takes them, and here they are taken apart for the port.
use port::assembler::Mode;
use port::raw;
use std::cell::RefCell;
use std::collections::BTreeMap;

/// What is chosen when a pool is made.
#[derive(Clone, Copy, Debug, PartialEq, Eq)]
pub struct Chosen {
    pub mode: Mode,
    /// Of the kind whose key has the destination.
    pub addressed: bool,
}

pub const AS_ORIGINAL: Chosen = Chosen { mode: Mode::AsOriginal, addressed: false };
pub const SET_BACK: Chosen = Chosen { mode: Mode::SetBackIsSilence, addressed: false };
pub const ADDRESSED: Chosen = Chosen { mode: Mode::AsOriginal, addressed: true };
pub const ADDRESSED_SET_BACK: Chosen = Chosen { mode: Mode::SetBackIsSilence, addressed: true };

pub const CHOICES: [Chosen; 4] = [AS_ORIGINAL, SET_BACK, ADDRESSED, ADDRESSED_SET_BACK];

/// Whether a PGN's messages have a destination: "With PF below 240, .. PS is the destination" (document 01).
pub fn has_destination(pgn: u32) -> bool {
    pgn / 256 % 256 < 240
}

/// The PGN, and the part that its key has, of the original's: "the destination, or none for PF 240 and above". None is 0, and a destination is that plus 1.
pub fn taken_apart(pgn: u32) -> (u32, u16) {
    if has_destination(pgn) {
        (pgn / 256 * 256, (pgn % 256) as u16 + 1)
    } else {
        (pgn, 0)
    }
}

/// What No. 12 allows in a slot in progress: "an in-progress slot of the old kind with a destination, or of the new with a part that its PGN's PF doesn't allow" is refused.
pub fn part_allowed(kind: u32, pgn: u32, part: u64) -> bool {
    if kind == raw::ADDRESSED && has_destination(pgn) {
        (1..=256).contains(&part)
    } else {
        part == 0
    }
}

impl Chosen {
    pub fn kind(self) -> u32 {
        if self.addressed {
            raw::ADDRESSED
        } else {
            raw::ORIGINAL
        }
    }
    /// PGN and part in the port, of a slot in progress in the original.
    pub fn in_the_port(self, pgn: u32) -> (u32, u16) {
        if self.addressed {
            taken_apart(pgn)
        } else {
            (pgn, 0)
        }
    }
    /// What the original's PGN is called in a list.
    pub fn named(self, pgn: u32) -> u32 {
        self.in_the_port(pgn).0
    }
    /// Two PGNs of the original: where the key has the destination, one PGN to two displays.
    pub fn two_pgns(self) -> [u32; 2] {
        if self.addressed {
            [126_208 + 16, 126_208 + 17]
        } else {
            [127_489, 129_029]
        }
    }
    /// A PGN as a frame can have it: an identifier has 18 bits for it.
    pub fn heard_as(self, pgn: u32) -> u32 {
        if self.addressed {
            pgn % (1 << 18)
        } else {
            pgn
        }
    }
    /// The PGNs of a random run, as the original has them.
    pub fn pgns(self) -> &'static [u32] {
        if self.addressed {
            &[
                126_208 + 16, 126_208 + 16, 126_208 + 17, 126_208 + 17, 126_208 + 255, 126_720 + 16, 126_720, 59_904 + 16, 59_904 + 255, 127_489, 127_489, 129_029, 60_928 + 255, 130_824,
            ]
        } else {
            &[127_489, 127_489, 129_029, 129_029, 5, 130_824]
        }
    }
    /// Its lists: some strictly ascending; for the others the original takes the same PGNs in order, once each.
    pub fn lists(self) -> [&'static [u32]; 6] {
        if self.addressed {
            // 126736 has a PF below 240 and a low byte, so no identifier has it
            [
                &[], &[126_208], &[126_208, 127_489], &[127_489, 126_720, 126_208, 126_720], &[0, 59_904, 126_208, 126_720, 127_489, 129_029, 0xFFFF_FFFF],
                &[130_824, 126_736, 126_208, 59_904],
            ]
        } else {
            [&[], &[127_489], &[127_489, 129_029], &[129_029, 127_489, 129_029], &[0, 5, 60_928, 126_208, 127_489, 129_029, 0xFFFF_FFFF], &[130_824, 127_489, 0]]
        }
    }
}

/// Lists that were sorted, by whether the key has the destination and the list that was lent.
type Sorted = BTreeMap<(bool, Vec<u32>), &'static [u32]>;

thread_local! {
    static SORTED: RefCell<Sorted> = const { RefCell::new(BTreeMap::new()) };
}

/// The list for the original, which wants one that lives for ever: strictly ascending, with the same PGNs; where the key has the destination, with a PGN to every
/// destination exactly if the list has that PGN.
pub fn sorted(chosen: Chosen, list: &[u32]) -> &'static [u32] {
    SORTED.with_borrow_mut(|known| {
        *known.entry((chosen.addressed, list.to_vec())).or_insert_with(|| {
            let heard = list.iter().filter(|&&pgn| chosen.named(pgn) == pgn);
            let mut l: Vec<u32> = heard.flat_map(|&pgn| pgn..=if chosen.addressed && has_destination(pgn) { pgn + 255 } else { pgn }).collect();
            l.sort_unstable();
            l.dedup();
            l.leak()
        })
    })
}
