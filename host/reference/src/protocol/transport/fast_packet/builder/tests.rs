//! Ours, not the original's: lets the host start the original's iterator anywhere, with any builder.
use super::*;
use crate::hooks::{GlobalSequence, Here, Parts, Progress};

impl<'a> Progress for FrameIterator<'a> {
    fn progress(&self) -> (u8, usize) {
        (self.frame_index, self.bytes_sent)
    }
    fn set_progress(&mut self, frame_index: u8, bytes_sent: usize) {
        self.frame_index = frame_index;
        self.bytes_sent = bytes_sent;
    }
    fn parts(&self) -> Parts {
        let b = &self.builder;
        Parts { pgn: b.pgn, source: b.source_address, destination: b.destination, priority: b.priority, sequence: b.sequence_id, fast: b.fast }
    }
    fn set_parts(&mut self, p: Parts) {
        self.builder = FastPacketBuilder {
            pgn: p.pgn,
            source_address: p.source,
            destination: p.destination,
            priority: p.priority,
            payload: self.builder.payload,
            sequence_id: p.sequence,
            fast: p.fast,
        };
    }
}

impl GlobalSequence for Here {
    fn set(n: u8) {
        GLOBAL_SEQUENCE_ID.store(n, Ordering::SeqCst);
    }
    fn get() -> u8 {
        GLOBAL_SEQUENCE_ID.load(Ordering::SeqCst)
    }
}
