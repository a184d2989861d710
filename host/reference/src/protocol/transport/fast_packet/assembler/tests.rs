//! Ours, not the original's: lets the host set and read the private state of the original.
use super::*;
use crate::hooks::{PoolState, Slot};

impl<const N: usize> PoolState for FastPacketAssembler<N> {
    fn slot(&self, i: usize) -> Slot {
        let s = &self.sessions[i];
        Slot {
            in_progress: s.state == SessionState::InProgress,
            source: s.source_address,
            pgn: s.pgn,
            sequence: s.sequence_id,
            bytes: s.buffer,
            expected: s.expected_size,
            current: s.current_size,
            last_index: s.last_frame_index,
            last_time: s.last_seen_ms,
        }
    }
    fn set_slot(&mut self, i: usize, t: &Slot) {
        self.sessions[i] = FastPacketSession {
            state: if t.in_progress { SessionState::InProgress } else { SessionState::Inactive },
            source_address: t.source,
            pgn: t.pgn,
            sequence_id: t.sequence,
            buffer: t.bytes,
            expected_size: t.expected,
            current_size: t.current,
            last_frame_index: t.last_index,
            last_seen_ms: t.last_time,
        };
    }
    fn set_counters(&mut self, c: [u32; 5]) {
        [self.expired_sessions, self.pool_exhausted, self.rejected_frames, self.lost_fragments, self.unknown_pgn] = c;
    }
}
