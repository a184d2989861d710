//! A CAN frame.
use crate::can_id::CanId;

#[derive(Clone, Copy, Debug, PartialEq, Eq)]
pub struct CanFrame {
    pub id: CanId,
    pub data: [u8; 8],
    /// How many of the eight bytes count.
    pub len: usize,
}
