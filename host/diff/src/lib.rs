//! One Rust host for the original and the port: each function here runs both on the same inputs, compares all that they
//! leave behind, panics at the first difference, and says how many steps it compared.
pub mod bench;
pub mod clock;
pub mod destination;
pub mod frames;
pub mod ids;
pub mod kinds;
pub mod modes;
pub mod reading;
pub mod receive;
pub mod rng;
pub mod tally;
