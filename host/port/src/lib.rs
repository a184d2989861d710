//! The proved library under the original's names. Every entry is total (no `requires`), so every wrapper is safe.
#[cfg_attr(feature = "piped", path = "piped.rs")]
mod entries;
pub mod assembler;
pub mod builder;
pub mod can_frame;
pub mod can_id;
pub mod error;
pub mod fast_packet;
pub mod oracle;
#[doc(hidden)]
pub mod raw;
