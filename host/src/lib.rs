#![doc = include_str!("../README.md")]
#![deny(missing_docs)]
// No input ends the program: nothing here may panic.
#![deny(clippy::indexing_slicing, clippy::arithmetic_side_effects)]
#![deny(clippy::unwrap_used, clippy::expect_used, clippy::panic)]
#![deny(clippy::undocumented_unsafe_blocks)]

mod answers;
mod causes;
mod changes;
mod codes;
mod columns;
mod edit_line;
pub mod ffi;
mod keys;
mod repertoire;
mod ring;
mod slips;

pub use answers::{Outcome, Refusal};
pub use causes::{Foreign, Place, Size};
pub use changes::{Change, Changes};
pub use codes::{Action, At, CharSearch, Mode, Movement, Word, WordAction};
pub use columns::{advance, width};
pub use edit_line::{EditLine, Pressed, Room, RECORDS_MAX, SLOTS_MAX, TEXTS_MAX, TEXT_MAX};
pub use keys::{key_count, Input, Keys};
pub use repertoire::foreign;
pub use ring::KillRing;
pub use slips::slip;

/// The Rust of the repository's README runs as a test.
#[cfg(doctest)]
#[doc = include_str!("../../README.md")]
struct Readme;
