//! The sizes of the buffers lent: the largest that document 01's check 2 passes.

pub const TEXT: usize = 4_096;
pub const RECORDS: usize = 32_768;
pub const TEXTS: usize = 65_535;
pub const SLOTS: usize = 16;
pub const SLOT: usize = 4_096;
