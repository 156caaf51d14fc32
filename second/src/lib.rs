//! The parts of the second program, which its binaries share.

pub mod central;
pub mod dissem;
pub mod machine;
pub mod mcs;
pub mod memory;
pub mod notes;
pub mod play;
pub mod print;
pub mod reader;
pub mod routine;
pub mod settings;
pub mod slip;
pub mod ticket;
pub mod trace;
pub mod tree;
