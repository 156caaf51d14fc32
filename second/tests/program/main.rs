//! The program as a whole: its options, the slips and the trace.

mod files;
mod options;
mod slips;
mod trace;
