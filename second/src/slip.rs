//! The slips seen in real ports, under their numbers in document 01. A routine
//! takes its slip as a constant, so that the right one carries no test of it.

use crate::settings::Algorithm;

pub type Slip = u8;

/// The figure as it stands.
pub const NONE: Slip = 0;
/// The turn that would clear `next` makes no access.
pub const NEXT_NOT_CLEARED: Slip = 1;
/// Steps 3 and 4 exchanged: the link is written before the own flag.
pub const LINK_BEFORE_LOCKED: Slip = 2;
/// A failed compare-and-swap is taken as a release.
pub const FAILED_SWAP_RELEASES: Slip = 3;
/// A ticket waits while the release counter is less than it.
pub const LESS_THAN: Slip = 4;
/// Parity stays 0; the sense is toggled at every leaving.
pub const ONE_PARITY: Slip = 0x5a;
/// Parity stays 0; the sense is never toggled.
pub const ONE_PARITY_ONE_SENSE: Slip = 0x5b;
/// The last to arrive writes sense, then count.
pub const RESET_AFTER_SENSE: Slip = 6;

/// Each slip with the name it is asked for by and the machine it is of.
pub const NAMED: [(&str, Slip, Algorithm); 7] = [
    ("1", NEXT_NOT_CLEARED, Algorithm::Mcs),
    ("2", LINK_BEFORE_LOCKED, Algorithm::Mcs),
    ("3", FAILED_SWAP_RELEASES, Algorithm::Mcs),
    ("4", LESS_THAN, Algorithm::Ticket),
    ("5a", ONE_PARITY, Algorithm::Dissem),
    ("5b", ONE_PARITY_ONE_SENSE, Algorithm::Dissem),
    ("6", RESET_AFTER_SENSE, Algorithm::Central),
];

/// What is said when a file names another machine than the slip's.
pub fn of_another_machine(slip: Slip) -> String {
    NAMED
        .iter()
        .filter(|named| named.1 == slip)
        .map(|(name, _, algorithm)| {
            format!("slip {name} is one of the machine {}", algorithm.name())
        })
        .collect()
}
