//! What a settings file says, once it has been read.

/// The machine named on the `algo=` line.
#[derive(Clone, Copy, Debug, PartialEq, Eq)]
pub enum Algorithm {
    Ticket,
    Mcs,
    Central,
    Dissem,
    Tree,
}

impl Algorithm {
    pub fn name(self) -> &'static str {
        match self {
            Algorithm::Ticket => "ticket",
            Algorithm::Mcs => "mcs",
            Algorithm::Central => "central",
            Algorithm::Dissem => "dissem",
            Algorithm::Tree => "tree",
        }
    }
}

/// One processor's line: how many passages it does, how many hold turns
/// belong to each.
#[derive(Clone, Copy, Debug, PartialEq, Eq)]
pub struct Plan {
    pub rounds: u16,
    pub hold: u16,
}

/// Everything above the `turns=` line.
#[derive(Clone, Debug, PartialEq, Eq)]
pub struct Settings {
    pub algorithm: Algorithm,
    pub procs: usize,
    pub home: usize,
    pub ticket: u16,
    pub budget: u32,
    pub plans: Vec<Plan>,
}

/// A whole accepted file: the settings, and the schedule as processor numbers.
#[derive(Clone, Debug, PartialEq, Eq)]
pub struct Accepted {
    pub settings: Settings,
    pub schedule: Vec<u8>,
}
