//! What the processors' routines note down as they go: events, passages done,
//! spins and idle turns.

#[derive(Clone, Copy, Debug, PartialEq, Eq, PartialOrd, Ord, Hash)]
pub enum Kind {
    Join,
    Grant,
    Release,
    Arrive,
    Leave,
}

#[derive(Clone, Copy, Debug, PartialEq, Eq, Hash)]
pub struct Event {
    pub kind: Kind,
    pub processor: u8,
}

/// The counts of one processor that are not references.
#[derive(Clone, Copy, Debug, Default, PartialEq, Eq)]
pub struct Tally {
    pub done: u32,
    pub spins: u32,
    pub idle: u32,
}

/// A routine is compiled for each kind of notes by itself: those of the trace
/// cost the ordinary run nothing.
pub trait Notes {
    fn event(&mut self, kind: Kind, processor: usize);

    fn passage_done(&mut self, processor: usize);

    /// A read that has to be made again.
    fn spin(&mut self, processor: usize);

    fn idle(&mut self, processor: usize);
}

/// The notes of a whole run.
#[derive(Clone)]
pub struct Journal {
    pub events: Vec<Event>,
    pub tallies: Vec<Tally>,
}

impl Journal {
    /// No turn notes more than two events.
    pub fn new(procs: usize, turns: usize) -> Journal {
        Journal { events: Vec::with_capacity(2 * turns), tallies: vec![Tally::default(); procs] }
    }
}

impl Notes for Journal {
    fn event(&mut self, kind: Kind, processor: usize) {
        self.events.push(Event { kind, processor: processor as u8 });
    }

    fn passage_done(&mut self, processor: usize) {
        self.tallies[processor].done += 1;
    }

    fn spin(&mut self, processor: usize) {
        self.tallies[processor].spins += 1;
    }

    fn idle(&mut self, processor: usize) {
        self.tallies[processor].idle += 1;
    }
}
