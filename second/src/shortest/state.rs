//! A run under way that can be copied and gone on with in more than one way.

use second::memory::Memory;
use second::notes::{Event, Journal, Kind};
use second::routine::{start, Routine};
use second::settings::Settings;

#[derive(Clone)]
pub struct State<R> {
    memory: Memory,
    pub notes: Journal,
    routines: Vec<R>,
}

/// All that the turns to come and the criteria depend on: where the
/// processors stand, the values of the variables, and the events, of which
/// only the order within each kind matters. Two orders of turns that lead to
/// equal keys can be gone on with in the same ways.
#[derive(Clone, PartialEq, Eq, Hash)]
pub struct Key<R> {
    routines: Vec<R>,
    values: Vec<u16>,
    events: Vec<Event>,
}

impl<R: Routine> State<R> {
    /// Before the first turn, with the declarations.
    pub fn new(settings: &Settings) -> (R::Shared, State<R>) {
        let (shared, memory, routines) = start(settings);
        (shared, State { memory, notes: Journal::new(settings.procs, 0), routines })
    }

    /// The state after one more turn of this processor.
    pub fn after(&self, processor: usize, shared: &R::Shared) -> State<R> {
        let mut state = self.clone();
        let State { memory, notes, routines } = &mut state;
        routines[processor].turn(shared, memory, notes);
        state
    }

    pub fn key(&self) -> Key<R> {
        let mut events = self.notes.events.clone();
        events.sort_by_key(|event| event.kind);
        Key { routines: self.routines.clone(), values: self.memory.values().collect(), events }
    }

    /// The processors of all events of this kind, in their order.
    pub fn of(&self, kind: Kind) -> Vec<u8> {
        let events = self.notes.events.iter().filter(|event| event.kind == kind);
        events.map(|event| event.processor).collect()
    }

    /// How many events of this kind the processor has had.
    pub fn count(&self, kind: Kind, processor: usize) -> usize {
        self.of(kind).iter().filter(|&&other| usize::from(other) == processor).count()
    }

    /// The processor's next turn is a spin or idle. Such a turn changes
    /// nothing, so it stays that until another processor has made an access.
    pub fn waits(&self, processor: usize, shared: &R::Shared) -> bool {
        let after = self.after(processor, shared);
        let (now, then) = (self.notes.tallies[processor], after.notes.tallies[processor]);
        let waits = then.spins > now.spins || then.idle > now.idle;
        assert!(!waits || after.key() == self.key(), "a spin or an idle turn changed something");
        waits
    }
}
