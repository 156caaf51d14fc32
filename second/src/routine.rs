//! What every machine's routine has in common.

use crate::memory::{Address, Memory};
use crate::notes::Notes;
use crate::settings::{Plan, Settings};
use std::hash::Hash;

/// What a turn does, for the trace. What comes of it stands in the notes.
pub enum Step {
    /// A read: a spin, or a grant or a leaving, or else a look.
    Read,
    /// Its events say it all.
    Event,
    /// Anything else, with its word.
    Other(&'static str),
}

/// One processor's way through a figure, stopped before its next turn.
pub trait Routine: Clone + Eq + Hash {
    /// The figure's shared declarations: where the shared variables stand.
    type Shared;

    /// Places the shared variables in the memory with their first values.
    fn declare(settings: &Settings, memory: &mut Memory) -> Self::Shared;

    /// The routine of processor `me` before its first turn.
    fn new(me: usize, plan: Plan, shared: &Self::Shared) -> Self;

    /// The variable that the next turn will touch; none for a hold turn, an
    /// idle turn, or a turn without reference. Changes nothing. Every machine
    /// has it inlined: the run and the trace both call it, and left alone it
    /// would become a call in the run.
    fn touches(&self, shared: &Self::Shared) -> Option<Address>;

    /// What the next turn will do. Changes nothing.
    fn step(&self) -> Step;

    /// Takes the next turn, with the work up to the next access.
    fn turn(&mut self, shared: &Self::Shared, memory: &mut Memory, notes: &mut impl Notes);

    /// Takes the next turn, which is this processor's, unless it would carry
    /// the total of remote references past the budget; answers whether it did.
    #[inline(always)]
    fn turn_within(
        &mut self,
        budget: u32,
        processor: usize,
        shared: &Self::Shared,
        memory: &mut Memory,
        notes: &mut impl Notes,
    ) -> bool {
        let remote =
            self.touches(shared).is_some_and(|address| memory.is_remote(processor, address));
        let due = memory.total() + u32::from(remote);
        if due > budget {
            return false;
        }
        self.turn(shared, memory, notes);
        debug_assert_eq!(memory.total(), due);
        true
    }
}

/// Before the first turn: the declarations, the memory, and the routine of
/// every processor.
pub fn start<R: Routine>(settings: &Settings) -> (R::Shared, Memory, Vec<R>) {
    let mut memory = Memory::new(settings.procs);
    let shared = R::declare(settings, &mut memory);
    let routines = (0..settings.procs)
        .map(|processor| R::new(processor, settings.plans[processor], &shared))
        .collect();
    (shared, memory, routines)
}
