//! Plays a schedule: each turn lets one processor's routine make its next
//! access, until the schedule is used up or the budget would be passed.

use crate::machine::{hand_over, Task};
use crate::memory::Memory;
use crate::notes::{Event, Journal};
use crate::routine::{start, Routine};
use crate::settings::{Accepted, Settings};
use crate::slip::Slip;

#[derive(Clone, Copy, Debug, PartialEq, Eq)]
pub enum Stop {
    ScheduleUsedUp,
    Budget,
}

/// One processor's line of the result.
#[derive(Clone, Copy, Debug, PartialEq, Eq)]
pub struct Record {
    pub done: u32,
    pub remote: u32,
    pub most: u32,
    pub spins: u32,
    pub idle: u32,
}

pub struct Outcome {
    pub turns: usize,
    pub stop: Stop,
    pub remote: u32,
    pub records: Vec<Record>,
    pub events: Vec<Event>,
}

struct Play<'a>(&'a Accepted);

impl Task for Play<'_> {
    type Answer = Outcome;

    fn with<R: Routine>(self) -> Outcome {
        run::<R>(&self.0.settings, &self.0.schedule)
    }
}

/// Nothing if the slip is not one of the file's machine.
pub fn play(file: &Accepted, slip: Slip) -> Option<Outcome> {
    hand_over(file.settings.algorithm, slip, Play(file))
}

fn run<R: Routine>(settings: &Settings, schedule: &[u8]) -> Outcome {
    let (shared, mut memory, mut routines) = start::<R>(settings);
    let mut notes = Journal::new(settings.procs, schedule.len());

    let mut turns = 0;
    let mut stop = Stop::ScheduleUsedUp;
    for processor in schedule.iter().map(|&processor| usize::from(processor)) {
        let routine = &mut routines[processor];
        if !routine.turn_within(settings.budget, processor, &shared, &mut memory, &mut notes) {
            stop = Stop::Budget;
            break;
        }
        turns += 1;
    }
    outcome(turns, stop, memory, notes)
}

fn outcome(turns: usize, stop: Stop, memory: Memory, notes: Journal) -> Outcome {
    let records = notes.tallies.iter().enumerate().map(|(processor, tally)| {
        let references = memory.references(processor);
        Record {
            done: tally.done,
            remote: references.all,
            most: references.most,
            spins: tally.spins,
            idle: tally.idle,
        }
    });
    Outcome {
        turns,
        stop,
        remote: memory.total(),
        records: records.collect(),
        events: notes.events,
    }
}
