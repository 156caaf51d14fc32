//! Plays a schedule and writes a line for each turn taken: its number, the
//! processor, what the turn did, and whether it made a remote reference.

use crate::machine::{hand_over, Task};
use crate::notes::{Kind, Notes};
use crate::print::put_number;
use crate::routine::{start, Routine, Step};
use crate::settings::{Accepted, Settings};
use crate::slip::Slip;

struct Trace<'a>(&'a Accepted);

impl Task for Trace<'_> {
    type Answer = Vec<u8>;

    fn with<R: Routine>(self) -> Vec<u8> {
        lines::<R>(&self.0.settings, &self.0.schedule)
    }
}

/// Nothing if the slip is not one of the file's machine.
pub fn trace(file: &Accepted, slip: Slip) -> Option<Vec<u8>> {
    hand_over(file.settings.algorithm, slip, Trace(file))
}

/// What one turn has noted down.
#[derive(Default)]
struct Noted {
    kinds: Vec<Kind>,
    spun: bool,
}

impl Notes for Noted {
    fn event(&mut self, kind: Kind, _processor: usize) {
        self.kinds.push(kind);
    }

    fn passage_done(&mut self, _processor: usize) {}

    fn spin(&mut self, _processor: usize) {
        self.spun = true;
    }

    fn idle(&mut self, _processor: usize) {}
}

fn lines<R: Routine>(settings: &Settings, schedule: &[u8]) -> Vec<u8> {
    let (shared, mut memory, mut routines) = start::<R>(settings);
    let mut out = Vec::new();
    for (place, &processor) in schedule.iter().enumerate() {
        let processor = usize::from(processor);
        let routine = &mut routines[processor];
        let (step, total) = (routine.step(), memory.total());
        let mut noted = Noted::default();
        if !routine.turn_within(settings.budget, processor, &shared, &mut memory, &mut noted) {
            out.extend_from_slice(b"stopped\n");
            break;
        }
        put_number(&mut out, place + 1);
        out.push(b' ');
        put_number(&mut out, processor);
        out.push(b' ');
        out.extend_from_slice(words(step, &noted).as_bytes());
        out.push(b' ');
        put_number(&mut out, (memory.total() - total) as usize);
        out.push(b'\n');
    }
    out
}

/// A join or an arrival stands first; a grant, a release or a leaving last.
fn words(step: Step, noted: &Noted) -> String {
    let of = |kind| noted.kinds.contains(&kind);
    let mut words = Vec::new();
    words.extend(of(Kind::Join).then_some("join"));
    words.extend(of(Kind::Arrive).then_some("arrive"));
    match step {
        Step::Read if noted.spun => words.push("spin"),
        Step::Read if of(Kind::Grant) || of(Kind::Leave) => {}
        Step::Read => words.push("look"),
        Step::Event => {}
        Step::Other(word) => words.push(word),
    }
    words.extend(of(Kind::Grant).then_some("grant"));
    words.extend(of(Kind::Release).then_some("release"));
    words.extend(of(Kind::Leave).then_some("leave"));
    words.join("+")
}
