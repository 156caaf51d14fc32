//! Files for the tests, and what the parts of the program make of them.

use second::play::play;
use second::settings::Accepted;
use second::slip::{self, Slip};
use second::trace::trace;
use second::{print, reader};

/// A settings file with home 0, ticket 65535 and the largest budget; `plans`
/// has rounds and hold of each processor.
pub fn file(algo: &str, plans: &[&str], turns: &str) -> String {
    let procs = plans.len();
    let mut text = format!("algo={algo}\nprocs={procs}\nhome=0\nticket=65535\nbudget=16384\n");
    for (processor, plan) in plans.iter().enumerate() {
        text += &format!("p{processor}={plan}\n");
    }
    text + &format!("turns={turns}\n")
}

fn accepted(file: &str) -> Accepted {
    reader::read(file.as_bytes()).expect("the file is accepted")
}

fn named(name: &str) -> Slip {
    slip::NAMED.into_iter().find(|named| named.0 == name).map_or(slip::NONE, |named| named.1)
}

/// The usual lines, with the slip of this name or, without a name, right.
pub fn played(slip: &str, file: &str) -> String {
    let outcome = play(&accepted(file), named(slip)).expect("the slip is one of the machine");
    String::from_utf8(print::outcome_lines(&outcome)).unwrap()
}

/// The lines of the trace, joined by `; `.
pub fn traced(slip: &str, file: &str) -> String {
    let lines = trace(&accepted(file), named(slip)).expect("the slip is one of the machine");
    String::from_utf8(lines).unwrap().trim_end().replace('\n', "; ")
}
