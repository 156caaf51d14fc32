//! Searches all orders of turns of two processors for the shortest one after
//! which a slip shows, and finds none for the right machines.

#[path = "../shortest/criterion.rs"]
mod criterion;
#[path = "../shortest/search.rs"]
mod search;
#[path = "../shortest/state.rs"]
mod state;

use criterion::Criterion;
use search::{Found, Search};
use second::machine::hand_over;
use second::settings::{Algorithm, Plan, Settings};
use second::slip::{self, Slip};

const MOST_ROUNDS: u16 = 3;
const HOLDS: [u16; 2] = [0, 1];
const RIGHT: [Algorithm; 4] =
    [Algorithm::Ticket, Algorithm::Mcs, Algorithm::Central, Algorithm::Dissem];

/// A machine, right or with a slip, and the settings that its search keeps.
#[derive(Clone, Copy)]
struct Subject {
    algorithm: Algorithm,
    slip: Slip,
    ticket: u16,
    hold: u16,
}

impl Subject {
    fn settings(&self, rounds: [u16; 2]) -> Settings {
        Settings {
            algorithm: self.algorithm,
            procs: 2,
            home: 0,
            ticket: self.ticket,
            budget: u32::MAX,
            plans: rounds.map(|rounds| Plan { rounds, hold: self.hold }).to_vec(),
        }
    }

    /// The shortest order under any rounds; of several the one with the fewest
    /// passages, then the first as in a dictionary.
    fn shortest(&self, criterion: Criterion) -> Option<([u16; 2], Found)> {
        let each = 0..=MOST_ROUNDS;
        let all = each.clone().flat_map(|p0| each.clone().map(move |p1| [p0, p1]));
        let found = all.filter_map(|rounds| {
            let settings = self.settings(rounds);
            let search = Search { settings: &settings, criterion };
            let found = hand_over(self.algorithm, self.slip, search)??;
            Some((rounds, found))
        });
        found.min_by_key(|(rounds, found)| {
            (found.order.len(), rounds[0] + rounds[1], found.order.clone())
        })
    }

    fn line(&self, name: &str, criterion: Criterion) -> String {
        let ticket = match self.algorithm {
            Algorithm::Ticket => self.ticket.to_string(),
            _ => "-".to_string(),
        };
        let front = format!("{name:<6}{:<11}{ticket:<8}{:<6}", criterion.name(), self.hold);
        match self.shortest(criterion) {
            None => front + "none",
            Some(([p0, p1], Found { part, order })) => {
                let order: Vec<String> = order.iter().map(u8::to_string).collect();
                format!("{front}{part:<6}{:<8}{p0},{p1:<6}{}", order.len(), order.join(","))
            }
        }
    }
}

/// The ticket lock is searched with tickets that go round at once, after one
/// passage, and not at all.
fn subjects(algorithm: Algorithm, slip: Slip) -> Vec<Subject> {
    let tickets = match algorithm {
        Algorithm::Ticket => vec![65535, 65534, 0],
        _ => vec![0],
    };
    let with = |ticket| HOLDS.map(|hold| Subject { algorithm, slip, ticket, hold });
    tickets.into_iter().flat_map(with).collect()
}

/// One line for a right machine: the criteria that an order meets.
fn right_line(algorithm: Algorithm) -> String {
    let subjects = subjects(algorithm, slip::NONE);
    let met = Criterion::of(algorithm)
        .into_iter()
        .filter(|&criterion| subjects.iter().any(|subject| subject.shortest(criterion).is_some()));
    let met: Vec<&str> = met.map(Criterion::name).collect();
    format!("{:<9}{}", algorithm.name(), if met.is_empty() { "none".into() } else { met.join(",") })
}

fn main() {
    println!("slip  criterion  ticket  hold  part  length  rounds  order");
    for (name, slip, algorithm) in slip::NAMED {
        for criterion in Criterion::of(algorithm) {
            for subject in subjects(algorithm, slip) {
                println!("{}", subject.line(name, criterion));
            }
        }
    }
    println!("\nright    met by any order");
    for algorithm in RIGHT {
        println!("{}", right_line(algorithm));
    }
}

#[cfg(test)]
mod tests {
    use super::*;
    use second::machine::Task;
    use second::routine::Routine;
    use state::State;

    const LONGEST_WALK: usize = 9;

    /// Plays every order, without leaving any out.
    struct Walk<'a>(Search<'a>);

    impl Walk<'_> {
        /// The first order of so many more turns from this state on.
        fn from<R: Routine>(
            &self,
            state: &State<R>,
            shared: &R::Shared,
            order: &mut Vec<u8>,
            more: usize,
        ) -> Option<Found> {
            let Search { settings, criterion } = self.0;
            if more == 0 {
                let part = criterion.holds(settings, state, shared)?;
                return Some(Found { part, order: order.clone() });
            }
            (0..settings.procs).find_map(|processor| {
                order.push(processor as u8);
                let found = self.from(&state.after(processor, shared), shared, order, more - 1);
                order.pop();
                found
            })
        }
    }

    impl Task for Walk<'_> {
        type Answer = Option<Found>;

        fn with<R: Routine>(self) -> Option<Found> {
            let (shared, start) = State::<R>::new(self.0.settings);
            (0..=LONGEST_WALK).find_map(|turns| self.from(&start, &shared, &mut Vec::new(), turns))
        }
    }

    /// With up to two rounds each.
    fn assert_as_walked(subject: &Subject) {
        for rounds in [[0, 1], [1, 0], [1, 1], [1, 2], [2, 1], [2, 2]] {
            let settings = subject.settings(rounds);
            for criterion in Criterion::of(subject.algorithm) {
                let search = || Search { settings: &settings, criterion };
                let walked = hand_over(subject.algorithm, subject.slip, Walk(search())).unwrap();
                let found = hand_over(subject.algorithm, subject.slip, search()).unwrap();
                assert_eq!(found.filter(|found| found.order.len() <= LONGEST_WALK), walked);
            }
        }
    }

    #[test]
    fn no_order_is_left_out() {
        let right = RIGHT.map(|algorithm| (slip::NONE, algorithm));
        let slipped = slip::NAMED.map(|(_, slip, algorithm)| (slip, algorithm));
        for (slip, algorithm) in right.into_iter().chain(slipped) {
            subjects(algorithm, slip).iter().for_each(assert_as_walked);
        }
    }

    #[test]
    fn nothing_is_met_on_the_right_machines() {
        assert_eq!(
            RIGHT.map(right_line),
            ["ticket   none", "mcs      none", "central  none", "dissem   none"]
        );
    }

    /// The first subject of each slip: ticket 65535 at the ticket lock, hold 0.
    fn line(slip: &str, criterion: Criterion) -> String {
        let (name, slip, algorithm) = slip::NAMED.into_iter().find(|it| it.0 == slip).unwrap();
        subjects(algorithm, slip)[0].line(name, criterion)
    }

    #[test]
    fn what_the_slips_of_the_locks_break_first() {
        for (slip, end) in [
            ("1", "d     17      3,1     0,0,1,1,1,1,0,0,0,1,1,1,0,0,0,0,0"),
            ("2", "d     7       1,1     0,0,1,1,1,0,0"),
            ("3", "d     6       1,1     0,0,0,1,1,0"),
            ("4", "a     3       1,1     0,1,1"),
        ] {
            assert!(line(slip, Criterion::Line).ends_with(end), "slip {slip}");
        }
    }

    #[test]
    fn where_the_slips_freeze_or_let_leave_early() {
        for (slip, criterion, end) in [
            ("2", Criterion::Frozen, "-     8       1,1     0,0,1,1,1,0,0,1"),
            ("3", Criterion::Frozen, "-     8       1,1     0,0,0,1,1,0,1,1"),
            ("4", Criterion::Frozen, "-     5       1,1     0,1,1,1,1"),
            ("5a", Criterion::Frozen, "-     4       2,1     0,1,0,0"),
            ("5a", Criterion::Early, "none"),
            ("5b", Criterion::Frozen, "none"),
            ("5b", Criterion::Early, "-     5       2,1     0,1,0,0,0"),
            ("6", Criterion::Frozen, "-     7       2,2     0,1,1,0,0,1,1"),
            ("6", Criterion::Early, "none"),
        ] {
            assert!(line(slip, criterion).ends_with(end), "slip {slip}, {}", criterion.name());
        }
    }
}
