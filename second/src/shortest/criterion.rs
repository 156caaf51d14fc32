//! What an order of turns is searched for.

use crate::state::State;
use second::notes::Kind;
use second::routine::Routine;
use second::settings::{Algorithm, Settings};

#[derive(Clone, Copy, Debug, PartialEq, Eq)]
pub enum Criterion {
    /// At a lock: the waiting line is broken.
    Line,
    /// Somebody has passages left, and nobody will ever do more than spin or
    /// be idle.
    Frozen,
    /// At a barrier: somebody has left more often than another has arrived.
    Early,
}

impl Criterion {
    pub fn name(self) -> &'static str {
        match self {
            Criterion::Line => "line",
            Criterion::Frozen => "frozen",
            Criterion::Early => "early",
        }
    }

    /// Those that can be asked of a machine.
    pub fn of(algorithm: Algorithm) -> [Criterion; 2] {
        match algorithm {
            Algorithm::Ticket | Algorithm::Mcs => [Criterion::Line, Criterion::Frozen],
            Algorithm::Central | Algorithm::Dissem | Algorithm::Tree => {
                [Criterion::Early, Criterion::Frozen]
            }
        }
    }

    /// Which part of it holds in this state, `-` where it has no parts.
    pub fn holds<R: Routine>(
        self,
        settings: &Settings,
        state: &State<R>,
        shared: &R::Shared,
    ) -> Option<String> {
        match self {
            Criterion::Line => broken_line(state, shared),
            Criterion::Frozen => frozen(settings, state, shared).then(|| "-".to_string()),
            Criterion::Early => early(settings, state).then(|| "-".to_string()),
        }
    }
}

/// The parts of demand 3 that are broken: a, the grants are not the first so
/// many joins; b, the releases not the first so many grants; c, the grants
/// exceed the releases by more than one; d, nobody holds the lock and somebody
/// waits, and the next turn of the first in line would not be its grant.
fn broken_line<R: Routine>(state: &State<R>, shared: &R::Shared) -> Option<String> {
    let [joins, grants, releases] = [Kind::Join, Kind::Grant, Kind::Release].map(|k| state.of(k));
    let waits_in_vain = || {
        let first = usize::from(joins[grants.len()]);
        let after = state.after(first, shared);
        after.count(Kind::Grant, first) == state.count(Kind::Grant, first)
    };
    let mut parts = Vec::new();
    parts.extend((!joins.starts_with(&grants)).then_some("a"));
    parts.extend((!grants.starts_with(&releases)).then_some("b"));
    parts.extend((grants.len() > releases.len() + 1).then_some("c"));
    let free = grants.len() == releases.len() && joins.len() > grants.len();
    parts.extend((free && waits_in_vain()).then_some("d"));
    (!parts.is_empty()).then(|| parts.join("+"))
}

/// At a barrier an episode that some never reach, having fewer rounds, is
/// never left: a passage left counts if all have the rounds for it.
fn frozen<R: Routine>(settings: &Settings, state: &State<R>, shared: &R::Shared) -> bool {
    let rounds = settings.plans.iter().map(|plan| u32::from(plan.rounds));
    let least = rounds.clone().min().unwrap_or(0);
    let at_barrier = Criterion::of(settings.algorithm).contains(&Criterion::Early);
    let due = rounds.map(|rounds| if at_barrier { least } else { rounds });
    let left = state.notes.tallies.iter().zip(due).any(|(tally, due)| tally.done < due);
    left && (0..settings.procs).all(|processor| state.waits(processor, shared))
}

fn early<R: Routine>(settings: &Settings, state: &State<R>) -> bool {
    let most_left = (0..settings.procs).map(|i| state.count(Kind::Leave, i)).max();
    let least_arrived = (0..settings.procs).map(|j| state.count(Kind::Arrive, j)).min();
    most_left > least_arrived
}
