//! The search over all orders of turns, shorter ones first.

use crate::criterion::Criterion;
use crate::state::{Key, State};
use second::machine::Task;
use second::routine::Routine;
use second::settings::Settings;
use std::collections::HashSet;

/// The first of the shortest orders after which a criterion holds.
#[derive(Debug, PartialEq, Eq)]
pub struct Found {
    pub part: String,
    pub order: Vec<u8>,
}

/// Looks for the criterion under these settings; the budget plays no part.
pub struct Search<'a> {
    pub settings: &'a Settings,
    pub criterion: Criterion,
}

impl Task for Search<'_> {
    type Answer = Option<Found>;

    /// Goes on until no order leads to a new state: none found means that no
    /// order of any length is one.
    ///
    /// The orders of a length stand as in a dictionary. One that leads where
    /// an order before it, or a shorter one, has led already is dropped with
    /// all that begin with it: each of those has an order before it, gone on
    /// with in the same way.
    fn with<R: Routine>(self) -> Option<Found> {
        let (shared, start) = State::<R>::new(self.settings);
        let mut seen = HashSet::from([start.key()]);
        let mut level = vec![(start, Vec::new())];
        while !level.is_empty() {
            for (state, order) in &level {
                if let Some(part) = self.criterion.holds(self.settings, state, &shared) {
                    return Some(Found { part, order: order.clone() });
                }
            }
            level = longer(&level, self.settings.procs, &shared, &mut seen);
        }
        None
    }
}

type Level<R> = Vec<(State<R>, Vec<u8>)>;

/// The orders with one more turn that lead to a new state.
fn longer<R: Routine>(
    level: &Level<R>,
    procs: usize,
    shared: &R::Shared,
    seen: &mut HashSet<Key<R>>,
) -> Level<R> {
    let mut next = Vec::new();
    for (state, order) in level {
        for processor in 0..procs {
            let after = state.after(processor, shared);
            if seen.insert(after.key()) {
                let mut order = order.clone();
                order.push(processor as u8);
                next.push((after, order));
            }
        }
    }
    next
}
