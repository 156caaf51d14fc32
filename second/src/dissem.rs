//! The dissemination barrier, figure 10.

use crate::memory::{Address, Memory};
use crate::notes::{Kind, Notes};
use crate::routine::{Routine, Step};
use crate::settings::{Plan, Settings};
use crate::slip::{self, Slip};

/// `allnodes`: the `myflags` of every processor, in its own memory. LogP of
/// the figure is R.
pub struct Nodes {
    procs: usize,
    r: usize,
    flags: Vec<Address>,
}

impl Nodes {
    /// `allnodes[processor].myflags[parity][k]`
    fn flag(&self, processor: usize, parity: usize, k: usize) -> Address {
        self.flags[(processor * 2 + parity) * self.r + k]
    }

    /// `partnerflags[parity][k]` of processor i: the flag of (i + 2^k) mod P.
    fn partner_flag(&self, i: usize, parity: usize, k: usize) -> Address {
        self.flag((i + (1 << k)) % self.procs, parity, k)
    }
}

/// The smallest number of doublings of 1 that reaches `procs`.
fn doublings(procs: usize) -> usize {
    let mut count = 0;
    let mut reached = 1;
    while reached < procs {
        reached *= 2;
        count += 1;
    }
    count
}

/// The program points of `dissemination_barrier`.
#[derive(Clone, Copy, PartialEq, Eq, Hash)]
enum Point {
    /// `localflags^.partnerflags[parity][k]^ := sense`
    SignalPartner { k: usize },
    /// `repeat until localflags^.myflags[parity][k] = sense`
    SpinFlag { k: usize },
    /// The whole passage of a processor that is alone (P = 1).
    PassAlone,
    /// After the barrier has been left.
    Hold { left: u16 },
    /// All passages are done, and their hold turns over.
    Idle,
}

#[derive(Clone, PartialEq, Eq, Hash)]
pub struct Dissem<const SLIP: Slip> {
    me: usize,
    hold: u16,
    rounds_left: u16,
    parity: usize,
    sense: bool,
    point: Point,
}

impl<const SLIP: Slip> Dissem<SLIP> {
    /// Where the routine stands when no passage and no hold is under way.
    fn outside(&self, nodes: &Nodes) -> Point {
        if self.rounds_left == 0 {
            Point::Idle
        } else if nodes.r == 0 {
            Point::PassAlone
        } else {
            Point::SignalPartner { k: 0 }
        }
    }

    fn signal(
        &self,
        k: usize,
        nodes: &Nodes,
        memory: &mut Memory,
        notes: &mut impl Notes,
    ) -> Point {
        if k == 0 {
            memory.begin_passage(self.me);
            notes.event(Kind::Arrive, self.me);
        }
        let flag = nodes.partner_flag(self.me, self.parity, k);
        memory.write(self.me, flag, u16::from(self.sense));
        Point::SpinFlag { k }
    }

    fn spin(
        &mut self,
        k: usize,
        nodes: &Nodes,
        memory: &mut Memory,
        notes: &mut impl Notes,
    ) -> Point {
        let flag = nodes.flag(self.me, self.parity, k);
        if memory.read(self.me, flag) != u16::from(self.sense) {
            notes.spin(self.me);
            Point::SpinFlag { k }
        } else if k + 1 < nodes.r {
            Point::SignalPartner { k: k + 1 }
        } else {
            self.left(nodes, notes)
        }
    }

    /// The leaving, with the figure's last lines.
    fn left(&mut self, nodes: &Nodes, notes: &mut impl Notes) -> Point {
        notes.event(Kind::Leave, self.me);
        notes.passage_done(self.me);
        self.rounds_left -= 1;
        self.turn_over();
        self.holding(self.hold, nodes)
    }

    /// The sense is toggled when parity is 1, then parity changes.
    fn turn_over(&mut self) {
        match SLIP {
            slip::ONE_PARITY => self.sense = !self.sense,
            slip::ONE_PARITY_ONE_SENSE => {}
            _ => {
                if self.parity == 1 {
                    self.sense = !self.sense;
                }
                self.parity = 1 - self.parity;
            }
        }
    }

    fn holding(&self, left: u16, nodes: &Nodes) -> Point {
        if left == 0 {
            self.outside(nodes)
        } else {
            Point::Hold { left }
        }
    }
}

impl<const SLIP: Slip> Routine for Dissem<SLIP> {
    type Shared = Nodes;

    fn declare(settings: &Settings, memory: &mut Memory) -> Nodes {
        let procs = settings.procs;
        let r = doublings(procs);
        let mut flags = Vec::with_capacity(procs * 2 * r);
        for processor in 0..procs {
            for _parity_and_k in 0..2 * r {
                flags.push(memory.place(processor, u16::from(false)));
            }
        }
        Nodes { procs, r, flags }
    }

    fn new(me: usize, plan: Plan, nodes: &Nodes) -> Self {
        let mut routine = Self {
            me,
            hold: plan.hold,
            rounds_left: plan.rounds,
            parity: 0,
            sense: true,
            point: Point::Idle,
        };
        routine.point = routine.outside(nodes);
        routine
    }

    #[inline(always)]
    fn touches(&self, nodes: &Nodes) -> Option<Address> {
        match self.point {
            Point::SignalPartner { k } => Some(nodes.partner_flag(self.me, self.parity, k)),
            Point::SpinFlag { k } => Some(nodes.flag(self.me, self.parity, k)),
            Point::PassAlone | Point::Hold { .. } | Point::Idle => None,
        }
    }

    fn step(&self) -> Step {
        match self.point {
            Point::SignalPartner { k: 0 } | Point::PassAlone => Step::Event,
            Point::SignalPartner { .. } => Step::Other("tell"),
            Point::SpinFlag { .. } => Step::Read,
            Point::Hold { .. } => Step::Other("hold"),
            Point::Idle => Step::Other("idle"),
        }
    }

    fn turn(&mut self, nodes: &Nodes, memory: &mut Memory, notes: &mut impl Notes) {
        self.point = match self.point {
            Point::SignalPartner { k } => self.signal(k, nodes, memory, notes),
            Point::SpinFlag { k } => self.spin(k, nodes, memory, notes),
            Point::PassAlone => {
                notes.event(Kind::Arrive, self.me);
                self.left(nodes, notes)
            }
            Point::Hold { left } => self.holding(left - 1, nodes),
            Point::Idle => {
                notes.idle(self.me);
                Point::Idle
            }
        };
    }
}

#[cfg(test)]
mod tests {
    use super::doublings;

    #[test]
    fn r_for_the_listed_p() {
        let r: Vec<usize> = [1, 2, 3, 4, 5, 64].into_iter().map(doublings).collect();
        assert_eq!(r, [0, 1, 2, 2, 3, 6]);
    }
}
