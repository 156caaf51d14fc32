//! The tree barrier, figure 12: arrival goes up a tree of four, wake-up down a
//! tree of two.

use crate::memory::{Address, Memory};
use crate::notes::{Kind, Notes};
use crate::routine::{Routine, Step};
use crate::settings::{Plan, Settings};

const SLOTS: usize = 4;
const SIDES: usize = 2;

/// `type treenode`, in the memory of the processor it belongs to.
struct Node {
    parent_sense: Address,
    have_child: [bool; SLOTS],
    child_not_ready: [Address; SLOTS],
}

/// `nodes`, one of each processor. The figure's pointers are worked out from
/// the processor's number.
pub struct Nodes {
    nodes: Vec<Node>,
}

impl Nodes {
    /// The first slot of a present child from this one on.
    fn present_slot(&self, i: usize, from: usize) -> Option<usize> {
        (from..SLOTS).find(|&slot| self.nodes[i].have_child[slot])
    }

    /// `parentpointer` of processor i, which is not 0.
    fn parent_flag(&self, i: usize) -> Address {
        self.nodes[(i - 1) / SLOTS].child_not_ready[(i - 1) % SLOTS]
    }

    /// `childpointers[side]` of processor i: the sense of 2i + 1, left, or of
    /// 2i + 2, right, where below P.
    fn child_sense(&self, i: usize, side: usize) -> Option<Address> {
        self.nodes.get(SIDES * i + 1 + side).map(|child| child.parent_sense)
    }
}

/// `havechild` of processor i: 4i + 1 to 4i + 4 are its children, where below P.
fn have_child(i: usize, procs: usize) -> [bool; SLOTS] {
    std::array::from_fn(|slot| SLOTS * i + 1 + slot < procs)
}

/// The program points of `tree_barrier`.
#[derive(Clone, Copy, PartialEq, Eq, Hash)]
enum Point {
    /// `repeat until childnotready = {false, false, false, false}`
    SpinChild { slot: usize },
    /// `childnotready := havechild`
    ResetChildren,
    /// `parentpointer^ := false`
    TellParent,
    /// `repeat until parentsense = sense`
    SpinSense,
    /// `childpointers[side]^ := sense`
    WakeChild { side: usize, child: Address },
    /// After the barrier has been left.
    Hold { left: u16 },
    /// All passages are done, and their hold turns over.
    Idle,
}

#[derive(Clone, PartialEq, Eq, Hash)]
pub struct Tree {
    me: usize,
    hold: u16,
    rounds_left: u16,
    sense: bool,
    /// A passage is under way: its first turn has been taken.
    arrived: bool,
    point: Point,
}

impl Tree {
    /// Where the routine stands when no passage and no hold is under way.
    fn outside(&self, nodes: &Nodes) -> Point {
        if self.rounds_left == 0 {
            Point::Idle
        } else {
            self.children_from(0, nodes)
        }
    }

    fn children_from(&self, slot: usize, nodes: &Nodes) -> Point {
        match nodes.present_slot(self.me, slot) {
            Some(slot) => Point::SpinChild { slot },
            None => Point::ResetChildren,
        }
    }

    /// The first turn of a passage, whatever it does, is the arrival.
    fn arrive(&mut self, memory: &mut Memory, notes: &mut impl Notes) {
        if !self.arrived {
            self.arrived = true;
            memory.begin_passage(self.me);
            notes.event(Kind::Arrive, self.me);
        }
    }

    fn spin_child(
        &mut self,
        slot: usize,
        nodes: &Nodes,
        memory: &mut Memory,
        notes: &mut impl Notes,
    ) -> Point {
        self.arrive(memory, notes);
        let flag = nodes.nodes[self.me].child_not_ready[slot];
        if memory.read(self.me, flag) == u16::from(true) {
            notes.spin(self.me);
            Point::SpinChild { slot }
        } else {
            self.children_from(slot + 1, nodes)
        }
    }

    /// All flags in one turn. Processor 0 has no parent to tell or to wait for.
    fn reset_children(
        &mut self,
        nodes: &Nodes,
        memory: &mut Memory,
        notes: &mut impl Notes,
    ) -> Point {
        self.arrive(memory, notes);
        let mine = &nodes.nodes[self.me];
        for (flag, there) in mine.child_not_ready.into_iter().zip(mine.have_child) {
            memory.write(self.me, flag, u16::from(there));
        }
        if self.me == 0 {
            self.wake_from(0, nodes, notes)
        } else {
            Point::TellParent
        }
    }

    fn spin_sense(&mut self, nodes: &Nodes, memory: &mut Memory, notes: &mut impl Notes) -> Point {
        let sense = nodes.nodes[self.me].parent_sense;
        if memory.read(self.me, sense) == u16::from(self.sense) {
            self.wake_from(0, nodes, notes)
        } else {
            notes.spin(self.me);
            Point::SpinSense
        }
    }

    /// Left first; with nobody more to wake the turn before was the last.
    fn wake_from(&mut self, side: usize, nodes: &Nodes, notes: &mut impl Notes) -> Point {
        for side in side..SIDES {
            if let Some(child) = nodes.child_sense(self.me, side) {
                return Point::WakeChild { side, child };
            }
        }
        self.left(nodes, notes)
    }

    fn left(&mut self, nodes: &Nodes, notes: &mut impl Notes) -> Point {
        notes.event(Kind::Leave, self.me);
        notes.passage_done(self.me);
        self.rounds_left -= 1;
        self.sense = !self.sense;
        self.arrived = false;
        self.holding(self.hold, nodes)
    }

    fn holding(&self, left: u16, nodes: &Nodes) -> Point {
        if left == 0 {
            self.outside(nodes)
        } else {
            Point::Hold { left }
        }
    }
}

impl Routine for Tree {
    type Shared = Nodes;

    fn declare(settings: &Settings, memory: &mut Memory) -> Nodes {
        let procs = settings.procs;
        let node = |i| {
            let have_child = have_child(i, procs);
            Node {
                parent_sense: memory.place(i, u16::from(false)),
                have_child,
                child_not_ready: have_child.map(|there| memory.place(i, u16::from(there))),
            }
        };
        Nodes { nodes: (0..procs).map(node).collect() }
    }

    fn new(me: usize, plan: Plan, nodes: &Nodes) -> Tree {
        let mut routine = Tree {
            me,
            hold: plan.hold,
            rounds_left: plan.rounds,
            sense: true,
            arrived: false,
            point: Point::Idle,
        };
        routine.point = routine.outside(nodes);
        routine
    }

    #[inline(always)]
    fn touches(&self, nodes: &Nodes) -> Option<Address> {
        let mine = &nodes.nodes[self.me];
        match self.point {
            Point::SpinChild { slot } => Some(mine.child_not_ready[slot]),
            // The four flags are in one memory: the first stands for all.
            Point::ResetChildren => Some(mine.child_not_ready[0]),
            Point::TellParent => Some(nodes.parent_flag(self.me)),
            Point::SpinSense => Some(mine.parent_sense),
            Point::WakeChild { child, .. } => Some(child),
            Point::Hold { .. } | Point::Idle => None,
        }
    }

    fn step(&self) -> Step {
        match self.point {
            Point::SpinChild { .. } | Point::SpinSense => Step::Read,
            Point::ResetChildren => Step::Other("reset"),
            Point::TellParent => Step::Other("tell"),
            Point::WakeChild { .. } => Step::Other("wake"),
            Point::Hold { .. } => Step::Other("hold"),
            Point::Idle => Step::Other("idle"),
        }
    }

    fn turn(&mut self, nodes: &Nodes, memory: &mut Memory, notes: &mut impl Notes) {
        self.point = match self.point {
            Point::SpinChild { slot } => self.spin_child(slot, nodes, memory, notes),
            Point::ResetChildren => self.reset_children(nodes, memory, notes),
            Point::TellParent => {
                memory.write(self.me, nodes.parent_flag(self.me), u16::from(false));
                Point::SpinSense
            }
            Point::SpinSense => self.spin_sense(nodes, memory, notes),
            Point::WakeChild { side, child } => {
                memory.write(self.me, child, u16::from(self.sense));
                self.wake_from(side + 1, nodes, notes)
            }
            Point::Hold { left } => self.holding(left - 1, nodes),
            Point::Idle => {
                notes.idle(self.me);
                Point::Idle
            }
        };
    }
}

#[cfg(test)]
mod tests {
    use super::{have_child, SLOTS};

    fn children(i: usize, procs: usize) -> Vec<usize> {
        let there = have_child(i, procs);
        (0..SLOTS).filter(|&slot| there[slot]).map(|slot| SLOTS * i + 1 + slot).collect()
    }

    #[test]
    fn the_arrival_tree_of_seven() {
        assert_eq!(children(0, 7), [1, 2, 3, 4]);
        assert_eq!(children(1, 7), [5, 6]);
        assert!((2..7).all(|i| children(i, 7).is_empty()));
    }

    #[test]
    fn each_but_0_is_the_child_of_its_parent_alone() {
        for procs in 1..=64 {
            for child in 1..procs {
                let parents: Vec<usize> =
                    (0..procs).filter(|&i| children(i, procs).contains(&child)).collect();
                assert_eq!(parents, [(child - 1) / SLOTS]);
            }
        }
    }
}
