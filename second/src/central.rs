//! The sense-reversing centralized barrier, figure 8.

use crate::memory::{Address, Memory};
use crate::notes::{Kind, Notes};
use crate::routine::{Routine, Step};
use crate::settings::{Plan, Settings};
use crate::slip::{self, Slip};

/// The shared declarations `count` and `sense`, and P.
pub struct Barrier {
    count: Address,
    sense: Address,
    procs: u16,
}

/// The program points of `central_barrier`.
#[derive(Clone, Copy, PartialEq, Eq, Hash)]
enum Point {
    /// `local_sense := not local_sense`, `if fetch_and_decrement (&count) = 1`
    CountDown,
    /// `count := P`
    ResetCount,
    /// `sense := local_sense`
    WriteSense,
    /// `repeat until sense = local_sense`
    SpinSense,
    /// After the barrier has been left.
    Hold { left: u16 },
    /// All passages are done, and their hold turns over.
    Idle,
}

#[derive(Clone, PartialEq, Eq, Hash)]
pub struct Central<const SLIP: Slip> {
    me: usize,
    hold: u16,
    rounds_left: u16,
    local_sense: bool,
    point: Point,
}

impl<const SLIP: Slip> Central<SLIP> {
    /// Where the routine stands when no passage and no hold is under way.
    fn outside(&self) -> Point {
        if self.rounds_left == 0 {
            Point::Idle
        } else {
            Point::CountDown
        }
    }

    fn count_down(
        &mut self,
        barrier: &Barrier,
        memory: &mut Memory,
        notes: &mut impl Notes,
    ) -> Point {
        memory.begin_passage(self.me);
        self.local_sense = !self.local_sense;
        let old = memory.fetch_and_decrement(self.me, barrier.count);
        notes.event(Kind::Arrive, self.me);
        if old != 1 {
            Point::SpinSense
        } else if SLIP == slip::RESET_AFTER_SENSE {
            Point::WriteSense
        } else {
            Point::ResetCount
        }
    }

    fn spin_sense(
        &mut self,
        barrier: &Barrier,
        memory: &mut Memory,
        notes: &mut impl Notes,
    ) -> Point {
        if memory.read(self.me, barrier.sense) == u16::from(self.local_sense) {
            self.left(notes)
        } else {
            notes.spin(self.me);
            Point::SpinSense
        }
    }

    fn left(&mut self, notes: &mut impl Notes) -> Point {
        notes.event(Kind::Leave, self.me);
        notes.passage_done(self.me);
        self.rounds_left -= 1;
        self.holding(self.hold)
    }

    fn holding(&self, left: u16) -> Point {
        if left == 0 {
            self.outside()
        } else {
            Point::Hold { left }
        }
    }
}

impl<const SLIP: Slip> Routine for Central<SLIP> {
    type Shared = Barrier;

    fn declare(settings: &Settings, memory: &mut Memory) -> Barrier {
        let procs = settings.procs as u16;
        Barrier {
            count: memory.place(settings.home, procs),
            sense: memory.place(settings.home, u16::from(true)),
            procs,
        }
    }

    fn new(me: usize, plan: Plan, _barrier: &Barrier) -> Self {
        let (hold, rounds_left) = (plan.hold, plan.rounds);
        let mut routine = Self { me, hold, rounds_left, local_sense: true, point: Point::Idle };
        routine.point = routine.outside();
        routine
    }

    #[inline(always)]
    fn touches(&self, barrier: &Barrier) -> Option<Address> {
        match self.point {
            Point::CountDown | Point::ResetCount => Some(barrier.count),
            Point::WriteSense | Point::SpinSense => Some(barrier.sense),
            Point::Hold { .. } | Point::Idle => None,
        }
    }

    fn step(&self) -> Step {
        match self.point {
            Point::CountDown => Step::Event,
            Point::ResetCount => Step::Other("reset"),
            Point::WriteSense => Step::Other("open"),
            Point::SpinSense => Step::Read,
            Point::Hold { .. } => Step::Other("hold"),
            Point::Idle => Step::Other("idle"),
        }
    }

    fn turn(&mut self, barrier: &Barrier, memory: &mut Memory, notes: &mut impl Notes) {
        let me = self.me;
        self.point = match self.point {
            Point::CountDown => self.count_down(barrier, memory, notes),
            Point::ResetCount => {
                memory.write(me, barrier.count, barrier.procs);
                if SLIP == slip::RESET_AFTER_SENSE {
                    self.left(notes)
                } else {
                    Point::WriteSense
                }
            }
            Point::WriteSense => {
                memory.write(me, barrier.sense, u16::from(self.local_sense));
                if SLIP == slip::RESET_AFTER_SENSE {
                    Point::ResetCount
                } else {
                    self.left(notes)
                }
            }
            Point::SpinSense => self.spin_sense(barrier, memory, notes),
            Point::Hold { left } => self.holding(left - 1),
            Point::Idle => {
                notes.idle(me);
                Point::Idle
            }
        };
    }
}
