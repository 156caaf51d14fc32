//! The ticket lock, figure 2, without its pauses.

use crate::memory::{Address, Memory};
use crate::notes::{Kind, Notes};
use crate::routine::{Routine, Step};
use crate::settings::{Plan, Settings};
use crate::slip::{self, Slip};

/// `type lock`: the request counter and the release counter.
pub struct Lock {
    next_ticket: Address,
    now_serving: Address,
}

/// The program points of `acquire_lock` and `release_lock`.
#[derive(Clone, Copy, PartialEq, Eq, Hash)]
enum Point {
    /// `my_ticket := fetch_and_increment (&L->next_ticket)`
    TakeTicket,
    /// `if L->now_serving = my_ticket`, in its loop
    SpinServing { my_ticket: u16 },
    /// Between `acquire_lock` and `release_lock`.
    Hold { left: u16 },
    /// `L->now_serving := L->now_serving + 1`, its read
    ReadServing,
    /// `L->now_serving := L->now_serving + 1`, its write; `serving` was read
    WriteServing { serving: u16 },
    /// All passages are done.
    Idle,
}

#[derive(Clone, PartialEq, Eq, Hash)]
pub struct Ticket<const SLIP: Slip> {
    me: usize,
    hold: u16,
    rounds_left: u16,
    point: Point,
}

impl<const SLIP: Slip> Ticket<SLIP> {
    /// Where the routine stands when no passage is under way.
    fn outside(&self) -> Point {
        if self.rounds_left == 0 {
            Point::Idle
        } else {
            Point::TakeTicket
        }
    }

    fn spin_serving(
        &self,
        my_ticket: u16,
        lock: &Lock,
        memory: &mut Memory,
        notes: &mut impl Notes,
    ) -> Point {
        let serving = memory.read(self.me, lock.now_serving);
        let mine =
            if SLIP == slip::LESS_THAN { serving >= my_ticket } else { serving == my_ticket };
        if mine {
            notes.event(Kind::Grant, self.me);
            self.holding(self.hold)
        } else {
            notes.spin(self.me);
            Point::SpinServing { my_ticket }
        }
    }

    fn holding(&self, left: u16) -> Point {
        if left == 0 {
            Point::ReadServing
        } else {
            Point::Hold { left }
        }
    }

    fn released(&mut self, notes: &mut impl Notes) -> Point {
        notes.event(Kind::Release, self.me);
        notes.passage_done(self.me);
        self.rounds_left -= 1;
        self.outside()
    }
}

impl<const SLIP: Slip> Routine for Ticket<SLIP> {
    type Shared = Lock;

    fn declare(settings: &Settings, memory: &mut Memory) -> Lock {
        Lock {
            next_ticket: memory.place(settings.home, settings.ticket),
            now_serving: memory.place(settings.home, settings.ticket),
        }
    }

    fn new(me: usize, plan: Plan, _lock: &Lock) -> Self {
        let (hold, rounds_left) = (plan.hold, plan.rounds);
        let mut routine = Self { me, hold, rounds_left, point: Point::Idle };
        routine.point = routine.outside();
        routine
    }

    #[inline(always)]
    fn touches(&self, lock: &Lock) -> Option<Address> {
        match self.point {
            Point::TakeTicket => Some(lock.next_ticket),
            Point::SpinServing { .. } | Point::ReadServing | Point::WriteServing { .. } => {
                Some(lock.now_serving)
            }
            Point::Hold { .. } | Point::Idle => None,
        }
    }

    fn step(&self) -> Step {
        match self.point {
            Point::TakeTicket | Point::WriteServing { .. } => Step::Event,
            Point::SpinServing { .. } | Point::ReadServing => Step::Read,
            Point::Hold { .. } => Step::Other("hold"),
            Point::Idle => Step::Other("idle"),
        }
    }

    fn turn(&mut self, lock: &Lock, memory: &mut Memory, notes: &mut impl Notes) {
        let me = self.me;
        self.point = match self.point {
            Point::TakeTicket => {
                memory.begin_passage(me);
                let my_ticket = memory.fetch_and_increment(me, lock.next_ticket);
                notes.event(Kind::Join, me);
                Point::SpinServing { my_ticket }
            }
            Point::SpinServing { my_ticket } => self.spin_serving(my_ticket, lock, memory, notes),
            Point::Hold { left } => self.holding(left - 1),
            Point::ReadServing => {
                let serving = memory.read(me, lock.now_serving);
                Point::WriteServing { serving }
            }
            // After 65535 comes 0.
            Point::WriteServing { serving } => {
                memory.write(me, lock.now_serving, serving.wrapping_add(1));
                self.released(notes)
            }
            Point::Idle => {
                notes.idle(me);
                Point::Idle
            }
        };
    }
}
