//! The MCS list-based queuing lock, figure 5.

use crate::memory::{Address, Memory};
use crate::notes::{Kind, Notes};
use crate::routine::{Routine, Step};
use crate::settings::{Plan, Settings};
use crate::slip::{self, Slip};

/// Stands for no processor in `tail` and in `next`.
const NIL: u16 = u16::MAX;
const FALSE: u16 = 0;
const TRUE: u16 = 1;

/// `type qnode`, in the memory of the processor it belongs to.
struct Qnode {
    next: Address,
    locked: Address,
}

/// `type lock`, which is the tail, and the qnode of every processor.
pub struct Lock {
    tail: Address,
    qnodes: Vec<Qnode>,
}

/// The program points of `acquire_lock` and `release_lock`.
#[derive(Clone, Copy, PartialEq, Eq, Hash)]
enum Point {
    /// `I->next := nil`
    ClearNext,
    /// `predecessor := fetch_and_store (L, I)`
    SwapTail,
    /// `I->locked := true`
    SetLocked { predecessor: usize },
    /// `predecessor->next := I`
    Link { predecessor: usize },
    /// `repeat while I->locked`
    SpinLocked,
    /// Between `acquire_lock` and `release_lock`.
    Hold { left: u16 },
    /// `if I->next = nil`
    ReadNext,
    /// `if compare_and_swap (L, I, nil)`
    CompareAndSwapTail,
    /// `repeat while I->next = nil`
    SpinNext,
    /// `I->next->locked := false`
    Unlock { successor: usize },
    /// All passages are done.
    Idle,
}

#[derive(Clone, PartialEq, Eq, Hash)]
pub struct Mcs<const SLIP: Slip> {
    me: usize,
    hold: u16,
    rounds_left: u16,
    point: Point,
}

impl<const SLIP: Slip> Mcs<SLIP> {
    /// Where the routine stands when no passage is under way.
    fn outside(&self) -> Point {
        if self.rounds_left == 0 {
            Point::Idle
        } else {
            Point::ClearNext
        }
    }

    fn swap_tail(&self, lock: &Lock, memory: &mut Memory, notes: &mut impl Notes) -> Point {
        let predecessor = memory.swap(self.me, lock.tail, self.me as u16);
        notes.event(Kind::Join, self.me);
        if predecessor == NIL {
            return self.granted(notes);
        }
        let predecessor = predecessor as usize;
        if SLIP == slip::LINK_BEFORE_LOCKED {
            Point::Link { predecessor }
        } else {
            Point::SetLocked { predecessor }
        }
    }

    fn spin_locked(&self, lock: &Lock, memory: &mut Memory, notes: &mut impl Notes) -> Point {
        if memory.read(self.me, lock.qnodes[self.me].locked) == TRUE {
            notes.spin(self.me);
            Point::SpinLocked
        } else {
            self.granted(notes)
        }
    }

    fn granted(&self, notes: &mut impl Notes) -> Point {
        notes.event(Kind::Grant, self.me);
        self.holding(self.hold)
    }

    fn holding(&self, left: u16) -> Point {
        if left == 0 {
            Point::ReadNext
        } else {
            Point::Hold { left }
        }
    }

    fn read_next(&self, lock: &Lock, memory: &mut Memory) -> Point {
        match memory.read(self.me, lock.qnodes[self.me].next) {
            NIL => Point::CompareAndSwapTail,
            successor => Point::Unlock { successor: successor as usize },
        }
    }

    fn compare_and_swap_tail(
        &mut self,
        lock: &Lock,
        memory: &mut Memory,
        notes: &mut impl Notes,
    ) -> Point {
        let swapped = memory.compare_and_swap(self.me, lock.tail, self.me as u16, NIL);
        if swapped || SLIP == slip::FAILED_SWAP_RELEASES {
            self.released(notes)
        } else {
            Point::SpinNext
        }
    }

    fn spin_next(&self, lock: &Lock, memory: &mut Memory, notes: &mut impl Notes) -> Point {
        match memory.read(self.me, lock.qnodes[self.me].next) {
            NIL => {
                notes.spin(self.me);
                Point::SpinNext
            }
            successor => Point::Unlock { successor: successor as usize },
        }
    }

    fn released(&mut self, notes: &mut impl Notes) -> Point {
        notes.event(Kind::Release, self.me);
        notes.passage_done(self.me);
        self.rounds_left -= 1;
        self.outside()
    }
}

impl<const SLIP: Slip> Routine for Mcs<SLIP> {
    type Shared = Lock;

    fn declare(settings: &Settings, memory: &mut Memory) -> Lock {
        let tail = memory.place(settings.home, NIL);
        let qnodes = (0..settings.procs)
            .map(|processor| Qnode {
                next: memory.place(processor, NIL),
                locked: memory.place(processor, FALSE),
            })
            .collect();
        Lock { tail, qnodes }
    }

    fn new(me: usize, plan: Plan, _lock: &Lock) -> Self {
        let (hold, rounds_left) = (plan.hold, plan.rounds);
        let mut routine = Self { me, hold, rounds_left, point: Point::Idle };
        routine.point = routine.outside();
        routine
    }

    #[inline(always)]
    fn touches(&self, lock: &Lock) -> Option<Address> {
        let mine = &lock.qnodes[self.me];
        match self.point {
            Point::ClearNext if SLIP == slip::NEXT_NOT_CLEARED => None,
            Point::ClearNext | Point::ReadNext | Point::SpinNext => Some(mine.next),
            Point::SwapTail | Point::CompareAndSwapTail => Some(lock.tail),
            Point::SetLocked { .. } | Point::SpinLocked => Some(mine.locked),
            Point::Link { predecessor } => Some(lock.qnodes[predecessor].next),
            Point::Unlock { successor } => Some(lock.qnodes[successor].locked),
            Point::Hold { .. } | Point::Idle => None,
        }
    }

    fn step(&self) -> Step {
        match self.point {
            Point::ClearNext if SLIP == slip::NEXT_NOT_CLEARED => Step::Other("nothing"),
            Point::ClearNext => Step::Other("clear"),
            Point::SetLocked { .. } => Step::Other("flag"),
            Point::Link { .. } => Step::Other("link"),
            Point::SpinLocked | Point::ReadNext | Point::SpinNext => Step::Read,
            Point::CompareAndSwapTail => Step::Other("swap"),
            Point::SwapTail | Point::Unlock { .. } => Step::Event,
            Point::Hold { .. } => Step::Other("hold"),
            Point::Idle => Step::Other("idle"),
        }
    }

    fn turn(&mut self, lock: &Lock, memory: &mut Memory, notes: &mut impl Notes) {
        let me = self.me;
        self.point = match self.point {
            Point::ClearNext => {
                memory.begin_passage(me);
                if SLIP != slip::NEXT_NOT_CLEARED {
                    memory.write(me, lock.qnodes[me].next, NIL);
                }
                Point::SwapTail
            }
            Point::SwapTail => self.swap_tail(lock, memory, notes),
            Point::SetLocked { predecessor } => {
                memory.write(me, lock.qnodes[me].locked, TRUE);
                if SLIP == slip::LINK_BEFORE_LOCKED {
                    Point::SpinLocked
                } else {
                    Point::Link { predecessor }
                }
            }
            Point::Link { predecessor } => {
                memory.write(me, lock.qnodes[predecessor].next, me as u16);
                if SLIP == slip::LINK_BEFORE_LOCKED {
                    Point::SetLocked { predecessor }
                } else {
                    Point::SpinLocked
                }
            }
            Point::SpinLocked => self.spin_locked(lock, memory, notes),
            Point::Hold { left } => self.holding(left - 1),
            Point::ReadNext => self.read_next(lock, memory),
            Point::CompareAndSwapTail => self.compare_and_swap_tail(lock, memory, notes),
            Point::SpinNext => self.spin_next(lock, memory, notes),
            Point::Unlock { successor } => {
                memory.write(me, lock.qnodes[successor].locked, FALSE);
                self.released(notes)
            }
            Point::Idle => {
                notes.idle(me);
                Point::Idle
            }
        };
    }
}
