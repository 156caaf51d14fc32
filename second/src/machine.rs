//! From the name of a machine and the number of a slip to the routine.

use crate::central::Central;
use crate::dissem::Dissem;
use crate::mcs::Mcs;
use crate::routine::Routine;
use crate::settings::Algorithm;
use crate::slip::{self, Slip};
use crate::ticket::Ticket;
use crate::tree::Tree;

/// What is to be done with a machine, whichever it is.
pub trait Task {
    type Answer;

    fn with<R: Routine>(self) -> Self::Answer;
}

/// Does the task with the machine of this name and slip; nothing if the slip
/// is of another machine.
pub fn hand_over<T: Task>(algorithm: Algorithm, slip: Slip, task: T) -> Option<T::Answer> {
    Some(match (algorithm, slip) {
        (Algorithm::Ticket, slip::NONE) => task.with::<Ticket<{ slip::NONE }>>(),
        (Algorithm::Ticket, slip::LESS_THAN) => task.with::<Ticket<{ slip::LESS_THAN }>>(),
        (Algorithm::Mcs, slip::NONE) => task.with::<Mcs<{ slip::NONE }>>(),
        (Algorithm::Mcs, slip::NEXT_NOT_CLEARED) => task.with::<Mcs<{ slip::NEXT_NOT_CLEARED }>>(),
        (Algorithm::Mcs, slip::LINK_BEFORE_LOCKED) => {
            task.with::<Mcs<{ slip::LINK_BEFORE_LOCKED }>>()
        }
        (Algorithm::Mcs, slip::FAILED_SWAP_RELEASES) => {
            task.with::<Mcs<{ slip::FAILED_SWAP_RELEASES }>>()
        }
        (Algorithm::Central, slip::NONE) => task.with::<Central<{ slip::NONE }>>(),
        (Algorithm::Central, slip::RESET_AFTER_SENSE) => {
            task.with::<Central<{ slip::RESET_AFTER_SENSE }>>()
        }
        (Algorithm::Dissem, slip::NONE) => task.with::<Dissem<{ slip::NONE }>>(),
        (Algorithm::Dissem, slip::ONE_PARITY) => task.with::<Dissem<{ slip::ONE_PARITY }>>(),
        (Algorithm::Dissem, slip::ONE_PARITY_ONE_SENSE) => {
            task.with::<Dissem<{ slip::ONE_PARITY_ONE_SENSE }>>()
        }
        (Algorithm::Tree, slip::NONE) => task.with::<Tree>(),
        _ => return None,
    })
}
