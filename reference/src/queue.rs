//! First-in first-out queues of handles, each from a sending quota to a receiving one.

use std::collections::VecDeque;

use crate::accounts::Accounts;
use crate::claims::{can_release, claim, release};
use crate::layout::Handle;
use crate::refusal::Refusal;

/// The most handles that a queue can hold.
pub const QUEUE_PLACES: usize = 16;

/// A queue of handles, the oldest first.
// OPEN: that the queue keeps both quotas, that the handles stand from the first place on, and
// that places behind them may have any contents, are choices.
#[derive(Clone, Debug, Default, PartialEq, Eq)]
pub struct Queue {
    /// The number of the sending quota.
    pub sender: u32,
    /// The number of the receiving quota.
    pub receiver: u32,
    /// How many handles wait; a number above the places is damage.
    pub count: u32,
    /// The places, of which the first so many hold the handles that wait.
    pub places: [Handle; QUEUE_PLACES],
}

/// Why a handle was not sent or not received.
#[derive(Clone, Copy, Debug, PartialEq, Eq, Hash)]
pub enum QueueRefusal {
    /// 53: the stored count is above the number of places.
    Damaged,
    /// 51: the queue is full.
    Full,
    /// 52: the queue is empty.
    Empty,
    /// What claim or can release gives.
    Call(Refusal),
}

impl QueueRefusal {
    /// Gives the number of the refusal.
    pub const fn number(self) -> u8 {
        match self {
            QueueRefusal::Damaged => 53,
            QueueRefusal::Full => 51,
            QueueRefusal::Empty => 52,
            QueueRefusal::Call(refusal) => refusal.number(),
        }
    }
}

impl Queue {
    /// Gives an empty queue between two quotas.
    pub fn new(sender: u32, receiver: u32) -> Queue {
        Queue {
            sender,
            receiver,
            ..Queue::default()
        }
    }

    /// Gives the handles that wait, or refusal 53.
    fn waiting(&self) -> Result<VecDeque<Handle>, QueueRefusal> {
        let count = usize::try_from(self.count).map_err(|_| QueueRefusal::Damaged)?;
        let waiting = self.places.get(..count).ok_or(QueueRefusal::Damaged)?;
        Ok(waiting.iter().copied().collect())
    }
}

/// Claims for the receiver, releases for the sender and puts the handle, as it is, at the end.
// OPEN: that the answer is no more than the acceptance is a choice.
pub fn send(
    heap: &mut [u8],
    accounts: &mut Accounts,
    queue: &mut Queue,
    handle: Handle,
) -> Result<(), QueueRefusal> {
    let end = queue.waiting()?.len();
    let place = queue.places.get_mut(end).ok_or(QueueRefusal::Full)?;
    pass_on(heap, accounts, queue.sender, queue.receiver, handle).map_err(QueueRefusal::Call)?;
    *place = handle;
    queue.count += 1;
    Ok(())
}

/// Takes the oldest handle out of the queue; the others move up, and a zero handle comes last.
pub fn receive(queue: &mut Queue) -> Result<Handle, QueueRefusal> {
    let oldest = queue.waiting()?.pop_front().ok_or(QueueRefusal::Empty)?;
    let moved_up = queue.places.into_iter().skip(1);
    let places: Vec<Handle> = moved_up.chain([Handle::default()]).collect();
    queue.places.copy_from_slice(&places);
    queue.count -= 1;
    Ok(oldest)
}

/// Gives the receiver a hold and takes one off the sender, or changes nothing.
///
/// Both refusals are those of the accounts that came in, so the claim is tried on a copy.
fn pass_on(
    heap: &mut [u8],
    accounts: &mut Accounts,
    sender: u32,
    receiver: u32,
    handle: Handle,
) -> Result<(), Refusal> {
    let mut claimed = accounts.clone();
    claim(heap, &mut claimed, receiver, handle)?;
    can_release(heap, accounts, sender, handle)?;
    release(heap, &mut claimed, sender, handle)?;
    *accounts = claimed;
    Ok(())
}
