//! Sends and receives by the proved code, over accounts and queue in place.

use lokhazim_reference::{Handle, Queue};

use crate::run::boundary::queue as proved;
use crate::run::lent::Lent;
use crate::run::queue_words::{queue_of, QueueWords};
use crate::run::words::{accounts_of, padding_differences, Words};
use crate::state::{Call, State};

/// What a send left, and its refusal.
pub type Sent = (State, Queue, u32);

/// What a receive left, its refusal, and the handle.
pub type Received = (Queue, u32, Handle);

/// Sends by the proved code over accounts with any padding, which has to stay. A refused send has to
/// leave every word of accounts and queue.
pub fn send(state: &State, queue: &Queue, handle: Handle) -> Sent {
    let claim = Call::Claim(queue.receiver, handle);
    let mut lent = Lent::guarded(&state.heap);
    let mut words = Words::guarded(state, claim);
    let mut lying = QueueWords::guarded(queue);
    let before = (*words.part(), *lying.part());
    let refusal = proved::send(lent.part(), words.part(), lying.part(), handle);
    let (heap, after) = (lent.part().to_vec(), (*words.part(), *lying.part()));
    assert!(lent.guards_hold(), "{queue:?} wrote outside the heap");
    assert!(words.guards_hold(), "{queue:?} wrote outside the accounts");
    assert!(lying.guards_hold(), "{queue:?} wrote outside the queue");
    let differences = padding_differences(&before.0, &after.0, claim);
    assert!(differences.is_empty(), "{queue:?}: {differences:?}");
    assert!(refusal == 0 || after == before, "{queue:?} refused");
    let accounts = accounts_of(&after.0);
    (State { heap, accounts }, queue_of(&after.1), refusal)
}

/// Receives by the proved code. A refused receive has to leave every word of the queue.
pub fn receive(queue: &Queue) -> Received {
    let mut lying = QueueWords::guarded(queue);
    let before = *lying.part();
    let (refusal, handle) = proved::receive(lying.part());
    let after = *lying.part();
    assert!(lying.guards_hold(), "{queue:?} wrote outside the queue");
    assert!(refusal == 0 || after == before, "{queue:?} refused");
    (queue_of(&after), refusal, handle)
}
