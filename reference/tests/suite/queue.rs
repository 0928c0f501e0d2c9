//! Queues of handles: what sending and receiving change, and their refusals in order.

use std::collections::{BTreeSet, VecDeque};

use crate::prng::Prng;
use crate::state::*;
use lokhazim_reference::*;

/// A heap of 256 bytes with an object of 16 bytes of quota 0, which is to go to quota 1.
fn one_packet() -> (State, Queue, Handle) {
    let mut state = opened(256, &[500, 500]);
    let packet = state.allocated(0, 16);
    (state, Queue::new(0, 1), packet)
}

/// A queue with this count whose places all hold handles that name nothing.
fn queue_with(count: u32) -> Queue {
    let mut queue = Queue::new(0, 1);
    queue.count = count;
    for (place, stored) in queue.places.iter_mut().enumerate() {
        *stored = handle(place as u32, 100, 1_000);
    }
    queue
}

/// Sends a handle; a refusal is given by its number, after checking that nothing has changed.
fn sent(state: &mut State, queue: &mut Queue, packet: Handle) -> Result<(), u8> {
    let before = (state.clone(), queue.clone());
    let answer = send(&mut state.heap, &mut state.accounts, queue, packet);
    if answer.is_err() {
        assert!(before == (state.clone(), queue.clone()), "it changed");
    }
    answer.map_err(QueueRefusal::number)
}

/// Receives a handle; a refusal is given by its number, after checking that nothing has changed.
fn received(queue: &mut Queue) -> Result<Handle, u8> {
    let before = queue.clone();
    let answer = receive(queue);
    if answer.is_err() {
        assert_eq!(*queue, before);
    }
    answer.map_err(QueueRefusal::number)
}

#[test]
fn sending_passes_a_hold_on_and_receiving_gives_the_handle() {
    let (mut state, mut queue, packet) = one_packet();
    let heap = state.heap.clone();
    assert_eq!(sent(&mut state, &mut queue, packet), Ok(()));
    assert_eq!(state.heap, heap);
    assert_eq!((state.remainder(0), state.remainder(1)), (500, 476));
    assert_eq!(state.accounts.holds[0], Hold::UNUSED);
    assert_eq!(state.accounts.holds[1], hold(1, 1, 1));
    assert_eq!((queue.count, queue.places[0]), (1, packet));
    assert_eq!(received(&mut queue), Ok(packet));
    assert_eq!(queue, Queue::new(0, 1));
    assert_eq!(received(&mut queue), Err(52));
}

#[test]
fn sending_writes_one_place_and_receiving_moves_all_up() {
    let (mut state, _, packet) = one_packet();
    let mut queue = queue_with(3);
    let mut expected = queue.clone();
    assert_eq!(sent(&mut state, &mut queue, packet), Ok(()));
    expected.places[3] = packet;
    expected.count = 4;
    assert_eq!(queue, expected);
    assert_eq!(received(&mut queue), Ok(expected.places[0]));
    expected.places.copy_within(1.., 0);
    expected.places[15] = Handle::default();
    expected.count = 3;
    assert_eq!(queue, expected);
}

#[test]
fn a_full_queue_gives_51_before_all_refusals_of_the_heap() {
    let (mut state, _, packet) = one_packet();
    assert_eq!(sent(&mut state, &mut queue_with(15), packet), Ok(()));
    let mut full = queue_with(16);
    assert_eq!(sent(&mut state, &mut full, packet), Err(51));
    state.accounts.quotas[0].grant += 1;
    assert_eq!(sent(&mut state, &mut queue_with(15), packet), Err(2));
    assert_eq!(sent(&mut state, &mut full, packet), Err(51));
    state.heap.push(0);
    assert_eq!(sent(&mut state, &mut queue_with(15), packet), Err(1));
    assert_eq!(sent(&mut state, &mut full, packet), Err(51));
    assert_eq!(received(&mut full), Ok(handle(0, 100, 1_000)));
    assert_eq!(full.count, 15);
}

#[test]
fn a_count_above_16_gives_53_first() {
    let (mut state, _, packet) = one_packet();
    for count in [17, 18, 255, 256, 1 << 16, u32::MAX] {
        let mut damaged = queue_with(count);
        assert_eq!(sent(&mut state, &mut damaged, packet), Err(53));
        assert_eq!(received(&mut damaged), Err(53));
        let mut no_heap = State {
            heap: Vec::new(),
            accounts: state.accounts.clone(),
        };
        assert_eq!(sent(&mut no_heap, &mut damaged, packet), Err(53));
    }
}

#[test]
fn an_empty_queue_gives_52_whatever_its_places_hold() {
    assert_eq!(received(&mut queue_with(0)), Err(52));
    assert_eq!(received(&mut Queue::default()), Err(52));
}

#[test]
fn a_sender_that_is_the_receiver_keeps_its_count() {
    let (mut state, _, packet) = one_packet();
    let mut queue = Queue::new(0, 0);
    for count in [1, 2, 254] {
        state.accounts.holds[0].count = count;
        let before = state.clone();
        assert_eq!(sent(&mut state, &mut queue, packet), Ok(()));
        assert!(state == before, "heap and accounts are as before");
    }
    assert_eq!(queue.count, 3);
    state.accounts.holds[0].count = 255;
    assert_eq!(sent(&mut state, &mut queue, packet), Err(7));
}

#[test]
fn a_receiver_at_255_gives_7() {
    let (mut state, mut queue, packet) = one_packet();
    state.number(Call::Claim(1, packet));
    state.accounts.holds[1].count = 254;
    state.accounts.holds[0].count = 2;
    assert_eq!(sent(&mut state, &mut queue, packet), Ok(()));
    assert_eq!(state.accounts.holds[1], hold(1, 1, 255));
    assert_eq!(state.accounts.holds[0], hold(1, 0, 1));
    assert_eq!(sent(&mut state, &mut queue, packet), Err(7));
}

#[test]
fn a_full_hold_table_gives_9_though_the_sender_would_leave_a_place() {
    let mut state = opened(16_384, &[60_000; 2]);
    let packets: Vec<Handle> = (0..HOLDS).map(|_| state.allocated(0, 8)).collect();
    let mut queue = Queue::new(0, 1);
    assert_eq!(sent(&mut state, &mut queue, packets[0]), Err(9));
    assert_eq!(sent(&mut state, &mut Queue::new(0, 0), packets[0]), Ok(()));
    assert_eq!(sent(&mut state, &mut Queue::new(1, 0), packets[0]), Err(6));
    state.number(Call::Release(0, packets[7]));
    assert_eq!(sent(&mut state, &mut queue, packets[0]), Ok(()));
    assert_eq!(state.accounts.holds[7], hold(1, 1, 1));
    assert_eq!(state.accounts.holds[0], Hold::UNUSED);
    assert_eq!(sent(&mut state, &mut queue, packets[1]), Ok(()));
}

#[test]
fn a_sender_without_a_hold_gives_6_behind_the_claims_refusals() {
    let mut state = opened(256, &[24, 24, 23, 500]);
    let packet = state.allocated(0, 16);
    let mut from = |sender, receiver| sent(&mut state, &mut Queue::new(sender, receiver), packet);
    assert_eq!(from(1, 3), Err(6));
    assert_eq!(from(1, 1), Err(6));
    assert_eq!(from(2, 0), Err(6));
    assert_eq!(from(1, 2), Err(8));
    assert_eq!(from(2, 2), Err(8));
    assert_eq!(from(0, 2), Err(8));
    assert_eq!(from(0, 1), Ok(()));
    assert_eq!(from(0, 1), Err(6), "the sender has no hold any more");
}

#[test]
fn quotas_out_of_range_give_3_the_receiver_first() {
    let (mut state, _, packet) = one_packet();
    state.number(Call::ClearPermissions(2, 2));
    for out in [32, 255, 256, u32::MAX] {
        let mut from = |s, r, handle| sent(&mut state, &mut Queue::new(s, r), handle);
        assert_eq!(from(0, out, packet), Err(3));
        assert_eq!(from(out, 1, packet), Err(3));
        assert_eq!(from(out, 2, packet), Err(12), "claim's refusal first");
        assert_eq!(from(out, 1, Handle::default()), Err(5));
        assert_eq!(from(out, 31, packet), Err(8));
    }
}

#[test]
fn the_receiver_needs_the_permission_to_claim_and_the_sender_none() {
    for bits in 0..8 {
        let (mut state, mut queue, packet) = one_packet();
        state.number(Call::ClearPermissions(0, 7));
        state.number(Call::ClearPermissions(1, bits));
        let expected = if bits & 2 == 2 { Err(12) } else { Ok(()) };
        assert_eq!(sent(&mut state, &mut queue, packet), expected);
    }
}

#[test]
fn a_handle_is_kept_as_sent_and_a_bad_one_gives_5() {
    let (mut state, mut queue, packet) = one_packet();
    let part = handle(packet.base + 3, 5, packet.serial);
    for bad in [
        handle(packet.base, 0, 1),
        handle(8, 17, 1),
        handle(8, 16, 2),
    ] {
        assert_eq!(sent(&mut state, &mut queue, bad), Err(5));
    }
    assert_eq!(sent(&mut state, &mut queue, part), Ok(()));
    assert_eq!(state.remainder(1), 476, "the whole object is charged");
    assert_eq!(received(&mut queue), Ok(part));
}

#[test]
fn a_packet_lives_until_the_receiver_drops_it_and_its_handle_is_still_given() {
    let (mut state, mut queue, packet) = one_packet();
    assert_eq!(sent(&mut state, &mut queue, packet), Ok(()));
    state.refused(Call::Release(0, packet), 6);
    assert_eq!(state.perform(Call::Lend(packet)), Ok(Answer::Part(8..24)));
    assert_eq!(state.number(Call::Release(1, packet)), 24);
    assert_eq!(received(&mut queue), Ok(packet));
    state.refused(Call::Lend(packet), 5);
}

/// Makes a random send or receive, follows it in a list of what waits and gives the refusal's
/// number, if any.
fn step(
    prng: &mut Prng,
    state: &mut State,
    queue: &mut Queue,
    waiting: &mut VecDeque<Handle>,
) -> Option<u8> {
    if prng.percent(20) {
        let answer = received(queue);
        assert_eq!(answer, waiting.pop_front().ok_or(52));
        return answer.err();
    }
    let chosen = prng.below(13);
    let packet = handle(8 + 16 * chosen, 8, 1 + chosen);
    let mut claimed = state.clone();
    let claim = claimed.perform(Call::Claim(queue.receiver, packet));
    let can = state.perform(Call::CanRelease(queue.sender, packet));
    let expected = match (waiting.len(), claim, can) {
        (16, ..) => Err(51),
        (_, Err(refusal), _) | (_, Ok(_), Err(refusal)) => Err(refusal.number()),
        (_, Ok(_), Ok(_)) => Ok(()),
    };
    assert_eq!(sent(state, queue, packet), expected);
    if expected.is_ok() {
        claimed.number(Call::Release(queue.sender, packet));
        assert!(*state == claimed, "claim and release, no more");
        waiting.push_back(packet);
    }
    expected.err()
}

#[test]
fn handles_come_out_in_the_order_in_which_they_went_in() {
    let mut prng = Prng::new(61);
    let mut given = BTreeSet::new();
    for round in 0..60 {
        let mut state = opened(256, &[300, 250, 40]);
        for quota in [0, 0, 1, 1, 2, 0, 0, 0, 1, 1, 0, 0] {
            let packet = state.allocated(quota, 8);
            for _ in 0..prng.below(4) {
                state.number(Call::Claim(quota, packet));
            }
        }
        let mut queue = Queue::new(round % 3, prng.below(3));
        let mut waiting = VecDeque::new();
        for _ in 0..300 {
            given.extend(step(&mut prng, &mut state, &mut queue, &mut waiting));
            assert_eq!(queue.count as usize, waiting.len());
            assert!(waiting.iter().eq(&queue.places[..waiting.len()]));
        }
    }
    assert_eq!(given, BTreeSet::from([5, 6, 8, 51, 52]));
}
