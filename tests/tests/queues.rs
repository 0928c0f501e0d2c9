//! Packet queues by the proved code and by the reference: the rows of the rules, both sides of every
//! line, any queue on any state, and histories with sends and receives.

use lokhazim_reference::{Accounts, Handle, Hold, Queue, HOLDS, QUOTAS};
use lokhazim_tests::cases::damage::damaged_together;
use lokhazim_tests::cases::states::{sound, Plan};
use lokhazim_tests::judge::cut::live_handles;
use lokhazim_tests::run::boundary::queue::new;
use lokhazim_tests::run::calls::Pair;
use lokhazim_tests::run::queues::{any_handle, any_queue, history, Queues};
use lokhazim_tests::seed::Seed;
use lokhazim_tests::state::{Call, State, PLAIN};

/// The seed of every case.
const SEED: u64 = 20_261_117;

/// The object of [`one_object`].
const PACKET: Handle = Handle {
    base: 8,
    length: 16,
    serial: 1,
};

/// A heap of 64 bytes with one object, which quota 0 holds so often.
fn one_object(count: u8) -> State {
    let mut state = Plan::of_object(64, 8, 16).render(&mut Seed::new(SEED));
    state.accounts.holds[0].count = count;
    state
}

/// A queue between two quotas with so many handles that name nothing.
fn queue_with(sender: u32, receiver: u32, count: u32) -> Queue {
    let mut queue = Queue::new(sender, receiver);
    let nothing = Handle {
        serial: 9,
        ..PACKET
    };
    (queue.count, queue.places) = (count, [nothing; 16]);
    queue
}

/// Gives quota 1 this remainder, and a grant that fits.
fn remaining(mut state: State, remainder: u32) -> State {
    let quota = &mut state.accounts.quotas[1];
    (quota.grant, quota.remainder) = (remainder, remainder);
    state
}

#[test]
fn a_new_queue_is_zero_but_for_its_quotas() {
    for (sender, receiver) in [(0, 0), (1, 2), (32, u32::MAX)] {
        assert_eq!(new(sender, receiver), Queue::new(sender, receiver));
    }
}

#[test]
fn both_sides_of_each_line() {
    let mut queues = Queues::default();
    let mut sent = |state: &State, queue: Queue, handle, expected| {
        let refusal = queues.send(&mut state.clone(), &mut queue.clone(), handle);
        assert_eq!(refusal, expected, "{queue:?} {handle:?}");
    };
    let state = one_object(1);
    for (count, expected) in [(0, 0), (15, 0), (16, 51), (17, 53), (u32::MAX, 53)] {
        sent(&state, queue_with(0, 1, count), PACKET, expected);
    }
    let nothing = Handle {
        length: 17,
        ..PACKET
    };
    let mut barred = state.clone();
    barred.accounts.quotas[1].permissions = 5;
    let mut unsound = state.clone();
    unsound.accounts.quotas[5].grant += 1;
    let short = State {
        heap: vec![0; 56],
        accounts: Accounts::default(),
    };
    for (state, sender, receiver, handle, expected) in [
        (&short, 0, 1, PACKET, 1),
        (&unsound, 0, 1, PACKET, 2),
        (&state, 32, 1, PACKET, 3),
        (&state, 0, 32, PACKET, 3),
        (&barred, 0, 1, nothing, 12),
        (&state, 0, 1, nothing, 5),
        (&state, 2, 1, nothing, 5),
        (&state, 2, 1, PACKET, 6),
        (&remaining(state.clone(), 24), 0, 1, PACKET, 0),
        (&remaining(state.clone(), 24), 2, 1, PACKET, 6),
        (&remaining(state.clone(), 23), 0, 1, PACKET, 8),
        (&remaining(state.clone(), 23), 2, 1, PACKET, 8),
    ] {
        sent(state, queue_with(sender, receiver, 3), handle, expected);
        sent(state, queue_with(sender, receiver, 16), handle, 51);
        sent(state, queue_with(sender, receiver, 17), handle, 53);
    }
}

#[test]
fn a_quota_that_sends_to_itself() {
    let mut queues = Queues::default();
    for (count, expected) in [(1, 0), (254, 0), (255, 7)] {
        let (before, mut queue) = (one_object(count), queue_with(0, 0, 2));
        let mut state = before.clone();
        assert_eq!(queues.send(&mut state, &mut queue, PACKET), expected);
        assert_eq!(state, before);
    }
    let none = queues.send(&mut one_object(1), &mut queue_with(1, 1, 0), PACKET);
    assert_eq!(none, 6, "it could pay for a claim, but holds nothing");
    let mut poor = remaining(one_object(1), 23);
    assert_eq!(queues.send(&mut poor, &mut queue_with(1, 1, 0), PACKET), 8);
}

#[test]
fn a_full_table_is_refused_though_a_record_would_come_free() {
    let mut queues = Queues::default();
    let mut state = State {
        heap: vec![0; 512],
        accounts: Accounts::default(),
    };
    state.perform(Call::Open([10_000; QUOTAS], PLAIN));
    for _ in 0..HOLDS / QUOTAS + 1 {
        state.perform(Call::Allocate(0, 8));
    }
    let objects = live_handles(&state.heap);
    for handle in &objects {
        for quota in 1..QUOTAS as u32 {
            state.perform(Call::Claim(quota, *handle));
        }
    }
    let full = |state: &State| state.accounts.holds.iter().all(|hold| hold.count > 0);
    assert!(full(&state));
    let last = objects[objects.len() - 1];
    let holder = |quota: u32| Hold {
        serial: last.serial,
        quota: quota as u8,
        count: 1,
    };
    let (own, other): (Vec<u32>, Vec<u32>) =
        (0..QUOTAS as u32).partition(|quota| state.accounts.holds.contains(&holder(*quota)));
    let mut sent = |sender, receiver, expected| {
        let mut state = state.clone();
        let mut queue = queue_with(sender, receiver, 0);
        assert_eq!(queues.send(&mut state, &mut queue, last), expected);
    };
    sent(own[0], other[0], 9);
    sent(other[0], other[1], 9);
    sent(own[0], own[0], 0);
}

#[test]
fn receives_of_any_queue() {
    let mut queues = Queues::default();
    let mut seed = Seed::new(SEED);
    for _ in 0..20_000 {
        let handles = [PACKET];
        let mut queue = any_queue(&mut seed, &handles);
        while queues.receive(&mut queue).is_ok() {}
    }
    assert!(queues.receives(0) >= 50_000);
    assert!(queues.receives(52) >= 5_000 && queues.receives(53) >= 2_000);
}

/// Queues in which any number may stand in every word. Each refused call has to leave all words.
#[test]
fn queues_of_any_words() {
    let mut queues = Queues::default();
    let mut seed = Seed::new(SEED);
    let state = one_object(1);
    for _ in 0..20_000 {
        let mut handle = || Handle {
            base: seed.word(),
            length: seed.word(),
            serial: seed.word(),
        };
        let places = std::array::from_fn(|_| handle());
        let mut number = |few| match seed.percent(50) {
            true => seed.below(few),
            false => seed.word() >> seed.below(32),
        };
        let queue = Queue {
            sender: number(3),
            receiver: number(3),
            count: number(18),
            places,
        };
        for handle in [PACKET, places[0]] {
            queues.send(&mut state.clone(), &mut queue.clone(), handle);
        }
        let _ = queues.receive(&mut queue.clone());
    }
    for (refusal, least) in [
        (0, 200),
        (3, 2_000),
        (5, 200),
        (6, 200),
        (51, 200),
        (53, 10_000),
    ] {
        let came = queues.sends(refusal);
        assert!(came >= least, "only {came} sends gave {refusal}");
    }
    for (refusal, least) in [(0, 5_000), (52, 200), (53, 5_000)] {
        let came = queues.receives(refusal);
        assert!(came >= least, "only {came} receives gave {refusal}");
    }
}

#[test]
fn sends_on_any_state() {
    let mut queues = Queues::default();
    for n in 0..6_000 {
        let mut seed = Seed::of_case(SEED, n);
        let state = match n % 10 {
            0 => damaged_together(&mut seed).unwrap_or_else(|| sound(&mut seed)),
            _ => sound(&mut seed),
        };
        let handles = live_handles(&state.heap);
        for _ in 0..4 {
            let mut queue = any_queue(&mut seed, &handles);
            let handle = any_handle(&mut seed, &handles);
            let holders = state.accounts.holds.iter();
            let own = holders.filter(|hold| hold.count > 0 && hold.serial == handle.serial);
            let own: Vec<u32> = own.map(|hold| u32::from(hold.quota)).collect();
            if let (true, Some(holder)) = (seed.percent(60), seed.any_of(&own)) {
                queue.sender = holder;
            }
            queues.send(&mut state.clone(), &mut queue, handle);
        }
    }
    for (refusal, least) in [
        (0, 4_000),
        (2, 500),
        (3, 1_000),
        (5, 2_000),
        (6, 500),
        (7, 300),
        (8, 1_000),
        (9, 50),
        (12, 200),
        (51, 2_000),
        (53, 2_000),
    ] {
        let came = queues.sends(refusal);
        println!("sends, {refusal}: {came}");
        assert!(came >= least, "only {came} sends gave {refusal}");
    }
    assert!(queues.to_itself >= 200);
}

#[test]
fn histories_with_sends_and_receives() {
    let (mut pair, mut queues) = (Pair::new(), Queues::default());
    for n in 0..600 {
        history(&mut pair, &mut queues, SEED, n).unwrap_or_else(|failure| panic!("{failure}"));
    }
    let sent = [0, 5, 6, 8, 51].map(|refusal| queues.sends(refusal));
    let received = [0, 52].map(|refusal| queues.receives(refusal));
    println!("sent {sent:?}, received {received:?}");
    println!("live {}, dead {}", queues.given_live, queues.given_dead);
    assert!(sent.iter().all(|came| *came >= 100), "{sent:?}");
    assert!(received.iter().all(|came| *came >= 500), "{received:?}");
    assert!(queues.given_dead >= 100 && queues.given_live >= 500);
    assert!(queues.to_itself >= 100);
}
