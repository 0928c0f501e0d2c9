//! Packet queues by the proved code and by the reference: single sends and receives, and lists of
//! them with other calls between.

use std::collections::{BTreeMap, VecDeque};

use lokhazim_reference::{receive, send, Accounts, Handle, Queue, QueueRefusal, QUOTAS};

use crate::cases::choice::{choice, choose, Habits, MIXED};
use crate::cases::forged::View;
use crate::cases::narrowing::{beside_handle, sometimes_narrowed};
use crate::cases::states::heap_length;
use crate::judge::compare::Failure;
use crate::judge::cut::live_handles;
use crate::run::boundary::queue as proved;
use crate::run::calls::Pair;
use crate::run::sending;
use crate::seed::Seed;
use crate::state::{Call, State};

/// How often each refusal came, 0 for accepted.
pub type Tally = BTreeMap<u32, u64>;

/// What was compared.
#[derive(Default)]
pub struct Queues {
    sends: Tally,
    receives: Tally,
    /// Sends from a quota to itself that were accepted.
    pub to_itself: u64,
    /// Packets that were given although nobody held them any more.
    pub given_dead: u64,
    /// Packets that were given while their receiver held them.
    pub given_live: u64,
}

/// The number of a refusal, 0 where there is none.
fn number<T>(answer: &Result<T, QueueRefusal>) -> u32 {
    answer.as_ref().err().map_or(0, |r| u32::from(r.number()))
}

impl Queues {
    /// Sends on both sides, and takes state and queue on to what both left; gives the refusal. A
    /// refused send has to leave everything.
    ///
    /// # Panics
    ///
    /// Where they differ.
    pub fn send(&mut self, state: &mut State, queue: &mut Queue, handle: Handle) -> u32 {
        let before = (state.clone(), queue.clone());
        let wanted = number(&send(&mut state.heap, &mut state.accounts, queue, handle));
        let asked = (&before.1, handle);
        let (left, found, refusal) = sending::send(&before.0, &before.1, handle);
        assert_eq!(refusal, wanted, "proved, then reference, of {asked:?}");
        assert_eq!(found, *queue, "the queue that {asked:?} leaves");
        assert!(left == *state, "heap and accounts that {asked:?} leaves");
        if wanted != 0 {
            assert!(before == (state.clone(), queue.clone()), "{asked:?}");
        }
        *self.sends.entry(wanted).or_default() += 1;
        self.to_itself += u64::from(wanted == 0 && queue.sender == queue.receiver);
        wanted
    }

    /// Receives on both sides, and takes the queue on to what both left.
    ///
    /// # Errors
    ///
    /// The refusal, after which the queue has to be as it was.
    ///
    /// # Panics
    ///
    /// Where they differ.
    pub fn receive(&mut self, queue: &mut Queue) -> Result<Handle, u32> {
        let before = queue.clone();
        let wanted = receive(queue);
        let refusal = number(&wanted);
        let numbers = (refusal, wanted.as_ref().copied().unwrap_or_default());
        let (found, proved, handle) = sending::receive(&before);
        assert_eq!((proved, handle), numbers, "proved, then reference");
        assert_eq!(
            found, *queue,
            "the queue that a receive of {before:?} leaves"
        );
        if refusal != 0 {
            assert_eq!(*queue, before);
        }
        *self.receives.entry(refusal).or_default() += 1;
        wanted.map_err(|_| refusal)
    }

    /// How often sending gave this refusal, 0 for accepted.
    pub fn sends(&self, refusal: u32) -> u64 {
        self.sends.get(&refusal).copied().unwrap_or(0)
    }

    /// How often receiving gave this refusal, 0 for accepted.
    pub fn receives(&self, refusal: u32) -> u64 {
        self.receives.get(&refusal).copied().unwrap_or(0)
    }
}

/// A queue with any numbers, most often a count of 0 to 17.
pub fn any_queue(seed: &mut Seed, handles: &[Handle]) -> Queue {
    let mut quota = || match seed.percent(90) {
        true => seed.below(QUOTAS as u32),
        false => seed.odd_word(),
    };
    let (sender, receiver) = (quota(), quota());
    let mut queue = Queue::new(sender, receiver);
    if seed.percent(20) {
        queue.receiver = sender;
    }
    queue.count = match seed.below(8) {
        0 => 0,
        1 => 15,
        2 => 16,
        3 => 17,
        4 => seed.odd_word(),
        _ => seed.below(17),
    };
    for place in &mut queue.places {
        *place = any_handle(seed, handles);
    }
    queue
}

/// A handle of one of the objects, whole or narrowed, nearly one, or any numbers.
pub fn any_handle(seed: &mut Seed, handles: &[Handle]) -> Handle {
    let whole = seed.any_of(handles);
    match (whole, seed.below(20)) {
        (Some(whole), 0..=15) => sometimes_narrowed(seed, 30, whole),
        (Some(whole), 16 | 17) => beside_handle(seed, whole),
        _ => Handle {
            base: seed.odd_word(),
            length: seed.odd_word(),
            serial: seed.odd_word(),
        },
    }
}

/// How often a quota holds the object with a serial.
fn holds(accounts: &Accounts, quota: u32, serial: u32) -> u8 {
    let mut records = accounts.holds.iter();
    let own = records.find(|h| h.count > 0 && u32::from(h.quota) == quota && h.serial == serial);
    own.map_or(0, |hold| hold.count)
}

/// The habits of the calls between sends: few quotas, so that holds meet.
const HABITS: Habits = Habits {
    weights: MIXED,
    quotas: 4,
    wild: 4,
    narrow: 10,
    longest: 24,
};

/// A history with sends and receives on two queues, from an opening.
struct Run<'a> {
    queues: &'a mut Queues,
    state: State,
    lines: [Line; 2],
}

/// One queue, the handles that were accepted for it, and how many of them were given.
struct Line {
    queue: Queue,
    accepted: Vec<Handle>,
    given: usize,
}

impl Line {
    /// A new queue between two quotas, the same on both sides.
    fn new(sender: u32, receiver: u32) -> Line {
        let queue = Queue::new(sender, receiver);
        assert_eq!(proved::new(sender, receiver), queue);
        Line {
            queue,
            accepted: Vec::new(),
            given: 0,
        }
    }

    /// The handles that are accepted and not given.
    fn waiting(&self) -> VecDeque<Handle> {
        self.accepted[self.given..].iter().copied().collect()
    }
}

impl Run<'_> {
    /// Sends on one of the queues: most often an object that the sender holds, which may have been
    /// made for it, now and then another one or a handle of another kind.
    fn send(&mut self, pair: &mut Pair, seed: &mut Seed, which: usize) -> Result<(), Failure> {
        let line = &mut self.lines[which];
        let sender = line.queue.sender;
        if seed.percent(70) {
            pair.call(&mut self.state, Call::Allocate(sender, seed.between(1, 24)))?;
        }
        let live = live_handles(&self.state.heap);
        let accounts = &self.state.accounts;
        let held = live.iter().copied();
        let held: Vec<Handle> = held
            .filter(|object| holds(accounts, sender, object.serial) > 0)
            .collect();
        let handle = match seed.percent(85) {
            true => any_handle(seed, &held),
            false => any_handle(seed, &live),
        };
        if self.queues.send(&mut self.state, &mut line.queue, handle) == 0 {
            line.accepted.push(handle);
            let count = holds(&self.state.accounts, line.queue.receiver, handle.serial);
            assert!(count > 0, "the receiver has no hold");
        }
        Ok(())
    }

    /// Receives from one of the queues; what comes is the next that was accepted.
    fn receive(&mut self, pair: &mut Pair, which: usize) -> Result<(), Failure> {
        let line = &mut self.lines[which];
        let next = line.waiting().pop_front().ok_or(52);
        let given = self.queues.receive(&mut line.queue);
        assert_eq!(given, next, "not first in, first out");
        let Ok(handle) = given else { return Ok(()) };
        line.given += 1;
        let lent = pair.call(&mut self.state, Call::Lend(handle))?;
        let anybody = (0..QUOTAS as u32).any(|q| holds(&self.state.accounts, q, handle.serial) > 0);
        assert_eq!(lent.refusal, if anybody { 0 } else { 5 });
        self.queues.given_dead += u64::from(!anybody);
        self.queues.given_live +=
            u64::from(holds(&self.state.accounts, line.queue.receiver, handle.serial) > 0);
        Ok(())
    }

    /// Every packet on its way that its receiver holds is live at its place, and the queue has the
    /// handles that wait, with zeros behind them.
    fn check(&self) {
        let live = live_handles(&self.state.heap);
        for line in &self.lines {
            let waiting = line.waiting();
            for handle in &waiting {
                let receiver = line.queue.receiver;
                if holds(&self.state.accounts, receiver, handle.serial) > 0 {
                    assert!(live.iter().any(|object| object.serial == handle.serial));
                }
            }
            let behind = std::iter::repeat(Handle::default());
            assert_eq!(line.queue.count as usize, waiting.len());
            let places: Vec<Handle> = waiting.into_iter().chain(behind).take(16).collect();
            assert_eq!(line.queue.places.to_vec(), places);
        }
    }
}

/// Makes a history of a seed with sends and receives on two queues, and other calls between.
///
/// # Errors
///
/// What differs in a call that is no send and no receive.
///
/// # Panics
///
/// Where the two programs differ in a send or a receive, or a rule of section 21 does not hold.
pub fn history(pair: &mut Pair, queues: &mut Queues, seed: u64, n: u64) -> Result<(), Failure> {
    pair.begin("queues", seed, n);
    let mut numbers = Seed::of_case(seed, n);
    let seed = &mut numbers;
    let mut state = State {
        heap: vec![0; heap_length(seed).min(2_048) as usize],
        accounts: Accounts::default(),
    };
    let grant = seed.pick(&[60, 200, 1_000, 100_000]);
    pair.call(&mut state, Call::Open([grant; QUOTAS], choice(seed)))?;
    let lines = [Line::new(seed.below(4), seed.below(4)), Line::new(0, 1)];
    let mut run = Run {
        queues,
        state,
        lines,
    };
    let (sending, receiving) = (seed.pick(&[20, 40, 60]), seed.pick(&[3, 10, 30]));
    for _ in 0..seed.between(20, 200) {
        let which = seed.place(2);
        match seed.below(100) {
            share if share < sending => run.send(pair, seed, which)?,
            share if share < sending + receiving => run.receive(pair, which)?,
            _ => {
                let view = View::new(&run.state.heap, &[]);
                match choose(seed, &HABITS, &view, &run.state.accounts) {
                    Call::Open(..) => {}
                    call => drop(pair.call(&mut run.state, call)?),
                }
            }
        }
        run.check();
    }
    Ok(())
}
