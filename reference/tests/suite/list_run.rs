//! A random list of calls of some style, with the ledger checked after each call.

use std::ops::Range;

use lokhazim_reference::{can_release, Edition, Handle, Kind, Options, Refusal, QUOTAS};

use crate::ledger::Ledger;
use crate::ledger_checks::*;
use crate::prng::Prng;
use crate::state::*;

/// What kind of list is made.
#[derive(Clone, Copy)]
pub struct Style {
    pub heap_length: u32,
    pub grant: u32,
    pub quotas: u32,
    pub longest: u32,
    pub steps: usize,
    /// Shares of allocations, claims and releases of a hundred calls.
    pub shares: [u32; 3],
    /// The serial that counts as the last one given at first.
    pub last_serial: u32,
    /// The share of calls that clear permissions, of a thousand.
    pub clearing: u32,
    /// The share of sweeps, of a thousand.
    pub sweeping: u32,
    /// What is chosen at opening.
    pub options: Options,
}

/// A style with middling numbers, to be changed where another is wanted.
pub const PLAIN: Style = Style {
    heap_length: 256,
    grant: 200,
    quotas: 3,
    longest: 60,
    steps: 250,
    shares: [35, 15, 25],
    last_serial: 0,
    clearing: 0,
    sweeping: 40,
    options: Options {
        kind: Kind::Plain,
        edition: Edition::First,
    },
};

/// How often each refusal was given, and at 0 how often a call was accepted.
type Tally = [usize; 13];

/// A list of calls that is being made.
struct Run {
    style: Style,
    prng: Prng,
    state: State,
    ledger: Ledger,
    contents: Contents,
    /// Handles that were answered, and handles of header-like bytes in objects.
    seen: Vec<Handle>,
    forged: Vec<Handle>,
    tally: Tally,
}

impl Run {
    /// Opens the heap of the list.
    fn new(style: Style, seed: u64) -> Run {
        let mut prng = Prng::new(seed);
        let grants: Vec<u32> = (0..QUOTAS)
            .map(|_| if prng.percent(15) { 0 } else { style.grant })
            .collect();
        let mut state = opened_with(style.heap_length as usize, &grants, style.options);
        // A last serial above all live serials is allowed (rule 5.9).
        state.accounts.last_serial = style.last_serial;
        let ledger = Ledger {
            heap_length: style.heap_length,
            grants: state.accounts.quotas.map(|quota| quota.grant),
            permissions: [[true; 3]; QUOTAS],
            last_serial: style.last_serial,
            objects: Vec::new(),
            options: style.options,
            quarantine: Vec::new(),
        };
        Run {
            style,
            prng,
            state,
            ledger,
            contents: Contents::new(),
            seen: vec![Handle::default()],
            forged: Vec::new(),
            tally: Tally::default(),
        }
    }

    /// Makes all calls of the list.
    fn run(mut self) -> Tally {
        for _ in 0..self.style.steps {
            self.write_objects();
            self.write_other_bodies();
            let call = self.choose();
            self.make(call);
        }
        self.tally
    }

    /// Makes a call and checks answer, bytes and ledger.
    fn make(&mut self, call: Call) {
        let before = self.state.clone();
        let ledger_before = self.ledger.clone();
        self.can_release_agrees(call);
        let answer = self.state.perform(call).map_err(Refusal::number);
        assert_eq!(answer, ledger_before.predict(call), "{call:?}");
        space_is_refused_exactly_without_a_run(&ledger_before, call, &answer);
        match &answer {
            Ok(accepted) => {
                self.tally[0] += 1;
                self.ledger.feed(call, accepted);
                follow_contents(&mut self.contents, &self.ledger, call, accepted);
                let ledger = &self.ledger;
                let bytes = expected_bytes(&before.heap, &ledger_before, ledger, call, accepted);
                assert!(self.state.heap == bytes, "{call:?} left other bytes");
                if let Answer::Object(new) = accepted {
                    self.seen.push(*new);
                }
            }
            Err(number) => {
                self.tally[usize::from(*number)] += 1;
                assert!(self.state == before, "a refused {call:?} changed something");
            }
        }
        kept_objects_keep_their_place(&ledger_before, &self.ledger);
        check_all(&self.state, &self.ledger, &self.contents);
    }

    /// Checks that can release gives the refusal that a release would give.
    fn can_release_agrees(&self, call: Call) {
        let Call::Release(quota, handle) = call else {
            return;
        };
        let State { heap, accounts } = &self.state;
        let asked = can_release(heap, accounts, quota, handle);
        let released = self.state.clone().perform(call);
        assert_eq!(asked.err(), released.err());
    }

    /// Checks that a handle of header-like bytes inside an object gives 5, unless it happens to
    /// be a part of the object with its serial.
    fn forged_handle_names_nothing(&mut self, forged: Handle) {
        if self.ledger.found(forged).is_some() {
            return;
        }
        self.state.refused(Call::Lend(forged), 5);
        self.state.refused(Call::CanRelease(0, forged), 5);
        self.state.refused(Call::Release(0, forged), 5);
    }

    /// Writes into some live objects, sometimes bytes that look like a header.
    fn write_objects(&mut self) {
        for _ in 0..self.prng.below(3).min(self.ledger.objects.len() as u32) {
            let chosen = self.prng.index(self.ledger.objects.len());
            let object = self.ledger.objects[chosen].clone();
            let at = object.handle.base + self.prng.below(object.handle.length / 8) * 8;
            let size = 8 + self.prng.below(6) * 8;
            let serial = self
                .prng
                .below(self.ledger.last_serial.saturating_add(2).max(1));
            let like_a_header = header(size, self.prng.below(6) * 8, serial);
            let bytes = if self.prng.percent(50) {
                self.forged.push(handle(at + 8, size - 8, serial));
                like_a_header
            } else {
                self.prng.next().to_le_bytes()
            };
            put(&mut self.state.heap, at, bytes);
            if bytes == like_a_header {
                self.forged_handle_names_nothing(handle(at + 8, size - 8, serial));
            }
            let own = self.contents.get_mut(&object.handle.serial);
            put(
                own.expect("the object lives"),
                at - object.handle.base,
                bytes,
            );
        }
    }

    /// Writes into bodies of free and of quarantined blocks, about which no rule says anything.
    fn write_other_bodies(&mut self) {
        for block in self.ledger.blocks() {
            if !block.is_live() && block.size > 8 && self.prng.percent(10) {
                let at = block.offset + 8 * (1 + self.prng.below(block.size / 8 - 1));
                let bytes = header(16, 8, self.prng.below(9));
                put(&mut self.state.heap, at, bytes);
            }
        }
    }

    /// Chooses a quota, seldom one that is out of range.
    fn quota(&mut self) -> u32 {
        if self.prng.percent(2) {
            return QUOTAS as u32 + self.prng.odd_word().min(u32::MAX - QUOTAS as u32);
        }
        self.prng.below(self.style.quotas)
    }

    /// Chooses a length, seldom one that is not allowed.
    fn length(&mut self) -> u32 {
        if self.prng.percent(4) {
            return self.prng.odd_word();
        }
        1 + self.prng.below(self.style.longest)
    }

    /// Chooses a handle: mostly of a live object, else old, forged or any numbers.
    fn handle(&mut self) -> Handle {
        let live: Vec<Handle> = self.ledger.objects.iter().map(|o| o.handle).collect();
        let prng = &mut self.prng;
        match prng.below(20) {
            0 => handle(prng.odd_word(), prng.odd_word(), prng.odd_word()),
            1 => prng.pick(&self.seen),
            2 if !self.forged.is_empty() => prng.pick(&self.forged),
            3 if !live.is_empty() => {
                let mut wrong = prng.pick(&live);
                let part = prng.pick(&[1, 8, u32::MAX]);
                wrong.length = wrong.length.wrapping_add(part);
                wrong
            }
            4..8 if !live.is_empty() => {
                let whole = prng.pick(&live);
                narrowed(prng, whole)
            }
            _ if !live.is_empty() => prng.pick(&live),
            _ => prng.pick(&self.seen),
        }
    }

    /// Chooses a call with its arguments.
    fn choose(&mut self) -> Call {
        let quota = self.quota();
        if self.prng.below(1_000) < self.style.clearing {
            let bits = self.prng.pick(&[0, 1, 2, 4, 5, 6, 8, 0xFFFF_FFF8]);
            return Call::ClearPermissions(quota, bits);
        }
        if self.prng.below(1_000) < self.style.sweeping {
            return Call::Sweep;
        }
        let [allocations, claims, releases] = self.style.shares;
        let chosen = self.prng.below(100);
        if chosen < allocations {
            return self.choose_allocation(quota);
        }
        let handle = self.handle();
        if chosen < allocations + claims {
            return Call::Claim(quota, handle);
        }
        if chosen < allocations + claims + releases {
            return Call::Release(quota, handle);
        }
        match self.prng.below(20) {
            0 => Call::FreeAll(quota),
            1..10 => Call::Reallocate(quota, handle, self.length()),
            10..13 => Call::Lend(handle),
            13..15 => Call::Remaining(quota),
            15..18 => Call::CanRelease(quota, handle),
            _ => Call::Step(self.prng.index(self.state.heap.len() + 16) & !7),
        }
    }

    /// Chooses an allocate or an array.
    fn choose_allocation(&mut self, quota: u32) -> Call {
        if self.prng.percent(70) {
            return Call::Allocate(quota, self.length());
        }
        if self.prng.percent(5) {
            return Call::Array(quota, self.prng.odd_word(), self.prng.odd_word());
        }
        let size = 1 + self.prng.below(9);
        Call::Array(quota, self.length() / size, size)
    }
}

/// Gives a handle of a part of an object, seldom of no byte or with bytes outside.
fn narrowed(prng: &mut Prng, whole: Handle) -> Handle {
    let front = prng.below(whole.length);
    let outside = prng.below(2);
    let length = prng.below(whole.length - front + 1 + outside);
    handle(whole.base + front, length, whole.serial)
}

/// Makes lists of a style with several seeds and adds up what was given.
pub fn lists(style: Style, seeds: Range<u64>) -> Tally {
    let mut total = Tally::default();
    for seed in seeds {
        let tally = Run::new(style, seed).run();
        for (sum, count) in total.iter_mut().zip(tally) {
            *sum += count;
        }
    }
    total
}
