//! Undamaged histories: lists of calls from an opening or from a consistent state, with the caller's
//! writes between them, compared call by call and checked against the ledger.

use lokhazim_reference::{Accounts, Handle, HOLDS, QUOTAS};

use crate::cases::choice::{
    choice, choose, grants, Habits, Weights, GROWING, MIXED, SHARING, SHRINKING,
};
use crate::cases::forged::View;
use crate::cases::narrowing::sometimes_narrowed;
use crate::cases::states::{heap_length, look_alike, sound};
use crate::judge::compare::{call_failure, Failure};
use crate::judge::cut::blocks;
use crate::judge::forms::FORMS;
use crate::judge::ledger::Ledger;
use crate::judge::rules::broken;
use crate::judge::sentences::{wrong, Step};
use crate::run::calls::Pair;
use crate::run::moves::there_and_back;
use crate::seed::Seed;
use crate::state::{Answer, Call, State};

/// How a history begins.
#[derive(Clone, Copy, Debug, PartialEq, Eq)]
pub enum Beginning {
    /// By an accepted opening of a heap of any bytes.
    Opening,
    /// By an accepted opening, many small objects, and claims until no record is unused.
    Crowd,
    /// By an accepted opening of a long heap, for long objects.
    Long,
    /// By a consistent state that was made directly.
    SoundState,
}

/// A history as far as it has come.
struct History<'a> {
    pair: &'a mut Pair,
    state: State,
    ledger: Ledger,
    given_out: Vec<Handle>,
    saved: Option<Saved>,
}

/// An image of a history, and the ledger and the state of that moment.
struct Saved {
    image: Vec<u8>,
    ledger: Ledger,
    state: State,
}

/// Runs the n-th history of a seed with so many calls.
pub fn run(
    pair: &mut Pair,
    beginning: Beginning,
    seed: u64,
    n: u64,
    calls: u32,
) -> Result<(), Failure> {
    let part = match beginning {
        Beginning::Opening => "history",
        Beginning::Crowd => "crowd",
        Beginning::Long => "long",
        Beginning::SoundState => "sound-state",
    };
    pair.begin(part, seed, n);
    let mut numbers = Seed::of_case(seed, n);
    let mut history = begin(pair, beginning, &mut numbers)?;
    let mut habits = habits(&mut numbers, history.state.heap.len() as u32);
    match beginning {
        Beginning::Opening => {}
        Beginning::Crowd => history.crowd(&mut numbers)?,
        Beginning::Long => habits.longest = numbers.pick(&[4_200, 8_400, 16_800]),
        Beginning::SoundState => habits.weights = mood(&mut numbers),
    }
    for _ in 0..calls {
        let answer = history.step(&mut numbers, &habits)?;
        match answer.refusal {
            11 if history.ledger.waiting() > 0 && numbers.percent(30) => {
                history.call(Call::Sweep)?;
            }
            8 | 9 | 11 if numbers.percent(40) => habits.weights = SHRINKING,
            _ if history.ledger.objects.is_empty() => habits.weights = GROWING,
            _ if numbers.percent(6) => habits.weights = mood(&mut numbers),
            12 if numbers.percent(10) => history.permit(&mut numbers, &habits)?,
            _ => {}
        }
        history.now_and_then(&mut numbers)?;
    }
    Ok(())
}

/// Makes one call on a state, and checks the rules about the ledger if the state is consistent.
pub fn once(pair: &mut Pair, state: State, call: Call) -> Result<Answer, Failure> {
    if !broken(&state).is_empty() {
        return pair.call(&mut state.clone(), call);
    }
    let ledger = Ledger::read_off(&state);
    let mut history = History {
        pair,
        state,
        ledger,
        given_out: Vec::new(),
        saved: None,
    };
    history.call(call)
}

/// Begins a history.
fn begin<'a>(
    pair: &'a mut Pair,
    beginning: Beginning,
    seed: &mut Seed,
) -> Result<History<'a>, Failure> {
    let (length, grants) = match beginning {
        Beginning::Crowd => (8 * seed.between(200, 500), [1_000_000; QUOTAS]),
        Beginning::Long => (
            seed.pick(&[16_384, 24_576, 32_760, 32_768]),
            [1_000_000; QUOTAS],
        ),
        _ => (heap_length(seed), grants(seed)),
    };
    let mut state = State {
        heap: vec![0; length as usize],
        accounts: Accounts::default(),
    };
    state.heap.fill_with(|| seed.byte());
    match beginning {
        Beginning::SoundState => state = sound(seed),
        _ => pair
            .call(&mut state, Call::Open(grants, choice(seed)))
            .map(|_| ())?,
    }
    let ledger = Ledger::read_off(&state);
    Ok(History {
        pair,
        state,
        ledger,
        given_out: Vec::new(),
        saved: None,
    })
}

/// Chooses the habits of a history.
fn habits(seed: &mut Seed, heap_length: u32) -> Habits {
    Habits {
        weights: GROWING,
        quotas: seed.pick(&[1, 2, 8, QUOTAS as u32]),
        wild: seed.pick(&[3, 10, 25]),
        narrow: seed.pick(&[0, 20, 60]),
        longest: seed.pick(&[8, 24, 64, heap_length / 16, heap_length / 5]),
    }
}

/// Chooses which calls are made for a while. Few histories open again.
fn mood(seed: &mut Seed) -> Weights {
    let mut weights = seed.pick(&[GROWING, GROWING, SHRINKING, SHARING, MIXED]);
    if seed.percent(95) {
        weights[0] = 0;
    }
    weights
}

impl History<'_> {
    /// Makes one chosen call.
    fn step(&mut self, seed: &mut Seed, habits: &Habits) -> Result<Answer, Failure> {
        let view = View::new(&self.state.heap, &self.given_out);
        let call = choose(seed, habits, &view, &self.state.accounts);
        self.call(call)
    }

    /// Makes a call, records it in the ledger and checks every rule.
    fn call(&mut self, call: Call) -> Result<Answer, Failure> {
        let (before, ledger_before) = (self.state.clone(), self.ledger.clone());
        let answer = self.pair.call(&mut self.state, call)?;
        self.ledger.record(call, &answer);
        let wrong = wrong(&Step {
            call,
            answer: &answer,
            ledger_before: &ledger_before,
            ledger: &self.ledger,
            before: &before,
            after: &self.state,
        });
        if !wrong.is_empty() {
            return Err(call_failure(&self.pair.origin, &before, call, &wrong));
        }
        let makes = matches!(
            call,
            Call::Allocate(..) | Call::Array(..) | Call::Reallocate(..)
        );
        if makes && answer.is_accepted() {
            self.given_out.push(answer.handle());
        }
        Ok(answer)
    }

    /// Writes an image of the state, reads it back into other bytes, and goes on with what was read.
    /// A state that the form can't carry is refused, and the history goes on without an image.
    fn go_through_an_image(&mut self, seed: &mut Seed) -> Result<(), Failure> {
        let form = seed.pick(&FORMS);
        let lent = vec![0; form.length(self.state.heap.len())];
        let (refusal, image) = self.pair.write_image(form, &self.state, &lent)?;
        let wanted = if form.carries(&self.state) { 0 } else { 28 };
        if refusal != wanted {
            return Err(self.wrong_image("is not written as the rules say"));
        }
        if refusal == 0 {
            there_and_back(self.pair, form, &self.state, &image, &mut seed.clone())?;
            let (ledger, state) = (self.ledger.clone(), self.state.clone());
            let saved = Saved {
                image,
                ledger,
                state,
            };
            self.saved = Some(saved);
            self.go_back(seed)?;
        }
        Ok(())
    }

    /// Reads the last image again into other bytes, and goes on with its state and its ledger.
    fn go_back(&mut self, seed: &mut Seed) -> Result<(), Failure> {
        let Some(saved) = &self.saved else {
            return Ok(());
        };
        let mut other = saved.state.heap.clone();
        other.fill_with(|| seed.byte());
        let (refusal, restored) = self.pair.read_image(&saved.image, &other)?;
        if refusal != 0 || restored != saved.state {
            return Err(self.wrong_image("is not read back"));
        }
        self.state = restored;
        self.ledger = saved.ledger.clone();
        Ok(())
    }

    /// Says what is wrong with an image of the history.
    fn wrong_image(&self, what: &str) -> Failure {
        Failure(format!("{}: an image {what}", self.pair.origin))
    }

    /// Opens again, or goes back to an image, where no quota that is used may allocate any more.
    fn permit(&mut self, seed: &mut Seed, habits: &Habits) -> Result<(), Failure> {
        let used = &self.ledger.permissions[..habits.quotas as usize];
        if used.iter().any(|bits| bits % 2 == 1) {
            return Ok(());
        }
        match seed.percent(50) {
            true => self.go_back(seed),
            false => self
                .call(Call::Open(grants(seed), choice(seed)))
                .map(|_| ()),
        }
    }

    /// Does now and then what a single call does not.
    fn now_and_then(&mut self, seed: &mut Seed) -> Result<(), Failure> {
        match seed.below(400) {
            0..=11 => self.write_look_alikes(seed),
            12..=17 => self.list_and_ask(seed)?,
            18 => self.claim_to_the_end(seed)?,
            19 => self.fill_records(seed)?,
            22..=25 => self.go_through_an_image(seed)?,
            26 => self.go_back(seed)?,
            _ => {}
        }
        Ok(())
    }

    /// Writes bytes that look like headers into an object, as a caller does through lend.
    fn write_look_alikes(&mut self, seed: &mut Seed) {
        let objects: Vec<Handle> = self.ledger.objects.iter().map(|o| o.handle).collect();
        let Some(object) = seed.any_of(&objects) else {
            return;
        };
        let start = object.base as usize;
        let part = &mut self.state.heap[start..start + object.length as usize];
        for (place, bytes) in part.chunks_exact_mut(8).enumerate() {
            let size = object.length + 8;
            bytes.copy_from_slice(&look_alike(seed, size, object.serial, place as u32));
        }
    }

    /// Walks the whole listing, and asks some quotas what remains.
    fn list_and_ask(&mut self, seed: &mut Seed) -> Result<(), Failure> {
        for quota in [0, seed.below(QUOTAS as u32), QUOTAS as u32 - 1] {
            self.call(Call::Remaining(quota))?;
        }
        let wanted = blocks(&self.state.heap);
        let mut at = 0;
        for block in wanted.iter().map(Some).chain([None]) {
            let call = Call::List(at);
            let answer = self.call(call)?;
            let numbers = block.map(|b| [1, b.offset, b.size, b.serial].map(u64::from));
            if answer != Answer::accepted(&numbers.unwrap_or_default()) {
                let wrong = ["broken: the listing gives the blocks in order".to_owned()];
                return Err(call_failure(&self.pair.origin, &self.state, call, &wrong));
            }
            at += answer.numbers[2] as usize;
        }
        Ok(())
    }

    /// Claims an object a few times, or until its count is 255 and the claim is refused.
    fn claim_to_the_end(&mut self, seed: &mut Seed) -> Result<(), Failure> {
        let records = self.ledger.records();
        let Some((serial, quota, _)) = seed.any_of(&records) else {
            return Ok(());
        };
        let mut objects = self.ledger.objects.iter().map(|o| o.handle);
        let object = objects.find(|handle| handle.serial == serial);
        let claims = seed.pick(&[20, 256]);
        for whole in object.into_iter().cycle().take(claims) {
            let handle = sometimes_narrowed(seed, 50, whole);
            if !self.call(Call::Claim(quota as u32, handle))?.is_accepted() {
                break;
            }
        }
        Ok(())
    }

    /// Makes many small objects and uses up the records.
    fn crowd(&mut self, seed: &mut Seed) -> Result<(), Failure> {
        for _ in 0..seed.pick(&[17, 20, 60, 120]) {
            self.call(Call::Allocate(
                seed.below(QUOTAS as u32),
                seed.between(1, 16),
            ))?;
        }
        self.fill_records(seed)
    }

    /// Claims objects for every quota until no record is unused, where there are objects enough.
    fn fill_records(&mut self, seed: &mut Seed) -> Result<(), Failure> {
        let objects = self.ledger.objects.iter().map(|object| object.handle);
        let mut pairs: Vec<(u32, Handle)> = objects
            .flat_map(|object| (0..QUOTAS as u32).map(move |quota| (quota, object)))
            .collect();
        if pairs.len() <= HOLDS {
            return Ok(());
        }
        seed.shuffle(&mut pairs);
        for (quota, object) in pairs {
            if self.call(Call::Claim(quota, object))?.refusal == 9 {
                break;
            }
        }
        Ok(())
    }
}
