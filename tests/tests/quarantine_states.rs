//! Sweeps (rules, section 22) of states that no replay reaches.

use lokhazim_reference::MAX_HEAP;
use lokhazim_tests::cases::states::{sound, Plan};
use lokhazim_tests::judge::cut::quarantined;
use lokhazim_tests::run::calls::Pair;
use lokhazim_tests::run::histories::once;
use lokhazim_tests::seed::Seed;
use lokhazim_tests::state::{Answer, Call, State};

/// The seed of the states.
const SEED: u64 = 20_261_116;

/// Sweeps on both sides, on a copy by the ledger's rules too, and checks the answer.
fn sweeps(pair: &mut Pair, state: &mut State, sum: usize) {
    let wanted = Answer::accepted(&[sum as u64]);
    let checked = once(pair, state.clone(), Call::Sweep);
    assert_eq!(checked.unwrap_or_else(|f| panic!("{f}")), wanted);
    let answer = pair.call(state, Call::Sweep);
    assert_eq!(answer.unwrap_or_else(|f| panic!("{f}")), wanted);
}

/// Every quarantined block is free then, the sum is their size, and the accounts are as they were.
#[test]
fn sweeps_of_any_consistent_state() {
    let (mut pair, mut swept) = (Pair::new(), 0);
    for n in 0..600 {
        pair.begin("sweep", SEED, n);
        let mut seed = Seed::of_case(SEED, n);
        let before = match n % 4 {
            0 => Plan::new(&mut seed, MAX_HEAP as u32).render(&mut seed),
            _ => sound(&mut seed),
        };
        let waiting = quarantined(&before.heap);
        let mut state = before.clone();
        let sum = waiting.iter().map(|block| block.len()).sum();
        sweeps(&mut pair, &mut state, sum);
        assert_eq!(state.accounts, before.accounts);
        assert_eq!(quarantined(&state.heap), []);
        if waiting.is_empty() {
            assert_eq!(state, before);
        }
        sweeps(&mut pair, &mut state, 0);
        swept += waiting.len();
    }
    println!("{}\nquarantined blocks swept: {swept}", pair.tally);
    assert!(swept >= 10_000, "{swept}");
}
