//! Lists of releases in two orders, from fixed seeds: bytes, accounts and answers are compared, and
//! what the lists must have reached is checked.

use lokhazim_tests::run::calls::Pair;
use lokhazim_tests::run::cleanup::lists;
use lokhazim_tests::state::Call;

/// The seed of every list in the gate.
const SEED: u64 = 20_260_310;

/// How many states lists are made of.
const STATES: u64 = 600;

#[test]
fn every_order_leaves_the_same() {
    let mut pair = Pair::new();
    for n in 0..STATES {
        lists(&mut pair, SEED, n).unwrap_or_else(|failure| panic!("{failure}"));
    }
    println!("{}", pair.tally);
    let cases = |name| pair.tally.cases.get(name).copied().unwrap_or(0);
    for kind in [
        "a list in two orders",
        "a list in two orders, with quarantine",
    ] {
        assert!(cases(kind) >= STATES / 2, "{kind}");
    }
    assert!(pair.tally.swept >= STATES / 4);
    assert!(cases("answers in another order") >= STATES / 2);
    assert_eq!(cases("a list with a refused release"), STATES);
    assert!(cases("a quota's releases and its free-all") >= STATES / 2);
    let releases = pair.tally.calls[Call::Release(0, Default::default()).kind()];
    for refusal in [3, 5, 6] {
        assert!(releases[refusal] >= 100, "too few refusals by {refusal}");
    }
    assert!(releases[0] >= 20_000, "too few accepted releases");
    assert!(pair.tally.joined_both >= 1_000 && pair.tally.joined_neither >= 1_000);
}
