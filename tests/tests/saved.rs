//! What the harness makes and saves: states are as they claim, and a saved call is read as it was.

use lokhazim_reference::{HOLDS, QUOTAS};
use lokhazim_tests::cases::choice::{one_of_each, Habits, MIXED};
use lokhazim_tests::cases::forged::View;
use lokhazim_tests::cases::states::sound;
use lokhazim_tests::judge::case::{read_case, write_case};
use lokhazim_tests::judge::cut::{blocks, live_handles, quarantined, GREATEST_SERIAL};
use lokhazim_tests::judge::forms::{lacks_permission, FORM_1};
use lokhazim_tests::judge::ledger::unit;
use lokhazim_tests::judge::rules::broken;
use lokhazim_tests::seed::Seed;
use lokhazim_tests::state::Call;

#[test]
fn a_state_that_is_made_sound_breaks_no_sentence() {
    for n in 0..2_000 {
        let state = sound(&mut Seed::of_case(1, n));
        assert_eq!(broken(&state), [], "state {n}");
        assert!(
            state.clone().perform(Call::Check).is_accepted(),
            "state {n}"
        );
    }
}

#[test]
fn states_that_are_made_sound_differ_widely() {
    let states: Vec<_> = (0..1_000)
        .map(|n| sound(&mut Seed::of_case(2, n)))
        .collect();
    let count =
        |of: fn(&lokhazim_tests::state::State) -> bool| states.iter().filter(|s| of(s)).count();
    assert!(count(|s| s.heap.len() == 64) >= 10);
    assert!(count(|s| s.heap.len() >= 16_384) >= 20);
    assert!(count(|s| s.accounts.last_serial == GREATEST_SERIAL) >= 40);
    assert!(count(|s| s.accounts.kind == 0) >= 400 && count(|s| s.accounts.kind == 1) >= 200);
    assert!(count(|s| s.accounts.edition == 0) >= 400 && count(|s| s.accounts.edition == 1) >= 200);
    assert!(count(|s| quarantined(&s.heap).len() > 1) >= 100);
    assert!(count(|s| quarantined(&s.heap).len() > HOLDS) >= 2);
    assert!(count(|s| s.accounts.holds.iter().all(|hold| hold.is_used())) >= 10);
    assert!(count(|s| blocks(&s.heap).iter().all(|block| block.serial != 0)) >= 40);
    assert!(count(|s| blocks(&s.heap).len() >= 40) >= 40);
    assert!(count(lacks_permission) >= 200 && count(|s| !lacks_permission(s)) >= 500);
    let used = |state: &lokhazim_tests::state::State| {
        let holds = state.accounts.holds.iter();
        holds.filter(|hold| hold.is_used()).count()
    };
    assert!(states.iter().filter(|s| used(s) > FORM_1.records).count() >= 120);
    assert!(count(|s| FORM_1.carries(s)) >= 200 && count(|s| !FORM_1.carries(s)) >= 500);
    let differs = |s: &lokhazim_tests::state::State, edition: u8| {
        let mut objects = live_handles(&s.heap).into_iter().map(|h| h.length);
        s.accounts.edition == edition && objects.any(|n| unit(0, n) != unit(1, n))
    };
    for edition in [0, 1] {
        let found = states.iter().filter(|s| differs(s, edition)).count();
        assert!(found >= 20, "edition {edition}: {found}");
    }
    let long = |b: &lokhazim_reference::Block| b.serial != 0 && b.size >= 8_200;
    assert!(
        states
            .iter()
            .filter(|s| blocks(&s.heap).iter().any(long))
            .count()
            >= 40
    );
}

#[test]
fn a_saved_call_is_read_as_it_was() {
    let habits = Habits {
        weights: MIXED,
        quotas: QUOTAS as u32,
        wild: 50,
        narrow: 20,
        longest: 100,
    };
    for n in 0..100 {
        let mut seed = Seed::of_case(3, n);
        let state = sound(&mut seed);
        let view = View::new(&state.heap, &[]);
        for call in one_of_each(&mut seed, &habits, &view, &state.accounts) {
            let text = write_case(&state, call);
            assert_eq!(read_case(&text), Some((state.clone(), call)), "{call}");
        }
    }
}
