//! The accounts as words, as the harness lends them: every field at its place, and every bit of padding
//! watched.

use lokhazim_reference::{Accounts, HOLDS, QUOTAS};
use lokhazim_tests::cases::states::sound;
use lokhazim_tests::run::words::{accounts_of, padding_differences, Words, WORDS};
use lokhazim_tests::seed::Seed;
use lokhazim_tests::state::{Call, State, PLAIN};

/// How many bits of padding the accounts have.
const PADDING: usize = 24 * QUOTAS + 16 * HOLDS + 16;

#[test]
fn accounts_are_read_whatever_their_padding_is() {
    let mut seen = [0; WORDS];
    for n in 0..200 {
        let state = sound(&mut Seed::of_case(4, n));
        let call = Call::Allocate(n as u32, 8);
        for mut words in [Words::guarded(&state, call), Words::exact(&state, call)] {
            assert_eq!(accounts_of(words.part()), state.accounts, "state {n}");
            assert!(words.guards_hold());
        }
        let again = *Words::guarded(&state, call).part();
        assert_eq!(again, *Words::exact(&state, call).part(), "state {n}");
        let empty = State {
            heap: Vec::new(),
            accounts: Accounts {
                last_serial: n as u32,
                ..Accounts::default()
            },
        };
        let words = *Words::exact(&empty, call).part();
        seen.iter_mut()
            .zip(words)
            .for_each(|(all, word)| *all |= word);
    }
    seen[3 * QUOTAS] = 0;
    let bits: u32 = seen.iter().map(|word| word.count_ones()).sum();
    assert_eq!(
        bits as usize, PADDING,
        "each bit of padding is set at times"
    );
}

#[test]
fn a_changed_bit_is_told_exactly_if_it_is_padding() {
    let state = sound(&mut Seed::of_case(5, 0));
    let before = *Words::exact(&state, Call::Check).part();
    let mut told = 0;
    for place in 0..WORDS {
        for bit in 0..32 {
            let mut after = before;
            after[place] ^= 1 << bit;
            let wrong = padding_differences(&before, &after, Call::Check);
            let kept = accounts_of(&after) == state.accounts;
            assert_eq!(wrong.len(), usize::from(kept), "word {place}, bit {bit}");
            told += wrong.len();
        }
    }
    assert_eq!(told, PADDING);
}

#[test]
fn an_opening_has_to_set_padding() {
    let state = sound(&mut Seed::of_case(6, 0));
    let opens = Call::Open([0; QUOTAS], PLAIN);
    let before = *Words::exact(&state, opens).part();
    assert!(!padding_differences(&before, &before, opens).is_empty());
    assert!(padding_differences(&before, &[0; WORDS], opens).is_empty());
}
