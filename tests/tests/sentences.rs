//! Each rule about the ledger notices what it is for: a right step, and then one thing wrong.

use lokhazim_reference::{Accounts, Handle, QUOTAS};
use lokhazim_tests::judge::ledger::Ledger;
use lokhazim_tests::judge::sentences::{wrong, Step};
use lokhazim_tests::state::{Answer, Call, State, PLAIN, QUARANTINE, SECOND};

/// A call with everything before and after it, to be changed.
#[derive(Clone)]
struct Recorded {
    call: Call,
    answer: Answer,
    ledger_before: Ledger,
    ledger: Ledger,
    before: State,
    after: State,
}

impl Recorded {
    /// Makes a call by the reference and records it.
    fn new(before: &State, call: Call) -> Recorded {
        let ledger_before = Ledger::read_off(before);
        let (mut after, mut ledger) = (before.clone(), ledger_before.clone());
        let answer = after.perform(call);
        ledger.record(call, &answer);
        Recorded {
            call,
            answer,
            ledger_before,
            ledger,
            before: before.clone(),
            after,
        }
    }

    /// Gives the rules that are broken.
    fn wrong(&self) -> Vec<String> {
        wrong(&Step {
            call: self.call,
            answer: &self.answer,
            ledger_before: &self.ledger_before,
            ledger: &self.ledger,
            before: &self.before,
            after: &self.after,
        })
    }

    /// Checks that a change breaks the rule with this name.
    fn breaks(&self, sentence: &str, change: impl FnOnce(&mut Recorded)) {
        let mut changed = self.clone();
        change(&mut changed);
        let wrong = changed.wrong();
        let named = wrong.iter().any(|line| line.contains(sentence));
        assert!(named, "{sentence}: {wrong:?}");
    }
}

/// Gives a heap of 256 bytes with an object of two quotas, a gap and another object.
fn begin() -> State {
    let mut state = State {
        heap: vec![0; 256],
        accounts: Accounts::default(),
    };
    let calls = [
        Call::Open([1_000; QUOTAS], PLAIN),
        Call::Allocate(0, 16),
        Call::Allocate(1, 24),
        Call::Allocate(2, 40),
        Call::Claim(1, first()),
        Call::Write(first(), 3, 7),
        Call::FreeAll(1),
        Call::Claim(1, first()),
    ];
    for call in calls {
        assert!(state.perform(call).is_accepted(), "{call}");
    }
    state
}

/// The first object.
fn first() -> Handle {
    Handle {
        base: 8,
        length: 16,
        serial: 1,
    }
}

/// Five bytes of the first object, from its third on.
fn part() -> Handle {
    Handle {
        base: 10,
        length: 5,
        serial: 1,
    }
}

#[test]
fn right_steps_break_nothing() {
    let calls = [
        Call::Open([5; QUOTAS], PLAIN),
        Call::Allocate(3, 20),
        Call::Array(3, 5, 5),
        Call::Allocate(3, 200),
        Call::Claim(4, first()),
        Call::Release(0, first()),
        Call::FreeAll(2),
        Call::Reallocate(0, first(), 48),
        Call::Lend(first()),
        Call::Write(first(), 15, 9),
        Call::Remaining(0),
        Call::CanRelease(5, first()),
        Call::List(24),
        Call::Check,
        Call::ClearPermissions(0, 3),
        Call::ClearPermissions(QUOTAS as u32, 0),
        Call::Claim(4, part()),
        Call::Release(0, part()),
        Call::CanRelease(0, part()),
        Call::Reallocate(0, part(), 48),
        Call::Lend(part()),
        Call::Write(part(), 4, 9),
        Call::Write(part(), 5, 9),
    ];
    for call in calls {
        assert_eq!(Recorded::new(&begin(), call).wrong(), [""; 0], "{call}");
    }
}

#[test]
fn a_wrong_state_is_noticed() {
    let step = Recorded::new(&begin(), Call::Claim(4, first()));
    step.breaks("accounts are sound", |s| s.after.heap[26] ^= 1);
    step.breaks("live objects", |s| s.after.heap[4] = 9);
    step.breaks("used records", |s| s.after.accounts.holds[0].count += 1);
    step.breaks("grants are", |s| s.after.accounts.quotas[7].grant += 1);
    step.breaks("grants are", |s| s.after.accounts.last_serial += 1);
    step.breaks("remainders", |s| s.after.accounts.quotas[4].remainder += 24);
    step.breaks("keep their bytes", |s| s.after.heap[11] = 0);
    step.breaks("accounts are sound", |s| {
        s.after.accounts.quotas[7].permissions = 15
    });
}

#[test]
fn a_wrong_permission_is_noticed() {
    let mut state = begin();
    state.perform(Call::ClearPermissions(4, 2));
    let clear = Recorded::new(&state, Call::ClearPermissions(4, 0xFFFF_FFF1));
    assert_eq!(clear.answer, Answer::accepted(&[4]));
    clear.breaks("permissions are", |s| {
        s.after.accounts.quotas[4].permissions = 5
    });
    clear.breaks("no permission comes back", |s| {
        s.after.accounts.quotas[4].permissions = 6
    });
    clear.breaks("no permission comes back", |s| {
        s.after.accounts.quotas[3].permissions = 3
    });
    clear.breaks("answers follow", |s| s.answer.numbers[0] = 5);
    let claim = Recorded::new(&state, Call::Claim(4, first()));
    assert_eq!(claim.answer, Answer::refused(12));
    claim.breaks("as the table says", |s| s.answer = Answer::refused(8));
    claim.breaks("as the table says", |s| s.answer = Answer::accepted(&[16]));
    claim.breaks("no permission comes back", |s| {
        s.after.accounts.quotas[4].permissions = 7
    });
    let release = Recorded::new(&state, Call::Release(0, first()));
    release.breaks("as the table says", |s| s.answer = Answer::refused(12));
}

/// The same heap with quarantine, in which the gap is a quarantined block.
fn begin_with_quarantine() -> State {
    let mut state = State {
        heap: vec![0; 256],
        accounts: Accounts::default(),
    };
    let calls = [
        Call::Open([1_000; QUOTAS], QUARANTINE),
        Call::Allocate(0, 16),
        Call::Allocate(1, 24),
        Call::Allocate(2, 40),
        Call::FreeAll(1),
    ];
    for call in calls {
        assert!(state.perform(call).is_accepted(), "{call}");
    }
    state
}

#[test]
fn right_steps_with_quarantine_break_nothing() {
    let calls = [
        Call::Sweep,
        Call::Release(0, first()),
        Call::FreeAll(2),
        Call::Allocate(3, 24),
        Call::Allocate(3, 200),
        Call::Reallocate(0, first(), 48),
        Call::Open([5; QUOTAS], PLAIN),
    ];
    for call in calls {
        let step = Recorded::new(&begin_with_quarantine(), call);
        assert_eq!(step.wrong(), Vec::<String>::new(), "{call}");
    }
}

#[test]
fn a_wrong_quarantine_is_noticed() {
    let state = begin_with_quarantine();
    let release = Recorded::new(&state, Call::Release(0, first()));
    let blocks = "quarantined blocks are the ledger's";
    let bytes = "quarantined blocks keep their bytes";
    // Freed at once, joined with the block behind, not cleared.
    release.breaks(blocks, |s| s.after.heap[4..8].fill(0));
    release.breaks(blocks, |s| s.ledger.quarantined.truncate(1));
    release.breaks(bytes, |s| s.after.heap[8] = 1);
    release.breaks(bytes, |s| s.after.heap[32] = 1);
    release.breaks("the kind", |s| s.after.accounts.kind = 0);
    release.breaks("are sound", |s| s.after.accounts.kind = 0);
    release.breaks("are sound", |s| s.after.accounts.kind = 2);
    let sweep = Recorded::new(&state, Call::Sweep);
    sweep.breaks(blocks, |s| s.after = s.before.clone());
    sweep.breaks("answers follow", |s| s.answer.numbers[0] -= 8);
    sweep.breaks("answers follow", |s| s.answer.numbers[0] = 0);
    sweep.breaks("as the table says", |s| s.answer = Answer::refused(3));
    // The gap of 32 bytes is no space while it waits.
    let waits = Recorded::new(&state, Call::Allocate(3, 24));
    assert_eq!(waits.answer.handle().base, 112);
    waits.breaks("suitable run", |s| {
        s.answer = Answer::accepted(&[32, 24, 4])
    });
    waits.breaks("shares a byte", |s| s.ledger.objects[2].handle.base = 32);
    let full = Recorded::new(&state, Call::Allocate(3, 152));
    assert_eq!(full.answer, Answer::refused(11));
}

/// A heap of the second edition with an object behind which a length of 4,089 has its place at 32; in
/// the first it would be 24.
fn begin_in_the_second_edition() -> State {
    let mut state = State {
        heap: vec![0; 8_192],
        accounts: Accounts::default(),
    };
    for call in [Call::Open([10_000; QUOTAS], SECOND), Call::Allocate(0, 8)] {
        assert!(state.perform(call).is_accepted(), "{call}");
    }
    state
}

#[test]
fn a_wrong_edition_is_noticed() {
    let state = begin_in_the_second_edition();
    let request = Recorded::new(&state, Call::Allocate(1, 4_089));
    assert_eq!(request.wrong(), Vec::<String>::new());
    assert_eq!(request.answer, Answer::accepted(&[32, 4_096, 2]));
    request.breaks("the edition", |s| s.after.accounts.edition = 0);
    request.breaks("are sound", |s| s.after.accounts.edition = 2);
    // Where the first edition would put it, and how it would round another.
    request.breaks("suitable run", |s| {
        s.answer = Answer::accepted(&[24, 4_096, 2])
    });
    let longer = Recorded::new(&state, Call::Allocate(1, 4_097));
    longer.breaks("suitable run", |s| {
        s.answer = Answer::accepted(&[32, 4_104, 2])
    });
    let opened = Recorded::new(&state, Call::Open([5; QUOTAS], PLAIN));
    assert_eq!(opened.wrong(), Vec::<String>::new());
    opened.breaks("the edition", |s| s.after.accounts.edition = 1);
}

#[test]
fn a_wrong_ledger_is_noticed() {
    let step = Recorded::new(&begin(), Call::Allocate(4, 8));
    step.breaks("shares a byte", |s| s.ledger.objects[0].handle.length = 24);
    step.breaks("shares a byte", |s| s.ledger.objects[0].handle.base = 4);
    step.breaks("stay at their place", |s| {
        s.ledger.objects[0].handle.base = 16
    });
}

#[test]
fn a_wrong_answer_is_noticed() {
    let claim = Recorded::new(&begin(), Call::Claim(4, first()));
    claim.breaks("answers follow", |s| s.answer.numbers[0] += 8);
    claim.breaks("as the table says", |s| s.answer = Answer::refused(8));
    let refused = Recorded::new(&begin(), Call::Release(5, first()));
    refused.breaks("as the table says", |s| s.answer = Answer::refused(5));
    refused.breaks("answers follow", |s| s.answer.numbers[0] = 24);
    let release = Recorded::new(&begin(), Call::Release(0, first()));
    release.breaks("answers follow", |s| s.answer.numbers[0] = 0);
}

#[test]
fn a_wrong_answer_by_a_narrowed_handle_is_noticed() {
    let claim = Recorded::new(&begin(), Call::Claim(4, part()));
    assert_eq!(claim.answer, Answer::accepted(&[16]));
    claim.breaks("answers follow", |s| s.answer.numbers[0] = 5);
    claim.breaks("as the table says", |s| s.answer = Answer::refused(5));
    let release = Recorded::new(&begin(), Call::Release(0, part()));
    assert_eq!(release.answer, Answer::accepted(&[24]));
    release.breaks("answers follow", |s| s.answer.numbers[0] = 13);
    let lend = Recorded::new(&begin(), Call::Lend(part()));
    lend.breaks("answers follow", |s| s.answer = Answer::accepted(&[8, 24]));
    let write = Recorded::new(&begin(), Call::Write(part(), 4, 9));
    write.breaks("keep their bytes", |s| s.after.heap[14] = 0);
    write.breaks("keep their bytes", |s| s.after.heap[12] = 9);
    let behind = Recorded::new(&begin(), Call::Write(part(), 5, 9));
    behind.breaks("keep their bytes", |s| s.after.heap[15] = 9);
    let reallocate = Recorded::new(&begin(), Call::Reallocate(0, part(), 48));
    assert_eq!(reallocate.answer, Answer::refused(5));
    reallocate.breaks("as the table says", |s| s.answer = Answer::refused(8));
    reallocate.breaks("as the table says", |s| {
        s.answer = Answer::accepted(&[112, 48, 4])
    });
    let none = Handle {
        length: 0,
        ..part()
    };
    for outside in [none, Handle { base: 20, ..part() }] {
        let lend = Recorded::new(&begin(), Call::Lend(outside));
        assert_eq!((lend.answer, lend.wrong()), (Answer::refused(5), vec![]));
        lend.breaks("as the table says", |s| s.answer = Answer::accepted(&[]));
    }
}

#[test]
fn a_wrong_word_about_space_is_noticed() {
    let step = Recorded::new(&begin(), Call::Allocate(4, 8));
    step.breaks("suitable run", |s| s.answer = Answer::refused(11));
    step.breaks("suitable run", |s| s.answer.numbers[0] += 8);
    let full = Recorded::new(&begin(), Call::Allocate(4, 200));
    assert_eq!(full.answer, Answer::refused(11));
    full.breaks("suitable run", |s| {
        s.answer = Answer::accepted(&[112, 200, 4])
    });
}

#[test]
fn wrong_bytes_of_a_new_object_are_noticed() {
    let allocate = Recorded::new(&begin(), Call::Allocate(4, 8));
    let base = allocate.answer.handle().base as usize;
    allocate.breaks("keep their bytes", |s| s.after.heap[base] = 1);
    let reallocate = Recorded::new(&begin(), Call::Reallocate(0, first(), 48));
    let base = reallocate.answer.handle().base as usize;
    reallocate.breaks("keep their bytes", |s| s.after.heap[base + 3] = 0);
    reallocate.breaks("keep their bytes", |s| s.after.heap[base + 20] = 1);
}
