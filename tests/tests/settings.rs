//! Settings by the proved code and by the reference: small stores cut at every byte, values around 64
//! bytes, versions that fall, used lengths beyond the bytes, room to the byte, and random stores.

use lokhazim_reference::Store;
use lokhazim_tests::run::boundary::settings::{entry as nth, EntryReply, FindReply};
use lokhazim_tests::run::settings::{damaged, entry, good, Made, Settings};
use lokhazim_tests::seed::Seed;

/// The seed of every case.
const SEED: u64 = 20_261_116;

/// A store whose bytes are all used.
fn whole(bytes: &[u8]) -> Store<'_> {
    let used = bytes.len();
    Store { bytes, used }
}

/// The first of these bytes.
fn front(bytes: &[u8], used: usize) -> Store<'_> {
    Store { bytes, used }
}

/// What is expected where a value lies in a store, or where a lookup is refused.
fn at(store: u32, start: usize, end: usize) -> FindReply {
    FindReply {
        refusal: 0,
        store,
        start,
        end,
    }
}

fn refused(refusal: u32) -> FindReply {
    FindReply {
        refusal,
        store: 0,
        start: 0,
        end: 0,
    }
}

#[test]
fn the_rows_of_the_rules() {
    let mut settings = Settings::default();
    let four = [
        entry(1, 5, &[20]),
        entry(3, 5, &[21, 22]),
        entry(3, 6, &[23]),
        entry(3, 5, &[]),
    ]
    .concat();
    let small = entry(513, 7, &[10, 11]);
    let mut find = |board: Store<'_>, defaults: Store<'_>, name, version, expected| {
        assert_eq!(settings.find(board, defaults, name, version), expected);
    };
    find(whole(&[]), whole(&[]), 5, 9, refused(42));
    find(front(&[255, 255], 0), whole(&[]), 5, 9, refused(42));
    find(whole(&four), whole(&[]), 5, 0, refused(42));
    find(whole(&four), whole(&[]), 5, 2, at(1, 4, 5));
    find(whole(&four), whole(&[]), 5, 3, at(1, 20, 20));
    find(whole(&four), whole(&small), 7, 513, at(2, 4, 6));
    find(whole(&four), whole(&small), 7, 512, refused(42));
    find(front(&four, 5), whole(&four), 5, 9, at(1, 4, 5));
    find(whole(&four), front(&small, 5), 5, 9, refused(41));
    find(front(&small, 7), whole(&four), 5, 9, refused(41));
    let (longest, longer) = (entry(0, 9, &[1; 64]), entry(0, 9, &[1; 65]));
    find(whole(&longest), whole(&[]), 9, 0, at(1, 4, 68));
    find(whole(&longer), whole(&[]), 9, 0, refused(41));
    let falling = [entry(256, 1, &[]), entry(255, 1, &[])].concat();
    find(whole(&falling), whole(&[]), 1, 300, refused(41));
}

#[test]
fn a_small_store_is_cut_at_every_byte() {
    let mut settings = Settings::default();
    let bytes = [entry(1, 5, &[7; 3]), entry(2, 5, &[]), entry(2, 6, &[8; 2])].concat();
    let good = entry(0, 5, &[1]);
    for cut in 0..=bytes.len() {
        for length in cut..=bytes.len() {
            let store = front(&bytes[..length], cut);
            for (name, version) in [(5, 0), (5, 1), (5, 2), (6, 2), (7, 9)] {
                settings.find(store, whole(&good), name, version);
                settings.find(whole(&good), store, name, version);
            }
            let _ = settings.add(store, 5, 2, &[9]);
        }
        settings.find(front(&bytes[..cut], cut + 1), whole(&good), 5, 9);
    }
    assert!(settings.finds()[1] > 500 && settings.defaults() > 50);
}

#[test]
fn room_to_the_byte_and_values_around_64() {
    let mut settings = Settings::default();
    for used in [0, 6] {
        for length in 0..=66 {
            for room in (length + 2)..(length + 8) {
                let mut bytes = entry(513, 7, &[10, 11])[..used].to_vec();
                bytes.resize(used + room, 0xEE);
                let value = vec![5; length];
                let (answer, left) = settings.add(front(&bytes, used), 1, 513, &value);
                let expected = match () {
                    () if length > 64 => Err(43),
                    () if room < length + 4 => Err(45),
                    () => Ok(used + 4 + length),
                };
                assert_eq!(answer, expected);
                let end = answer.unwrap_or(used);
                assert_eq!(left[..used], bytes[..used]);
                assert_eq!(left[end..], bytes[end..]);
            }
        }
    }
    assert_eq!(settings.adds(), [520, 0, 0, 24, 0, 260]);
}

#[test]
fn random_stores_answer_alike() {
    let mut settings = Settings::default();
    for n in 0..60_000 {
        let mut seed = Seed::of_case(SEED, n);
        let (a, b): (Made, Made) = match n % 3 {
            0 => (good(&mut seed), good(&mut seed)),
            1 => (damaged(&mut seed), good(&mut seed)),
            _ => (good(&mut seed), damaged(&mut seed)),
        };
        for _ in 0..4 {
            let name = seed.pick(&[0, 1, 2, 3, 255]);
            let version = seed.pick(&[0, 1, 3, 255, 256, 300, 65_534, 65_535]);
            settings.find(a.store(), b.store(), name, version);
        }
        let value = vec![seed.byte(); seed.place(68)];
        let version = seed.pick(&[0, 2, 255, 257, 600, 2_000, 65_535]);
        let _ = settings.add(a.store(), seed.byte(), version, &value);
    }
    let (finds, adds) = (settings.finds(), settings.adds());
    println!("{finds:?} {adds:?} {}", settings.defaults());
    assert!(finds[..3].iter().all(|count| *count >= 10_000));
    assert!(settings.defaults() >= 10_000);
    for place in [0, 1, 3, 4, 5] {
        assert!(adds[place] >= 1_000, "{}", place + 40);
    }
}

/// Whether an entry is given.
fn is_there(reply: &EntryReply) -> bool {
    reply.there == 1
}

#[test]
fn entries_come_one_after_the_other() {
    for n in 0..5_000 {
        let mut seed = Seed::of_case(SEED + 1, n);
        let made = damaged(&mut seed);
        let store = made.store();
        let mut listed = Vec::new();
        let mut given: Vec<EntryReply> =
            (0..).map(|n| nth(store, n)).take_while(is_there).collect();
        for reply in &given {
            listed.extend(entry(
                reply.version,
                reply.name,
                &made.bytes[reply.start..reply.end],
            ));
        }
        let whole = lokhazim_reference::find_setting(store, whole(&[]), 0, 0);
        let malformed = whole.is_err_and(|refusal| refusal.number() == 41);
        given.extend([given.len(), given.len() + 1, usize::MAX].map(|n| nth(store, n)));
        let refusal = if malformed { 41 } else { 0 };
        assert!(given.iter().all(|reply| reply.refusal == refusal), "{n}");
        let expected = if malformed {
            &[]
        } else {
            &made.bytes[..made.used]
        };
        assert_eq!(listed, expected, "{n}");
    }
}

#[test]
fn below_a_new_entry_s_version_every_answer_stays() {
    let mut settings = Settings::default();
    for n in 0..3_000 {
        let mut seed = Seed::of_case(SEED + 2, n);
        let made = good(&mut seed);
        let other = good(&mut seed);
        let name = seed.pick(&[0, 1, 2, 255]);
        let version = seed.pick(&[300, 1_000, 65_535]);
        let value = vec![seed.byte(); seed.place(30)];
        let (answer, left) = settings.add(made.store(), name, version, &value);
        let Ok(used) = answer else { continue };
        for asked in [0, 1, 255, 299, 999, version - 1] {
            if asked < version {
                let before = settings.find(made.store(), other.store(), name, asked);
                let after = settings.find(front(&left, used), other.store(), name, asked);
                assert_eq!(before, after);
            }
        }
        let found = settings.find(front(&left, used), other.store(), name, version);
        assert_eq!(found, at(1, made.used + 4, used));
        assert_eq!(left[found.start..found.end], value);
    }
}
