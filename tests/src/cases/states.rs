//! Consistent states that are made directly, most of which no list of calls reaches: any cut, serials
//! in any order, records at any place, any bytes in free and quarantined blocks and objects.

use std::collections::BTreeSet;

use lokhazim_reference::{Accounts, Hold, Quota, ALL_PERMISSIONS, HOLDS, QUOTAS};

use crate::cases::pieces::{cut, quarantine_some, Piece};
use crate::judge::cut::{header, is_live, put, GREATEST_SERIAL};
use crate::judge::forms::{Form, FORM_1, FORM_2};
use crate::seed::Seed;
use crate::state::State;

/// A state before it is written as bytes. Its grants follow from what it has.
#[derive(Clone, Debug)]
pub struct Plan {
    /// The blocks in order.
    pub pieces: Vec<Piece>,
    /// The hold records by place.
    pub records: [Hold; HOLDS],
    /// The remainder of each quota, before it is cut down to what the grant leaves room for.
    pub remainders: [u32; QUOTAS],
    /// The permissions of each quota.
    pub permissions: [u8; QUOTAS],
    /// The last serial.
    pub last_serial: u32,
    /// The number of the kind.
    pub kind: u8,
    /// The number of the edition.
    pub edition: u8,
}

/// Gives an allowed heap length, most often a short one.
pub fn heap_length(seed: &mut Seed) -> u32 {
    match seed.below(20) {
        0 => 64,
        1..=9 => 8 * seed.between(8, 40),
        10..=14 => 8 * seed.between(40, 160),
        15 | 16 => 8 * seed.between(160, 700),
        17 | 18 => seed.pick(&[16_384, 24_576, 32_760, 32_768]),
        _ => 8 * seed.between(8, 4_096),
    }
}

impl Plan {
    /// Makes a consistent plan for a heap of this length, now and then one that form 1 can carry.
    pub fn new(seed: &mut Seed, length: u32) -> Plan {
        let form = seed.pick(&[FORM_1, FORM_2, FORM_2, FORM_2]);
        Plan::in_form(form, seed, length)
    }

    /// Makes a consistent plan for a heap of this length that a form can carry.
    pub fn in_form(form: Form, seed: &mut Seed, length: u32) -> Plan {
        let (kind, edition) = match form.number {
            1 => (0, 0),
            _ => (seed.below(2) as u8, seed.below(2) as u8),
        };
        let mut pieces = cut(seed, edition, length, form.records);
        if kind == 1 {
            pieces = quarantine_some(seed, pieces);
        }
        let live = pieces.iter().filter(|p| is_live(p.serial)).count();
        let mut serials = serials(seed, live).into_iter();
        for piece in pieces.iter_mut().filter(|p| is_live(p.serial)) {
            piece.serial = serials.next().unwrap_or(1);
        }
        let records = records(seed, &pieces, form);
        let given = pieces.iter().map(|piece| piece.serial);
        let highest = given.filter(|serial| is_live(*serial)).max().unwrap_or(0);
        let last_serial = match seed.below(12) {
            0 => GREATEST_SERIAL,
            1 => highest.max(GREATEST_SERIAL - seed.below(4)),
            2 => highest.saturating_add(seed.below(1_000)),
            3 => highest.max(seed.word()),
            _ => highest,
        };
        Plan {
            pieces,
            records,
            remainders: remainders(seed, form),
            permissions: permissions(seed, form),
            last_serial: last_serial.min(GREATEST_SERIAL),
            kind,
            edition,
        }
    }

    /// Gives the plan of a plain heap of the first edition with one object, which quota 0 holds once.
    pub fn of_object(heap_length: u32, base: u32, length: u32) -> Plan {
        let pieces = [
            (base - 8, 0),
            (length + 8, 1),
            (heap_length - base - length, 0),
        ];
        let pieces = pieces.map(|(size, serial)| Piece { size, serial });
        let mut records = [Hold::UNUSED; HOLDS];
        records[0] = Hold {
            serial: 1,
            quota: 0,
            count: 1,
        };
        Plan {
            pieces: pieces.into_iter().filter(|piece| piece.size > 0).collect(),
            records,
            remainders: [100_000; QUOTAS],
            permissions: [ALL_PERMISSIONS; QUOTAS],
            last_serial: 1,
            kind: 0,
            edition: 0,
        }
    }

    /// Gives the charges of the objects that the quota has a record for.
    pub fn charges(&self, quota: usize) -> u32 {
        let its = self
            .records
            .iter()
            .filter(|h| usize::from(h.quota) == quota);
        let its: Vec<u32> = its.map(|h| h.serial).collect();
        let has = |piece: &&Piece| is_live(piece.serial) && its.contains(&piece.serial);
        self.pieces.iter().filter(has).map(|piece| piece.size).sum()
    }

    /// Gives the places of the live pieces.
    pub fn live(&self) -> Vec<usize> {
        let places = 0..self.pieces.len();
        places.filter(|p| is_live(self.pieces[*p].serial)).collect()
    }

    /// Gives the places of the used records, or of the unused ones.
    pub fn record_places(&self, used: bool) -> Vec<usize> {
        let places = 0..HOLDS;
        places
            .filter(|p| self.records[*p].is_used() == used)
            .collect()
    }

    /// Writes the plan as a heap and accounts. Grants are remainder and charges.
    pub fn render(&self, seed: &mut Seed) -> State {
        let length: u32 = self.pieces.iter().map(|piece| piece.size).sum();
        let mut heap = vec![0; length as usize];
        let (mut offset, mut back_size) = (0, 0);
        for Piece { size, serial } in self.pieces.iter().copied() {
            put(&mut heap, offset, header(size, back_size, serial));
            let (start, end) = (offset as usize + 8, (offset + size) as usize);
            fill_body(seed, &mut heap[start..end], size, serial);
            offset += size;
            back_size = size;
        }
        let quotas = std::array::from_fn(|number| {
            let charges = self.charges(number);
            let remainder = self.remainders[number].min(u32::MAX - charges);
            let grant = remainder + charges;
            Quota {
                grant,
                remainder,
                permissions: self.permissions[number],
            }
        });
        let accounts = Accounts {
            quotas,
            last_serial: self.last_serial,
            holds: self.records,
            kind: self.kind,
            edition: self.edition,
        };
        State { heap, accounts }
    }
}

/// Makes a consistent state.
pub fn sound(seed: &mut Seed) -> State {
    let length = heap_length(seed);
    Plan::new(seed, length).render(seed)
}

/// Makes a consistent state that a form can carry.
pub fn sound_in(form: Form, seed: &mut Seed) -> State {
    let length = heap_length(seed);
    Plan::in_form(form, seed, length).render(seed)
}

/// Gives the state with all permissions set, as an opening leaves them.
pub fn permitted(state: &State) -> State {
    let mut all = state.clone();
    for quota in &mut all.accounts.quotas {
        quota.permissions = ALL_PERMISSIONS;
    }
    all
}

/// Gives so many serials that differ: in a row, a power of two apart, near the top, or any.
fn serials(seed: &mut Seed, count: usize) -> Vec<u32> {
    let shift = seed.below(23);
    let base = seed.word() >> seed.below(32);
    let way = seed.below(5);
    let mut given = BTreeSet::new();
    let mut next = 0_u32;
    while given.len() < count {
        next += 1;
        let serial = match way {
            0 => next,
            1 => next << shift,
            2 => GREATEST_SERIAL + 1 - next - shift % 8,
            3 => base.wrapping_add(next),
            _ => seed.word(),
        };
        if is_live(serial) {
            given.insert(serial);
        }
    }
    let mut given: Vec<u32> = given.into_iter().collect();
    if seed.percent(70) {
        seed.shuffle(&mut given);
    }
    given
}

/// Gives each object at least one record, some of them many, at any places of a form's table.
fn records(seed: &mut Seed, pieces: &[Piece], form: Form) -> [Hold; HOLDS] {
    let live: Vec<u32> = pieces.iter().map(|piece| piece.serial).collect();
    let live: Vec<u32> = live.into_iter().filter(|serial| is_live(*serial)).collect();
    let mut pairs: Vec<(u32, u8)> = Vec::new();
    let mut further: Vec<(u32, u8)> = Vec::new();
    for serial in &live {
        let first = seed.place(form.quotas);
        pairs.push((*serial, first as u8));
        let others = (0..form.quotas).filter(|quota| *quota != first);
        further.extend(others.map(|quota| (*serial, quota as u8)));
    }
    seed.shuffle(&mut further);
    let room = form.records - pairs.len();
    let extra = match seed.below(6) {
        0 | 1 => 0,
        2 | 3 => room,
        4 => room.saturating_sub(1),
        _ => seed.place(room + 1),
    };
    pairs.extend(further.into_iter().take(extra));
    place_records(seed, &pairs, form.records)
}

/// Puts records of these serials and quotas into the first places of the table, packed or at any of
/// them.
fn place_records(seed: &mut Seed, pairs: &[(u32, u8)], first: usize) -> [Hold; HOLDS] {
    let mut places: Vec<usize> = (0..first).collect();
    if seed.percent(60) {
        seed.shuffle(&mut places);
    }
    let mut records = [Hold::UNUSED; HOLDS];
    for ((serial, quota), place) in pairs.iter().zip(places) {
        let count = match seed.below(10) {
            0..=4 => 1,
            5 => 2,
            6 => 254,
            7 => 255,
            _ => seed.between(1, 255) as u8,
        };
        records[place] = Hold {
            serial: *serial,
            quota: *quota,
            count,
        };
    }
    records
}

/// Gives the remainders of a form's quotas, and 0 for the others.
fn remainders(seed: &mut Seed, form: Form) -> [u32; QUOTAS] {
    let mut all = [0; QUOTAS];
    all[..form.quotas].fill_with(|| remainder(seed));
    all
}

/// Gives a remainder: none, a little, enough, the greatest, or any.
fn remainder(seed: &mut Seed) -> u32 {
    match seed.below(10) {
        0 => 0,
        1 => 8 * seed.below(64),
        2 => u32::MAX,
        3 => seed.odd_word(),
        _ => seed.between(1_000, 100_000),
    }
}

/// Gives the permissions of all quotas: most often all, else one lacking, or any. Form 1 has no other
/// than all.
fn permissions(seed: &mut Seed, form: Form) -> [u8; QUOTAS] {
    let mut bits = [ALL_PERMISSIONS; QUOTAS];
    match seed.below(6) {
        _ if form == FORM_1 => {}
        0 => bits[seed.place(QUOTAS)] = seed.below(7) as u8,
        1 => bits.fill_with(|| seed.below(8) as u8),
        _ => {}
    }
    bits
}

/// Fills the bytes behind a header: zeros, any bytes, or bytes that look like headers.
fn fill_body(seed: &mut Seed, body: &mut [u8], size: u32, serial: u32) {
    match seed.below(4) {
        0 => {}
        1 => body.fill_with(|| seed.byte()),
        _ => {
            for (place, part) in body.chunks_exact_mut(8).enumerate() {
                part.copy_from_slice(&look_alike(seed, size, serial, place as u32));
            }
        }
    }
}

/// Gives eight bytes that look like the header of a block inside another.
pub fn look_alike(seed: &mut Seed, size: u32, serial: u32, place: u32) -> [u8; 8] {
    let rest = size.saturating_sub(8 * (place + 1));
    let size = seed.pick(&[8, 16, 24, size, rest]);
    let back_size = seed.pick(&[0, 8, 8 * (place + 1), size]);
    let serial = seed.pick(&[0, serial, serial.wrapping_add(1), 1, u32::MAX]);
    header(size, back_size, serial)
}
