//! The same heap with serials in a row and with the worst ones, and what calls on it cost.
//!
//! Every state is one that calls can reach: all records are used by other objects first, and then, in the order of
//! the serials, one of them is released and an object made in its place. Only the serials in between, which would take as
//! many calls, are passed over.

use lokhazim_reference::{Handle, QUOTAS};

use crate::engine::{buffer, Engine};
use crate::figures::{Count, Figure};
use crate::plan::first_quota;
use crate::proved::{Accounts, Proved};
use crate::rounds::{clock_cost, timed};
use crate::table::{grouped, table};
use crate::worst::worst_serials;

/// The calls that are measured.
pub const SERIAL_CALLS: [&str; 5] = ["allocate", "release", "claim", "reallocate", "check"];

/// The numbers of live objects.
pub const SERIAL_COUNTS: [usize; 2] = [128, 512];

/// The length of every object.
const LENGTH: u32 = 24;

/// How often each call is made, each time on another object.
const TURNS: usize = 16;

/// Which serials the objects have.
#[derive(Clone, Copy, PartialEq, Eq)]
pub enum Order {
    /// One behind the other.
    Row,
    /// The worst that are known.
    Worst,
}

impl Order {
    /// Both of them.
    pub const ALL: [Order; 2] = [Order::Row, Order::Worst];

    /// Gives the name on the command line.
    pub fn name(self) -> &'static str {
        match self {
            Order::Row => "row",
            Order::Worst => "worst",
        }
    }

    /// Gives the serials of so many objects, in the order of the records. The smallest is greater than those of the objects
    /// that are there before.
    fn serials(self, live: usize) -> Vec<u32> {
        match self {
            Order::Row => (0..live as u32).map(|place| 1_001 + place).collect(),
            Order::Worst => worst_serials(live),
        }
    }
}

/// A heap's bytes and accounts, to be put back.
struct State {
    bytes: Vec<u8>,
    accounts: Accounts,
}

/// A heap whose objects have certain serials.
pub struct Serials {
    work: Option<&'static mut [u8]>,
    full: State,
    spare: State,
    objects: Vec<Handle>,
}

impl Serials {
    /// Makes a heap of so many objects.
    pub fn new(order: Order, live: usize) -> Serials {
        let serials = order.serials(live);
        let mut heap = Proved::open();
        let make = |heap: &mut Proved, place| heap.call_allocate(first_quota(place), LENGTH);
        let mut objects: Vec<Handle> = (0..live).map(|place| make(&mut heap, place)).collect();
        let mut places: Vec<usize> = (0..live).collect();
        places.sort_by_key(|place| serials[*place]);
        for place in places {
            heap.drop_hold(first_quota(place), objects[place]);
            let (bytes, mut accounts) = heap.into_parts();
            accounts.last_serial = serials[place] - 1;
            heap = Proved::from_parts(bytes, accounts);
            objects[place] = make(&mut heap, place);
        }
        let (bytes, full) = saved(heap);
        let made = full.accounts.holds.iter().map(|hold| hold.serial);
        assert!(made.take(live).eq(serials), "each has its place");
        let mut heap = Proved::from_parts(bytes, full.accounts.clone());
        heap.drop_hold(first_quota(live - 1), objects[live - 1]);
        let (_, spare) = saved(heap);
        Serials {
            work: Some(buffer()),
            full,
            spare,
            objects,
        }
    }

    /// Runs a call on a heap in a state, and gives the nanoseconds that it takes.
    #[inline(always)]
    fn run<A>(&mut self, spare: bool, call: impl FnOnce(&mut Proved) -> A) -> u64 {
        let state = if spare { &self.spare } else { &self.full };
        let work = self.work.take().expect("the bytes are put back");
        work.copy_from_slice(&state.bytes);
        let mut heap = Proved::from_parts(work, state.accounts.clone());
        let (time, _) = timed(|| call(&mut heap));
        self.work = Some(heap.into_parts().0);
        time
    }

    /// Runs every call some times, and gives the fewest nanoseconds of each; the counts look for the first words of this name.
    #[inline(never)]
    pub fn measured_rounds(&mut self) -> Vec<f64> {
        let mut fewest = [u64::MAX; SERIAL_CALLS.len()];
        for turn in 0..TURNS {
            let place = turn * (self.objects.len() - 1) / TURNS;
            let (quota, handle) = (place as u32 % QUOTAS as u32, self.objects[place]);
            let times = [
                self.run(true, |heap| heap.call_allocate(quota, LENGTH)),
                self.run(false, |heap| heap.call_release(quota, handle)),
                self.run(false, |heap| heap.call_claim(quota, handle)),
                self.run(true, |heap| heap.call_reallocate(quota, handle, LENGTH)),
                self.run(false, Proved::call_check),
            ];
            for (fewest, time) in fewest.iter_mut().zip(times) {
                *fewest = time.min(*fewest);
            }
        }
        let clock = clock_cost();
        fewest.map(|time| time as f64 - clock).to_vec()
    }
}

/// Keeps a heap's state, and gives its bytes back.
fn saved(heap: Proved) -> (&'static mut [u8], State) {
    let (bytes, accounts) = heap.into_parts();
    let state = State {
        bytes: bytes.to_vec(),
        accounts,
    };
    (bytes, state)
}

/// What the calls cost by both orders of serials.
pub struct Slowed {
    /// The number of live objects.
    pub live: usize,
    /// Instructions of each call, with serials in a row.
    pub row: Vec<Count>,
    /// The same with the worst serials.
    pub worst: Vec<Count>,
}

impl Slowed {
    /// Gives each call's name and how often its usual cost goes into the worst.
    pub fn ratios(&self) -> impl Iterator<Item = (&'static str, f64)> + '_ {
        let costs = self.worst.iter().zip(&self.row);
        let ratios = costs.map(|(worst, row)| worst.value() / row.value());
        SERIAL_CALLS.into_iter().zip(ratios)
    }
}

/// Gives the fewest nanoseconds of each call, for each order.
pub fn serial_times(live: usize) -> [Vec<f64>; 2] {
    Order::ALL.map(|order| Serials::new(order, live).measured_rounds())
}

/// Writes the table of instructions, and of the fewest nanoseconds.
pub fn serials_table(slowed: &[Slowed]) -> String {
    let heads = [
        "call",
        "live",
        "in a row",
        "worst serials",
        "ratio",
        "ns in a row",
        "ns worst",
    ];
    let mut rows = Vec::new();
    for slowed in slowed {
        let [row, worst] = serial_times(slowed.live);
        for (place, (name, ratio)) in slowed.ratios().enumerate() {
            rows.push(vec![
                name.to_string(),
                slowed.live.to_string(),
                slowed.row[place].to_string(),
                slowed.worst[place].to_string(),
                format!("{ratio:.2}"),
                grouped(row[place]),
                grouped(worst[place]),
            ]);
        }
    }
    table(&heads, &rows)
}

#[cfg(test)]
mod tests {
    use super::*;

    #[test]
    fn every_call_is_accepted_in_every_state() {
        for order in Order::ALL {
            for live in SERIAL_COUNTS {
                let times = Serials::new(order, live).measured_rounds();
                assert_eq!(times.len(), SERIAL_CALLS.len());
            }
        }
    }
}
