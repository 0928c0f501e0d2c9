//! The operations that every program runs: sizes and choices from a fixed seed.
//!
//! A step starts with one object less than the plan's live count. It allocates one, claims one and
//! drops the hold, releases one and reallocates one. So at each of the four calls the heap has
//! exactly the live count at its fullest: a reallocation needs a hold record for both objects. The
//! greatest live count is the number of records. In a plan with several holders, further quotas hold
//! each object too, so that as many records are used by fewer objects.

use std::fmt::Write;

use lokhazim_reference::{HOLDS, QUOTAS};
use lokhazim_seed::Seed;

/// The bytes of the heap.
pub const HEAP_BYTES: usize = 32_768;

/// What each quota is granted.
pub const GRANT: u32 = 1_000_000;

/// How many objects live at the fullest moment, and how many quotas hold each.
#[derive(Clone, Copy, Debug, PartialEq, Eq)]
pub struct Shape {
    /// The objects.
    pub live: usize,
    /// The quotas that hold each of them.
    pub holders: usize,
}

impl Shape {
    /// So many objects of one holder each.
    pub const fn alone(live: usize) -> Shape {
        Shape { live, holders: 1 }
    }

    /// The records that are used at the fullest moment.
    pub const fn records(self) -> usize {
        self.live * self.holders
    }
}

/// The numbers of live objects that are measured.
pub const LIVE_COUNTS: [usize; 4] = [8, 32, 128, HOLDS];

/// The shapes with several holders that are measured. Their records are those of the last live counts.
pub const SHARED: [Shape; 2] = [
    Shape {
        live: 32,
        holders: 4,
    },
    Shape {
        live: HOLDS / 4,
        holders: 4,
    },
];

/// The longest request for so many live objects: so many of this length leave a fifth of the heap
/// free at least.
pub const fn longest(live: usize) -> u64 {
    match live {
        0..=128 => 192,
        _ => 40,
    }
}

/// Where the random numbers start.
const SEED: u64 = 20_260_611;

/// One step of a plan.
#[derive(Clone, Copy, Debug, PartialEq, Eq)]
pub struct Step {
    /// The quota that allocates.
    pub quota: u32,
    /// The length that it asks for.
    pub length: u32,
    /// The place of the object that is claimed.
    pub claimed: usize,
    /// The place of the object that is released.
    pub released: usize,
    /// The place of the object that is reallocated.
    pub moved: usize,
    /// The length that it is reallocated to.
    pub new_length: u32,
}

/// The operations for one shape.
#[derive(Clone, Debug)]
pub struct Plan {
    /// How many objects live at the fullest moment of each call, and how many quotas hold each.
    pub shape: Shape,
    /// The lengths of the objects that are there before the first step.
    pub first: Vec<u32>,
    /// The steps, round by round. The first round is for warming up.
    pub rounds: Vec<Vec<Step>>,
}

impl Plan {
    /// Makes the plan for a shape: so many rounds behind the first, of so many steps.
    pub fn new(shape: Shape, rounds: usize, steps: usize) -> Plan {
        let live = shape.live;
        let mut seed = Seed::new(SEED + live as u64);
        Plan {
            shape,
            first: (1..live).map(|_| length(&mut seed, live)).collect(),
            rounds: (0..=rounds)
                .map(|_| (0..steps).map(|_| step(&mut seed, live)).collect())
                .collect(),
        }
    }

    /// Writes the plan as `bench/peer.c` reads it: live objects, rounds, steps of a round, the
    /// first lengths, then five numbers for each step.
    pub fn text(&self) -> String {
        let steps = self.rounds[0].len();
        let mut text = format!("{} {} {}\n", self.shape.live, self.rounds.len(), steps);
        for length in &self.first {
            let _ = writeln!(text, "{length}");
        }
        for step in self.rounds.iter().flatten() {
            let (length, new_length) = (step.length, step.new_length);
            let (claimed, released, moved) = (step.claimed, step.released, step.moved);
            let _ = writeln!(text, "{length} {claimed} {released} {moved} {new_length}");
        }
        text
    }
}

/// Gives the quota of one of the first objects, by its place.
pub fn first_quota(place: usize) -> u32 {
    (place % QUOTAS) as u32
}

/// Gives the quotas that hold an object beside the one that made it.
pub fn sharers(shape: Shape, quota: u32) -> impl Iterator<Item = u32> {
    (1..shape.holders as u32).map(move |further| (quota + further) % QUOTAS as u32)
}

/// Gives a length from 1 to the longest for so many live objects.
fn length(seed: &mut Seed, live: usize) -> u32 {
    (seed.draw() % longest(live)) as u32 + 1
}

/// Gives a step for so many live objects.
fn step(seed: &mut Seed, live: usize) -> Step {
    Step {
        quota: seed.place(QUOTAS) as u32,
        length: length(seed, live),
        claimed: seed.place(live),
        released: seed.place(live),
        moved: seed.place(live - 1),
        new_length: length(seed, live),
    }
}

#[cfg(test)]
mod tests {
    use super::*;

    #[test]
    fn the_same_seed_gives_the_same_plan() {
        let plan = || Plan::new(Shape::alone(32), 2, 5);
        assert_eq!(plan().rounds, plan().rounds);
    }

    #[test]
    fn the_text_has_a_number_for_each_choice() {
        let text = Plan::new(Shape::alone(8), 2, 5).text();
        assert!(text.starts_with("8 3 5\n"));
        assert_eq!(text.split_whitespace().count(), 3 + 7 + 3 * 5 * 5);
    }

    #[test]
    fn the_longest_objects_leave_a_fifth_of_the_heap_free() {
        for live in LIVE_COUNTS {
            let largest = live * (longest(live) as usize + 8);
            assert!(5 * largest <= 4 * HEAP_BYTES, "{live}");
        }
    }

    #[test]
    fn shared_objects_use_as_many_records_as_objects_of_one_holder() {
        for (shape, live) in SHARED.into_iter().zip(&LIVE_COUNTS[2..]) {
            assert_eq!(shape.records(), *live);
        }
    }
}
