//! The rounds of a plan on a heap in this process, each call timed by itself.

use std::hint::black_box;
use std::time::Instant;

use lokhazim_reference::Handle;

use crate::engine::Engine;
use crate::figures::{Call, CALLS};
use crate::plan::{first_quota, sharers, Plan, Shape, Step};

/// Nanoseconds per call in one round.
pub type Round = [f64; CALLS];

/// The nanoseconds of each single call of a round, by the kind of call.
pub type Times = [Vec<u64>; CALLS];

/// Gives a round's nanoseconds per call from the times of its calls and what the clock adds to each:
/// the average without the slowest tenth, where the system may have interrupted the program.
pub fn per_call(times: Times, clock: f64) -> Round {
    times.map(|mut times| {
        times.sort_unstable();
        let kept = &times[..times.len() - times.len() / 10];
        kept.iter().sum::<u64>() as f64 / kept.len() as f64 - clock
    })
}

/// Something that runs the rounds of a plan one after the other.
pub trait Runner {
    /// Runs the first round, which is not measured.
    fn warm_up(&mut self) -> Result<(), String>;
    /// Runs the next round.
    fn next_round(&mut self) -> Result<Round, String>;
}

/// A live object.
#[derive(Clone, Copy)]
struct Object {
    quota: u32,
    handle: Handle,
}

/// A heap on which a plan is run.
pub struct Runs<'plan, E> {
    engine: E,
    plan: &'plan Plan,
    next: usize,
    objects: Vec<Object>,
    clock: f64,
}

impl<'plan, E: Engine> Runs<'plan, E> {
    /// Makes the first objects of the plan.
    pub fn new(mut engine: E, plan: &'plan Plan) -> Runs<'plan, E> {
        let mut objects = Vec::with_capacity(plan.shape.live);
        for (place, length) in plan.first.iter().enumerate() {
            let quota = first_quota(place);
            let handle = engine.call_allocate(quota, *length);
            share(&mut engine, plan.shape, quota, handle);
            objects.push(Object { quota, handle });
        }
        Runs {
            engine,
            plan,
            next: 1,
            objects,
            clock: clock_cost(),
        }
    }

    /// Gives a number that two heaps agree on if they gave the same handles.
    pub fn fingerprint(&self) -> u64 {
        let numbers = self.objects.iter().flat_map(|object| {
            let Handle {
                base,
                length,
                serial,
            } = object.handle;
            [object.quota, base, length, serial]
        });
        numbers.fold(0, |sum: u64, number| {
            sum.wrapping_mul(1_000_003)
                .wrapping_add(u64::from(number) + 1)
        })
    }
}

impl<E: Engine> Runner for Runs<'_, E> {
    fn warm_up(&mut self) -> Result<(), String> {
        run_steps(
            &mut self.engine,
            self.plan.shape,
            &mut self.objects,
            &self.plan.rounds[0],
        );
        Ok(())
    }

    fn next_round(&mut self) -> Result<Round, String> {
        let steps = &self.plan.rounds[self.next];
        self.next += 1;
        let shape = self.plan.shape;
        let times = measured_round(&mut self.engine, shape, &mut self.objects, steps);
        Ok(per_call(times, self.clock))
    }
}

/// Runs a round whose instructions are counted; the counts look for this name.
#[inline(never)]
fn measured_round(
    engine: &mut impl Engine,
    shape: Shape,
    objects: &mut Vec<Object>,
    steps: &[Step],
) -> Times {
    run_steps(engine, shape, objects, steps)
}

/// Lets the further holders of an object hold it.
fn share(engine: &mut impl Engine, shape: Shape, quota: u32, handle: Handle) {
    for further in sharers(shape, quota) {
        engine.hold(further, handle);
    }
}

/// Takes their holds back.
fn unshare(engine: &mut impl Engine, shape: Shape, quota: u32, handle: Handle) {
    for further in sharers(shape, quota) {
        engine.drop_hold(further, handle);
    }
}

/// Runs steps, and gives the time that each call took. A release is that of the last holder.
#[inline(always)]
fn run_steps(
    engine: &mut impl Engine,
    shape: Shape,
    objects: &mut Vec<Object>,
    steps: &[Step],
) -> Times {
    let mut times: Times = Call::ALL.map(|_| Vec::with_capacity(steps.len()));
    for step in steps {
        let quota = step.quota;
        let (time, handle) = timed(|| engine.call_allocate(quota, step.length));
        times[Call::Allocate as usize].push(time);
        share(engine, shape, quota, handle);
        objects.push(Object { quota, handle });

        let Object { quota, handle } = objects[step.claimed];
        let (time, _) = timed(|| engine.call_claim(quota, handle));
        times[Call::Claim as usize].push(time);
        engine.drop_hold(quota, handle);

        let Object { quota, handle } = objects.swap_remove(step.released);
        unshare(engine, shape, quota, handle);
        let (time, _) = timed(|| engine.call_release(quota, handle));
        times[Call::Release as usize].push(time);

        let Object { quota, handle: old } = objects[step.moved];
        let (time, handle) = timed(|| engine.call_reallocate(quota, old, step.new_length));
        times[Call::Reallocate as usize].push(time);
        for further in sharers(shape, quota) {
            engine.hold(further, handle);
            engine.drop_hold(further, old);
        }
        objects[step.moved].handle = handle;
    }
    times
}

/// Times one call, in nanoseconds.
#[inline(always)]
pub fn timed<A>(call: impl FnOnce() -> A) -> (u64, A) {
    let start = Instant::now();
    let answer = call();
    (start.elapsed().as_nanos() as u64, answer)
}

/// Measures what the timing itself adds to a call, in nanoseconds: the lowest of several averages.
pub fn clock_cost() -> f64 {
    const TIMES: u32 = 2_000;
    let average = |_| {
        let sum: u64 = (0..TIMES).map(|i| timed(|| black_box(i)).0).sum();
        sum as f64 / f64::from(TIMES)
    };
    (0..9).map(average).fold(f64::INFINITY, f64::min)
}

#[cfg(test)]
mod tests {
    use super::*;
    use crate::engine::Reference;
    use crate::plan::{LIVE_COUNTS, SHARED};

    #[test]
    fn the_slowest_tenth_is_left_out() {
        let times = Call::ALL.map(|_| vec![30, 9_000, 10, 20, 20, 20, 20, 20, 20, 20]);
        assert_eq!(per_call(times, 5.0), [15.0; CALLS]);
    }

    #[test]
    fn no_call_of_a_plan_is_refused() {
        for shape in LIVE_COUNTS.map(Shape::alone).into_iter().chain(SHARED) {
            let plan = Plan::new(shape, 2, 50);
            let mut runs = Runs::new(Reference::open(), &plan);
            runs.warm_up().unwrap();
            for _ in 0..2 {
                runs.next_round().unwrap();
            }
            assert_eq!(runs.objects.len(), shape.live - 1);
        }
    }
}
