//! Random cases on all processors.
use std::{
    sync::atomic::{AtomicUsize, Ordering},
    thread,
    time::Instant,
};

use crate::{random::Random, tally::Tally};

/// The cases are made in so many parts, each from a seed of its own, so that they don't
/// depend on the number of processors.
const PARTS: usize = 64;

/// For the rounds of a merge, which the Rust does by recursion.
const STACK: usize = 64 << 20;

/// How much of a number a part gets, so that all parts get about as much.
pub fn share(all: usize, part: usize, parts: usize) -> usize {
    (part + 1) * all / parts - part * all / parts
}

/// Makes and compares `count` cases, one by each call of `each`.
pub fn random(
    seed: u64,
    count: usize,
    tally: &mut Tally,
    each: impl Fn(&mut Random, &mut Tally) + Sync,
) {
    random_until(seed, count, None, tally, each);
}

/// The same, but none is begun after the time that is given.
pub fn random_until(
    seed: u64,
    count: usize,
    until: Option<Instant>,
    tally: &mut Tally,
    each: impl Fn(&mut Random, &mut Tally) + Sync,
) {
    let late = || until.is_some_and(|until| Instant::now() >= until);
    let mut seeds = Random::new(seed);
    let seeds: Vec<u64> = (0..PARTS).map(|_| seeds.next()).collect();
    let next = AtomicUsize::new(0);
    let work = || {
        let mut tally = Tally::default();
        loop {
            let part = next.fetch_add(1, Ordering::SeqCst);
            let Some(seed) = seeds.get(part) else {
                return tally;
            };
            let mut r = Random::new(*seed);
            for _ in 0..share(count, part, PARTS) {
                if late() {
                    return tally;
                }
                each(&mut r, &mut tally);
            }
        }
    };
    thread::scope(|scope| {
        let processors = thread::available_parallelism().map_or(1, |n| n.get());
        let worker = || thread::Builder::new().stack_size(STACK).spawn_scoped(scope, work);
        let workers: Vec<_> = (0..processors).map(|_| worker().unwrap()).collect();
        for worker in workers {
            tally.absorb(worker.join().unwrap());
        }
    });
}
