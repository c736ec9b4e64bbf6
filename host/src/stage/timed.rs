//! The linked entries under the benchmark.
use std::time::Duration;

use super::{
    Case, Stage, plainly,
    run::{
        SplitFile,
        along::{Visit, along},
        store::whole,
    },
    walk::SplitObj,
};
use crate::{bench::times, entries};

/// The step of the entry `check_tables`, on the tables that the walk takes.
pub const TABLES: &str = "table checks";

/// Times by the names of the Rust's steps, a name for each turn.
#[derive(Default)]
pub struct Ours {
    rounds: usize,
    times: Vec<(&'static str, Vec<Duration>)>,
}

impl Ours {
    pub fn of(&self, step: &str) -> Option<Vec<Duration>> {
        let of_step = self.times.iter().filter(|(name, _)| *name == step);
        let times: Vec<Duration> = of_step.flat_map(|(_, times)| times.clone()).collect();
        (!times.is_empty()).then_some(times)
    }

    /// A turn of so many rounds.
    pub fn measure(&mut self, file: &[u8], rounds: usize) {
        self.rounds = rounds;
        self.stage::<SplitFile>("whole run", &whole(file));
        along(file, self);
    }
}

/// One call of the whole run, for a count of its instructions; whether it is accepted.
pub fn once(file: &[u8]) -> bool {
    plainly::<SplitFile, _>(&whole(file), |call| call()).is_some_and(|(word, _)| word == 0)
}

impl Visit for Ours {
    /// Nothing for an entry that isn't linked.
    fn stage<S: Stage>(&mut self, step: &'static str, case: &Case) {
        let timed = plainly::<S, _>(case, |call| {
            times(self.rounds, || assert_eq!(call(), 0, "the input is accepted"))
        });
        self.times.extend(timed.map(|(times, _)| (step, times)));
        if step == SplitObj::STEP {
            let tables = case.tables();
            let checked = || assert_eq!(entries::check_tables(&tables), 0, "they are right");
            self.times.push((TABLES, times(self.rounds, checked)));
        }
    }
}
