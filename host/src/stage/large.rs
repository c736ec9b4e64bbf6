//! Cases with large tables: those that a run over a large file comes to.
use super::{
    Case, Stage, given, make,
    run::{
        along::{Visit, along},
        big,
    },
    taken,
    walk::SplitObj,
};
use crate::{check_tables::Set, document::outputs::Answer, random::Random};

/// How many files are tried: some are refused before the step.
const TRIES: usize = 100;

/// What a run lends at its step.
struct At {
    step: &'static str,
    case: Option<Case>,
}

impl Visit for At {
    fn stage<S: Stage>(&mut self, step: &'static str, case: &Case) {
        if step == self.step {
            self.case = Some(case.clone());
        }
    }

    /// The entries go along: the reading takes longer, and what is asked is asked of it too.
    fn answer<S: Stage>(&mut self, case: &Case) -> Option<Answer> {
        self.case.is_none().then(|| given::<S>(case))
    }
}

fn at(step: &'static str, r: &mut Random) -> Option<Case> {
    let found = |_| {
        let mut at = At { step, case: None };
        along(&big::random(r), &mut at);
        at.case
    };
    (0..TRIES).find_map(found)
}

/// A case of the stage; some with damage, some with a short output.
pub fn case<S: Stage>(r: &mut Random) -> Option<Case> {
    let mut case = S::enlarged(taken::<S>(at(S::STEP, r)?), r);
    if S::CHECKED {
        if r.one_in(8) {
            make::damage(&mut case, S::ENTRY.inputs, r);
        }
        shorten_output(&mut case, 4, r);
    }
    Some(case)
}

/// All tables of a run.
pub fn set(r: &mut Random) -> Option<Set> {
    let mut case = at(SplitObj::STEP, r)?;
    if r.one_in(2) {
        make::damage(&mut case, SplitObj::ENTRY.inputs, r);
    }
    Some(case.set)
}

/// One output of any length below its own, in one of so many cases.
pub fn shorten_output(case: &mut Case, one_in: usize, r: &mut Random) {
    if !case.lent.is_empty() && r.one_in(one_in) {
        let which = r.below(case.lent.len());
        case.lent[which] = r.below(case.lent[which] + 1);
    }
}
