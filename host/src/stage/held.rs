//! What a call holds: the outputs that it must be lent, and its stack.
use super::{
    Case, Stage, plainly,
    run::{
        SplitFile,
        along::{Visit, along},
        just_enough,
    },
};
use crate::stack;

/// Bytes.
pub struct Held {
    pub outputs: usize,
    pub stack: usize,
}

/// The whole run; `None` if it isn't linked or the file is refused.
pub fn by_run(file: &[u8]) -> Option<Held> {
    let case = just_enough(file)?;
    let outputs = case.lent.iter().sum();
    Some(Held { outputs, stack: stack_of::<SplitFile>(&case)? })
}

fn stack_of<S: Stage>(case: &Case) -> Option<usize> {
    let used = plainly::<S, _>(case, |call| {
        stack::most(&mut || assert_eq!(call(), 0, "the input is accepted"))
    });
    used.map(|(used, _)| used)
}

/// The stages of a run.
pub const STEPS: [&str; 7] = ["merge", "common", "gap", "check", "trim", "order", "walk"];

/// The stack of each stage entry; 0 where it isn't linked.
pub fn by_stages(file: &[u8]) -> Vec<usize> {
    let mut stacks = Stacks(vec![]);
    along(file, &mut stacks);
    stacks.0
}

struct Stacks(Vec<usize>);

impl Visit for Stacks {
    fn stage<S: Stage>(&mut self, step: &'static str, case: &Case) {
        assert_eq!(step, STEPS[self.0.len()], "the stages in their order");
        self.0.push(stack_of::<S>(case).unwrap_or(0));
    }
}
