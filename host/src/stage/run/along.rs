//! The stage entries on the tables that a run comes to, stage by stage, as the second reading
//! gives them.
use super::{
    super::{
        Case, Stage, common::UpdateCommonSplits, compare, gaps::CreateGapSplits, merge::AddSplits,
        order::ResolveLinkOrder, trim::TrimSplits, validate::ValidateSplits, walk::SplitObj,
    },
    files,
};
use crate::{
    bytes::half_at,
    check_tables::{NAME_BYTES, NAME_ENDS, SPLIT_TABLE, Set, UNIT_TABLE},
    document::{self, image::SPLIT_BYTES, load::load, outputs::Answer},
    parts,
    tally::Tally,
};

/// Is given each stage, named as the Rust's steps are.
pub trait Visit {
    fn stage<S: Stage>(&mut self, step: &'static str, case: &Case);

    /// What the stage gives, with which the run goes on; `None` ends it.
    fn answer<S: Stage>(&mut self, case: &Case) -> Option<Answer> {
        Some(S::right(case))
    }
}

/// Outputs at document 01's ceilings.
const SPLITS: &[usize] = &[21_504, 2];
const NAMES_AND_SPLITS: &[usize] = &[8192, 65_535, 21_504, 6];
const UNITS: &[usize] = &[8192, 2];
const PIECES: &[usize] = &[30_720, 49_152, 32_768, 6];

/// A table that takes over an output: table, output, width.
type Taken = (usize, usize, usize);

const NEW_SPLITS: &[Taken] = &[(SPLIT_TABLE, 0, SPLIT_BYTES)];
const NEW_NAMES_AND_SPLITS: &[Taken] =
    &[(NAME_ENDS, 0, 2), (NAME_BYTES, 1, 1), (SPLIT_TABLE, 2, SPLIT_BYTES)];
const NEW_UNITS: &[Taken] = &[(UNIT_TABLE, 0, 8)];

/// Goes along a run until a stage refuses.
pub fn along(file: &[u8], visit: &mut impl Visit) {
    let Some(mut case) = loaded(file) else {
        return;
    };
    let case = &mut case;
    let _ = step::<AddSplits>("merge", case, SPLITS, NEW_SPLITS, visit)
        && step::<UpdateCommonSplits>("common", case, SPLITS, NEW_SPLITS, visit)
        && step::<CreateGapSplits>("gap", case, NAMES_AND_SPLITS, NEW_NAMES_AND_SPLITS, visit)
        && step::<ValidateSplits>("check", case, &[], &[], visit)
        && step::<TrimSplits>("trim", case, SPLITS, NEW_SPLITS, visit)
        && step::<ResolveLinkOrder>("order", case, UNITS, NEW_UNITS, visit)
        && step::<SplitObj>("walk", case, PIECES, &[], visit);
}

/// The file's tables; the partial list is no split table yet.
fn loaded(file: &[u8]) -> Option<Case> {
    let loaded = load(file).ok()?;
    let t = loaded.tables();
    let set: Set = [
        t.name_ends,
        t.name_bytes,
        t.sections,
        t.section_places,
        t.image,
        t.symbols,
        t.relocations,
        t.splits,
        t.units,
    ]
    .map(<[u8]>::to_vec);
    Some(Case { set, partials: loaded.partials.clone(), ..Case::default() })
}

/// One stage; whether it accepts. Its outputs become tables then.
fn step<S: Stage>(
    name: &'static str,
    case: &mut Case,
    lent: &[usize],
    taken: &[Taken],
    visit: &mut impl Visit,
) -> bool {
    case.lent = lent.to_vec();
    // The run gives common no start.
    case.numbers = vec![0; S::ENTRY.numbers.len()];
    let given = super::super::taken::<S>(case.clone());
    visit.stage::<S>(name, &given);
    let Some(answer) = visit.answer::<S>(&given) else {
        return false;
    };
    for (table, output, width) in taken {
        let count = half_at(answer.outputs.last().expect("the counts"), 2 * output) as usize;
        case.set[*table] = answer.outputs[*output][..count * width].to_vec();
    }
    answer.word == 0
}

/// How many random files a check takes along.
const COUNT: usize = 4000;

/// The linked entries and the Rust on these tables.
pub fn run(seed: u64, tally: &mut Tally) {
    tally.begin(&format!("the stages on the tables of {COUNT} random runs, seed {seed}"));
    parts::random(seed, COUNT, tally, |r, tally| along(&files::random(r), &mut Compare(tally)));
    tally.end(&[0]);
}

struct Compare<'a>(&'a mut Tally);

impl Visit for Compare<'_> {
    fn stage<S: Stage>(&mut self, step: &'static str, case: &Case) {
        // No table check can refuse what a stage before gave.
        let number = document::number(S::right(case).word);
        if (1..=8).contains(&number) {
            self.0.difference("-", &[format!("{step} refuses the run's own tables by {number}")]);
        }
        compare::<S>(case, None, self.0);
    }
}
