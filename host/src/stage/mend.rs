//! The entry `mend_splits`.
use super::{
    Beside, Case, Stage,
    make::{Maker, counts_room, room},
};
use crate::{
    check_tables::SPLIT_TABLE,
    document::{
        image::{SPLIT_BYTES, Split, splits_in},
        mend,
        outputs::Answer,
    },
    entries::stages::{MEND_SPLITS, StageEntry},
    random::Random,
};

pub struct MendSplits;

impl Stage for MendSplits {
    const ENTRY: StageEntry = MEND_SPLITS;
    const COUNT: usize = 200_000;
    const OUTCOMES: &'static [u16] = &[0, 1, 2, 3, 4, 7, 80, 86];
    const OFTEN: &'static [(u16, u64)] =
        &[(0, 50_000), (2, 2_000), (7, 2_000), (80, 5_000), (86, 5_000)];
    const STEP: &'static str = "check";

    /// The tables of a check, with ends that reach over the next start.
    fn enlarged(mut case: Case, r: &mut Random) -> Case {
        let mut splits = splits_in(&case.set[SPLIT_TABLE]);
        let most = splits.iter().map(|s| s.end).max().unwrap_or(0);
        overlap(&mut splits, |_| most, r);
        case.set[SPLIT_TABLE] = splits.iter().flat_map(Split::bytes).collect();
        case.lent = vec![room(SPLIT_BYTES, splits.len(), r), room(29, splits.len(), r), counts_room(2, r)];
        case
    }

    fn random(r: &mut Random) -> Case {
        let mut maker = Maker::new(5, r);
        // Section numbers of two digits too.
        maker.sections(if r.one_in(12) { 16 } else { 4 }, r);
        match r.below(4) {
            0 => maker.loose_splits(5, r),
            _ => maker.tidy_splits(6, 8, r),
        }
        let ends: Vec<u32> = maker.sections.iter().map(|place| place.end).collect();
        if !r.one_in(3) {
            overlap(&mut maker.splits, |section| ends[section], r);
        }
        let lines = mend::mend(&ends, &maker.splits).map_or(29, |(_, lines)| lines.len());
        let lent = vec![room(SPLIT_BYTES, maker.splits.len(), r), lines_room(lines, r), counts_room(2, r)];
        maker.case(vec![], lent)
    }

    fn right(case: &Case) -> Answer {
        mend::answer(&case.tables(), &case.lent)
    }

    /// The Rust mends nothing.
    fn beside(_case: &Case) -> Beside {
        Beside::NotAsked
    }
}

/// Ends a few bytes higher, not above the section's, some open.
fn overlap(splits: &mut [Split], section_end: impl Fn(usize) -> u32, r: &mut Random) {
    for split in splits {
        match r.below(8) {
            0..3 => {
                let end = split.end + 1 + r.below(9) as u32;
                split.end = end.min(section_end(split.section as usize));
            }
            3 if r.one_in(4) => split.end = 0,
            _ => {}
        }
    }
}

/// A length for so many bytes of lines: mostly enough, some that are a byte or a line short.
fn lines_room(lines: usize, r: &mut Random) -> usize {
    match r.below(12) {
        0 => 0,
        1 => r.below(lines + 1),
        2 => lines.saturating_sub(1),
        3..6 => lines,
        _ => lines + r.below(60),
    }
}
