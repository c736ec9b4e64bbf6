//! The entries `update_common_splits` and `mark_common_splits`.
use oracle::answers::Question;

use super::{
    Beside, Case, Stage,
    make::{Maker, counts_room, room},
    rust,
};
use crate::{
    check_tables::SPLIT_TABLE,
    document::{
        check_tables::{LIMITS, Limits, checked},
        common,
        image::{Image, SPLIT_BYTES, Split, split_table, splits_in},
        outputs::Answer,
    },
    entries::stages::{MARK_COMMON_SPLITS, StageEntry, UPDATE_COMMON_SPLITS},
    random::Random,
    soak::shorter,
};

pub struct UpdateCommonSplits;

/// "`has_start`: 0 no start, anything else a start"
fn start(case: &Case) -> Option<u32> {
    (case.numbers[0] != 0).then_some(case.numbers[1])
}

impl Stage for UpdateCommonSplits {
    const ENTRY: StageEntry = UPDATE_COMMON_SPLITS;
    const COUNT: usize = 100_000;
    const OUTCOMES: &'static [u16] = &[0, 1, 2, 3, 4, 7, 30, 31];
    const STEP: &'static str = "common";

    fn enlarged(mut case: Case, r: &mut Random) -> Case {
        case.numbers = vec![r.below(2) as u32, some_start(&case, r)];
        case
    }

    fn random(r: &mut Random) -> Case {
        let mut maker = Maker::new(4, r);
        maker.sections(3, r);
        for _ in 0..r.pick(&[0, 0, 1, 1, 1, 1, 1, 2]) {
            let size = maker.step * r.below(12) as u32;
            maker.section(b".bss", r.pick(&[3, 3, 3, 1]), size, r);
        }
        match r.below(2) {
            0 => maker.loose_splits(4, r),
            _ => maker.tidy_splits(5, 12, r),
        }
        let near = match maker.sections.len() {
            0 => 0,
            n => maker.near(n - 1, r),
        };
        let numbers =
            vec![r.pick(&[0, 0, 1, 1, 2, 0xFF]), r.pick(&[near, near, near, 0, u32::MAX])];
        let lent = vec![room(SPLIT_BYTES, maker.splits.len(), r), counts_room(1, r)];
        maker.case(numbers, lent)
    }

    fn right(case: &Case) -> Answer {
        common::answer(&case.tables(), start(case), &case.lent)
    }

    fn beside(case: &Case) -> Beside {
        let t = case.tables();
        if checked(&t, &Limits { image: false, ..LIMITS }).is_err() {
            return Beside::NotAsked;
        }
        let image = Image::of(&t);
        let mut splits = splits_in(t.splits);
        let reading = common::update_common(&image, &mut splits, start(case));
        let reading = reading.map(|()| rust::named(&splits, &image.names));
        rust::beside(case, Question::Common(start(case)), reading)
    }
}

/// Where one of the splits starts.
fn some_start(case: &Case, r: &mut Random) -> u32 {
    let splits = splits_in(case.tables().splits);
    if splits.is_empty() { 0 } else { r.pick(&splits).start }
}

pub struct MarkCommonSplits;

impl Stage for MarkCommonSplits {
    const ENTRY: StageEntry = MARK_COMMON_SPLITS;
    const COUNT: usize = 100_000;
    const OUTCOMES: &'static [u16] = &[0];
    const CHECKED: bool = false;
    const STEP: &'static str = "common";

    fn enlarged(mut case: Case, r: &mut Random) -> Case {
        case.numbers = vec![r.below(4) as u32, some_start(&case, r)];
        case.lent = vec![case.set[SPLIT_TABLE].len()];
        case
    }

    /// Whole records: it takes structs.
    fn shorten(case: &mut Case, r: &mut Random) {
        let count = case.set[SPLIT_TABLE].len() / SPLIT_BYTES;
        case.set[SPLIT_TABLE].truncate(SPLIT_BYTES * shorter(count, r));
        case.lent = vec![case.set[SPLIT_TABLE].len()];
    }

    /// Any splits, in no order.
    fn random(r: &mut Random) -> Case {
        let field = |r: &mut Random| r.pick(&[0, 1, 2, 3, 0x1000, 0x1004, u32::MAX, u32::MAX - 1]);
        let split = |r: &mut Random| Split {
            section: field(r) as u16,
            start: field(r),
            end: r.next() as u32,
            unit: r.next() as u16,
            alignment: r.next() as u32,
            flags: r.next() as u8,
            rename: r.next() as u16,
            origin: r.next() as u16,
        };
        let count = if r.one_in(1000) { 1024 } else { r.below(8) };
        let splits: Vec<Split> = (0..count).map(|_| split(r)).collect();
        let mut case = Case { numbers: vec![field(r) as u16 as u32, field(r)], ..Case::default() };
        case.set[SPLIT_TABLE] = split_table(&splits).0;
        case.lent = vec![case.set[SPLIT_TABLE].len()];
        case
    }

    fn right(case: &Case) -> Answer {
        let mut splits = splits_in(&case.set[SPLIT_TABLE]);
        common::mark(&mut splits, case.numbers[0] as u16, case.numbers[1]);
        Answer { word: 0, outputs: vec![split_table(&splits).0] }
    }

    /// The Rust marks only together with finding the section, in `update_common_splits`.
    fn beside(_case: &Case) -> Beside {
        Beside::NotAsked
    }
}
