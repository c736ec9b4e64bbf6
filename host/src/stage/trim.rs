//! The entry `trim_splits`.
use oracle::answers::Question;

use super::{
    Beside, Case, Stage,
    make::{Maker, counts_room, room},
    rust,
};
use crate::{
    document::{
        check_tables::{LIMITS, checked},
        image::{Image, SPLIT_BYTES, splits_in},
        outputs::Answer,
        trim,
    },
    entries::stages::{StageEntry, TRIM_SPLITS},
    random::Random,
};

pub struct TrimSplits;

impl Stage for TrimSplits {
    const ENTRY: StageEntry = TRIM_SPLITS;
    const COUNT: usize = 100_000;
    const OUTCOMES: &'static [u16] = &[0, 1, 2, 3, 4, 5, 7, 10, 11, 54];
    const STEP: &'static str = "trim";

    fn random(r: &mut Random) -> Case {
        let mut maker = Maker::new(4, r);
        maker.sections(3, r);
        maker.symbols(6, r);
        match r.below(6) {
            0 => maker.loose_splits(4, r),
            1 | 2 => equal_starts(&mut maker, r),
            _ => maker.tidy_splits(5, 16, r),
        }
        let lent = vec![room(SPLIT_BYTES, maker.splits.len(), r), counts_room(1, r)];
        maker.case(vec![], lent)
    }

    fn right(case: &Case) -> Answer {
        trim::answer(&case.tables(), &case.lent)
    }

    fn beside(case: &Case) -> Beside {
        let t = case.tables();
        if checked(&t, &LIMITS).is_err() {
            return Beside::NotAsked;
        }
        let image = Image::of(&t);
        let reading = trim::trim(&image, &splits_in(t.splits));
        let reading = reading.map(|splits| rust::named(&splits, &image.names));
        rust::beside(case, Question::Trim, reading)
    }
}

/// Two or three splits at each start, their ends in any order, some at the start.
fn equal_starts(maker: &mut Maker, r: &mut Random) {
    for section in 0..maker.sections.len() {
        let mut starts: Vec<u32> = (0..1 + r.below(2)).map(|_| maker.inside(section, r)).collect();
        starts.sort();
        for start in starts {
            for _ in 0..1 + r.below(3) {
                let near = maker.near(section, r).max(start);
                let end = r.pick(&[near, near, start]);
                maker.split(section, start, end, r);
            }
        }
    }
}
