//! The entry `validate_splits`.
use oracle::answers::{Question, Reply};

use super::{Beside, Case, Stage, make::Maker, rust};
use crate::{
    document::{
        check_tables::{LIMITS, Limits, checked},
        image::{Image, splits_in},
        outputs::Answer,
        validate,
    },
    entries::stages::{StageEntry, VALIDATE_SPLITS},
    random::Random,
};

pub struct ValidateSplits;

impl Stage for ValidateSplits {
    const ENTRY: StageEntry = VALIDATE_SPLITS;
    const COUNT: usize = 100_000;
    const OUTCOMES: &'static [u16] = &[0, 1, 2, 3, 4, 5, 7, 50, 51, 52, 53];
    const STEP: &'static str = "check";

    fn random(r: &mut Random) -> Case {
        let mut maker = Maker::new(4, r);
        maker.sections(4, r);
        maker.symbols(5, r);
        match r.below(4) {
            0 => maker.loose_splits(4, r),
            _ => maker.tidy_splits(5, 12, r),
        }
        maker.case(vec![], vec![])
    }

    fn right(case: &Case) -> Answer {
        validate::answer(&case.tables())
    }

    fn beside(case: &Case) -> Beside {
        let t = case.tables();
        if checked(&t, &Limits { image: false, ..LIMITS }).is_err() {
            return Beside::NotAsked;
        }
        let reading = validate::validate(&Image::of(&t), &splits_in(t.splits));
        rust::beside(case, Question::Validate, reading.map(|()| Reply::Passed))
    }
}
