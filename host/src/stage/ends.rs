//! The entries `end_for_section` and `split_alignment`.
use oracle::answers::{Question, Reply};

use super::{
    Beside, Case, Stage,
    make::{LINKER_OBJECTS, Maker},
    rust,
};
use crate::{
    document::{
        check_tables::{LIMITS, checked},
        ends,
        image::{Image, SPLIT_BYTES, splits_in},
        outputs::Answer,
    },
    entries::stages::{END_FOR_SECTION, SPLIT_ALIGNMENT, StageEntry},
    random::Random,
};

/// The case with the number of one of so many records, seldom one past the last.
fn asking_one(mut case: Case, count: usize, r: &mut Random) -> Case {
    let which = if r.one_in(20) { count } else { r.below(count.max(1)) };
    (case.numbers, case.lent) = (vec![which as u32], vec![number_room(r)]);
    case
}

pub struct EndForSection;

impl Stage for EndForSection {
    const ENTRY: StageEntry = END_FOR_SECTION;
    const COUNT: usize = 100_000;
    const OUTCOMES: &'static [u16] = &[0, 1, 2, 3, 4, 5, 10, 20];
    const STEP: &'static str = "gap";

    fn enlarged(case: Case, r: &mut Random) -> Case {
        let sections = case.tables().sections.len() / 15;
        asking_one(case, sections, r)
    }

    fn random(r: &mut Random) -> Case {
        let mut maker = Maker::new(3, r);
        for _ in 0..if r.one_in(20) { 0 } else { 1 + r.below(3) } {
            ending_section(&mut maker, r);
        }
        let n = maker.sections.len();
        for _ in 0..if n > 0 { r.below(8) } else { 0 } {
            symbol_at_end(&mut maker, r);
        }
        let section = if r.one_in(40) { r.pick(&[n, 0x100, 0xFFFF]) } else { r.below(n.max(1)) };
        maker.case(vec![section as u32], vec![number_room(r)])
    }

    fn right(case: &Case) -> Answer {
        ends::end_for_section(&case.tables(), case.numbers[0] as u16, &case.lent)
    }

    fn beside(case: &Case) -> Beside {
        let t = case.tables();
        let section = case.numbers[0];
        if checked(&t, &LIMITS).is_err() {
            return Beside::NotAsked;
        }
        let reading = ends::end_if_there(&Image::of(&t), section as u16);
        rust::beside(case, Question::End(section), reading.map(Reply::Number))
    }
}

/// `.ctors` and `.dtors` with 0 to 5 bytes and more, or any section.
fn ending_section(maker: &mut Maker, r: &mut Random) {
    if r.one_in(2) {
        return maker.any_section(r);
    }
    let name: &[u8] = r.pick(&[b".ctors", b".dtors"]);
    let size = if r.one_in(2) { r.below(6) as u32 } else { maker.step * r.below(10) as u32 };
    let kind = r.pick(&[0, 1, 2, 2, 2, 3]);
    maker.section(name, kind, size, r);
}

/// Most near the section's end, so that linker objects stand there in a row.
fn symbol_at_end(maker: &mut Maker, r: &mut Random) {
    if r.one_in(4) {
        return maker.any_symbol(r);
    }
    let section = r.below(maker.sections.len());
    let place = maker.sections[section];
    let back = maker.step * r.below(6) as u32;
    let address = place.end.saturating_sub(back).max(place.start);
    let size = r.pick(&[maker.step, maker.step, back]);
    maker.symbol(r.pick(&LINKER_OBJECTS), section, address, size, r);
}

/// Four bytes, more, or too few.
fn number_room(r: &mut Random) -> usize {
    if r.one_in(2) { 4 } else { r.below(10) }
}

pub struct SplitAlignment;

impl Stage for SplitAlignment {
    const ENTRY: StageEntry = SPLIT_ALIGNMENT;
    const COUNT: usize = 100_000;
    const OUTCOMES: &'static [u16] = &[0, 1, 2, 3, 4, 5, 7, 11, 20];
    const STEP: &'static str = "trim";

    fn enlarged(case: Case, r: &mut Random) -> Case {
        let splits = case.tables().splits.len() / SPLIT_BYTES;
        asking_one(case, splits, r)
    }

    fn random(r: &mut Random) -> Case {
        let mut maker = Maker::new(3, r);
        maker.sections(4, r);
        maker.symbols(8, r);
        maker.loose_splits(4, r);
        let n = maker.splits.len();
        let which = if r.one_in(40) { r.pick(&[n, 0x400, 0xFFFF]) } else { r.below(n.max(1)) };
        maker.case(vec![which as u32], vec![number_room(r)])
    }

    fn right(case: &Case) -> Answer {
        ends::split_alignment(&case.tables(), case.numbers[0] as u16, &case.lent)
    }

    fn beside(case: &Case) -> Beside {
        let t = case.tables();
        let (splits, which) = (splits_in(t.splits), case.numbers[0] as usize);
        if checked(&t, &LIMITS).is_err() || which >= splits.len() {
            return Beside::NotAsked;
        }
        let split = &splits[which];
        let reading = ends::alignment(&Image::of(&t), split, split.start);
        rust::beside(case, Question::Alignment(which), reading.map(Reply::Number))
    }
}
