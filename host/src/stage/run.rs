//! The entry `split_file`: the whole run, its listing beside the Rust's.
pub mod along;
pub mod big;
pub mod files;
mod points;
pub mod store;

use super::{
    Beside, Case, Stage, large,
    make::{counts_room, room},
    rust,
};
use crate::{
    document::{
        self, Refusal,
        image::{Image, SPLIT_BYTES, partials_in},
        listing::listed_as_the_rust,
        load::load,
        order::units_in,
        outputs::Answer,
        run::{self, CEILINGS, Ended, NO_CEILING, run},
        walk::PIECE_BYTES,
    },
    entries::{
        self,
        stages::{SPLIT_FILE, StageEntry},
    },
    random::Random,
    tally::Tally,
};

pub struct SplitFile;

impl Stage for SplitFile {
    const ENTRY: StageEntry = SPLIT_FILE;
    const COUNT: usize = 100_000;
    /// Those that the run can give, and 76, which comes of short outputs.
    const OUTCOMES: &'static [u16] = &[
        0, 1, 2, 3, 4, 5, 6, 7, 8, 10, 11, 20, 21, 22, 23, 24, 25, 26, 27, 28, 40, 41, 42, 50, 51,
        52, 53, 60, 61, 70, 71, 73, 75, 76,
    ];
    /// Its one input is damaged as a file.
    const CHECKED: bool = false;

    fn random(r: &mut Random) -> Case {
        with_room(files::random(r), r)
    }

    fn large(r: &mut Random) -> Option<Case> {
        let mut case = store::whole(&big::random(r));
        large::shorten_output(&mut case, 4, r);
        Some(case)
    }

    fn by_hand(tally: &mut Tally) {
        points::run(tally);
    }

    fn more(seed: u64, tally: &mut Tally) {
        along::run(seed, tally);
    }

    /// Few: crates/run_cases has more.
    fn stored_of(number: u16) -> (usize, usize) {
        match number {
            0 => (16, 1000),
            2 => (1, 6000),
            _ => (2, 1000),
        }
    }

    fn right(case: &Case) -> Answer {
        run::answer(&case.file, &case.lent)
    }

    fn beside(case: &Case) -> Beside {
        if let Err(refusal) = load(&case.file) {
            return as_check_file(&case.file, refusal);
        }
        rust::run_beside(&case.file, listed_as_the_rust(&case.file, &NO_CEILING))
    }
}

/// The Rust reads no such file, but another entry does, and must refuse it alike.
fn as_check_file(file: &[u8], refusal: Refusal) -> Beside {
    let given = entries::check_file(file, &mut []);
    if given == document::word(Some(refusal)) {
        return Beside::Same(refusal.number, ", as check_file");
    }
    Beside::Differs(vec![format!("check_file gives {}", document::describe(given))])
}

const WIDTHS: [usize; 7] = [2, 1, SPLIT_BYTES, 8, PIECE_BYTES, 12, 8];
const SPLITS: usize = 2;

/// How many records each output needs; nothing known where the run is refused.
fn needed(file: &[u8]) -> Option<[usize; 7]> {
    let loaded = load(file).ok()?;
    let t = loaded.tables();
    let image = Image::of(&t);
    let (partials, units) = (partials_in(&loaded.partials), units_in(&loaded.units));
    match run(&image, &partials, &units, &NO_CEILING) {
        Ok(Ended::Whole(ran)) => {
            let added = &ran.names[image.names.len()..];
            let bytes = added.iter().map(Vec::len).sum();
            let walked = &ran.walked;
            let walked = [walked.pieces.len(), walked.symbols.len(), walked.relocations.len()];
            let [pieces, symbols, relocations] = walked;
            let (splits, units) = (ran.splits.len(), ran.units.len());
            Some([added.len(), bytes, splits, units, pieces, symbols, relocations])
        }
        _ => None,
    }
}

/// With outputs that hold just what the run needs; `None` where it is refused.
pub fn just_enough(file: &[u8]) -> Option<Case> {
    let needed = needed(file)?;
    let mut lent: Vec<usize> = WIDTHS.iter().zip(needed).map(|(width, n)| width * n).collect();
    lent.push(2 * needed.len());
    let mut case = Case { file: file.to_vec(), lent, ..Case::default() };
    // A merge may hold more splits at once than the run leaves.
    let (mut few, mut enough) = (needed[SPLITS], CEILINGS.places.splits);
    while few < enough {
        let places = (few + enough) / 2;
        case.lent[SPLITS] = WIDTHS[SPLITS] * places;
        match SplitFile::right(&case).word {
            0 => enough = places,
            _ => few = places + 1,
        }
    }
    case.lent[SPLITS] = WIDTHS[SPLITS] * enough;
    Some(case)
}

/// Outputs that hold just what the run gives, more, or less: at most one is short, so that
/// the others' ceilings are seen too.
fn with_room(file: Vec<u8>, r: &mut Random) -> Case {
    // Where it is refused, mostly enough.
    let enough = if r.one_in(8) { [2, 50, 8, 6, 6, 8, 8] } else { [20, 800, 40, 30, 40, 40, 40] };
    let needed = needed(&file).unwrap_or(enough);
    let short = if r.one_in(3) { r.below(7) } else { 7 };
    let mut lent: Vec<usize> = (0..7).map(|i| WIDTHS[i] * needed[i]).collect();
    let more = r.one_in(2);
    for i in 0..7 {
        if i == short {
            lent[i] = room(WIDTHS[i], needed[i], r);
        } else if more {
            lent[i] += WIDTHS[i] * r.below(4) + r.below(WIDTHS[i]);
        }
    }
    lent.push(counts_room(7, r));
    Case { file, lent, ..Case::default() }
}
