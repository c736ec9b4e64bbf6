//! The entry `write_srecords`, held to document 02's second reading. The Rust writes no S-records.
pub mod client;
mod points;

use super::{
    Beside, Case, Stage,
    join::{holding, pieces_of},
    make::{Maker, room},
};
use crate::{
    document::{join::MOST, outputs::Answer, records::NO_BYTES, srecords},
    entries::stages::{StageEntry, WRITE_SRECORDS},
    random::Random,
    records::TOP,
    tally::Tally,
};

pub struct WriteSrecords;

impl Stage for WriteSrecords {
    const ENTRY: StageEntry = WRITE_SRECORDS;
    const COUNT: usize = 100_000;
    const OUTCOMES: &'static [u16] = &[0, 1, 2, 3, 4, 80, 82, 83, 87];
    const OFTEN: &'static [(u16, u64)] =
        &[(0, 10_000), (1, 1000), (80, 5000), (82, 5000), (83, 5000), (87, 5000)];

    fn random(r: &mut Random) -> Case {
        let most = if r.one_in(500) { MOST + 2 } else { 10 };
        lined_case(2 + r.below(4), most, 4, r)
    }

    fn right(case: &Case) -> Answer {
        srecords::answer(&case.tables(), &case.pieces, &case.lent)
    }

    fn beside(_: &Case) -> Beside {
        Beside::NotAsked
    }

    fn by_hand(tally: &mut Tally) {
        points::run(tally);
    }

    fn more(seed: u64, tally: &mut Tally) {
        client::run(seed, tally);
    }

    /// Many sections, and about as many pieces as are allowed.
    fn large(r: &mut Random) -> Option<Case> {
        Some(lined_case(58 + r.below(9), MOST + 2, 400, r))
    }
}

/// As the cases of `join_pieces`, but the sections mostly lie apart, and there is mostly room
/// for the lines.
fn lined_case(sections: usize, most: usize, faulty: usize, r: &mut Random) -> Case {
    let mut maker = Maker::new(3, r);
    if r.one_in(8) {
        maker.sections(sections, r);
    } else {
        apart(&mut maker, sections, r);
    }
    let pieces = pieces_of(&maker, most, faulty, r);
    let lent = vec![room(1, needed(&maker), r), if r.one_in(2) { 8 } else { r.below(12) }];
    Case { pieces, ..maker.case(vec![], lent) }
}

/// How many bytes the lines take.
fn needed(maker: &Maker) -> usize {
    let sizes = holding(maker).map(|(_, _, bytes)| bytes.len());
    sizes.map(|size| 15 * size.div_ceil(16) + 2 * size).sum::<usize>() + 15
}

/// Sections one after another, some of them touching, in an order of numbers that isn't that of
/// the addresses; one in eight overlaps the one before it by a byte.
fn apart(maker: &mut Maker, most: usize, r: &mut Random) {
    let count = 1 + r.below(most - 1);
    let mut at = r.pick(&[0, 0x1000, 0xFFF8, 0x7FFF_FFF0, TOP - 0x8000]);
    let mut places = vec![];
    for _ in 0..count {
        let size = r.pick(&[0, 1, 15, 16, 17, 31, 32, 33, 100]);
        let kind = r.pick(&[0, 1, 1, 2, NO_BYTES]);
        places.push((at, kind, size));
        at += size;
        if r.one_in(8) {
            at = at.saturating_sub(1);
        } else {
            at += r.pick(&[0, 0, 1, 5, 16, 300]);
        }
    }
    r.shuffle(&mut places);
    for (start, kind, size) in places {
        maker.section_at(start, b".data", kind, size, r);
    }
}
