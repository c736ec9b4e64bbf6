//! The entry `join_pieces`, held to document 02's second reading. The Rust joins nothing.
pub mod back;
mod linked;
mod points;

use super::{
    Beside, Case, Stage,
    make::{Maker, room},
};
use crate::{
    bytes::word_at,
    check_tables::{HEADS, IMAGE, PLACES},
    document::{
        join::{self, MOST, Part},
        outputs::Answer,
        records::NO_BYTES,
    },
    entries::stages::{JOIN_PIECES, StageEntry},
    random::Random,
    tally::Tally,
};

pub struct JoinPieces;

impl Stage for JoinPieces {
    const ENTRY: StageEntry = JOIN_PIECES;
    const COUNT: usize = 200_000;
    const OUTCOMES: &'static [u16] = &[0, 1, 2, 3, 4, 80, 82, 83];
    const OFTEN: &'static [(u16, u64)] =
        &[(0, 20_000), (1, 2000), (80, 10_000), (82, 10_000), (83, 10_000)];

    fn random(r: &mut Random) -> Case {
        let most = if r.one_in(1000) { MOST + 2 } else { 10 };
        joined_case(2 + r.below(4), most, 4, r)
    }

    fn right(case: &Case) -> Answer {
        join::answer(&case.tables(), &case.pieces, &case.lent)
    }

    fn beside(_: &Case) -> Beside {
        Beside::NotAsked
    }

    fn by_hand(tally: &mut Tally) {
        points::run(tally);
    }

    fn more(seed: u64, tally: &mut Tally) {
        back::run(seed, tally);
        linked::run(tally);
    }

    /// Many sections, and about as many pieces as are allowed.
    fn large(r: &mut Random) -> Option<Case> {
        Some(joined_case(58 + r.below(9), MOST + 2, 400, r))
    }
}

/// Fewer sections than `sections`, and at most `most` pieces of some of them; about that many
/// where they are many. One piece in `faulty` isn't a plain part of its section.
fn joined_case(sections: usize, most: usize, faulty: usize, r: &mut Random) -> Case {
    let mut maker = Maker::new(3, r);
    maker.sections(sections, r);
    let pieces = pieces_of(&maker, most, faulty, r);
    let held = holding(&maker).map(|(_, _, bytes)| bytes.len()).sum();
    let lent = vec![room(1, held, r), if r.one_in(2) { 8 } else { r.below(12) }];
    Case { pieces, ..maker.case(vec![], lent) }
}

/// At most `most` records of its sections' pieces, seldom damaged.
pub fn pieces_of(maker: &Maker, most: usize, faulty: usize, r: &mut Random) -> Vec<u8> {
    let count = if most < MOST { r.below(most) } else { most - r.below(5) };
    let faulty = if r.one_in(2) { faulty } else { usize::MAX };
    let mut pieces = vec![];
    for _ in 0..count {
        pieces.extend(piece(maker, faulty, r));
    }
    if r.one_in(24) {
        damage(&mut pieces, r);
    }
    pieces
}

/// The sections that hold bytes: number, start, bytes.
pub fn holding(maker: &Maker) -> impl Iterator<Item = (usize, u32, &[u8])> {
    let places = maker.set[PLACES].chunks_exact(4).map(|place| word_at(place, 0) as usize);
    let heads = maker.set[HEADS].chunks_exact(15).zip(places).enumerate();
    heads.filter(|(_, (head, _))| head[2] != NO_BYTES).map(|(number, (head, place))| {
        let (start, size) = (word_at(head, 3), word_at(head, 7) as usize);
        (number, start, &maker.set[IMAGE][place..place + size])
    })
}

/// A record: a part of a section that holds bytes, often none of its bytes or all of them;
/// one in `faulty` differs in a byte, lies elsewhere or names another section.
fn piece(maker: &Maker, faulty: usize, r: &mut Random) -> Vec<u8> {
    let sections: Vec<_> = holding(maker).collect();
    let faulty = r.one_in(faulty);
    if sections.is_empty() {
        let section = r.below(maker.sections.len() + 1) as u16;
        return if faulty {
            Part { section, address: 0x1000, bytes: &[1] }.record()
        } else {
            vec![]
        };
    }
    let (number, start, bytes) = r.pick(&sections);
    let (from, to) = (r.below(bytes.len() + 1), r.below(bytes.len() + 1));
    let (from, to) = match r.below(8) {
        0 => (from, from),
        1 => (0, bytes.len()),
        _ => (from.min(to), from.max(to)),
    };
    let mut bytes = bytes[from..to].to_vec();
    let (mut section, mut address) = (number as u16, start + from as u32);
    if faulty {
        match r.below(8) {
            0 => section = r.pick(&[maker.sections.len(), 64, 0xFFFF, 0]) as u16,
            1 => section = r.below(maker.sections.len()) as u16,
            2 => address = address.wrapping_sub(r.below(3) as u32),
            3 => address = address.wrapping_add(r.below(3) as u32),
            4 => bytes.push(r.below(2) as u8),
            _ if bytes.is_empty() => {}
            _ => {
                let any = r.below(bytes.len());
                let which = r.pick(&[0, bytes.len() - 1, any]);
                bytes[which] ^= 1 << r.below(8);
            }
        }
    }
    Part { section, address, bytes: &bytes }.record()
}

/// Records that are cut, of another kind, or too short or too long.
fn damage(pieces: &mut Vec<u8>, r: &mut Random) {
    let starts = starts(pieces);
    let at = if starts.is_empty() { 0 } else { r.pick(&starts) };
    match r.below(6) {
        _ if starts.is_empty() => pieces.extend((0..1 + r.below(12)).map(|_| r.next() as u8)),
        0 => pieces.truncate(r.below(pieces.len() + 1)),
        1 => pieces.truncate(pieces.len() - 1),
        2 => pieces[at + 4] = r.pick(&[0, 1, 2, 6, 8]),
        3 => pieces[at + 5] = 1,
        4 => {
            let length = word_at(pieces, at);
            let any = r.below(14) as u32;
            let length = r.pick(&[length + 1, length - 1, 5, 6, 0, any, u32::MAX]);
            pieces[at..at + 4].copy_from_slice(&length.to_le_bytes());
        }
        _ => pieces.extend((0..1 + r.below(12)).map(|_| r.next() as u8)),
    }
}

/// Where the records begin.
fn starts(pieces: &[u8]) -> Vec<usize> {
    let mut starts = vec![];
    let mut at = 0;
    while at < pieces.len() {
        starts.push(at);
        at += 6 + word_at(pieces, at) as usize;
    }
    starts
}
