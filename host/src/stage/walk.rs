//! The entry `split_obj`.
use oracle::answers::{self, Question, Reply, WalkedUnit};

use super::{
    Beside, Case, Stage,
    make::{Maker, Place, counts_room, room},
    rust::{self, text},
};
use crate::{
    bytes::word_at,
    check_tables::{RELOCATION_TABLE, SYMBOL_TABLE, UNIT_TABLE},
    document::{
        check_tables::{LIMITS, Tables, checked},
        image::{Image, NONE, Split, splits_in},
        order::units_in,
        outputs::Answer,
        walk::{self, Piece, PieceSymbol, Walked},
    },
    entries::stages::{SPLIT_OBJ, StageEntry},
    random::Random,
    records::packed,
};

pub struct SplitObj;

const NO_CEILING: walk::Room = [usize::MAX; 3];

impl Stage for SplitObj {
    const ENTRY: StageEntry = SPLIT_OBJ;
    const COUNT: usize = 200_000;
    const OUTCOMES: &'static [u16] =
        &[0, 1, 2, 3, 4, 5, 6, 7, 8, 10, 11, 70, 71, 72, 73, 74, 75, 76];
    const STEP: &'static str = "walk";

    fn random(r: &mut Random) -> Case {
        let mut maker = Maker::new(5, r);
        if r.one_in(4000) {
            crowd(&mut maker, r);
        } else {
            maker.sections(4, r);
            maker.symbols(8, r);
            relocations(&mut maker, r);
        }
        match r.below(8) {
            _ if !maker.splits.is_empty() => {}
            0 => maker.loose_splits(4, r),
            1 => overlapping_splits(&mut maker, r),
            2 => backward_splits(&mut maker, r),
            _ => maker.tidy_splits(5, 24, r),
        }
        units(&mut maker, r);
        with_room(maker.case(vec![], vec![]), r)
    }

    fn right(case: &Case) -> Answer {
        walk::answer(&case.tables(), &case.lent)
    }

    fn beside(case: &Case) -> Beside {
        let t = case.tables();
        if checked(&t, &LIMITS).is_err() {
            return Beside::NotAsked;
        }
        let (image, units) = (Image::of(&t), units_in(t.units));
        let walked = walk::walk(&image, &splits_in(t.splits), &units, NO_CEILING);
        let reading = walked.map(|walked| Reply::Walked(by_unit(&t, &image, &walked, units.len())));
        rust::beside(case, Question::Walk, reading)
    }
}

/// What the reading's tables say of each unit, with all that the image's records add.
fn by_unit(t: &Tables, image: &Image, walked: &Walked, units: usize) -> Vec<WalkedUnit> {
    let mut out = vec![WalkedUnit::default(); units];
    for (place, piece) in walked.pieces.iter().enumerate() {
        let unit = &mut out[piece.unit as usize];
        assert_eq!(piece.number as usize, unit.pieces.len(), "the piece's number in its unit");
        let mut piece = whole_piece(image, piece);
        let of_piece = walked.relocations.iter().filter(|r| r.piece as usize == place);
        piece.relocations =
            of_piece.map(|r| whole_relocation(t, r.relocation as usize, r.offset)).collect();
        unit.pieces.push(piece);
    }
    for symbol in &walked.symbols {
        let piece = walked.pieces.get(symbol.piece as usize).map(|p| p.number as u32);
        assert_eq!(piece.is_none(), symbol.piece == NONE, "only common symbols have no piece");
        out[symbol.unit as usize].symbols.push(whole_symbol(image, symbol, piece));
    }
    out
}

fn whole_piece(image: &Image, piece: &Piece) -> answers::Piece {
    let section = image.section(piece.section);
    let from = (piece.address - section.address) as usize;
    // A section without bytes has none for the piece either.
    let bytes = section.bytes.get(from..from + piece.size as usize).unwrap_or(&[]);
    answers::Piece {
        name: text(image.names[piece.name as usize]),
        address: piece.address as u64,
        size: piece.size as u64,
        alignment: piece.alignment as u64,
        file_offset: piece.file_offset,
        bytes: bytes.to_vec(),
        relocations: vec![],
    }
}

fn whole_relocation(t: &Tables, number: usize, offset: u32) -> answers::Relocation {
    let record = &t.relocations[23 * number..][..23];
    let module = word_at(record, 19);
    answers::Relocation {
        offset,
        kind: record[6],
        target: word_at(record, 7),
        addend: i64::from_le_bytes(record[11..19].try_into().unwrap()),
        module: (module != u32::MAX).then_some(module),
    }
}

fn whole_symbol(image: &Image, symbol: &PieceSymbol, piece: Option<u32>) -> answers::PieceSymbol {
    let of_image = image.symbols.iter().find(|s| s.number == symbol.symbol).unwrap();
    answers::PieceSymbol {
        number: symbol.symbol as usize,
        name: text(of_image.name),
        piece,
        address: symbol.address as u64,
        size: of_image.size as u64,
        known: of_image.known,
        kind: of_image.kind,
        flags: symbol.flags,
        alignment: (of_image.alignment != 0).then_some(of_image.alignment),
    }
}

/// At rising multiples of 4 in each section.
pub(super) fn relocations(maker: &mut Maker, r: &mut Random) {
    let symbols = maker.set[SYMBOL_TABLE].len() / 20;
    if symbols == 0 || r.one_in(4) {
        return;
    }
    for section in 0..maker.sections.len() {
        let Place { start, end, .. } = maker.sections[section];
        let mut address = start.next_multiple_of(4) + 4 * r.below(3) as u32;
        while address < end && !r.one_in(5) {
            let module = r.pick(&[0xFFFF_FFFF, 0xFFFF_FFFF, 7]);
            maker.set[RELOCATION_TABLE].extend(packed(&[
                (section as u64, 2),
                (address as u64, 4),
                (r.below(7) as u64, 1),
                (r.below(symbols) as u64, 4),
                (r.next(), 8),
                (module, 4),
            ]));
            address += 4 * (1 + r.below(3)) as u32;
        }
    }
}

/// From the section's start on, each at or behind the one before, with any end above it.
fn overlapping_splits(maker: &mut Maker, r: &mut Random) {
    for section in 0..maker.sections.len() {
        let mut start = maker.sections[section].start;
        for _ in 0..1 + r.below(5) {
            let end = maker.near(section, r).max(start);
            maker.split(section, start, end, r);
            start += maker.step * r.below(3) as u32;
        }
    }
}

/// Splits that lie one behind another, but one of them ends below its start.
fn backward_splits(maker: &mut Maker, r: &mut Random) {
    maker.tidy_splits(5, 24, r);
    if !maker.splits.is_empty() {
        let which = r.below(maker.splits.len());
        let split = &mut maker.splits[which];
        let start = maker.sections[split.section as usize].start;
        split.end = split.start.saturating_sub(1 + r.below(12) as u32).max(start);
    }
}

/// As many splits over one another as make about 4,096 piece symbols and relocations.
fn crowd(maker: &mut Maker, r: &mut Random) {
    maker.section(b".data", 1, 0x100, r);
    let Place { start, end, .. } = maker.sections[0];
    for i in 0..64 {
        maker.symbol(b"x", 0, start + 4 * i, 4, r);
        let address = (start.next_multiple_of(4) + 4 * i) as u64;
        let fields = [(0, 2), (address, 4), (0, 1), (0, 4), (0, 8), (7, 4)];
        maker.set[RELOCATION_TABLE].extend(packed(&fields));
    }
    maker.units = (0..63 + r.below(10)).map(|n| maker.name(format!("u{n}").as_bytes())).collect();
    for unit in maker.units.clone() {
        let split = maker.made_split(0, start, end, r);
        maker.splits.push(Split { unit, flags: split.flags & r.pick(&[2, 2, 2, 3]), ..split });
    }
}

/// Records of the units in any order, seldom without one of them or with one twice.
fn units(maker: &mut Maker, r: &mut Random) {
    let mut units = maker.units.clone();
    if r.one_in(6) {
        units.push(r.pick(&maker.units));
    }
    r.shuffle(&mut units);
    if r.one_in(20) {
        units.pop();
    }
    for unit in units {
        maker.set[UNIT_TABLE].extend(packed(&[(unit as u64, 2), (r.next() & 1, 1), (0, 5)]));
    }
}

/// Outputs that hold just what the walk gives, more, or less.
fn with_room(mut case: Case, r: &mut Random) -> Case {
    let t = case.tables();
    let splits = splits_in(t.splits);
    let walked = walk::walk(&Image::of(&t), &splits, &units_in(t.units), NO_CEILING);
    let walked = walked.unwrap_or_default();
    let needed = [walked.pieces.len(), walked.symbols.len(), walked.relocations.len()];
    let mut lent = vec![walk::PIECE_BYTES * needed[0], 12 * needed[1], 8 * needed[2]];
    // One of the three is narrow, so that the others' ceilings are seen too.
    match r.below(6) {
        0 => lent[0] = room(walk::PIECE_BYTES, needed[0], r),
        1 => lent[1] = room(12, needed[1], r),
        2 => lent[2] = room(8, needed[2], r),
        3 => {}
        _ => lent.iter_mut().for_each(|len| *len += r.below(70)),
    }
    lent.push(counts_room(3, r));
    case.lent = lent;
    case
}
