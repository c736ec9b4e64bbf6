//! Inputs of `write_srecords` whose lines are written by hand: the order of the checks, and each
//! rule's edge. Addresses are hexadecimal.
use super::{
    super::{AS_WRITTEN, Case, Stage, compare, line},
    WriteSrecords,
};
use crate::{
    check_tables::{HEADS, NAME_BYTES, NAME_ENDS},
    document::join::Part,
    records::packed,
    tally::Tally,
};

type Section = (u8, u32, u32);
type Piece<'a> = (u16, u32, &'a [u8]);

const SIXTEEN: [u8; 16] = [1, 2, 3, 4, 5, 6, 7, 8, 9, 10, 11, 12, 13, 14, 15, 16];

/// The S7 line.
const LAST: &str = "S70500000000FA\n";

/// `.data` of 20 bytes at 1000, a section without bytes there, and an empty one.
const SECTIONS: [Section; 3] = [(1, 0x1000, 20), (3, 0x1000, 64), (0, 0x2000, 0)];

pub fn run(tally: &mut Tally) {
    tally.begin("write_srecords, answers written by hand");
    let first = "S315000010000102030405060708090A0B0C0D0E0F1052\n";
    let both = format!("{first}S3090000101000000000D6\n{LAST}");
    let whole: &[Piece] = &[(0, 0x1000, &SIXTEEN)];
    point(&SECTIONS, whole, 85, &both, tally);
    // Pieces that overlap and agree, in no order.
    let parts: &[Piece] = &[(0, 0x1008, &SIXTEEN[8..]), (0, 0x1000, &SIXTEEN[..12])];
    point(&SECTIONS, parts, 100, &both, tally);
    // "80 if the lines don't fit, last".
    point(&SECTIONS, whole, 84, "80 0 0", tally);
    point(&[], &[], 15, LAST, tally);
    point(&[], &[], 14, "80 0 0", tally);
    // 16 and 17 bytes; sections by number, the S7 line once.
    let line = "S315000020000102030405060708090A0B0C0D0E0F1042\n";
    point(&[(0, 0x2000, 16)], &[(0, 0x2000, &SIXTEEN)], 62, &format!("{line}{LAST}"), tally);
    let more = format!("{line}S3060000201000C9\n{LAST}");
    point(&[(0, 0x2000, 17)], &[(0, 0x2000, &SIXTEEN)], 79, &more, tally);
    let heads: &[Section] = &[(2, 0x1002, 1), (1, 0xF000_0FFF, 1)];
    // A section that ends above F0000000 is 4.
    point(heads, &[], 100, "4 0 1", tally);
    let heads: &[Section] = &[(2, 0x1002, 1), (1, 0xEFFF_FFFF, 1)];
    let two = format!("S306000010020ADD\nS306EFFFFFFF000D\n{LAST}");
    point(heads, &[(0, 0x1002, &[10])], 100, &two, tally);
    // 87 before 82, and at one common address; sections that touch share none, nor do an empty
    // one and one of kind 3.
    point(&[(1, 0x1000, 20), (0, 0x1013, 1)], &[(9, 0, &[])], 0, "87 0 0", tally);
    point(&[(1, 0x1013, 1), (0, 0x1000, 20)], &[], 0, "87 0 0", tally);
    point(&[(1, 0x1000, 20), (0, 0x1014, 1)], &[(9, 0, &[])], 0, "82 0 0", tally);
    point(&[(1, 0x1000, 20), (0, 0x1004, 0), (3, 0x1004, 8)], &[], 0, "80 0 0", tally);
    // 82 before 83 before 80, and 83 where neighbours agree.
    let twice: &[Piece] = &[(0, 0x1000, &[1]), (0, 0x1000, &[2]), (1, 0x1000, &[])];
    point(&SECTIONS, twice, 0, "82 0 0", tally);
    point(&SECTIONS, &twice[..2], 0, "83 0 0", tally);
    let far: &[Piece] = &[(0, 0x1000, &[1, 2, 3]), (0, 0x1001, &[2]), (0, 0x1002, &[4])];
    point(&SECTIONS, far, 0, "83 0 0", tally);
    // A large section: only its size counts for 80.
    point(&[(0, 0, 0xF000_0000)], &[(0, 0, &[1])], 100, "80 0 0", tally);
    tally.end(&[0, 4, 80, 82, 83, 87]);
}

fn point(sections: &[Section], pieces: &[Piece], room: usize, right: &str, tally: &mut Tally) {
    let case = case(sections, pieces, room);
    let answer = WriteSrecords::right(&case);
    let word = answer.word;
    let reading = match word {
        0 => String::from_utf8_lossy(&answer.outputs[0]).into_owned(),
        _ => format!("{} {} {}", word >> 48, word >> 32 & 0xFFFF, word as u32),
    };
    if reading != right {
        let right = format!("{right:?} is right, the reading gives {reading:?}");
        tally.difference(&line::put(&WriteSrecords::ENTRY, &case, &answer), &[right]);
    }
    compare::<WriteSrecords>(&case, Some(AS_WRITTEN), tally);
}

fn case(sections: &[Section], pieces: &[Piece], room: usize) -> Case {
    let mut case = Case { lent: vec![room, 8], ..Case::default() };
    case.set[NAME_ENDS] = vec![1, 0];
    case.set[NAME_BYTES] = b"s".to_vec();
    for (kind, start, size) in sections {
        let (start, size) = (*start as u64, *size as u64);
        let head = [(0, 2), (*kind as u64, 1), (start, 4), (size, 4), (0, 4)];
        case.set[HEADS].extend(packed(&head));
    }
    for (section, address, bytes) in pieces {
        let part = Part { section: *section, address: *address, bytes };
        case.pieces.extend(part.record());
    }
    case
}
