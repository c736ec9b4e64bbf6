//! Inputs of `join_pieces` whose answers are written by hand: the order of the checks, and
//! each rule's edge. Addresses are hexadecimal.
use super::{
    super::{AS_WRITTEN, Case, Stage, compare, line},
    JoinPieces,
};
use crate::{
    check_tables::{HEADS, NAME_BYTES, NAME_ENDS},
    document::join::Part,
    records::packed,
    tally::Tally,
};

/// `.data` of 8 bytes at 1000, a section without bytes, `.text` of 4 bytes at 2000.
const SECTIONS: [(u8, u32, u32); 3] = [(1, 0x1000, 8), (3, 0x1008, 100), (0, 0x2000, 4)];

type Given = Vec<(u16, u32, Vec<u8>)>;

/// The pieces as records, and bytes after them; the bytes that are lent; the right answer.
struct Point {
    sections: Vec<(u8, u32, u32)>,
    pieces: Given,
    after: Vec<u8>,
    lent: usize,
    right: String,
}

fn point(lent: usize, pieces: &[(u16, u32, &[u8])], right: &str) -> Point {
    let pieces = pieces.iter().map(|(s, a, b)| (*s, *a, b.to_vec())).collect();
    let (sections, right) = (SECTIONS.to_vec(), right.to_string());
    Point { sections, pieces, after: vec![], lent, right }
}

impl Point {
    fn case(&self) -> Case {
        let mut case = Case::default();
        case.set[NAME_ENDS] = vec![1, 0];
        case.set[NAME_BYTES] = b"s".to_vec();
        for (kind, start, size) in &self.sections {
            let (start, size) = (*start as u64, *size as u64);
            let head = [(0, 2), (*kind as u64, 1), (start, 4), (size, 4), (0, 4)];
            case.set[HEADS].extend(packed(&head));
        }
        for (section, address, bytes) in &self.pieces {
            let part = Part { section: *section, address: *address, bytes };
            case.pieces.extend(part.record());
        }
        case.pieces.extend(&self.after);
        case.lent = vec![self.lent, 8];
        case
    }
}

pub fn run(tally: &mut Tally) {
    tally.begin("join_pieces, answers written by hand");
    for point in points().into_iter().chain(by_record()) {
        let case = point.case();
        let answer = JoinPieces::right(&case);
        let word = answer.word;
        let reading = match word {
            0 => answer.outputs[0].iter().map(|b| format!("{b:02X}")).collect(),
            _ => format!("{} {} {}", word >> 48, word >> 32 & 0xFFFF, word as u32),
        };
        if reading != point.right {
            let right = format!("{} is right, the reading gives {reading}", point.right);
            tally.difference(&line::put(&JoinPieces::ENTRY, &case, &answer), &[right]);
        }
        compare::<JoinPieces>(&case, Some(AS_WRITTEN), tally);
    }
    tally.end(&[0, 1, 2, 80, 82, 83]);
}

fn points() -> Vec<Point> {
    vec![
        // Pieces that overlap and agree, in no order; zeros where none lies.
        point(
            12,
            &[(2, 0x2001, &[7, 8]), (0, 0x1002, &[3, 4]), (0, 0x1000, &[1, 2, 3])],
            "010203040000000000070800",
        ),
        point(13, &[(0, 0x1000, &[1]), (0, 0x1000, &[1])], "010000000000000000000000"),
        point(12, &[], "000000000000000000000000"),
        // 80 before 82 before 83.
        point(11, &[(7, 0, &[])], "80 0 0"),
        point(12, &[(0, 0x1000, &[1]), (0, 0x1000, &[2]), (7, 0, &[])], "82 0 0"),
        point(12, &[(0, 0x1000, &[1]), (0, 0x1000, &[2])], "83 0 0"),
        // Another piece between the two, in the list and by address.
        point(12, &[(0, 0x1000, &[1, 2, 3]), (0, 0x1001, &[2]), (0, 0x1002, &[4])], "83 0 0"),
        // One address, two sections.
        point(12, &[(0, 0x1007, &[1]), (2, 0x2000, &[2])], "000000000000000102000000"),
        // A section without bytes, and one that isn't there.
        point(12, &[(1, 0x1008, &[1])], "82 0 0"),
        point(12, &[(1, 0x1008, &[])], "82 0 0"),
        point(12, &[(3, 0x1008, &[])], "82 0 0"),
        // A byte past the end, one before the start.
        point(12, &[(0, 0x1007, &[1, 2])], "82 0 0"),
        point(12, &[(2, 0x1FFF, &[1, 2])], "82 0 0"),
        // A piece of no bytes lies from the start to the end.
        point(12, &[(0, 0x1000, &[]), (0, 0x1008, &[])], "000000000000000000000000"),
        point(12, &[(0, 0x1009, &[])], "82 0 0"),
        point(12, &[(0, 0xFFF, &[])], "82 0 0"),
        point(12, &[(0, 0xFFFF_FFFF, &[1])], "82 0 0"),
    ]
}

/// What the table checks say, and how many pieces and sections there may be.
fn by_record() -> Vec<Point> {
    let mut points = vec![];
    // 1 before 80: a record cut in its head, in its payload, of kind 2, with five bytes.
    for after in [vec![0; 5], vec![7, 0, 0, 0, 7, 0], record(6, 2), record(5, 7)] {
        points.push(Point { after, ..point(0, &[(0, 0x1000, &[1])], "1 0 1") });
    }
    // Record for record: 1,024 whole ones and a cut one, 1,025 whole ones and a cut one.
    for (count, right) in [(1023, "80 0 0"), (1024, "1 0 1024"), (1025, "2 0 1024")] {
        let pieces = vec![(0, 0x1000, vec![1]); count];
        let after = if count < 1024 { vec![] } else { vec![0] };
        points.push(Point { pieces, after, ..point(0, &[], right) });
    }
    // 64 sections of 0xF0000000 bytes, more than 32 bits; and one too many of the sections.
    for (count, right) in [(64, "80 0 0"), (65, "2 0 64")] {
        let sections = vec![(0, 0, 0xF000_0000); count];
        points.push(Point { sections, ..point(100, &[], right) });
    }
    points
}

/// A record of zeros with a payload of this length and this kind.
fn record(length: u32, kind: u16) -> Vec<u8> {
    let mut record = [&length.to_le_bytes()[..], &kind.to_le_bytes()].concat();
    record.extend(vec![0; length as usize]);
    record
}
