//! Stage tables at the edges of document 01's rules.
use super::{
    HEADS, IMAGE, NAME_BYTES, NAME_ENDS, PLACES, RELOCATION_TABLE, SPLIT_TABLE, SYMBOL_TABLE, Set,
    TABLES, UNIT_TABLE,
    sets::{self, TABLE_OF_KIND},
};
use crate::{
    bytes::half_at,
    records::{self, NAME, Record, SECTION, TOP, edge_words, numbered_name, packed},
};

type Each<'a> = &'a mut dyn FnMut(Set);

/// A title, the cases, and the numbers that they must show.
type Group = (&'static str, fn(Each), &'static [u16]);

pub const GROUPS: &[Group] = &[
    ("each table of every length", lengths, &[0, 1, 4, 5, 6, 7, 8]),
    ("every bit flipped", flipped, &[0, 1, 3, 4, 5, 6, 7, 8]),
    ("each field at its edges", fields, &[0, 1, 4, 5, 6, 7, 8]),
    ("full tables and one more", ceilings, &[0, 1, 2, 3, 4, 5, 6, 7, 8]),
    ("places in the image", places, &[0, 1, 4]),
    ("names and their ends", names, &[0, 1, 3]),
    ("splits one behind another", splits, &[0, 7]),
    ("faults in two tables", pairs, &[1, 2, 3, 4, 5, 6, 7]),
];

fn sample() -> Set {
    sets::of_records(&records::sample())
}

/// The others stay whole; then all that come before it are empty.
fn lengths(each: Each) {
    for (table, (_, width)) in TABLES.iter().enumerate() {
        let full = sample()[table].len();
        for len in 0..=full + width + 1 {
            let mut set = sample();
            set[table].resize(len, 0);
            each(set.clone());
            for before in &mut set[..table] {
                before.clear();
            }
            each(set);
        }
    }
}

fn flipped(each: Each) {
    for table in 0..TABLES.len() {
        for bit in 0..8 * sample()[table].len() {
            let mut set = sample();
            set[table][bit / 8] ^= 1 << (bit % 8);
            each(set);
        }
    }
}

fn fields(each: Each) {
    for (kind, table) in TABLE_OF_KIND.into_iter().enumerate() {
        let width = TABLES[table].1;
        for record in 0..sample()[table].len() / width {
            for &(at, field) in records::stage_fields(kind) {
                for value in edge_words(field) {
                    let mut set = sample();
                    records::put_field(&mut set[table][record * width..], at, field, value);
                    each(set);
                }
            }
        }
    }
}

/// Each table just full and with one more; the first record faulty, the last, none;
/// bytes after the last.
fn ceilings(each: Each) {
    let ceilings = [4096, 64, 4096, 4096, 1024, 1024];
    for (table, ceiling) in TABLE_OF_KIND.into_iter().zip(ceilings) {
        let width = TABLES[table].1;
        for count in [ceiling - 1, ceiling, ceiling + 1, ceiling + 2] {
            let set = full(table, count);
            each(set.clone());
            for record in [0, ceiling - 2, count - 1] {
                let mut faulty = set.clone();
                fault(&mut faulty, table, record);
                each(faulty);
            }
            for more in [1, width - 1] {
                let mut cut = set.clone();
                cut[table].extend(vec![0; more]);
                each(cut);
            }
        }
    }
}

/// A set with so many right records in the table.
fn full(table: usize, count: usize) -> Set {
    let mut set = sample();
    let width = TABLES[table].1;
    match table {
        NAME_ENDS => {
            let more = count - set[NAME_ENDS].len() / 2;
            let names = (0..more).map(|n| (NAME, numbered_name(n)));
            let all: Vec<Record> = records::sample().into_iter().chain(names).collect();
            set = sets::of_records(&all);
        }
        HEADS => {
            sets::repeat(&mut set[HEADS], 15, count);
            sets::repeat(&mut set[PLACES], 4, count);
        }
        RELOCATION_TABLE => {
            // Section 1 is grown to hold them all.
            records::put_field(&mut set[HEADS][15..], 3, 4, 0);
            records::put_field(&mut set[HEADS][15..], 7, 4, TOP as u64);
            set[table].clear();
            for number in 0..count as u64 {
                set[table].extend(packed(&[(1, 2), (4 * number, 4), (0, 8), (0, 8), (0, 1)]));
            }
        }
        _ => sets::repeat(&mut set[table], width, count),
    }
    set
}

/// One name and one section of kind 1 with bytes from `place` on.
pub fn section_at(place: u32, size: usize) -> Set {
    let mut set = sets::of_records(&[(NAME, b".data".to_vec())]);
    set[HEADS] = packed(&[(0, 2), (1, 1), (0x1000, 4), (size as u64, 4), (0, 4)]);
    set[PLACES] = place.to_le_bytes().to_vec();
    set
}

fn places(each: Each) {
    for size in 0..5 {
        for image in 0..8 {
            for place in (0..9).chain(u32::MAX - 5..=u32::MAX) {
                for kind in [0, 1, 2, 3, 4, 0xFF] {
                    let mut set = section_at(place, size);
                    set[HEADS][2] = kind;
                    set[IMAGE] = vec![1; image];
                    each(set);
                }
            }
        }
    }
    large_sizes(each);
    missing(each);
}

/// Sums of place and size above 32 bits, and ends above the top.
fn large_sizes(each: Each) {
    for size in [TOP - 0x1000, TOP - 0xFFF, TOP, u32::MAX - 0x1000, u32::MAX] {
        for place in [0, 1, u32::MAX - size, (u32::MAX - size).wrapping_add(1), u32::MAX] {
            for kind in 0..5 {
                let mut set = section_at(place, size as usize);
                set[HEADS][2] = kind;
                set[IMAGE] = vec![1; 16];
                each(set);
            }
        }
    }
}

/// Three sections of different kinds, and places for the first of them only.
fn missing(each: Each) {
    for kinds in 0..64u8 {
        for len in 0..=13 {
            let mut set = section_at(0, 2);
            sets::repeat(&mut set[HEADS], 15, 3);
            for section in 0..3 {
                set[HEADS][15 * section + 2] = kinds >> (2 * section) & 3;
            }
            set[IMAGE] = vec![1; 2];
            set[PLACES] = vec![0; len];
            each(set);
        }
    }
}

/// Each three ends of 0 to 4 over names of few letters, as many bytes as are wanted or
/// fewer; then lengths around 64 and 128, and each byte.
fn names(each: Each) {
    for code in 0..125u64 {
        let ends = packed(&[(code % 5, 2), (code / 5 % 5, 2), (code / 25, 2)]);
        for bytes in [&b""[..], b"a", b"aa", b"aaa", b"aaaa", b"abab", b"aba", b"ab a", b"a\x7Fbb"]
        {
            let mut set = Set::default();
            set[NAME_ENDS] = ends.clone();
            set[NAME_BYTES] = bytes.to_vec();
            each(set);
        }
    }
    for len in 0..=140 {
        each(sets::of_records(&[(NAME, vec![b'n'; len])]));
        let head = packed(&[(0, 2), (3, 1), (0, 4), (0, 4), (0, 4)]);
        each(sets::of_records(&[(NAME, vec![b'n'; len]), (SECTION, head)]));
    }
    for byte in 0..=255 {
        for at in [0, 4, 8] {
            let mut name = vec![b'n'; 9];
            name[at] = byte;
            each(sets::of_records(&[(NAME, b"m".to_vec()), (NAME, name)]));
        }
    }
    long_names(each);
}

/// As many name bytes as two bytes can say, and more lent.
fn long_names(each: Each) {
    for more in [0, 1, 9] {
        for last in [0xFFFE, 0xFFFF] {
            let mut set = Set::default();
            for number in 0..1024 {
                let name = [numbered_name(number), vec![b'n'; 64]].concat();
                set[NAME_BYTES].extend(&name[..64]);
            }
            set[NAME_BYTES].resize(last + more, b'n');
            set[NAME_ENDS] = (1..1024u64).flat_map(|n| packed(&[(64 * n, 2)])).collect();
            set[NAME_ENDS].extend(packed(&[(last as u64, 2)]));
            each(set);
        }
    }
}

/// Each two splits over two sections, with starts and ends around the sections'.
fn splits(each: Each) {
    let places: [(u64, u64); 7] = [
        (0x1000, 0x1010),
        (0x1000, 0x1011),
        (0xFFF, 0),
        (0x1001, 0x100F),
        (TOP as u64, 0x1000),
        (TOP as u64 + 1, 0),
        (0, TOP as u64),
    ];
    for code in 0..21 * 21 {
        let mut set = sample();
        set[SPLIT_TABLE].clear();
        for n in [code % 21, code / 21] {
            let (section, (start, end)) = (n as u64 / 7, places[n % 7]);
            let rest = [(0, 2), (0, 4), (0, 1), (0xFFFF, 2), (n as u64, 2)];
            let fields = [&[(section, 2), (start, 4), (end, 4)], &rest[..]].concat();
            set[SPLIT_TABLE].extend(packed(&fields));
        }
        each(set);
    }
}

/// Of two faulty tables the first by kind counts, whatever the faults are.
fn pairs(each: Each) {
    let faults = [cut, one_more, faulty_last];
    for first in TABLE_OF_KIND {
        for second in TABLE_OF_KIND.into_iter().filter(|t| *t > first) {
            for of_first in faults {
                for of_second in faults {
                    let mut set = sample();
                    of_first(&mut set, first);
                    of_second(&mut set, second);
                    each(set);
                }
            }
        }
    }
}

fn cut(set: &mut Set, table: usize) {
    set[table].pop();
}

fn one_more(set: &mut Set, table: usize) {
    let ceiling = match table {
        HEADS => 64,
        NAME_ENDS | SYMBOL_TABLE | RELOCATION_TABLE => 4096,
        _ => 1024,
    };
    sets::repeat(&mut set[table], TABLES[table].1, ceiling + 1);
}

fn faulty_last(set: &mut Set, table: usize) {
    let last = set[table].len() / TABLES[table].1 - 1;
    fault(set, table, last);
}

/// Makes a record faulty for its kind's own number.
fn fault(set: &mut Set, table: usize, record: usize) {
    let at = record * TABLES[table].1;
    match table {
        NAME_ENDS => {
            let end = half_at(&set[NAME_ENDS], at) as usize;
            set[NAME_BYTES][end - 1] = 0x20;
        }
        RELOCATION_TABLE => set[table][at + 6] = 7,
        SPLIT_TABLE => set[table][at + 16] = 8,
        UNIT_TABLE => set[table][at + 2] = 2,
        _ => set[table][at] = 0xFE,
    }
}
