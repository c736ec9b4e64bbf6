//! Record files at the edges of document 01's rules.
use super::{
    Case,
    files::{joined, whole},
};
use crate::records::{
    self, FIELDS, NAME, RELOCATION, Record, SECTION, SPLIT, SYMBOL, TOP, UNIT, edge_words,
    numbered_name, packed,
};

type Each<'a> = &'a mut dyn FnMut(Case);

/// A title, the cases, and the numbers that they must show.
type Group = (&'static str, fn(Each), &'static [u16]);

pub const GROUPS: &[Group] = &[
    ("a file of every kind, cut at every byte", cut, &[0, 1]),
    ("a file of every kind, every bit flipped", flipped, &[0, 1, 3, 4, 5, 6, 7, 8]),
    ("each field at its edges", fields, &[0, 1, 4, 5, 6, 7, 8]),
    ("names of every length and byte", names, &[0, 3, 4, 7, 8]),
    ("full tables and one more", ceilings, &[0, 1, 2]),
    ("the greatest length and one more", lengths, &[0, 1, 3]),
    ("each length of the counts", counts, &[0, 3]),
];

fn give(file: Vec<u8>, each: Each) {
    let counts_len = if file.len().is_multiple_of(5) { file.len() % 14 } else { 12 };
    each(Case { file, counts_len });
}

fn cut(each: Each) {
    let file = joined(&records::sample());
    for len in 0..=file.len() {
        give(file[..len].to_vec(), each);
    }
}

fn flipped(each: Each) {
    let file = joined(&records::sample());
    for bit in 0..8 * file.len() {
        let mut file = file.clone();
        file[bit / 8] ^= 1 << (bit % 8);
        give(file, each);
    }
}

fn fields(each: Each) {
    let sample = records::sample();
    for (i, (kind, payload)) in sample.iter().enumerate() {
        for &(at, width) in FIELDS[*kind as usize - 1] {
            for value in edge_words(width) {
                let mut changed = sample.clone();
                records::put_field(&mut changed[i].1, at, width, value);
                give(joined(&changed), each);
            }
        }
        if *kind == SECTION {
            section_sizes(&sample, i, payload, each);
        }
    }
}

/// Sizes whose bytes are there, with ends around the top.
fn section_sizes(sample: &[Record], i: usize, payload: &[u8], each: Each) {
    for kind in 0..6 {
        for size in 0..24 {
            for end in [TOP - 1, TOP, TOP + 1] {
                let mut head = payload[..15].to_vec();
                records::put_field(&mut head, 2, 1, kind);
                records::put_field(&mut head, 3, 4, (end - size) as u64);
                records::put_field(&mut head, 7, 4, size as u64);
                let mut changed = sample[..i].to_vec();
                changed.push((SECTION, [head, vec![9; size as usize]].concat()));
                give(joined(&changed), each);
            }
        }
    }
}

/// A name alone, then beside a record of each kind that refers to it.
fn names(each: Each) {
    for len in 0..=140 {
        let name = (NAME, vec![b'n'; len]);
        give(whole(&name), each);
        for user in users() {
            give(joined(&[name.clone(), user]), each);
        }
    }
    for byte in 0..=255 {
        for (len, at) in [(1, 0), (9, 0), (9, 4), (9, 8), (128, 127), (129, 0)] {
            let mut name = vec![b'n'; len];
            name[at] = byte;
            give(joined(&[(NAME, name)]), each);
        }
    }
}

/// Records that refer to name 0 and are right but for that; the last is a rename.
fn users() -> [Record; 5] {
    let split = |unit, rename| {
        (SPLIT, packed(&[(0, 2), (0, 4), (0, 4), (unit, 2), (0, 4), (0, 1), (rename, 2)]))
    };
    [
        (SECTION, packed(&[(0, 2), (3, 1), (0, 4), (0, 4), (0, 4)])),
        (SYMBOL, packed(&[(0, 2), (0xFFFF, 2), (0, 8), (0, 4), (0, 4)])),
        (UNIT, packed(&[(0, 8)])),
        split(0, 0xFFFF),
        split(0, 0),
    ]
}

/// Each kind that a file can have too many of: just full, then one more that is right,
/// faulty, or of a wrong length.
fn ceilings(each: Each) {
    let [section, _, unit, split, _] = users();
    many(&section, 64, each);
    many(&unit, 1024, each);
    many(&split, 1024, each);
    many_names(each);
    for (record, width) in [(section, 15), (unit, 8), (split, 19)] {
        // The most that a file can hold of a kind, all but the first name of it.
        let count = (65_536 - 7) / (6 + width);
        let mut records = vec![(NAME, b"n".to_vec())];
        records.resize(1 + count, record);
        give(joined(&records), each);
    }
}

fn many((kind, payload): &Record, ceiling: usize, each: Each) {
    let name = (NAME, b"n".to_vec());
    let mut faulty = payload.clone();
    faulty[if *kind == SPLIT { 10 } else { 0 }] = 9;
    let more = [
        whole(&(*kind, payload.clone())),
        whole(&(*kind, faulty)),
        whole(&(*kind, payload[1..].to_vec())),
        whole(&(*kind, [&payload[..], &[0]].concat())),
        whole(&(7, payload.clone())),
        vec![0],
        whole(&(NAME, b"m".to_vec())),
    ];
    for count in [ceiling - 1, ceiling] {
        let mut records = vec![name.clone()];
        records.resize(1 + count, (*kind, payload.clone()));
        // A repeated name in between: records and counts part.
        records.insert(count / 2, name.clone());
        let full = joined(&records);
        give(full.clone(), each);
        for last in &more {
            give([&full[..], last].concat(), each);
            give([&full[..], last, &whole(&name)].concat(), each);
        }
    }
}

fn many_names(each: Each) {
    let names: Vec<Record> = (0..4100).map(|n| (NAME, numbered_name(n))).collect();
    let record = |name: &[u8]| (NAME, name.to_vec());
    let repeated = [names[0].clone(), names[4000].clone()];
    let user = |name: u64| (UNIT, packed(&[(name, 2), (0, 6)]));
    let ends: [Vec<Record>; 10] = [
        vec![],
        repeated.to_vec(),
        vec![names[4099].clone()],
        [&repeated[..], &names[4099..]].concat(),
        vec![record(b" ")],
        vec![record(b"")],
        vec![record(b""), record(b"")],
        vec![record(&[b'n'; 129])],
        vec![user(4095), user(4096)],
        vec![(8, vec![])],
    ];
    for count in [4095, 4096, 4097] {
        for end in &ends {
            let file = joined(&[&names[..count], end].concat());
            give(file.clone(), each);
            give(file[..file.len() - 1].to_vec(), each);
        }
    }
}

/// A section's bytes fill the file up; then many small records do.
fn lengths(each: Each) {
    for name in [&b"n"[..], b" "] {
        for len in 65_533..=65_540 {
            let size = len - (6 + 1) - (6 + 15);
            let head = packed(&[(0, 2), (1, 1), (0, 4), (size as u64, 4), (0, 4)]);
            let section = (SECTION, [head, vec![1; size]].concat());
            let file = joined(&[(NAME, name.to_vec()), section]);
            assert!(file.len() == len);
            give(file.clone(), each);
            give([&file[..], &[0]].concat(), each);
        }
    }
    let empty = joined(&vec![(NAME, vec![]); 10_922]);
    for end in [&[][..], &[0], &[0; 4], &[0; 5]] {
        give([&empty[..], end].concat(), each);
    }
    full_of_symbols(each);
}

/// Symbols, then relocations, up to the greatest length and above it.
fn full_of_symbols(each: Each) {
    let [mut section, symbol, ..] = users();
    records::put_field(&mut section.1, 7, 4, 0x10000);
    let head = [(NAME, b"n".to_vec()), section];
    for count in [2519, 2520, 2521] {
        let mut records = head.to_vec();
        records.resize(2 + count, symbol.clone());
        give(joined(&records), each);
    }
    for count in [2257, 2258, 2259, 2260] {
        let mut records = head.to_vec();
        records.push(symbol.clone());
        for number in 0..count {
            records.push((RELOCATION, packed(&[(0, 2), (4 * number, 4), (0, 8), (0, 8), (0, 1)])));
        }
        give(joined(&records), each);
    }
}

fn counts(each: Each) {
    let good = records::sample();
    let bad = [&good[..], &[(NAME, b" ".to_vec())]].concat();
    for records in [good, bad] {
        for counts_len in 0..=13 {
            each(Case { file: joined(&records), counts_len });
        }
        each(Case { file: joined(&records), counts_len: 300 });
    }
}
