//! Random record files: right ones, and right ones with some damage.
use super::{Case, line};
use crate::{
    document::{check_file::answer, number},
    random::Random,
    records::{self, Maker, Record},
    stage::run::big,
};

/// How many random files a check makes.
pub const COUNT: usize = 300_000;

const HEADER: usize = 6;

/// A record as it stands in a file.
pub fn whole((kind, payload): &Record) -> Vec<u8> {
    let length = payload.len() as u64;
    [records::packed(&[(length, 4), (*kind as u64, 2)]), payload.clone()].concat()
}

pub fn joined(records: &[Record]) -> Vec<u8> {
    records.iter().flat_map(whole).collect()
}

/// About how many records of each kind a file has, names first.
type Plan = [usize; 6];

const SMALL: Plan = [6, 4, 5, 12, 6, 4];

pub fn random_file(r: &mut Random) -> Vec<u8> {
    random(r).file
}

/// One damage to the records of another file.
pub fn damage_records(records: &mut Vec<Vec<u8>>, r: &mut Random) {
    damage(records, &Maker::default(), r);
}

pub fn random(r: &mut Random) -> Case {
    let plan = match r.below(6000) {
        0..3 => return many_names(r),
        3..10 => return long(r),
        10..50 => [4, 3, 2, 2, 1022 + r.below(6), 2],
        50..120 => [4, 3, 2, 2, 2, 1022 + r.below(6)],
        120..500 => [4, 63 + r.below(5), 4, 4, 4, 4],
        _ => SMALL.map(|most| r.below(most + 1)),
    };
    let maker = planned(plan, r);
    damaged(&maker, r)
}

/// At the ceiling of a kind, or as the whole run has them.
pub fn large(r: &mut Random) -> Case {
    let plan = match r.below(8) {
        0 => return many_names(r),
        1 => return long(r),
        2 => [4, 3, 2, 2, 1022 + r.below(6), 2],
        3 => [400, 63 + r.below(3), 400, 400, 400, 400],
        _ => return Case { file: big::random(r), counts_len: counts_length(r) },
    };
    damaged(&planned(plan, r), r)
}

/// Records of the planned kinds, in any order that is right.
fn planned(plan: Plan, r: &mut Random) -> Maker {
    let mut kinds: Vec<u16> = vec![];
    for (kind, count) in (1..).zip(plan) {
        kinds.extend(std::iter::repeat_n(kind, count));
    }
    r.shuffle(&mut kinds);
    if r.one_in(2) {
        kinds.sort_by_key(|kind| *kind > records::SECTION);
    }
    let mut maker = Maker::default();
    maker.add(records::NAME, r);
    for kind in kinds {
        maker.add(kind, r);
    }
    maker
}

fn damaged(maker: &Maker, r: &mut Random) -> Case {
    let mut records: Vec<Vec<u8>> = maker.records.iter().map(whole).collect();
    for _ in 0..r.pick(&[0, 1, 1, 1, 2, 3]) {
        damage(&mut records, maker, r);
    }
    let mut file = records.concat();
    match r.below(30) {
        0 => file.truncate(r.below(file.len() + 1)),
        1 => file.extend((0..1 + r.below(12)).map(|_| r.next() as u8)),
        _ => {}
    }
    Case { file, counts_len: counts_length(r) }
}

/// Half of the time just all counts.
fn counts_length(r: &mut Random) -> usize {
    if r.one_in(2) { 12 } else { r.below(14) }
}

fn damage(records: &mut Vec<Vec<u8>>, maker: &Maker, r: &mut Random) {
    if records.is_empty() {
        return;
    }
    let (mut i, j) = (r.below(records.len()), r.below(records.len()));
    if records[i][4] == records::NAME as u8 {
        // Long names would take most of the damage.
        i = r.below(records.len());
    }
    match r.below(20) {
        0 => records.swap(i, j),
        1 => records.insert(j, records[i].clone()),
        2 => drop(records.remove(i)),
        3 => damage_length(&mut records[i], r),
        4 => {
            let kind = r.pick(&[0, 1, 2, 3, 4, 5, 6, 7, 8, 0x101, 0xFFFF]);
            records::put_field(&mut records[i], 4, 2, kind);
        }
        5 => resize(&mut records[i], r),
        6..9 => flip(&mut records[i], r),
        _ => set_field(&mut records[i], maker, r),
    }
}

/// Only the length, not the payload.
fn damage_length(record: &mut [u8], r: &mut Random) {
    let right = (record.len() - HEADER) as u64;
    let any = r.next();
    let values = [right + 1, right.wrapping_sub(1), 0, 0xFFFF_FFFF, right | 0x1_0000, any];
    records::put_field(record, 0, 4, r.pick(&values));
}

/// A longer or shorter payload, and the length with it.
fn resize(record: &mut Vec<u8>, r: &mut Random) {
    let payload = record.len() - HEADER;
    let any = r.below(payload + 1);
    let len = r.pick(&[payload + 1, payload + 4, payload + 129, payload.max(1) - 1, any]);
    record.resize(HEADER + len, b'a');
    records::put_field(record, 0, 4, len as u64);
}

fn flip(record: &mut [u8], r: &mut Random) {
    let at = r.below(record.len());
    match r.below(3) {
        0 => record[at] = r.next() as u8,
        _ => record[at] ^= 1 << r.below(8),
    }
}

/// A field at an edge; of a name a byte.
fn set_field(record: &mut [u8], maker: &Maker, r: &mut Random) {
    let (kind, payload) = (record[4] as usize, &mut record[HEADER..]);
    let fields = records::FIELDS.get(kind.wrapping_sub(1)).copied().unwrap_or(&[]);
    match fields {
        [] if payload.is_empty() => {}
        [] => payload[r.below(payload.len())] = r.pick(&[0x20, 0x21, 0x7E, 0x7F, 0, 0xFF]),
        _ => {
            let (at, width) = r.pick(fields);
            if at + width <= payload.len() {
                let value = maker.edge(payload, at, width, r);
                records::put_field(payload, at, width, value);
            }
        }
    }
}

/// Names around their ceiling, some of them twice, and then other records.
fn many_names(r: &mut Random) -> Case {
    let mut maker = Maker::default();
    let mut numbers: Vec<usize> = (0..4090 + r.below(10)).collect();
    r.shuffle(&mut numbers);
    for number in numbers {
        maker.add_name(records::numbered_name(number));
        if r.one_in(50) {
            let again = r.pick(&[0, maker.records.len() - 1]);
            maker.records.push(maker.records[again].clone());
        }
    }
    for kind in [2, 2, 3, 4, 5, 6, 1, 1] {
        maker.add(kind, r);
    }
    damaged(&maker, r)
}

/// A file around the greatest length, most of it a section's bytes.
fn long(r: &mut Random) -> Case {
    let size = 65_536 - 64 + r.below(68);
    let mut maker = Maker::default();
    maker.add_name(vec![b'a'; 1 + r.below(40)]);
    let head = records::packed(&[(0, 2), (1, 1), (0x1000, 4), (size as u64, 4), (0, 4)]);
    maker.records.push((records::SECTION, [head, vec![0; size]].concat()));
    Case { file: joined(&maker.records), counts_len: counts_length(r) }
}

/// The file `stored/check_file.txt`: small files of every outcome.
pub fn store(seed: u64) -> String {
    let mut r = Random::new(seed);
    // How many of each number; 2 needs 65 sections, which makes long lines.
    let mut left = [50, 50, 6, 40, 40, 50, 50, 50, 40];
    let mut text = line::FORMAT.to_string();
    while left.iter().any(|n| *n > 0) {
        let sections = if left[2] > 0 && r.one_in(9) { 65 } else { r.below(4) };
        let [names, _, symbols, relocations, splits, units] = SMALL.map(|most| r.below(most + 1));
        let plan = [names, sections, symbols, relocations, splits, units];
        let case = damaged(&planned(plan, &mut r), &mut r);
        let right = answer(&case.file, case.counts_len);
        let outcome = number(right.word) as usize;
        let short = case.file.len() < if outcome == 2 { 4096 } else { 500 };
        if left[outcome] > 0 && short {
            left[outcome] -= 1;
            text += &line::put(&case, &right);
            text += "\n";
        }
    }
    text
}
