//! Random sets of stage tables: right ones, and right ones with some damage.
use super::{
    HEADS, IMAGE, NAME_BYTES, NAME_ENDS, PLACES, RELOCATION_TABLE, SPLIT_TABLE, SYMBOL_TABLE, Set,
    TABLES, UNIT_TABLE, line, right,
};
use crate::{
    bytes::{half_at, put_half, word_at},
    document::{self, image::SPLIT_BYTES},
    random::Random,
    records::{self, Maker, Record},
    stage,
};

/// How many random sets a check makes.
pub const COUNT: usize = 300_000;

/// Where the records of each kind stand.
pub const TABLE_OF_KIND: [usize; 6] =
    [NAME_ENDS, HEADS, SYMBOL_TABLE, RELOCATION_TABLE, SPLIT_TABLE, UNIT_TABLE];

/// The records by kind, each kind in its order; sections lie in the image one behind
/// another, those without bytes at no place of it.
pub fn of_records(records: &[Record]) -> Set {
    let mut set = Set::default();
    for (kind, payload) in records {
        match *kind {
            records::NAME => {
                set[NAME_BYTES].extend(payload);
                let end = set[NAME_BYTES].len() as u16;
                put_half(&mut set[NAME_ENDS], end);
            }
            records::SECTION => {
                let (head, bytes) = payload.split_at(15);
                set[HEADS].extend(head);
                let place = if head[2] == 3 { u32::MAX } else { set[IMAGE].len() as u32 };
                set[PLACES].extend(place.to_le_bytes());
                set[IMAGE].extend(bytes);
            }
            // A record of a file has no origin.
            records::SPLIT => {
                set[SPLIT_TABLE].extend(payload);
                let whole = set[SPLIT_TABLE].len().next_multiple_of(SPLIT_BYTES);
                set[SPLIT_TABLE].resize(whole, 0xFF);
            }
            _ => set[TABLE_OF_KIND[*kind as usize - 1]].extend(payload),
        }
    }
    set
}

/// About how many records of each kind a set has, names first.
type Plan = [usize; 6];

pub fn random(r: &mut Random) -> Set {
    if r.one_in(2000) {
        return many_names(r);
    }
    let mut plan: Plan = [6, 4, 5, 8, 6, 4].map(|most| r.below(most + 1));
    match r.below(1200) {
        0..40 => plan[1] = 63 + r.below(4),
        40..43 => plan[2] = 4094 + r.below(5),
        43..55 => plan[4] = 1022 + r.below(5),
        55..65 => plan[5] = 1022 + r.below(5),
        _ => {}
    }
    of_plan(plan, 800, r)
}

/// With a table at its ceiling, or all tables of a run over a large file.
pub fn large(r: &mut Random) -> Set {
    if r.one_in(2)
        && let Some(set) = stage::large::set(r)
    {
        return set;
    }
    if r.one_in(4) {
        return many_names(r);
    }
    let mut plan: Plan = [40, 20, 40, 40, 40, 40].map(|most| r.below(most + 1));
    let (kind, ceiling) = r.pick(&[(1, 64), (2, 4096), (4, 1024), (5, 1024)]);
    plan[kind] = ceiling - 2 + r.below(4);
    of_plan(plan, 4, r)
}

/// One in so many with relocations at their ceiling: few sections have room for so many.
fn of_plan(plan: Plan, relocations_one_in: usize, r: &mut Random) -> Set {
    let maker = planned(plan, r);
    let mut set = of_records(&maker.records);
    if r.one_in(relocations_one_in) {
        repeat(&mut set[RELOCATION_TABLE], 23, 4094 + r.below(5));
    }
    damage_all(&mut set, &maker, r);
    set
}

fn planned(plan: Plan, r: &mut Random) -> Maker {
    let mut maker = Maker::for_stage();
    maker.add(records::NAME, r);
    for (kind, count) in (1..).zip(plan) {
        for _ in 0..count {
            maker.add(kind, r);
        }
    }
    maker
}

/// The last record again and again, up to `count` records.
pub fn repeat(table: &mut Vec<u8>, width: usize, count: usize) {
    let last = table.len().saturating_sub(width);
    let record = if table.is_empty() { vec![0; width] } else { table[last..].to_vec() };
    while table.len() < width * count {
        table.extend(&record);
    }
}

fn many_names(r: &mut Random) -> Set {
    let mut maker = Maker::for_stage();
    for number in 0..4094 + r.below(5) {
        maker.add_name(records::numbered_name(number));
    }
    for kind in [2, 2, 3, 4, 5, 6] {
        maker.add(kind, r);
    }
    let mut set = of_records(&maker.records);
    damage_all(&mut set, &maker, r);
    set
}

fn damage_all(set: &mut Set, maker: &Maker, r: &mut Random) {
    spread(set, r);
    for _ in 0..r.pick(&[0, 1, 1, 1, 2, 3]) {
        damage(set, maker, r);
    }
}

/// What is no fault: bytes past the last name end, past the whole places, in the image.
fn spread(set: &mut Set, r: &mut Random) {
    for table in [NAME_BYTES, PLACES, IMAGE] {
        if r.one_in(3) {
            let more = r.below(7);
            set[table].extend((0..more).map(|_| r.next() as u8));
        }
    }
}

fn damage(set: &mut Set, maker: &Maker, r: &mut Random) {
    let table = r.pick(&[0, 0, 1, 2, 2, 3, 3, 4, 5, 5, 6, 6, 7, 7, 8, 8]);
    let (_, width) = TABLES[table];
    let bytes = &mut set[table];
    let count = bytes.len() / width;
    if count == 0 {
        bytes.extend((0..r.below(3)).map(|_| r.next() as u8));
        return;
    }
    let (i, j) = (r.below(count) * width, r.below(count) * width);
    match r.below(20) {
        0 => bytes.truncate(r.below(bytes.len() + 1)),
        1 => bytes.extend((0..1 + r.below(width + 1)).map(|_| r.next() as u8)),
        2 => drop(bytes.drain(i..i + width)),
        3 => {
            let again = bytes[i..i + width].to_vec();
            bytes.splice(j..j, again);
        }
        4 => (0..width).for_each(|k| bytes.swap(i + k, j + k)),
        5 => bytes[i + r.below(width)] = r.next() as u8,
        6 | 7 => bytes[i + r.below(width)] ^= 1 << r.below(8),
        _ => set_field(set, table, i, maker, r),
    }
}

/// A field of the record at byte `at`, set to an edge.
fn set_field(set: &mut Set, table: usize, at: usize, maker: &Maker, r: &mut Random) {
    match table {
        NAME_ENDS => {
            let (old, most) = (half_at(&set[table], at) as u64, set[NAME_BYTES].len() as u64);
            let near = [old + 1, old.max(1) - 1, most, most + 1, 0, 0xFFFF];
            records::put_field(&mut set[table][at..], 0, 2, r.pick(&near));
        }
        NAME_BYTES => set[table][at] = r.pick(&[0x20, 0x21, 0x7E, 0x7F, b'a', 0xFF]),
        PLACES => {
            let place = edge_of_place(set, at, r);
            records::put_field(&mut set[table][at..], 0, 4, place);
        }
        IMAGE => set[table].truncate(at),
        _ => {
            let kind = TABLE_OF_KIND.iter().position(|t| *t == table).unwrap();
            let (field, width) = r.pick(records::stage_fields(kind));
            let record = &mut set[table][at..at + TABLES[table].1];
            let value = maker.edge(record, field, width, r);
            records::put_field(record, field, width, value);
        }
    }
}

/// So that the section's bytes end with the image, or a byte before or after.
fn edge_of_place(set: &Set, at: usize, r: &mut Random) -> u64 {
    let head = set[HEADS].get(at / 4 * 15..).filter(|rest| rest.len() >= 15);
    let size = head.map_or(0, |head| word_at(head, 7)) as u64;
    let last = (set[IMAGE].len() as u64).wrapping_sub(size);
    r.pick(&[last, last, last.wrapping_add(1), last.wrapping_sub(1), 0, 0xFFFF_FFFF])
}

/// The file `stored/check_tables.txt`: small sets of every outcome.
pub fn store(seed: u64) -> String {
    let mut r = Random::new(seed);
    // How many of each number; 2 needs 65 sections, which makes long lines.
    let mut left = [50, 50, 6, 40, 40, 50, 50, 50, 40];
    let mut text = line::FORMAT.to_string();
    while left.iter().any(|n| *n > 0) {
        let set = random(&mut r);
        let word = right(&set).word;
        let number = document::number(word) as usize;
        let length: usize = set.iter().map(Vec::len).sum();
        let short = length < if number == 2 { 4096 } else { 500 };
        if left[number] > 0 && short {
            left[number] -= 1;
            text += &line::put(&set, word);
            text += "\n";
        }
    }
    text
}
