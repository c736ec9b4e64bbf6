//! Filling twice (document 02, (k)): what `create_gap_splits` filled, lent to it again with
//! the same sections, symbols and ceilings, is accepted and comes back byte for byte. And an
//! input for each premise without which it doesn't.
use super::{
    AS_WRITTEN, Case, Stage, called, compare,
    gaps::{CreateGapSplits, with_room},
    given as answer_of, line,
    make::{Maker, Place},
    points::{Given, given, shown},
    taken,
};
use crate::{
    bytes::half_at,
    check_tables::{HEADS, IMAGE, NAME_BYTES, NAME_ENDS, PLACES, SPLIT_TABLE, SYMBOL_TABLE},
    document::{self, gaps::gap_name, image::Split, outputs::Answer, records::SPLITS},
    parts,
    random::Random,
    tally::Tally,
};

/// How many lists are filled twice; those that the first filling refuses don't count.
const COUNT: usize = 200_000;
/// How many more are, of which each has two splits at one start: that premise isn't needed.
const EQUAL_STARTS: usize = 50_000;

const GAPS: &str = ", with gaps";
const NO_GAP: &str = ", without a gap";
const REFUSED: &str = ", at the first filling: not counted";

pub fn run(seed: u64, tally: &mut Tally) {
    by_hand(tally);
    random("under the premises", false, COUNT, seed, tally);
    random("with equal starts", true, EQUAL_STARTS, seed, tally);
}

/// Half of the lists at least must have gaps.
fn random(which: &str, equal: bool, count: usize, seed: u64, tally: &mut Tally) {
    let title = format!("create_gap_splits, {count} random lists {which} filled twice");
    tally.begin(&format!("{title}, seed {seed}"));
    parts::random(seed, count, tally, |r, tally| filled(equal, r, tally));
    tally.want_often_noted(0, GAPS, count as u64 / 2);
    tally.end(&[]);
}

/// Makes lists until one is filled, and fills it again.
fn filled(equal: bool, r: &mut Random, tally: &mut Tally) {
    let mut case = list(equal, r);
    let mut first = answer_of::<CreateGapSplits>(&case);
    while first.word != 0 {
        tally.reach(document::number(first.word), REFUSED);
        case = list(equal, r);
        first = answer_of::<CreateGapSplits>(&case);
    }
    let again = again(&case, &first);
    let more = again.set[SPLIT_TABLE].len() > case.set[SPLIT_TABLE].len();
    tally.count(0, if more { GAPS } else { NO_GAP });
    let entry = CreateGapSplits::ENTRY;
    let lines = match entry.call {
        Some(call) => called(&entry, call, &again, &first),
        None if CreateGapSplits::right(&again) == first => vec![],
        None => vec!["the reading gives something else".to_string()],
    };
    if !lines.is_empty() {
        tally.difference(&line::put(&entry, &again, &first), &lines);
    }
}

/// The same tables and lengths of outputs, but of the names and splits what the first
/// filling left, cut to its counts.
fn again(case: &Case, first: &Answer) -> Case {
    let [name_ends, name_bytes, splits, counts] = &first.outputs[..] else {
        panic!("other outputs");
    };
    let count = |which: usize| half_at(counts, 2 * which) as usize;
    let mut again = case.clone();
    again.set[NAME_ENDS] = name_ends[..2 * count(0)].to_vec();
    again.set[NAME_BYTES] = name_bytes[..count(1)].to_vec();
    again.set[SPLIT_TABLE] = splits[..SPLITS.width * count(2)].to_vec();
    again
}

/// A list in which no unit's name begins with `auto_` and each end is 0 or above its start.
/// Starts within a section differ, or two of them are equal.
fn list(equal: bool, r: &mut Random) -> Case {
    loop {
        let mut maker = Maker::new(8, r);
        maker.sections(4, r);
        maker.symbols(r.pick(&[1, 2, 4, 7]), r);
        match r.below(4) {
            0 => maker.loose_splits(4, r),
            _ => maker.tidy_splits(6, r.pick(&[3, 6]), r),
        }
        if r.one_in(4) {
            other_auto_names(&mut maker, r);
        }
        maker.splits.retain_mut(|s| s.end == 0 || s.end > s.start || opened(s, r));
        if equal {
            double_starts(&mut maker, r);
        } else {
            maker.splits.dedup_by_key(|s| start_of(s));
        }
        let together = |pair: &[Split]| start_of(&pair[0]) == start_of(&pair[1]);
        if maker.splits.windows(2).any(together) == equal {
            let mut case = with_room(maker.case(vec![], vec![]), r);
            case.lent[3] = 6 + r.below(3);
            return case;
        }
    }
}

fn start_of(s: &Split) -> (u16, u32) {
    (s.section, s.start)
}

/// An end that isn't above its start becomes 0, or the split goes.
fn opened(s: &mut Split, r: &mut Random) -> bool {
    s.end = 0;
    r.one_in(2)
}

/// The names of gaps, but of no unit: a symbol has them, or a split is renamed to them.
fn other_auto_names(maker: &mut Maker, r: &mut Random) {
    for section in 0..maker.sections.len() {
        let Place { start, name, .. } = maker.sections[section];
        let near = maker.near(section, r);
        let address = r.pick(&[start, near]);
        let gap = gap_name(section as u16, address, &maker.names[name as usize].clone());
        let at = maker.inside(section, r);
        if r.one_in(2) {
            maker.plain_symbol(&gap, section as u64, at);
        }
        let number = maker.name(&gap);
        for split in maker.splits.iter_mut().filter(|s| s.section as usize == section) {
            if r.one_in(3) {
                split.rename = number;
            }
        }
    }
}

/// Before some splits an open one at the same start, which is the only place where the
/// search lets one pass; behind some that reach the section's end any other.
fn double_starts(maker: &mut Maker, r: &mut Random) {
    let mut splits = vec![];
    for split in maker.splits.iter().copied() {
        let Place { end, .. } = maker.sections[split.section as usize];
        let other = maker.made_split(split.section as usize, split.start, 0, r);
        let alignment = if r.one_in(2) { 4 } else { other.alignment };
        if r.one_in(3) {
            splits.push(Split { alignment, ..other });
        }
        splits.push(split);
        if split.end == end && r.one_in(2) {
            splits.push(Split { end: r.pick(&[0, end]), ..other });
        }
    }
    maker.splits = splits;
}

/// A premise, what is lent to the first filling, what else than its sections, symbols or
/// outputs to the second, and what both give.
struct Point {
    premise: &'static str,
    first: Given,
    second: Option<Given>,
    once: &'static str,
    twice: &'static str,
}

fn by_hand(tally: &mut Tally) {
    tally.begin("create_gap_splits filled twice, answers written by hand");
    for Point { premise, first, second, once, twice } in lists().into_iter().chain(calls()) {
        let case = taken::<CreateGapSplits>(first.case());
        let answer = answer_of::<CreateGapSplits>(&case);
        let mut next = again(&case, &answer);
        if let Some(second) = second.map(|second| second.case()) {
            for table in [HEADS, PLACES, IMAGE, SYMBOL_TABLE] {
                next.set[table] = second.set[table].clone();
            }
            next.lent = second.lent;
        }
        let second = answer_of::<CreateGapSplits>(&next);
        for (case, answer, right) in [(&case, &answer, once), (&next, &second, twice)] {
            let given = shown(CreateGapSplits::ENTRY.name, answer, &first.names);
            if given != right {
                let line = line::put(&CreateGapSplits::ENTRY, case, answer);
                let why = format!("{premise}: {right} is right, given {given}");
                tally.difference(&line, &[why]);
            }
            compare::<CreateGapSplits>(case, Some(AS_WRITTEN), tally);
        }
    }
    tally.end(&[0, 2, 11, 40]);
}

/// More than is needed.
const ROOM: [usize; 4] = [20, 200, 105, 6];

/// `.data` from 1000 on, of so many zeros.
fn data(size: u32) -> Given {
    given().data(0x1000, size).lent(&ROOM)
}

/// The premises on the list first filled.
fn lists() -> Vec<Point> {
    let point =
        |premise, first: Given, once, twice| Point { premise, first, second: None, once, twice };
    let auto = "auto_00_00001000_data";
    let joined = data(5).split("a", (0, 0x1001, 0x1002), 0, 2);
    let equal = data(2).split("a", (0, 0x1001, 0), 0, 0).split("b", (0, 0x1001, 0x1002), 0, 0);
    vec![
        // Document 01's example.
        point(
            "none is missing",
            data(16).split("b.c", (0, 0x1008, 0x1010), 0, 0),
            "1000..1008 auto, 1008..1010 b.c",
            "1000..1008 auto, 1008..1010 b.c",
        ),
        // The first gap joins the split of its name, across the second gap.
        point(
            "no unit name begins with `auto_`",
            joined.split(auto, (0, 0x1003, 0x1004), 1, 2),
            "1000..1004 auto_00_00001000_data, 1002..1003 auto",
            "refused 40 0 1004",
        ),
        // The only premise that isn't needed.
        point(
            "starts within a section differ",
            equal,
            "1000..1001 auto, 1001..0 a, 1001..1002 b",
            "1000..1001 auto, 1001..0 a, 1001..1002 b",
        ),
        // The second gap starts below the section.
        point(
            "each end is 0 or above its start",
            data(1).split("a", (0, 0x1000, 0xFFE), 0, 0),
            "FFE..1001 auto, 1000..FFE a",
            "refused 40 0 1000",
        ),
    ]
}

/// The premises on what is the same both times.
fn calls() -> Vec<Point> {
    let point = |premise, first: Given, second: Given, once, twice| {
        let second = Some(second);
        Point { premise, first, second, once, twice }
    };
    let ceilings = |lent: &[usize], twice| {
        point("the same ceilings", data(1), data(1).lent(lent), "1000..1001 auto", twice)
    };
    vec![
        point("sections are the same", data(0), data(1), "", "1000..1001 auto"),
        point(
            "symbols are the same",
            data(1).split("a", (0, 0x1000, 0), 0, 0),
            data(1).symbol(".data", 0x1000, 0, 0),
            "1000..0 a",
            "refused 11 0 1000",
        ),
        // The names, their bytes, the splits.
        ceilings(&[2, 200, 105, 6], "refused 2 0 1"),
        ceilings(&[20, 25, 105, 6], "refused 2 0 1"),
        ceilings(&[20, 200, 20, 6], "refused 2 0 0"),
        // Just what they hold.
        ceilings(&[4, 26, 21, 6], "1000..1001 auto"),
    ]
}
