//! What the stage entries share: their cases, the call between guard bytes, the
//! comparison with the second reading and the Rust.
pub mod bench_inputs;
pub mod common;
pub mod ends;
pub mod gaps;
pub mod held;
pub mod import;
pub mod join;
pub mod large;
mod line;
mod make;
pub mod mend;
pub mod merge;
pub mod order;
mod points;
pub mod restore;
pub mod run;
mod rust;
pub mod srecords;
pub mod timed;
pub mod trim;
pub mod twice;
pub mod validate;
pub mod walk;

use crate::{
    Entry,
    bytes::differing,
    check_tables::{Set, TABLES, lend},
    document::{self, check_tables::Tables, outputs::Answer},
    entries::stages::{Call, StageEntry},
    lent::Lent,
    parts,
    random::Random,
    soak::{Size, shorter},
    tally::Tally,
};

/// What is lent for one call, and the numbers that go with it.
#[derive(Clone, Debug, Default)]
pub struct Case {
    /// Tables that the entry doesn't take are empty.
    set: Set,
    partials: Vec<u8>,
    /// Records of kind 7.
    pieces: Vec<u8>,
    /// The record file of a whole run.
    file: Vec<u8>,
    numbers: Vec<u32>,
    /// The lengths of the outputs.
    lent: Vec<usize>,
}

impl Case {
    fn tables(&self) -> Tables<'_> {
        lend(self.set.each_ref().map(|table| &table[..]))
    }

    fn table(&self, name: &str) -> &[u8] {
        match TABLES.iter().position(|(table, _)| *table == name) {
            Some(at) => &self.set[at],
            None if name == "file" => &self.file,
            None if name == "pieces" => &self.pieces,
            None => &self.partials,
        }
    }

    fn table_mut(&mut self, name: &str) -> &mut Vec<u8> {
        match TABLES.iter().position(|(table, _)| *table == name) {
            Some(at) => &mut self.set[at],
            None if name == "file" => &mut self.file,
            None if name == "pieces" => &mut self.pieces,
            None => &mut self.partials,
        }
    }
}

/// What the Rust says to a case.
pub enum Beside {
    /// It can't be given the case, or isn't there.
    NotAsked,
    /// The same as the second reading: its number there, and how, in words.
    Same(u16, &'static str),
    Differs(Vec<String>),
}

pub trait Stage {
    const ENTRY: StageEntry;
    /// How many random cases a check makes.
    const COUNT: usize;
    /// The numbers that these must come to, 0 for accepted, each at least `LEAST` times.
    const OUTCOMES: &'static [u16];
    /// Numbers that must come up more often, and how often.
    const OFTEN: &'static [(u16, u64)] = &[];
    fn random(r: &mut Random) -> Case;
    /// The second reading of document 01.
    fn right(case: &Case) -> Answer;
    /// The Rust beside the reading without the ceilings of the lent outputs.
    fn beside(case: &Case) -> Beside;
    /// How many cases of a number are stored, and how many bytes one may lend. 2 needs 65
    /// sections, which makes long lines.
    fn stored_of(number: u16) -> (usize, usize) {
        match number {
            0 => (24, 400),
            2 => (2, 4096),
            _ => (8, 400),
        }
    }
    /// Cases whose answers are written by hand.
    fn by_hand(tally: &mut Tally)
    where
        Self: Sized,
    {
        points::run::<Self>(tally);
    }
    /// What a check does besides.
    fn more(_seed: u64, _tally: &mut Tally) {}
    /// Whether its tables are checked.
    const CHECKED: bool = true;
    /// The step of a run at whose tables its large cases are made.
    const STEP: &'static str = "";
    /// What a run lends there, with other numbers and outputs where the entry takes them.
    fn enlarged(case: Case, _r: &mut Random) -> Case {
        case
    }
    /// A case with large tables; `None` if none was found.
    fn large(r: &mut Random) -> Option<Case>
    where
        Self: Sized,
    {
        large::case::<Self>(r)
    }
    /// Cuts some of the tables, in and out.
    fn shorten(case: &mut Case, r: &mut Random) {
        shorten(case, Self::ENTRY.inputs, r);
    }
}

pub const fn entry<S: Stage>() -> Entry {
    Entry {
        name: S::ENTRY.name,
        outcomes: S::OUTCOMES,
        alone: |seed, tally| {
            some::<S>(seed, S::COUNT, tally);
            S::more(seed, tally);
        },
        beside: None,
        some: Some(some::<S>),
        one: one::<S>,
        answers: "the Rust, or of document 01's second reading where it has none,",
        replay: replay::<S>,
        store: line::store::<S>,
    }
}

/// `also`: what else the reading is held to, in words.
fn compare<S: Stage>(case: &Case, also: Option<&str>, tally: &mut Tally) {
    let right = S::right(case);
    let number = document::number(right.word);
    let beside = S::beside(case);
    match beside {
        Beside::NotAsked if S::ENTRY.call.is_none() => match also {
            Some(note) => tally.count(number, note),
            None => tally.reach(number, ", compared with nothing"),
        },
        Beside::Same(unlimited, note) if unlimited == number => tally.count(number, note),
        Beside::Same(..) => tally.count(number, ", the Rust has no such ceiling"),
        _ => tally.count(number, ""),
    }
    let mut lines = if let Beside::Differs(lines) = beside { lines } else { vec![] };
    if let Some(call) = S::ENTRY.call {
        lines.extend(called(&S::ENTRY, call, case, &right));
    }
    if !lines.is_empty() {
        tally.difference(&line::put(&S::ENTRY, case, &right), &lines);
    }
}

/// Calls the entry, and says what isn't right.
fn called(entry: &StageEntry, call: Call, case: &Case, right: &Answer) -> Vec<String> {
    let mut shifts = shifts(case);
    let mut input = |name: &&str| Lent::input(case.table(name), shifts.below(16));
    let inputs: Vec<Lent> = entry.inputs.iter().map(&mut input).collect();
    let output = |len: &usize| Lent::output(*len, shifts.below(16));
    let mut outputs: Vec<Lent> = case.lent.iter().map(output).collect();
    let before: Vec<Vec<u8>> = outputs.iter().map(|output| output.slice().to_vec()).collect();
    let word = {
        let inputs: Vec<&[u8]> = inputs.iter().map(Lent::slice).collect();
        let mut outputs: Vec<&mut [u8]> = outputs.iter_mut().map(Lent::slice_mut).collect();
        call(&inputs, &case.numbers, &mut outputs)
    };
    let mut lines = vec![];
    if word != right.word {
        let (right, given) = (document::describe(right.word), document::describe(word));
        lines.push(format!("answer: {right} is right, given {given}"));
    }
    for (i, name) in entry.outputs.iter().enumerate() {
        let right = [&right.outputs[i], &before[i][right.outputs[i].len()..]].concat();
        lines.extend(differing(name, &right, outputs[i].slice()));
    }
    for (name, input) in entry.inputs.iter().zip(&inputs) {
        lines.extend(differing(&format!("{name}, lent as input"), case.table(name), input.slice()));
    }
    if !inputs.iter().chain(&outputs).all(Lent::guards_whole) {
        lines.push("bytes outside the lent ones were written".to_string());
    }
    lines
}

/// Lets `with` call the entry on the case, as often as it likes; gives what it gives, and
/// the outputs then. `None` if the entry isn't linked.
fn plainly<S: Stage, T>(
    case: &Case,
    with: impl FnOnce(&mut dyn FnMut() -> u64) -> T,
) -> Option<(T, Vec<Vec<u8>>)> {
    let call = S::ENTRY.call?;
    let inputs: Vec<&[u8]> = S::ENTRY.inputs.iter().map(|name| case.table(name)).collect();
    let mut outputs: Vec<Vec<u8>> = case.lent.iter().map(|len| vec![0; *len]).collect();
    let mut lent: Vec<&mut [u8]> = outputs.iter_mut().map(|output| &mut output[..]).collect();
    let given = with(&mut || call(&inputs, &case.numbers, &mut lent));
    Some((given, outputs))
}

/// What the entry gives, or the second reading where it isn't linked.
fn given<S: Stage>(case: &Case) -> Answer {
    match plainly::<S, _>(case, |call| call()) {
        Some((word, outputs)) => Answer { word, outputs },
        None => S::right(case),
    }
}

/// Where the slices start; fixed by the case, so that a replay repeats it.
fn shifts(case: &Case) -> Random {
    let bytes = case.set.iter().flatten().chain(&case.partials).chain(&case.pieces);
    let bytes = bytes.chain(&case.file);
    let sum: u64 = bytes.map(|b| *b as u64).sum();
    Random::new(sum ^ (case.lent.iter().sum::<usize>() as u64) << 32)
}

const AS_STORED: &str = ", as stored";
const AS_WRITTEN: &str = ", as written by hand";

/// How often the random cases must come to each number.
const LEAST: u64 = 100;

fn some<S: Stage>(seed: u64, count: usize, tally: &mut Tally) {
    S::by_hand(tally);
    random::<S>(seed, count, tally);
}

fn random<S: Stage>(seed: u64, count: usize, tally: &mut Tally) {
    tally.begin(&format!("{}, {count} random cases, seed {seed}", S::ENTRY.name));
    parts::random(seed, count, tally, |r, tally| compare::<S>(&made::<S>(r), None, tally));
    let least = S::OUTCOMES.iter().map(|number| (*number, LEAST));
    for (number, least) in least.chain(S::OFTEN.iter().copied()) {
        // Fewer cases owe no number.
        tally.want_often(number, if count < S::COUNT { 0 } else { least });
    }
    tally.end(&[]);
}

/// One random case.
fn one<S: Stage>(size: Size, r: &mut Random, tally: &mut Tally) {
    let case = match size {
        Size::Small => Some(made::<S>(r)),
        Size::Large => S::large(r),
        Size::Short => {
            let mut case = made::<S>(r);
            S::shorten(&mut case, r);
            Some(case)
        }
    };
    if let Some(case) = case {
        compare::<S>(&case, None, tally);
    }
}

/// An input and an output shorter, each in every second case; seldom all of them empty.
fn shorten(case: &mut Case, inputs: &[&str], r: &mut Random) {
    if r.one_in(2) {
        let table = case.table_mut(r.pick(inputs));
        table.truncate(shorter(table.len(), r));
    }
    if r.one_in(2) && !case.lent.is_empty() {
        let which = r.below(case.lent.len());
        case.lent[which] = shorter(case.lent[which], r);
    }
    if r.one_in(20) {
        inputs.iter().for_each(|name| case.table_mut(name).clear());
    }
    if r.one_in(20) {
        case.lent.fill(0);
    }
}

/// The case with only the tables that the entry takes.
fn taken<S: Stage>(mut case: Case) -> Case {
    for (name, _) in TABLES.iter().filter(|(name, _)| !S::ENTRY.inputs.contains(name)) {
        case.table_mut(name).clear();
    }
    if !S::ENTRY.inputs.contains(&"partials") {
        case.partials.clear();
    }
    case
}

fn made<S: Stage>(r: &mut Random) -> Case {
    let mut case = taken::<S>(S::random(r));
    if S::CHECKED && r.one_in(8) {
        make::damage(&mut case, S::ENTRY.inputs, r);
    }
    case
}

/// One stored line: the entry, the reading, and the Rust where it is there, must give the
/// stored answer.
fn replay<S: Stage>(line: &str, tally: &mut Tally) -> Result<(), String> {
    let (case, stored) = line::read(&S::ENTRY, line)?;
    let now = S::right(&case);
    let also = stored.is_some().then_some(AS_STORED);
    if stored.is_some_and(|stored| stored != now) {
        let now = line::put(&S::ENTRY, &case, &now);
        tally.difference(line, &[format!("the reading gives {now}")]);
    }
    compare::<S>(&case, also, tally);
    Ok(())
}
