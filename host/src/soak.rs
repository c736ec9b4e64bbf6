//! Random cases of all entries in great number, under a time limit; and few of them with
//! short tables, for a tool that watches every access. No parts of a check.
use std::time::{Duration, Instant};

use crate::{
    ENTRIES, Entry, lent,
    markdown::{Table, grouped},
    parts::{self, share},
    random::Random,
    tally::Tally,
};

/// What kind of random case.
#[derive(Clone, Copy)]
pub enum Size {
    /// As a check makes them.
    Small,
    /// Near the ceilings.
    Large,
    /// Small, with short and empty tables, in and out.
    Short,
}

/// A shorter length, often none.
pub fn shorter(len: usize, r: &mut Random) -> usize {
    let any = r.below(len + 1);
    r.pick(&[0, len.saturating_sub(1), any, any])
}

pub struct Plan {
    small: usize,
    large: usize,
    seconds: u64,
    seed: u64,
}

impl Plan {
    /// Of the command's words, as many as there are.
    pub fn of(words: &[&str]) -> Option<Self> {
        let word = |i: usize, default: u64| words.get(i).map_or(Some(default), |w| w.parse().ok());
        let plan = Self {
            small: word(0, 10_000_000)? as usize,
            large: word(1, 100_000)? as usize,
            seconds: word(2, 3600)?,
            seed: word(3, crate::SEED)?,
        };
        (words.len() <= 4).then_some(plan)
    }
}

/// The cases come in so many rounds over all entries, so that the time limit leaves none out.
const ROUNDS: usize = 100;

/// The cases of one entry and size.
struct Group {
    entry: &'static Entry,
    size: Size,
    wanted: usize,
    tally: Tally,
}

impl Group {
    fn new(entry: &'static Entry, size: Size, wanted: usize) -> Self {
        let mut tally = Tally::default();
        tally.begin(&format!("{}, {}", entry.name, name(size)));
        Self { entry, size, wanted, tally }
    }

    fn round(&mut self, round: usize, seed: u64, until: Instant) {
        let count = share(self.wanted, round, ROUNDS);
        let one = |r: &mut Random, tally: &mut Tally| (self.entry.one)(self.size, r, tally);
        parts::random_until(seed, count, Some(until), &mut self.tally, one);
    }
}

fn name(size: Size) -> &'static str {
    match size {
        Size::Small => "small",
        Size::Large => "large",
        Size::Short => "short",
    }
}

fn groups(plan: &Plan) -> Vec<Group> {
    let all: &'static [Entry] = &ENTRIES;
    let of = |size: Size, wanted: usize| {
        let group = move |(i, entry)| Group::new(entry, size, share(wanted, i, all.len()));
        all.iter().enumerate().map(group)
    };
    of(Size::Small, plan.small).chain(of(Size::Large, plan.large)).collect()
}

pub fn run(plan: &Plan, total: &mut Tally) {
    let begin = Instant::now();
    let until = begin + Duration::from_secs(plan.seconds);
    let mut groups = groups(plan);
    let mut seeds = Random::new(plan.seed);
    for round in 0..ROUNDS {
        groups.iter_mut().for_each(|group| group.round(round, seeds.next(), until));
        progress(round, &groups, begin);
        if Instant::now() >= until {
            break;
        }
    }
    for group in &mut groups {
        group.tally.end(&[]);
        total.compared += group.tally.compared;
        total.differ += group.tally.differ;
    }
    println!();
    table(&groups).print();
    summary(plan, &groups, begin);
}

/// On the standard error, so that one sees that it goes on, and where it stopped.
fn progress(round: usize, groups: &[Group], begin: Instant) {
    let compared: u64 = groups.iter().map(|group| group.tally.compared).sum();
    let differ: u64 = groups.iter().map(|group| group.tally.differ).sum();
    let (round, seconds) = (round + 1, begin.elapsed().as_secs());
    eprintln!("round {round} of {ROUNDS}: {compared} compared, {differ} differ, {seconds} s");
}

fn summary(plan: &Plan, groups: &[Group], begin: Instant) {
    let done = |size: &str, wanted: usize| {
        let of_size = groups.iter().filter(|group| name(group.size) == size);
        let compared = of_size.map(|group| group.tally.compared).sum();
        format!("{} of {} {size}", grouped(compared), grouped(wanted as u64))
    };
    let (small, large) = (done("small", plan.small), done("large", plan.large));
    let (seed, seconds, limit) = (plan.seed, begin.elapsed().as_secs(), plan.seconds);
    println!("\nSeed {seed}: {small} and {large} ones, in {seconds} of {limit} seconds.");
}

fn table(groups: &[Group]) -> Table {
    let mut table = Table::new(&["Entry", "Size", "compared", "differ", "by outcome (0 accepted)"]);
    for Group { entry, size, tally, .. } in groups {
        let outcomes: Vec<String> = tally
            .numbers()
            .iter()
            .map(|(number, count)| format!("{number}: {}", grouped(*count)))
            .collect();
        table.row(vec![
            entry.name.to_string(),
            name(*size).to_string(),
            grouped(tally.compared),
            grouped(tally.differ),
            outcomes.join("; "),
        ]);
    }
    table
}

/// How many, if nothing else is said.
pub const SAMPLE: usize = 2000;

/// One of so many is a large case.
const LARGE_ONE_IN: usize = 100;

/// Cases whose tables are blocks of the heap of their own, so that valgrind sees an access
/// outside them.
pub fn sample(entries: &[Entry], count: usize, seed: u64, tally: &mut Tally) {
    lent::lend_exactly();
    let mut seeds = Random::new(seed);
    for (i, entry) in entries.iter().enumerate() {
        let count = share(count, i, entries.len());
        tally.begin(&format!("{}, {count} with short tables, seed {seed}", entry.name));
        parts::random(seeds.next(), count, tally, |r, tally| {
            let size = if r.one_in(LARGE_ONE_IN) { Size::Large } else { Size::Short };
            (entry.one)(size, r, tally);
        });
        tally.end(&[]);
    }
    let (lent, empty) = lent::exactly_lent();
    println!(
        "{} tables lent, {} of them of no length",
        grouped(lent as u64),
        grouped(empty as u64)
    );
}
