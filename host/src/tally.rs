//! Counts by outcome, and the differences.
use std::collections::BTreeMap;

/// How many differences of a group are shown in full.
const SHOWN: usize = 3;

#[derive(Default)]
pub struct Tally {
    pub compared: u64,
    pub differ: u64,
    title: String,
    group_differ: u64,
    /// The first differences of the group.
    shown: Vec<String>,
    outcomes: BTreeMap<(u16, String), u64>,
}

impl Tally {
    pub fn begin(&mut self, title: &str) {
        self.title = title.to_string();
        self.group_differ = 0;
        self.shown.clear();
        self.outcomes.clear();
    }

    /// Takes over what another tally counted for this group.
    pub fn absorb(&mut self, part: Tally) {
        self.compared += part.compared;
        self.differ += part.differ;
        self.group_differ += part.group_differ;
        self.shown.extend(part.shown);
        for (outcome, count) in part.outcomes {
            *self.outcomes.entry(outcome).or_default() += count;
        }
    }

    /// One comparison whose right outcome has this number (0: accepted); `note`
    /// says what the Rust does there, or what the outcome rests on.
    pub fn count(&mut self, number: u16, note: &str) {
        self.compared += 1;
        self.reach(number, note);
    }

    /// A case whose outcome has this number, but that is compared with nothing.
    pub fn reach(&mut self, number: u16, note: &str) {
        *self.outcomes.entry((number, note.to_string())).or_default() += 1;
    }

    /// `case` is the line that `host replay` takes.
    pub fn difference(&mut self, case: &str, lines: &[String]) {
        self.differ += 1;
        self.group_differ += 1;
        if self.shown.len() < SHOWN {
            let lines: String = lines.iter().map(|line| format!("\n  {line}")).collect();
            self.shown.push(format!("  case {case}{lines}"));
        }
    }

    /// How many outcomes of the group have each number.
    pub fn numbers(&self) -> BTreeMap<u16, u64> {
        let mut numbers = BTreeMap::new();
        for ((number, _), count) in &self.outcomes {
            *numbers.entry(*number).or_default() += count;
        }
        numbers
    }

    /// A group with this note that never came up is a difference, as in `end`.
    pub fn want(&mut self, number: u16, note: &str) {
        if !self.outcomes.contains_key(&(number, note.to_string())) {
            self.difference("-", &[format!("no case is {}{note}", name(number))]);
        }
    }

    /// A number that came up less often is a difference.
    pub fn want_often(&mut self, number: u16, least: u64) {
        let outcomes = self.outcomes.iter().filter(|((n, _), _)| *n == number);
        let count: u64 = outcomes.map(|(_, count)| count).sum();
        if count < least {
            let few = format!("{count} cases are {}, wanted {least}", name(number));
            self.difference("-", &[few]);
        }
    }

    /// The same of those with this note.
    pub fn want_often_noted(&mut self, number: u16, note: &str, least: u64) {
        let count = self.outcomes.get(&(number, note.to_string())).copied().unwrap_or(0);
        if count < least {
            let few = format!("{count} cases are {}{note}, wanted {least}", name(number));
            self.difference("-", &[few]);
        }
    }

    /// Prints the counts. An outcome of `wanted` that never came up is a
    /// difference too: its rule wasn't tried.
    pub fn end(&mut self, wanted: &[u16]) {
        for &number in wanted {
            if !self.outcomes.keys().any(|(n, _)| *n == number) {
                self.difference("-", &[format!("no case is {}", name(number))]);
            }
        }
        for difference in self.shown.iter().take(SHOWN) {
            println!("difference in {}:\n{difference}", self.title);
        }
        println!("{}", self.title);
        for ((number, note), count) in &self.outcomes {
            println!("{count:>9}  {}{note}", name(*number));
        }
        if self.group_differ > 0 {
            println!("{:>9}  DIFFER", self.group_differ);
        }
    }
}

fn name(number: u16) -> String {
    match number {
        0 => "accepted".to_string(),
        n => format!("refused {n}"),
    }
}
