//! The lines given to a real reader, srec_info and srec_cat of Debian's srecord: it takes every
//! line, names the sections' ranges, and has the bytes of `join_pieces` there. Where they aren't
//! installed, a line says so.
use std::{fs, path::PathBuf, process::Command};

use super::{
    super::{
        Case, Stage, given,
        join::{JoinPieces, back},
        line,
    },
    WriteSrecords, lined_case,
};
use crate::{
    document::{self, join::ranges},
    random::Random,
    tally::Tally,
};

/// How many random inputs whose lines are written, beside the examples.
const INPUTS: usize = 200;

pub fn run(seed: u64, tally: &mut Tally) {
    let title = format!("lines of the examples and of {INPUTS} random inputs, read by srec_cat");
    if ["srec_cat", "srec_info"].iter().any(|name| Command::new(name).arg("-V").output().is_err()) {
        println!("{title}: not tried, srec_cat or srec_info isn't installed");
        return;
    }
    tally.begin(&format!("{title}, seed {seed}"));
    let folder = std::env::temp_dir().join(format!("mizhakkon-srec-{}", std::process::id()));
    if let Err(why) = fs::create_dir_all(&folder).map_err(|e| e.to_string()).and_then(|()| {
        let client = Client { file: folder.join("lines.s3") };
        for case in back::example_cases()? {
            client.reads(case, tally)?;
        }
        let (mut left, mut r) = (INPUTS, Random::new(seed));
        while left > 0 {
            left -= client.reads(lined_case(5, 10, usize::MAX, &mut r), tally)? as usize;
        }
        Ok(())
    }) {
        tally.difference("-", &[why]);
    }
    // What can't be removed is the system's to clear.
    let _ = fs::remove_dir_all(&folder);
    tally.end(&[0]);
}

struct Client {
    file: PathBuf,
}

impl Client {
    /// Whether the lines are written and have data, where there is room for them and for `size`;
    /// what isn't right of them is said.
    fn reads(&self, case: Case, tally: &mut Tally) -> Result<bool, String> {
        let case = &Case { lent: vec![1 << 20, 8], ..case };
        let answer = given::<WriteSrecords>(case);
        let tables = case.tables();
        let sections: Vec<_> =
            ranges(&tables).flatten().filter(|(start, end)| start < end).collect();
        if answer.word != 0 || sections.is_empty() {
            return Ok(false);
        }
        let size = u64::from_le_bytes(answer.outputs[1][..8].try_into().expect("eight bytes"));
        let text = &answer.outputs[0][..size as usize];
        fs::write(&self.file, text).map_err(|e| e.to_string())?;
        let joined = given::<JoinPieces>(case);
        let mut lines = vec![];
        if joined.word != 0 {
            lines.push(format!("join_pieces is {}", document::describe(joined.word)));
        }
        let said = self.ranges()?;
        if said != merged(&sections) {
            lines.push(format!("srec_info names {said:X?}"));
        }
        let mut rest = &joined.outputs[0][..];
        for (start, end) in &sections {
            let own;
            (own, rest) = rest.split_at((end - start) as usize);
            if self.bytes(*start, *end)? != own {
                lines.push(format!("srec_cat has other bytes from {start:08X} on"));
            }
        }
        tally.count(0, ", as srec_cat reads it");
        if !lines.is_empty() {
            tally.difference(&line::put(&WriteSrecords::ENTRY, case, &answer), &lines);
        }
        Ok(true)
    }

    /// The ranges of addresses that srec_info names.
    fn ranges(&self) -> Result<Vec<(u64, u64)>, String> {
        let said = run_on(Command::new("srec_info").arg(&self.file).arg("-Motorola"))?;
        let said = String::from_utf8_lossy(&said).replace("Data:", " ");
        let number = |word: &str| u64::from_str_radix(word, 16).ok();
        let range = |line: &str| match line.split_whitespace().collect::<Vec<_>>()[..] {
            [first, "-", last] => Some((number(first)?, number(last)? + 1)),
            _ => None,
        };
        Ok(said.lines().filter_map(range).collect())
    }

    /// The bytes that srec_cat has in a range, and nothing beside it.
    fn bytes(&self, start: u64, end: u64) -> Result<Vec<u8>, String> {
        let (from, to) = (format!("{start:#x}"), format!("{end:#x}"));
        let mut command = Command::new("srec_cat");
        command.arg(&self.file).args(["-Motorola", "-crop", &from, &to]);
        command.args(["-offset", &format!("-{from}"), "-o", "-", "-Binary"]);
        run_on(&mut command)
    }
}

/// Its warnings ("no header record", "not in strictly ascending order") are no faults.
fn run_on(command: &mut Command) -> Result<Vec<u8>, String> {
    let run = command.output().map_err(|e| e.to_string())?;
    if !run.status.success() {
        return Err(format!("{command:?}: {}", String::from_utf8_lossy(&run.stderr)));
    }
    Ok(run.stdout)
}

/// By address, those that touch as one.
fn merged(sections: &[(u64, u64)]) -> Vec<(u64, u64)> {
    let mut sorted = sections.to_vec();
    sorted.sort();
    let mut all: Vec<(u64, u64)> = vec![];
    for (start, end) in sorted {
        match all.last_mut() {
            Some(last) if last.1 == start => last.1 = end,
            _ => all.push((start, end)),
        }
    }
    all
}
