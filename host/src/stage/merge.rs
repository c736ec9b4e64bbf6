//! The entry `add_splits`.
use std::{
    io::{Read, Write, stdin},
    os::unix::process::ExitStatusExt,
    process::{Command, ExitCode, ExitStatus, Stdio},
    thread,
    time::{Duration, Instant},
};

use oracle::answers::{self, Question};

use super::{
    Beside, Case, Stage, line, made,
    make::{Maker, counts_room, room},
    rust,
};
use crate::{
    document::{
        self,
        check_tables::{LIMITS, Limits, checked, checked_partials},
        image::{Image, SPLIT_BYTES, Split, partials_in, splits_in},
        merge,
        outputs::Answer,
    },
    entries::stages::{ADD_SPLITS, StageEntry},
    random::Random,
    tally::Tally,
};

pub struct AddSplits;

impl Stage for AddSplits {
    const ENTRY: StageEntry = ADD_SPLITS;
    const COUNT: usize = 200_000;
    const OUTCOMES: &'static [u16] = &[0, 1, 2, 3, 4, 7, 11, 20, 21, 22, 23, 24, 25, 26, 27];
    const STEP: &'static str = "merge";

    fn random(r: &mut Random) -> Case {
        let mut maker = Maker::new(6, r);
        maker.sections(4, r);
        match r.below(5) {
            0..2 => {}
            2 => maker.loose_splits(4, r),
            _ => maker.tidy_splits(5, 6, r),
        }
        if !r.one_in(6) {
            maker.part_units(r);
        }
        let partials: Vec<Split> = (0..r.below(7)).map(|_| partial(&mut maker, r)).collect();
        let most = maker.splits.len() + partials.len();
        let lent = vec![room(SPLIT_BYTES, most, r), counts_room(1, r)];
        let partials = partials.iter().flat_map(Split::partial_bytes).collect();
        Case { partials, ..maker.case(vec![], lent) }
    }

    fn right(case: &Case) -> Answer {
        merge::answer(&case.tables(), &case.partials, &case.lent)
    }

    fn beside(case: &Case) -> Beside {
        let t = case.tables();
        let known = checked(&t, &Limits { image: false, ..LIMITS });
        if known.and_then(|known| checked_partials(&case.partials, &known)).is_err() {
            return Beside::NotAsked;
        }
        let (image, splits) = (Image::of(&t), splits_in(t.splits));
        let question = Question::Merge(splits.len());
        let reading = merge::merge(&image, splits, &partials_in(&case.partials), usize::MAX);
        let reading = reading.map(|splits| rust::named(&splits, &image.names));
        rust::beside(case, question, reading)
    }

    fn more(seed: u64, tally: &mut Tally) {
        if answers::PRESENT {
            sample_of_endless(seed, tally);
        }
    }
}

/// A partial split near those that are there, seldom of a section that isn't.
pub(super) fn partial(maker: &mut Maker, r: &mut Random) -> Split {
    let sections = maker.sections.len();
    let section = if r.one_in(60) { sections } else { r.below(sections.max(1)) };
    let (mut start, mut end) = (0x1000, 0x1008);
    if section < sections {
        (start, end) = (maker.near(section, r), maker.near(section, r));
        if start > end && !r.one_in(6) {
            (start, end) = (end, start);
        }
    }
    let end = if r.one_in(10) { 0 } else { end };
    maker.made_split(section, start, end, r)
}

/// How many of the merges that are refused by 26 are run to the end of the stack.
const SAMPLE: usize = 240;

/// That the Rust really recurses without end there: each merge in a process of its own,
/// which must not end by itself.
fn sample_of_endless(seed: u64, tally: &mut Tally) {
    tally.begin(&format!("add_splits, {SAMPLE} merges without end, in processes of their own"));
    let mut r = Random::new(seed);
    for _ in 0..SAMPLE {
        let case = loop {
            let case = made::<AddSplits>(&mut r);
            if document::number(AddSplits::right(&case).word) == 26 {
                break case;
            }
        };
        tally.count(26, ", the Rust's stack overflows");
        let line = line::put(&AddSplits::ENTRY, &case, &AddSplits::right(&case));
        match run_alone(&line) {
            // SIGSEGV or SIGABRT at the stack's end; SIGKILL after the time limit.
            Ok(status) if matches!(status.signal(), Some(6 | 9 | 11)) => {}
            ended => tally.difference(&line, &[format!("the merge ended: {ended:?}")]),
        }
    }
    tally.end(&[26]);
}

fn run_alone(line: &str) -> std::io::Result<ExitStatus> {
    let mut child = Command::new(std::env::current_exe()?)
        .arg("endless")
        .stdin(Stdio::piped())
        .stderr(Stdio::null())
        .spawn()?;
    child.stdin.take().unwrap().write_all(line.as_bytes())?;
    let begin = Instant::now();
    while begin.elapsed() < Duration::from_secs(10) {
        if let Some(status) = child.try_wait()? {
            return Ok(status);
        }
        thread::sleep(Duration::from_millis(1));
    }
    child.kill()?;
    child.wait()
}

/// The command `host endless`: one merge of the Rust, a case line on standard input, on a
/// small stack.
pub fn endless() -> ExitCode {
    let mut text = String::new();
    stdin().read_to_string(&mut text).expect("a line");
    let (case, _) = line::read(&AddSplits::ENTRY, &text).expect("a case");
    let question = Question::Merge(splits_in(case.tables().splits).len());
    let ask = move || answers::ask_without_end(&rust::file(&case), question).is_some();
    let asked = thread::Builder::new().stack_size(256 << 10).spawn(ask).unwrap().join();
    ExitCode::from(matches!(asked, Ok(true)) as u8)
}
