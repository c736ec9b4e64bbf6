//! The pieces of walks, joined: each section without a skipped and a common split comes back
//! up to its splitting end, and the order of the pieces alters nothing.
use std::{fs, path::Path};

use super::{
    super::{
        Case, Stage, compare, given, line,
        restore::{Piece, accepted},
        run::{SplitFile, files, store},
    },
    JoinPieces,
};
use crate::{
    bytes::half_at,
    check_tables::{HEADS, NAME_BYTES, NAME_ENDS},
    document::{
        check_tables::Tables,
        ends::splitting_end,
        image::{Image, Split, splits_in},
        join::{MOST, Part},
        load::load,
        outputs::Answer,
        records::NO_BYTES,
    },
    random::Random,
    tally::Tally,
};

/// How many random files whose run is accepted.
const FILES: usize = 1000;

/// What was joined.
#[derive(Default)]
pub struct Counts {
    images: usize,
    sections: usize,
    pieces: usize,
    bytes: usize,
}

impl Counts {
    pub fn print(&self) {
        let Self { images, sections, pieces, bytes } = self;
        println!("          {images} images, {sections} sections, {pieces} pieces, {bytes} bytes");
    }
}

pub fn run(seed: u64, tally: &mut Tally) {
    tally.begin(&format!(
        "pieces of the examples and of {FILES} accepted random files, joined, seed {seed}"
    ));
    let (mut counts, mut r) = (Counts::default(), Random::new(seed));
    match examples() {
        Ok(files) => {
            let accepted = files.iter().filter(|file| ran(file, &mut counts, &mut r, tally));
            if accepted.count() < 2 {
                tally.difference("-", &["fewer than two examples are accepted".to_string()]);
            }
        }
        Err(why) => tally.difference("-", &[why]),
    }
    let mut left = FILES;
    while left > 0 {
        left -= ran(&files::random(&mut r), &mut counts, &mut r, tally) as usize;
    }
    tally.end(&[0]);
    counts.print();
}

/// The record files of examples/.
fn examples() -> Result<Vec<Vec<u8>>, String> {
    let folder = Path::new(env!("CARGO_MANIFEST_DIR")).join("../examples");
    let said = |e: std::io::Error| format!("{}: {e}", folder.display());
    let mut files = vec![];
    for entry in fs::read_dir(&folder).map_err(said)? {
        let path = entry.map_err(said)?.path();
        if path.extension().is_some_and(|ending| ending == "rec") {
            files.push(fs::read(&path).map_err(said)?);
        }
    }
    Ok(files)
}

/// Joins the pieces of a whole run; whether it is accepted.
fn ran(file: &[u8], counts: &mut Counts, r: &mut Random, tally: &mut Tally) -> bool {
    let answer = given::<SplitFile>(&store::whole(file));
    let (Some(pieces), Ok(loaded)) = (accepted(&answer, 4), load(file)) else {
        return false;
    };
    let count = half_at(answer.outputs.last().expect("the counts"), 4) as usize;
    let splits = &splits_in(&answer.outputs[2])[..count];
    image(&loaded.tables(), splits, &pieces, counts, r, tally);
    true
}

/// The pieces of each example whose run is accepted, as a case of `join_pieces`.
pub fn example_cases() -> Result<Vec<Case>, String> {
    let mut cases = vec![];
    for file in examples()? {
        let answer = given::<SplitFile>(&store::whole(&file));
        if let (Some(pieces), Ok(loaded)) = (accepted(&answer, 4), load(&file)) {
            let t = loaded.tables();
            cases.push(case(&t, &parts(&Image::of(&t), &pieces), 0));
        }
    }
    Ok(cases)
}

/// Joins the pieces of a walk over these tables.
pub fn image(
    t: &Tables,
    splits: &[Split],
    pieces: &[Piece],
    counts: &mut Counts,
    r: &mut Random,
    tally: &mut Tally,
) {
    let image = Image::of(t);
    let mut parts = parts(&image, pieces);
    let held = image.sections.iter().map(|section| section.bytes.len()).sum();
    let case = case(t, &parts, held + r.below(20));
    compare::<JoinPieces>(&case, None, tally);
    let answer = given::<JoinPieces>(&case);

    let mut lines = restored(&image, splits, &answer, held, counts);
    r.shuffle(&mut parts);
    let other = Case { pieces: records(&parts), ..case.clone() };
    if given::<JoinPieces>(&other) != answer {
        lines.push("in another order the pieces give other bytes".to_string());
    }
    if !lines.is_empty() {
        tally.difference(&line::put(&JoinPieces::ENTRY, &case, &answer), &lines);
    }
    counts.images += 1;
    counts.pieces += parts.len();
}

/// The pieces of sections that hold bytes, each with its part of its section's bytes.
fn parts<'a>(image: &Image<'a>, pieces: &[Piece]) -> Vec<Part<'a>> {
    assert!(pieces.len() <= MOST, "a walk gives no more");
    let part = |p: &Piece| {
        let section = &image.sections[p.section as usize];
        let from = p.address.checked_sub(section.address)? as usize;
        let bytes = section.bytes.get(from..from + p.size as usize)?;
        (section.kind != NO_BYTES).then_some(Part { section: p.section, address: p.address, bytes })
    };
    pieces.iter().filter_map(part).collect()
}

fn records(parts: &[Part]) -> Vec<u8> {
    parts.iter().flat_map(Part::record).collect()
}

fn case(t: &Tables, parts: &[Part], room: usize) -> Case {
    let mut case = Case { pieces: records(parts), lent: vec![room, 8], ..Case::default() };
    case.set[NAME_ENDS] = t.name_ends.to_vec();
    case.set[NAME_BYTES] = t.name_bytes.to_vec();
    case.set[HEADS] = t.sections.to_vec();
    case
}

/// What isn't right of the joined bytes; `held` is how many bytes the sections hold.
fn restored(
    image: &Image,
    splits: &[Split],
    answer: &Answer,
    held: usize,
    counts: &mut Counts,
) -> Vec<String> {
    if answer.word != 0 || answer.outputs[1] != (held as u64).to_le_bytes() {
        return vec!["the pieces aren't joined".to_string()];
    }
    let mut lines = vec![];
    let mut rest = &answer.outputs[0][..];
    for (number, section) in (0..).zip(&image.sections) {
        let joined;
        (joined, rest) = rest.split_at(section.bytes.len());
        let of_section = |s: &&Split| s.section == number;
        let whole = !splits.iter().filter(of_section).any(|s| s.skipped() || s.common());
        if section.kind == NO_BYTES || !whole {
            continue;
        }
        let end = splitting_end(image, number).expect("the walk asked it");
        let below = (end - section.address) as usize;
        if joined[..below] != section.bytes[..below] {
            lines.push(format!("section {number} isn't put back"));
        }
        counts.sections += 1;
        counts.bytes += below;
    }
    lines
}
