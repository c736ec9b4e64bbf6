//! Restores images from their pieces: "the section's size in zeros, over which its pieces,
//! in output order, are written from their addresses on". The pieces are those that the
//! entry gives, or the second reading where the entry isn't linked.
use std::fs;

use super::{
    Case, Stage, given, line,
    run::{SplitFile, store},
    walk::SplitObj,
};
use crate::{
    bytes::{half_at, word_at},
    document::{
        check_tables::Tables,
        ends::splitting_end,
        image::{Image, Split, splits_in},
        load::load,
        outputs::Answer,
        records::NO_BYTES,
        walk,
    },
    entries::stages::PIECE_BYTES,
    stored,
    tally::Tally,
};

/// A piece as its output record says it.
pub struct Piece {
    pub section: u16,
    pub address: u32,
    pub size: u32,
}

pub fn pieces(table: &[u8], count: usize) -> Vec<Piece> {
    let piece =
        |r: &[u8]| Piece { section: half_at(r, 4), address: word_at(r, 8), size: word_at(r, 12) };
    table.chunks_exact(walk::PIECE_BYTES).take(count).map(piece).collect()
}

/// What was compared.
#[derive(Default)]
struct Counts {
    images: usize,
    sections: usize,
    pieces: usize,
    bytes: usize,
}

/// Every stored case whose walk is accepted.
pub fn run(tally: &mut Tally) {
    tally.begin("images restored from their pieces");
    let mut counts = Counts::default();
    let mut all = || -> Result<(), String> {
        for case in stored_cases::<SplitObj>()? {
            walked(&case, &mut counts, tally);
        }
        for case in stored_cases::<SplitFile>()? {
            ran(&case, &mut counts, tally);
        }
        for (_, file, _) in store::read()? {
            ran(&store::whole(&file), &mut counts, tally);
        }
        Ok(())
    };
    if let Err(why) = all() {
        tally.difference("-", &[why]);
    }
    tally.end(&[0]);
    let Counts { images, sections, pieces, bytes } = counts;
    println!("          {images} images, {sections} sections, {pieces} pieces, {bytes} bytes");
}

fn stored_cases<S: Stage>() -> Result<Vec<Case>, String> {
    let path = stored::path(S::ENTRY.name);
    let text = fs::read_to_string(&path).map_err(|e| format!("{}: {e}", path.display()))?;
    let lines = text.lines().filter(|l| !l.is_empty() && !l.starts_with('#'));
    lines.map(|l| line::read(&S::ENTRY, l).map(|(case, _)| case)).collect()
}

/// A walk of stage tables.
fn walked(case: &Case, counts: &mut Counts, tally: &mut Tally) {
    let t = case.tables();
    let answer = given::<SplitObj>(case);
    if let Some(pieces) = accepted(&answer, 0) {
        image(&Image::of(&t), &splits_in(t.splits), &pieces, counts, tally);
        places(&t, &answer.outputs[0][..walk::PIECE_BYTES * pieces.len()], &pieces, tally);
    }
}

/// Each piece where the entry `piece_bytes` says that it lies in the image: its bytes are
/// those of its section; none for a section without bytes. Nothing while it isn't linked.
fn places(t: &Tables, table: &[u8], pieces: &[Piece], tally: &mut Tally) {
    let Some(call) = PIECE_BYTES.call else {
        return;
    };
    let sections = Image::of(t).sections;
    for (which, p) in (0..).zip(pieces) {
        let mut place = [0x55; 9];
        let word =
            call(&[t.sections, t.section_places, t.image, table], &[which], &mut [&mut place]);
        let (offset, length) = (word_at(&place, 0) as usize, word_at(&place, 4) as usize);
        let section = &sections[p.section as usize];
        let from = (p.address - section.address) as usize;
        let own = match section.kind {
            NO_BYTES => &[],
            _ => &section.bytes[from..from + p.size as usize],
        };
        tally.count(0, ", piece by piece");
        if word != 0 || place[8] != 0 || t.image.get(offset..offset + length) != Some(own) {
            tally.difference("-", &[format!("piece {which} isn't where piece_bytes says")]);
        }
    }
}

/// A whole run; the splits that its walk was given are among its outputs.
fn ran(case: &Case, counts: &mut Counts, tally: &mut Tally) {
    let answer = given::<SplitFile>(case);
    let (Some(pieces), Ok(loaded)) = (accepted(&answer, 4), load(&case.file)) else {
        return;
    };
    let count = half_at(answer.outputs.last().unwrap(), 4) as usize;
    let splits = &splits_in(&answer.outputs[2])[..count];
    let t = loaded.tables();
    image(&Image::of(&t), splits, &pieces, counts, tally);
    places(&t, &answer.outputs[4][..walk::PIECE_BYTES * pieces.len()], &pieces, tally);
}

/// The pieces of an accepted answer whose output `at` they are; none where their count
/// wasn't lent.
pub fn accepted(answer: &Answer, at: usize) -> Option<Vec<Piece>> {
    let counts = answer.outputs.last()?;
    if answer.word != 0 || counts.len() < 2 * at + 2 {
        return None;
    }
    Some(pieces(&answer.outputs[at], half_at(counts, 2 * at) as usize))
}

fn image(
    image: &Image,
    splits: &[Split],
    pieces: &[Piece],
    counts: &mut Counts,
    tally: &mut Tally,
) {
    counts.images += 1;
    for (number, section) in (0..).zip(&image.sections) {
        let of_section = |s: &&Split| s.section == number;
        let whole = !splits.iter().filter(of_section).any(|s| s.skipped() || s.common());
        if section.kind == NO_BYTES || !whole {
            continue;
        }
        let pieces: Vec<&Piece> = pieces.iter().filter(|p| p.section == number).collect();
        let end = splitting_end(image, number).expect("the walk asked it");
        let below = (end - section.address) as usize;
        tally.count(0, ", section by section");
        match laid(section.bytes, section.address, &pieces) {
            Ok(laid) if laid[..below] == section.bytes[..below] => {}
            Ok(_) => tally.difference("-", &[format!("section {number} isn't restored")]),
            Err(why) => tally.difference("-", &[format!("section {number}: {why}")]),
        }
        counts.sections += 1;
        counts.pieces += pieces.len();
        counts.bytes += below;
    }
}

/// The pieces over zeros; a piece's bytes are a part of the section's.
fn laid(bytes: &[u8], start: u32, pieces: &[&Piece]) -> Result<Vec<u8>, String> {
    let mut laid = vec![0; bytes.len()];
    for Piece { address, size, .. } in pieces {
        let from = address.checked_sub(start).ok_or("a piece begins before it")? as usize;
        let to = from + *size as usize;
        let part = bytes.get(from..to).ok_or("a piece ends behind it")?;
        laid[from..to].copy_from_slice(part);
    }
    Ok(laid)
}
