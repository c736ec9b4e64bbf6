//! The entry `join_pieces`: document 02, (e), "Putting an image back".
use super::{
    Refusal,
    check_tables::{LIMITS, Limits, Tables, checked},
    outputs::{self, Answer},
    records::{NO_BYTES, SECTIONS},
};
use crate::bytes::{half_at, word_at};

/// "each a record of kind 7, known only here"
pub const PIECE: u16 = 7;

/// "up to 1,024 pieces"
pub const MOST: usize = 1024;

/// A piece as it is handed in: "section 2, address 4, its bytes".
#[derive(Clone, Debug)]
pub struct Part<'a> {
    pub section: u16,
    pub address: u32,
    pub bytes: &'a [u8],
}

impl Part<'_> {
    /// The record of it.
    pub fn record(&self) -> Vec<u8> {
        let mut record = (6 + self.bytes.len() as u32).to_le_bytes().to_vec();
        record.extend(PIECE.to_le_bytes());
        record.extend(self.section.to_le_bytes());
        record.extend(self.address.to_le_bytes());
        record.extend(self.bytes);
        record
    }
}

/// The pieces in the records: each record for 1, then for 2.
pub fn parts(mut rest: &[u8]) -> Result<Vec<Part<'_>>, Refusal> {
    let mut parts = vec![];
    while !rest.is_empty() {
        let refused = |number| Refusal { number, section: 0, address: parts.len() as u32 };
        let (payload, next) = first(rest).ok_or(refused(1))?;
        if parts.len() == MOST {
            return Err(refused(2));
        }
        let (section, address) = (half_at(payload, 0), word_at(payload, 2));
        parts.push(Part { section, address, bytes: &payload[6..] });
        rest = next;
    }
    Ok(parts)
}

/// The first record's payload, and what follows; none if it is cut, of another kind, or too
/// short for a section and an address.
fn first(rest: &[u8]) -> Option<(&[u8], &[u8])> {
    let (head, rest) = rest.split_at_checked(6)?;
    let (payload, rest) = rest.split_at_checked(word_at(head, 0) as usize)?;
    (half_at(head, 4) == PIECE && payload.len() >= 6).then_some((payload, rest))
}

/// A section that holds bytes: where it starts, and what the pieces have there.
struct Held {
    start: u64,
    bytes: Vec<Option<u8>>,
}

pub fn answer(t: &Tables, pieces: &[u8], lent: &[usize]) -> Answer {
    match join(t, pieces, lent[0]) {
        Ok(joined) => {
            let size = (joined.len() as u64).to_le_bytes();
            // "lent bytes past an accepted output stay": these aren't among the outputs here.
            let size = if lent[1] < 8 { vec![] } else { size.to_vec() };
            Answer { word: 0, outputs: vec![joined, size] }
        }
        Err(refusal) => outputs::refused(refusal, lent),
    }
}

/// `room`: how many bytes are lent for the output.
fn join(t: &Tables, pieces: &[u8], room: usize) -> Result<Vec<u8>, Refusal> {
    checked(t, &Limits { image: false, ..LIMITS })?;
    let parts = parts(pieces)?;
    let refused = |number| Err(Refusal { number, section: 0, address: 0 });

    // "80, the lent output is too short"
    if (room as u64) < holding(t).map(|(start, end)| end - start).sum() {
        return refused(80);
    }
    inside(t, &parts)?;
    let mut sections = sections(t);
    // "83, two pieces of one section differ at an address"
    for part in &parts {
        let held = sections[part.section as usize].as_mut().expect("no 82");
        let from = (part.address as u64 - held.start) as usize;
        for (there, byte) in held.bytes[from..].iter_mut().zip(part.bytes) {
            if *there.get_or_insert(*byte) != *byte {
                return refused(83);
            }
        }
    }
    // "by number and one after another, .. zeros where none lies"
    let bytes = sections.into_iter().flatten().flat_map(|held| held.bytes);
    Ok(bytes.map(|byte| byte.unwrap_or(0)).collect())
}

/// "82, a piece names no section that holds bytes or reaches outside it"
pub fn inside(t: &Tables, parts: &[Part]) -> Result<(), Refusal> {
    let ranges: Vec<_> = ranges(t).collect();
    for part in parts {
        let (from, to) = (part.address as u64, part.address as u64 + part.bytes.len() as u64);
        match ranges.get(part.section as usize) {
            Some(Some((start, end))) if *start <= from && to <= *end => {}
            _ => return Err(Refusal { number: 82, section: 0, address: 0 }),
        }
    }
    Ok(())
}

/// The section heads: the addresses of each that holds bytes, none for another.
pub fn ranges(t: &Tables) -> impl Iterator<Item = Option<(u64, u64)>> {
    t.sections.chunks_exact(SECTIONS.width).map(|head| {
        let (start, size) = (word_at(head, 3) as u64, word_at(head, 7) as u64);
        (head[2] != NO_BYTES).then_some((start, start + size))
    })
}

fn holding(t: &Tables) -> impl Iterator<Item = (u64, u64)> {
    ranges(t).flatten()
}

/// No byte is there yet.
fn sections(t: &Tables) -> Vec<Option<Held>> {
    let held = |(start, end)| Held { start, bytes: vec![None; (end - start) as usize] };
    ranges(t).map(|range| range.map(held)).collect()
}
