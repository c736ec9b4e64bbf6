//! The entry `check_file`: a whole record file, and how many records of each kind it
//! gives.
use super::{
    Refusal,
    outputs::counts_then_zeros,
    records::{self, *},
    word,
};
use crate::bytes::{half_at, word_at};

const HEADER: usize = 6;
const LONGEST: usize = 65_536;

pub struct Answer {
    pub word: u64,
    pub counts: Vec<u8>,
    /// What the answer rests on, in words.
    pub why: String,
}

pub fn answer(file: &[u8], counts_len: usize) -> Answer {
    match load(file) {
        Ok(known) => {
            let counts = counts_then_zeros(&counts_of(&known), counts_len);
            Answer { word: 0, counts, why: String::new() }
        }
        Err(fault) => {
            let word = word(Some(fault.refusal()));
            Answer { word, counts: vec![0; counts_len], why: fault.why }
        }
    }
}

pub struct Fault {
    number: u16,
    record: usize,
    why: String,
}

impl Fault {
    pub fn refusal(&self) -> Refusal {
        Refusal { number: self.number, section: 0, address: self.record as u32 }
    }
}

pub const TOO_LONG: &str = "file over 65,536 bytes";
pub const HEADER_CUT: &str = "length or kind cut";

pub fn load(file: &[u8]) -> Result<Known<'_>, Fault> {
    let fault = |number, record, why: String| Err(Fault { number, record, why });
    // "a file over 65,536 bytes is refused first, at record 0".
    if file.len() > LONGEST {
        return fault(1, 0, TOO_LONG.to_string());
    }
    let mut known = Known::default();
    let mut rest = file;
    let mut record = 0;
    while !rest.is_empty() {
        let ((kind, payload), next) = match first(rest) {
            Ok(first) => first,
            Err(cut) => return fault(1, record, records::alone(&cut).to_string()),
        };
        if let Err((number, why)) = take(kind, payload, &mut known) {
            return fault(number, record, why);
        }
        rest = next;
        record += 1;
    }
    Ok(known)
}

/// A record's kind and payload.
pub type Record<'a> = (u16, &'a [u8]);

/// The record at the start of `rest` and what follows it, or what 1 is for it.
pub fn first(rest: &[u8]) -> Result<(Record<'_>, &[u8]), Conditions> {
    let faults = cut_or_wrong(rest);
    if !faults.is_empty() {
        return Err(faults);
    }
    let (payload, next) = rest[HEADER..].split_at(word_at(rest, 0) as usize);
    Ok(((half_at(rest, 4), payload), next))
}

pub const WHOLE_FAULTS: [&str; 3] = ["payload cut", "unknown kind", "payload length wrong"];

fn cut_or_wrong(rest: &[u8]) -> Conditions {
    if rest.len() < HEADER {
        return vec![HEADER_CUT];
    }
    let (len, kind) = (word_at(rest, 0) as u64, half_at(rest, 4));
    let there = &rest[HEADER..];
    let unknown = !(1..=6).contains(&kind);
    let wrong = !unknown && wrong_length(kind, len, there);
    holding(WHOLE_FAULTS, [len > there.len() as u64, unknown, wrong])
}

/// `there` is what the file holds from the payload on. A name's length is 3's.
fn wrong_length(kind: u16, len: u64, there: &[u8]) -> bool {
    let width = KINDS[kind as usize - 1].width;
    let right = match (kind, there.get(..width)) {
        (1, _) => return false,
        // "then its bytes unless kind 3"
        (2, Some(head)) if head[2] != NO_BYTES => width as u64 + word_at(head, 7) as u64,
        // A head that the file cuts doesn't say how long it should be.
        (2, None) if len > width as u64 => return false,
        _ => width as u64,
    };
    len != right
}

/// "each for 1, 2, then its kind's number": here 2 and that number, with the words.
fn take<'a>(kind: u16, payload: &'a [u8], known: &mut Known<'a>) -> Result<(), (u16, String)> {
    // "a repeated name adds none"
    if kind == NAMES.kind && known.has_name(payload) {
        return Ok(());
    }
    let kind = KINDS[kind as usize - 1];
    if counts_of(known)[kind.kind as usize - 1] == kind.ceiling {
        return Err((2, kind.plural.to_string()));
    }
    let faults = match kind.kind {
        1 => name_faults(payload),
        2 => section_faults(payload, known),
        3 => symbol_faults(payload, known),
        4 => relocation_faults(payload, known),
        5 => split_faults(payload, known),
        _ => unit_faults(payload, known),
    };
    if !faults.is_empty() {
        return Err((kind.number, records::alone(&faults).to_string()));
    }
    match kind.kind {
        1 => known.add_name(payload),
        2 => known.add_section(payload),
        3 => known.symbols += 1,
        4 => known.add_relocation(payload),
        5 => known.splits += 1,
        _ => known.units += 1,
    }
    Ok(())
}

/// How many there are of each kind, in the order of the kinds.
fn counts_of(k: &Known) -> [usize; 6] {
    [k.names.len(), k.sections.len(), k.symbols, k.relocations, k.splits, k.units]
}
