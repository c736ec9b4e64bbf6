//! What an entry leaves in the lent outputs.
use super::{Refusal, word};
use crate::bytes::put_half;

/// An entry's answer word, and every byte of its outputs in the order of the parameters. An
/// output that is shorter than what is lent: the lent bytes past it stay as they were.
#[derive(Clone, Debug, Eq, PartialEq)]
pub struct Answer {
    pub word: u64,
    pub outputs: Vec<Vec<u8>>,
}

/// After a refusal all outputs are zeros throughout. `lent`: how many bytes each has.
pub fn refused(refusal: Refusal, lent: &[usize]) -> Answer {
    Answer { word: word(Some(refusal)), outputs: lent.iter().map(|len| vec![0; *len]).collect() }
}

/// The records of each output and how many there are; the counts are the last output.
pub fn accepted(outputs: Vec<(Vec<u8>, usize)>, lent: &[usize]) -> Answer {
    let (bytes, counts): (Vec<_>, Vec<_>) = outputs.into_iter().unzip();
    let mut outputs: Vec<_> =
        bytes.into_iter().zip(lent).map(|(b, len)| zeros_after(b, *len)).collect();
    outputs.push(counts_then_zeros(&counts, lent[counts.len()]));
    Answer { word: 0, outputs }
}

pub fn zeros_after(mut records: Vec<u8>, len: usize) -> Vec<u8> {
    assert!(records.len() <= len, "the ceilings keep the records within the lent bytes");
    records.resize(len, 0);
    records
}

/// A count for which two bytes weren't lent is left out whole.
pub fn counts_then_zeros(counts: &[usize], len: usize) -> Vec<u8> {
    let mut bytes = vec![];
    for &count in counts.iter().take(len / 2) {
        put_half(&mut bytes, u16::try_from(count).unwrap());
    }
    zeros_after(bytes, len)
}

/// A number of four bytes, all of them or none.
pub fn number_then_zeros(number: u32, len: usize) -> Vec<u8> {
    let bytes = if len < 4 { vec![] } else { number.to_le_bytes().to_vec() };
    zeros_after(bytes, len)
}
