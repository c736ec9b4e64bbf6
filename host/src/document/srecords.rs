//! The entry `write_srecords`: document 02, (n), "S-records for the flash bench".
use std::{collections::BTreeMap, fmt::Write};

use super::{
    Refusal,
    check_tables::{LIMITS, Limits, Tables, checked},
    join::{inside, parts, ranges},
    outputs::{self, Answer},
};

/// "its lines have 16 data bytes, the last 1 to 16"
const DATA: u64 = 16;

/// A line without data: `S`, the type, two digits for the count, eight for the address, two for
/// the checksum, the line feed.
const BARE: u64 = 15;

pub fn answer(t: &Tables, pieces: &[u8], lent: &[usize]) -> Answer {
    match lines(t, pieces, lent[0]) {
        Ok(lines) => {
            let size = (lines.len() as u64).to_le_bytes();
            // "lent bytes past an accepted output stay": these aren't among the outputs here.
            let size = if lent[1] < 8 { vec![] } else { size.to_vec() };
            Answer { word: 0, outputs: vec![lines.into_bytes(), size] }
        }
        Err(refusal) => outputs::refused(refusal, lent),
    }
}

/// `room`: how many bytes are lent for the lines.
fn lines(t: &Tables, pieces: &[u8], room: usize) -> Result<String, Refusal> {
    checked(t, &Limits { image: false, ..LIMITS })?;
    let parts = parts(pieces)?;
    let refused = |number| Err(Refusal { number, section: 0, address: 0 });
    let sections: Vec<_> = ranges(t).collect();

    // "87, two sections that hold bytes share an address, right after the table checks"
    let mut held: Vec<_> = sections.iter().flatten().filter(|(start, end)| start < end).collect();
    held.sort();
    if held.windows(2).any(|pair| pair[1].0 < pair[0].1) {
        return refused(87);
    }
    // "then 82 and 83"
    inside(t, &parts)?;
    let mut bytes = BTreeMap::new();
    for part in &parts {
        for (address, byte) in (part.address as u64..).zip(part.bytes) {
            if *bytes.entry((part.section as usize, address)).or_insert(*byte) != *byte {
                return refused(83);
            }
        }
    }
    // "80 if the lines don't fit, last"
    let size = |(start, end): &(u64, u64)| (end - start).div_ceil(DATA) * BARE + 2 * (end - start);
    let needed = held.iter().copied().map(size).sum::<u64>() + BARE;
    if (room as u64) < needed {
        return refused(80);
    }

    // "sections by number, then one S7 line with address 0"
    let mut text = String::new();
    for (number, range) in sections.iter().enumerate() {
        let Some((start, end)) = *range else { continue };
        for address in (start..end).step_by(DATA as usize) {
            let there = address..end.min(address + DATA);
            let byte = |x| bytes.get(&(number, x)).copied().unwrap_or(0);
            put_line(&mut text, 3, address as u32, &there.map(byte).collect::<Vec<u8>>());
        }
    }
    put_line(&mut text, 7, 0, &[]);
    assert_eq!(text.len() as u64, needed);
    Ok(text)
}

/// "Digits are upper case, checksums the public ones, and a line ends with a line feed."
fn put_line(text: &mut String, kind: u8, address: u32, data: &[u8]) {
    let count = 4 + data.len() as u8 + 1;
    let bytes = [&[count], &address.to_be_bytes()[..], data].concat();
    let sum = bytes.iter().fold(0_u8, |sum, byte| sum.wrapping_add(*byte));
    write!(text, "S{kind}").expect("a string");
    for byte in bytes.iter().chain([&!sum]) {
        write!(text, "{byte:02X}").expect("a string");
    }
    text.push('\n');
}
