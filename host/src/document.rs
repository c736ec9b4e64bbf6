//! Document 01's rules, and document 02's, read a second time, plainly and apart from the entries'
//! own definitions: a module for each entry, and what they share about records,
//! decoded tables and outputs.
pub mod check_file;
pub mod check_tables;
pub mod common;
pub mod ends;
pub mod gaps;
pub mod image;
pub mod import;
pub mod join;
pub mod listing;
pub mod load;
pub mod mend;
pub mod merge;
pub mod order;
pub mod outputs;
pub mod records;
pub mod run;
pub mod srecords;
pub mod toposort;
pub mod trim;
pub mod validate;
pub mod walk;

#[derive(Clone, Copy, Debug, Eq, PartialEq)]
pub struct Refusal {
    pub number: u16,
    pub section: u16,
    pub address: u32,
}

/// An entry's answer word: "number, section, address in 16, 16 and 32 bits from the top".
pub fn word(refusal: Option<Refusal>) -> u64 {
    match refusal {
        None => 0,
        Some(r) => (r.number as u64) << 48 | (r.section as u64) << 32 | r.address as u64,
    }
}

pub fn number(word: u64) -> u16 {
    (word >> 48) as u16
}

pub fn describe(word: u64) -> String {
    if word == 0 {
        return "accepted".to_string();
    }
    let section = (word >> 32) as u16;
    let address = word as u32;
    format!("refused {} at ({section}, {address}) = {word:016X}", number(word))
}
