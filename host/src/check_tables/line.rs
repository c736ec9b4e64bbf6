//! A case of `check_tables` and the right answer as a line of text.
use super::{Set, TABLES};
use crate::text;

pub const FORMAT: &str = "\
# They are not the Rust's: it knows no stage tables, places, ceilings or table checks.
# A line is a case: the entry's name, then fields, each a word and its value (hexadecimal bytes, - for none):
#   name_ends B, name_bytes B, sections B, section_places B, image B, symbols B, relocations B, splits B, units B
# and the right answer:
#   word W           the answer word: number, section 0, record in 4, 4 and 8 hexadecimal digits
";

pub fn put(set: &Set, word: u64) -> String {
    let mut line = "check_tables".to_string();
    for ((name, _), table) in TABLES.iter().zip(set) {
        text::put_bytes(&mut line, name, table);
    }
    text::put_answer(&mut line, word);
    line
}

/// The case, and the answer word if the line has one.
pub fn read(line: &str) -> Result<(Set, Option<u64>), String> {
    let values = text::values(line)?;
    let mut set = Set::default();
    for ((name, _), table) in TABLES.iter().zip(&mut set) {
        *table = text::bytes(&values, name)?;
    }
    Ok((set, text::answer(&values)?))
}
