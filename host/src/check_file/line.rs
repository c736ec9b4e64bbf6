//! A case of `check_file` and the right answer as a line of text.
use super::Case;
use crate::{document::check_file::Answer, text};

pub const FORMAT: &str = "\
# They are not the Rust's: it knows no record files, places, ceilings or table checks.
# A line is a case: the entry's name, then fields, each a word and its value (hexadecimal bytes, - for none):
#   file B           the record file
#   counts L         how many bytes are lent for the counts (decimal)
# and the right answer:
#   word W           the answer word: number, section 0, record in 4, 4 and 8 hexadecimal digits
#   left B           what the counts hold after the call
";

pub fn put(case: &Case, right: &Answer) -> String {
    let mut line = "check_file".to_string();
    text::put_bytes(&mut line, "file", &case.file);
    text::put(&mut line, "counts", [case.counts_len as u64]);
    text::put_answer(&mut line, right.word);
    text::put_bytes(&mut line, "left", &right.counts);
    line
}

/// An answer word and what the counts hold.
type Stored = (u64, Vec<u8>);

/// The case, and the answer if the line has one.
pub fn read(line: &str) -> Result<(Case, Option<Stored>), String> {
    let values = text::values(line)?;
    let counts = *values.get("counts").ok_or("no counts")?;
    let counts_len = counts.parse().map_err(|e| format!("counts: {e}"))?;
    let case = Case { file: text::bytes(&values, "file")?, counts_len };
    match text::answer(&values)? {
        Some(word) => Ok((case, Some((word, text::bytes(&values, "left")?)))),
        None => Ok((case, None)),
    }
}
