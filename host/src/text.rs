//! Cases as lines of text: an entry's name, then fields, all parted by one space. A
//! field is a word and its numbers, or, for entries on bytes, a word and one value.
use std::{collections::HashMap, fmt::Write};

pub fn put(line: &mut String, word: &str, numbers: impl IntoIterator<Item = u64>) {
    write!(line, " {word}").unwrap();
    for n in numbers {
        write!(line, " {n}").unwrap();
    }
}

pub type Field<'a> = (&'a str, Vec<u64>);

/// The entry's name and the fields after it.
pub fn fields(line: &str) -> Result<(&str, Vec<Field<'_>>), String> {
    let mut words = line.split_whitespace();
    let entry = words.next().ok_or("empty line")?;
    let mut fields: Vec<Field> = vec![];
    for word in words {
        match (word.parse(), fields.last_mut()) {
            (Ok(n), Some((_, numbers))) => numbers.push(n),
            (Ok(_), None) => return Err(format!("number {word} before any field")),
            (Err(_), _) => fields.push((word, vec![])),
        }
    }
    Ok((entry, fields))
}

/// The only number of a field.
pub fn single<T: TryFrom<u64>>(word: &str, numbers: &[u64]) -> Result<T, String> {
    match numbers {
        [n] => T::try_from(*n).map_err(|_| format!("{word} {n} is too large")),
        _ => Err(format!("{word} takes one number")),
    }
}

pub fn list<T: TryFrom<u64>>(word: &str, numbers: &[u64]) -> Result<Vec<T>, String> {
    numbers.iter().map(|n| single(word, &[*n])).collect()
}

/// The values after the entry's name, by their words.
pub fn values(line: &str) -> Result<HashMap<&str, &str>, String> {
    let words: Vec<&str> = line.split_whitespace().skip(1).collect();
    let pairs = words.chunks_exact(2);
    match pairs.remainder() {
        [] => Ok(pairs.map(|pair| (pair[0], pair[1])).collect()),
        _ => Err("a word without a value".to_string()),
    }
}

/// Bytes as one value: hexadecimal digits without spaces, `-` for none.
pub fn put_bytes(line: &mut String, word: &str, bytes: &[u8]) {
    write!(line, " {word} ").unwrap();
    if bytes.is_empty() {
        line.push('-');
    }
    for byte in bytes {
        write!(line, "{byte:02X}").unwrap();
    }
}

pub fn bytes(values: &HashMap<&str, &str>, word: &str) -> Result<Vec<u8>, String> {
    let digits = *values.get(word).ok_or(format!("no {word}"))?;
    if digits == "-" {
        return Ok(vec![]);
    }
    let bad = || format!("{word} isn't pairs of hexadecimal digits");
    if !(digits.is_ascii() && digits.len().is_multiple_of(2)) {
        return Err(bad());
    }
    let byte = |i| u8::from_str_radix(&digits[i..i + 2], 16).map_err(|_| bad());
    (0..digits.len()).step_by(2).map(byte).collect()
}

pub fn put_answer(line: &mut String, word: u64) {
    write!(line, " word {word:016X}").unwrap();
}

/// The stored answer word, where there is one.
pub fn answer(values: &HashMap<&str, &str>) -> Result<Option<u64>, String> {
    let read = |digits: &&str| u64::from_str_radix(digits, 16);
    values.get("word").map(read).transpose().map_err(|e| format!("word: {e}"))
}
