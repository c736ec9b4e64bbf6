//! The words of the fields, in both directions.

/// Words for numbers from 0 on.
pub const SECTION_KINDS: [&str; 4] = ["code", "data", "read-only", "bss"];
pub const SYMBOL_KINDS: [&str; 4] = ["unknown", "function", "object", "section"];

/// Words for the bits from bit 0 on.
pub const SYMBOL_FLAGS: [&str; 8] = [
    "Local",
    "Common",
    "Stripped",
    "Exported",
    "NoWrite",
    "RelocationIgnore",
    "NoExport",
    "NoReloc",
];
pub const SPLIT_FLAGS: [&str; 3] = ["common", "auto", "skip"];

/// The empty name.
const EMPTY: &str = "\"\"";

/// A name as a word. `\xHH` stands for a byte that isn't 0x21 to 0x7E, for a backslash, and
/// for a first `#` or `"`, which have meanings of their own.
pub fn name_word(name: &[u8]) -> String {
    if name.is_empty() {
        return EMPTY.to_string();
    }
    let mut word = String::new();
    for (i, byte) in name.iter().copied().enumerate() {
        let plain = (0x21..=0x7E).contains(&byte) && byte != b'\\';
        if plain && !(i == 0 && b"#\"".contains(&byte)) {
            word.push(byte as char);
        } else {
            word += &format!("\\x{byte:02X}");
        }
    }
    word
}

/// The name that a word stands for.
pub fn name_of(word: &str) -> Result<Vec<u8>, String> {
    if word == EMPTY {
        return Ok(vec![]);
    }
    let mut name = vec![];
    let mut parts = word.split('\\');
    let first = parts.next().unwrap_or("");
    if first.starts_with(['#', '"']) {
        return Err(format!("`{word}` begins with a mark: write \\x{:02X}", first.as_bytes()[0]));
    }
    name.extend(first.bytes());
    for part in parts {
        let digits = part.strip_prefix('x').and_then(|part| part.get(..2));
        let byte = digits.and_then(|digits| u8::from_str_radix(digits, 16).ok());
        let byte = byte.ok_or(format!("`{word}` has a backslash without xHH after it"))?;
        name.push(byte);
        name.extend(part.bytes().skip(3));
    }
    Ok(name)
}

/// The word for a number, or the number itself.
pub fn word_for(words: &[&str], number: u8) -> String {
    words.get(number as usize).map_or(number.to_string(), |word| word.to_string())
}

/// From this many equal bytes on they are written `HH*COUNT`.
const RUN: usize = 8;
/// More equal bytes than any file may hold.
const MOST: usize = 1_000_000;
/// So many bytes in a word at most.
const WORD: usize = 16;

/// Bytes as words of hexadecimal digits.
pub fn byte_words(bytes: &[u8]) -> String {
    let mut words = String::new();
    let mut word = 0;
    let mut at = 0;
    while at < bytes.len() {
        let run = bytes[at..].iter().take_while(|b| **b == bytes[at]).count();
        if run >= RUN {
            words += &format!(" {:02X}*{run}", bytes[at]);
            (at, word) = (at + run, 0);
            continue;
        }
        if word == 0 {
            words.push(' ');
        }
        words += &format!("{:02X}", bytes[at]);
        (at, word) = (at + 1, (word + 1) % WORD);
    }
    words
}

pub fn bytes_of(word: &str) -> Result<Vec<u8>, String> {
    let bad = || format!("`{word}` isn't pairs of hexadecimal digits, or one pair and `*COUNT`");
    let (digits, count) = match word.split_once('*') {
        Some((digits, count)) => {
            let count = count.parse().ok().filter(|count| *count <= MOST);
            (digits, Some(count.ok_or_else(bad)?))
        }
        None => (word, None),
    };
    let hexadecimal = digits.bytes().all(|b| b.is_ascii_hexdigit());
    if !hexadecimal || digits.is_empty() || digits.len() % 2 != 0 {
        return Err(bad());
    }
    let pairs = (0..digits.len()).step_by(2).map(|i| &digits[i..i + 2]);
    let bytes: Vec<u8> = pairs.map(|pair| u8::from_str_radix(pair, 16).unwrap()).collect();
    match count {
        Some(_) if bytes.len() != 1 => Err(bad()),
        Some(count) => Ok(bytes.repeat(count)),
        None => Ok(bytes),
    }
}
