//! Text as a record file.
use std::collections::HashMap;

use super::fields::*;
use crate::records::{self, packed};

/// The record file. Whether document 01 accepts its records is left to the run: only what
/// no record can hold is an error, with the line's number.
pub fn pack(text: &str) -> Result<Vec<u8>, String> {
    let mut packer = Packer::default();
    for (number, line) in (1..).zip(text.lines()) {
        let words: Vec<&str> = line.split(' ').filter(|word| !word.is_empty()).collect();
        if words.is_empty() || line.starts_with('#') {
            continue;
        }
        packer.line(&words).map_err(|why| format!("line {number}: {why}"))?;
    }
    Ok(packer.file)
}

#[derive(Default)]
struct Packer {
    file: Vec<u8>,
    names: HashMap<Vec<u8>, u16>,
}

impl Packer {
    fn line(&mut self, words: &[&str]) -> Result<(), String> {
        let (kind, mut line) = (words[0], Words { rest: &words[1..] });
        let (number, payload) = match kind {
            "name" => (records::NAME, self.name(&mut line)?),
            "section" => (records::SECTION, self.section(&mut line)?),
            "symbol" => (records::SYMBOL, self.symbol(&mut line)?),
            "relocation" => (records::RELOCATION, relocation(&mut line)?),
            "split" => (records::SPLIT, self.split(&mut line)?),
            "unit" => (records::UNIT, self.unit(&mut line)?),
            _ => {
                let kinds = "name, section, symbol, relocation, split or unit";
                return Err(format!("`{kind}` is no kind of record: {kinds}"));
            }
        };
        if let Some(word) = line.rest.first() {
            return Err(format!("`{word}` is no field of a {kind}, or stands at a wrong place"));
        }
        self.file.extend(packed(&[(payload.len() as u64, 4), (number as u64, 2)]));
        self.file.extend(payload);
        Ok(())
    }

    fn name(&mut self, line: &mut Words) -> Result<Vec<u8>, String> {
        let name = name_of(line.next("the name")?)?;
        let number = self.names.len() as u16;
        self.names.entry(name.clone()).or_insert(number);
        Ok(name)
    }

    /// A name's number, by `#NUMBER` or by the name, which must stand on a line before.
    fn number(&self, word: &str) -> Result<u64, String> {
        if let Some(digits) = word.strip_prefix('#') {
            return number(digits, u16::MAX as u64, "a name's number");
        }
        let found = self.names.get(&name_of(word)?);
        found.map(|n| *n as u64).ok_or(format!("no line `name {word}` stands before this one"))
    }

    fn section(&self, line: &mut Words) -> Result<Vec<u8>, String> {
        let name = self.number(line.next("the name")?)?;
        let kind = kind(&SECTION_KINDS, line.next("the kind")?)?;
        let address = address(line.next("the address")?)?;
        let size = number(line.next("the size")?, u32::MAX as u64, "the size")?;
        let offset = self::address(line.next("the file offset")?)?;
        let mut bytes = vec![];
        for word in std::mem::take(&mut line.rest) {
            bytes.extend(bytes_of(word)?);
        }
        let wanted = if kind == 3 { 0 } else { size };
        if bytes.len() as u64 != wanted {
            return Err(format!("{} bytes are given, and there must be {wanted}", bytes.len()));
        }
        let head = packed(&[(name, 2), (kind, 1), (address, 4), (size, 4), (offset, 4)]);
        Ok([head, bytes].concat())
    }

    fn symbol(&self, line: &mut Words) -> Result<Vec<u8>, String> {
        let name = self.number(line.next("the name")?)?;
        let section = match line.next("the section")? {
            "none" => 0xFFFF,
            word => number(word, u16::MAX as u64, "the section")?,
        };
        let address = address(line.next("the address")?)?;
        let size = number(line.next("the size")?, u32::MAX as u64, "the size")?;
        let kind = kind(&SYMBOL_KINDS, line.next("the kind")?)?;
        let known = line.named("known=", |word| number(word, 255, "known"))?.unwrap_or(1);
        let flags = line.named("flags=", symbol_flags)?.unwrap_or(0);
        let head = [(name, 2), (section, 2), (address, 4), (size, 4)];
        let tail = [(known, 1), (kind, 1), (flags, 2), (alignment(line)?, 4)];
        Ok(packed(&[head, tail].concat()))
    }

    fn split(&self, line: &mut Words) -> Result<Vec<u8>, String> {
        let section = number(line.next("the section")?, u16::MAX as u64, "the section")?;
        let range = line.next("the range")?;
        let (start, end) = range.split_once("..").ok_or(format!("`{range}` isn't START..END"))?;
        let (start, end) = (address(start)?, address(end)?);
        let unit = self.number(line.next("the unit")?)?;
        let alignment = alignment(line)?;
        let flags = match line.named("flags=", |word| number(word, 255, "flags"))? {
            Some(flags) => flags,
            None => (0..).zip(SPLIT_FLAGS).map(|(bit, word)| (line.has(word) as u64) << bit).sum(),
        };
        let rename = line.named("rename=", |word| self.number(word))?.unwrap_or(0xFFFF);
        let head = [(section, 2), (start, 4), (end, 4), (unit, 2)];
        Ok(packed(&[&head[..], &[(alignment, 4), (flags, 1), (rename, 2)]].concat()))
    }

    fn unit(&self, line: &mut Words) -> Result<Vec<u8>, String> {
        let name = self.number(line.next("the name")?)?;
        let auto = match line.named("auto=", |word| number(word, 255, "auto"))? {
            Some(auto) => auto,
            None => line.has("auto") as u64,
        };
        let unused = line.named("unused-order=", order)?;
        let (mut has_order, order) = match (unused, line.named("order=", order)?) {
            (Some(order), _) => (0, order),
            (None, Some(order)) => (1, order),
            (None, None) => (0, 0),
        };
        if let Some(has) = line.named("has-order=", |word| number(word, 255, "has-order"))? {
            has_order = has;
        }
        Ok(packed(&[(name, 2), (auto, 1), (has_order, 1), (order, 4)]))
    }
}

fn relocation(line: &mut Words) -> Result<Vec<u8>, String> {
    let section = number(line.next("the section")?, u16::MAX as u64, "the section")?;
    let address = address(line.next("the address")?)?;
    let kind = number(line.next("the kind")?, 255, "the kind")?;
    let target = number(line.next("the target")?, u32::MAX as u64, "the target")?;
    let word = line.next("the addend")?;
    let addend: i64 = word.parse().map_err(|_| format!("the addend `{word}` has no 64 bits"))?;
    let module = line.named("module=", |word| number(word, u32::MAX as u64, "the module"))?;
    let head = [(section, 2), (address, 4), (kind, 1), (target, 4)];
    let tail = [(addend as u64, 8), (module.unwrap_or(0xFFFF_FFFF), 4)];
    Ok(packed(&[&head[..], &tail].concat()))
}

/// What is left of a line.
struct Words<'a> {
    rest: &'a [&'a str],
}

impl<'a> Words<'a> {
    fn next(&mut self, what: &str) -> Result<&'a str, String> {
        let (first, rest) = self.rest.split_first().ok_or(format!("{what} is missing"))?;
        self.rest = rest;
        Ok(first)
    }

    /// Whether this word comes next; it is taken then.
    fn has(&mut self, word: &str) -> bool {
        let there = self.rest.first() == Some(&word);
        if there {
            self.rest = &self.rest[1..];
        }
        there
    }

    /// What stands behind `mark` in the next word, if it begins with it.
    fn named<T>(
        &mut self,
        mark: &str,
        read: impl FnOnce(&str) -> Result<T, String>,
    ) -> Result<Option<T>, String> {
        let Some(value) = self.rest.first().and_then(|word| word.strip_prefix(mark)) else {
            return Ok(None);
        };
        self.rest = &self.rest[1..];
        read(value).map(Some)
    }
}

fn number(word: &str, most: u64, what: &str) -> Result<u64, String> {
    let found = word.parse().ok().filter(|n| *n <= most);
    found.ok_or(format!("{what} is `{word}`, and must be a decimal number up to {most}"))
}

fn address(word: &str) -> Result<u64, String> {
    let digits = (1..=8).contains(&word.len()) && word.bytes().all(|b| b.is_ascii_hexdigit());
    let bad = format!("`{word}` is no address: one to eight hexadecimal digits");
    if digits { u64::from_str_radix(word, 16).map_err(|_| bad) } else { Err(bad) }
}

fn alignment(line: &mut Words) -> Result<u64, String> {
    let given = line.named("align=", |word| number(word, u32::MAX as u64, "align"))?;
    Ok(given.unwrap_or(0))
}

/// One of the words, or a number.
fn kind(words: &[&str], word: &str) -> Result<u64, String> {
    match words.iter().position(|w| *w == word) {
        Some(kind) => Ok(kind as u64),
        None => number(word, 255, "the kind")
            .map_err(|_| format!("`{word}` is no kind: {}", words.join(", "))),
    }
}

fn symbol_flags(list: &str) -> Result<u64, String> {
    let mut flags = 0;
    for word in list.split('+') {
        let named = SYMBOL_FLAGS.iter().position(|flag| *flag == word);
        let digits = word.strip_prefix("0x").and_then(|d| u16::from_str_radix(d, 16).ok());
        flags |= match (named, digits) {
            (Some(bit), _) => 1 << bit,
            (None, Some(bits)) => bits as u64,
            _ => return Err(format!("`{word}` is no flag: {}, 0xHHHH", SYMBOL_FLAGS.join(", "))),
        };
    }
    Ok(flags)
}

fn order(word: &str) -> Result<u64, String> {
    let order: Result<i32, _> = word.parse();
    order.map(|order| order as u32 as u64).map_err(|_| {
        format!("the order is `{word}`, and must be a whole number of 32 bits with its sign")
    })
}
