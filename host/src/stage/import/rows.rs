//! The tables of an import as text, each section and symbol with all its fields.
use crate::bytes::{half_at, word_at};

pub struct Section<'a> {
    pub name: &'a str,
    pub kind: u8,
    pub address: u32,
    pub size: u32,
    pub offset: u32,
    pub place: u32,
}

impl Section<'_> {
    pub fn row(&self) -> String {
        let Self { name, kind, address, size, offset, place } = self;
        format!("{name} kind {kind} {address:x} {size} offset {offset} place {place}")
    }
}

pub struct Symbol<'a> {
    pub name: &'a str,
    pub home: u16,
    pub address: u32,
    pub size: u32,
    pub known: u8,
    pub kind: u8,
    pub flags: u16,
}

impl Symbol<'_> {
    pub fn row(&self) -> String {
        let Self { name, home, address, size, known, kind, flags } = self;
        format!("{name} in {home} {address:x} {size} known {known} kind {kind} flags {flags}")
    }
}

/// The sections and the symbols of name ends, name bytes, sections, places and symbols.
pub fn rows([ends, bytes, heads, places, symbols]: [&[u8]; 5]) -> (Vec<String>, Vec<String>) {
    let name = |number: u16| {
        let end = |k: usize| half_at(ends, 2 * k) as usize;
        let k = number as usize;
        let start = if k == 0 { 0 } else { end(k - 1) };
        String::from_utf8_lossy(&bytes[start..end(k)]).into_owned()
    };
    let section = |(head, place): (&[u8], &[u8])| {
        let (address, size, offset) = (word_at(head, 3), word_at(head, 7), word_at(head, 11));
        let (name, kind, place) = (&name(half_at(head, 0))[..], head[2], word_at(place, 0));
        Section { name, kind, address, size, offset, place }.row()
    };
    let symbol = |s: &[u8]| {
        let (name, home) = (&name(half_at(s, 0))[..], half_at(s, 2));
        let (address, size, flags) = (word_at(s, 4), word_at(s, 8), half_at(s, 14));
        Symbol { name, home, address, size, known: s[12], kind: s[13], flags }.row()
    };
    let sections = heads.chunks_exact(15).zip(places.chunks_exact(4)).map(section);
    (sections.collect(), symbols.chunks_exact(20).map(symbol).collect())
}
