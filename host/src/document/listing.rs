//! What `splitlist` prints: "Addresses and offsets have eight upper-case hexadecimal digits;
//! the rest is decimal; one space parts fields."
use std::{collections::HashSet, fmt::Write};

use super::{
    Refusal,
    check_tables::Tables,
    image::{Image, NONE, Symbol, partials_in},
    load::load,
    order::units_in,
    run::{CYCLE, Ended, Ran, Room, run},
    walk::{Piece, PieceRelocation, PieceSymbol},
};
use crate::bytes::word_at;

/// The listing of a record file, or its refusal.
pub fn listed(file: &[u8], room: &Room) -> Result<String, Refusal> {
    lines_of(file, room, Additions::Shown)
}

/// The same without what document 02 adds: "Equality with the Rust leaves out this and later
/// additions."
pub fn listed_as_the_rust(file: &[u8], room: &Room) -> Result<String, Refusal> {
    lines_of(file, room, Additions::LeftOut)
}

/// What document 02 adds to the listing.
#[derive(Clone, Copy, PartialEq)]
enum Additions {
    Shown,
    LeftOut,
}

fn lines_of(file: &[u8], room: &Room, additions: Additions) -> Result<String, Refusal> {
    let loaded = load(file)?;
    let t = loaded.tables();
    let image = Image::of(&t);
    let (partials, units) = (partials_in(&loaded.partials), units_in(&loaded.units));
    match run(&image, &partials, &units, room)? {
        Ended::Whole(ran) => Ok(Lines::new(&t, &image, &ran, additions).whole()),
        Ended::Cycle(_) => Err(CYCLE),
    }
}

/// "A refusal prints only `refused`, number, section, address."
pub fn refused(refusal: &Refusal) -> String {
    let Refusal { number, section, address } = refusal;
    format!("refused {number} {section} {address:08X}\n")
}

/// What the program prints for a file.
pub fn printed(file: &[u8], room: &Room) -> String {
    listed(file, room).unwrap_or_else(|refusal| refused(&refusal))
}

struct Lines<'a> {
    t: &'a Tables<'a>,
    /// By their numbers.
    symbols: Vec<&'a Symbol<'a>>,
    ran: &'a Ran,
    additions: Additions,
    out: String,
}

impl<'a> Lines<'a> {
    fn new(t: &'a Tables, image: &'a Image, ran: &'a Ran, additions: Additions) -> Self {
        let mut symbols: Vec<&Symbol> = image.symbols.iter().collect();
        symbols.sort_by_key(|s| s.number);
        Self { t, symbols, ran, additions, out: String::new() }
    }

    fn whole(mut self) -> String {
        let ran = self.ran;
        for number in 0..ran.units.len() {
            self.unit(number);
        }
        // "Total: units, pieces, bytes."
        let pieces = &ran.walked.pieces;
        let mut bytes: u64 = pieces.iter().map(|p| p.size as u64).sum();
        bytes += ran.walked.symbols.iter().map(|s| self.common_size(s)).sum::<u64>();
        self.line(format_args!("total {} {} {bytes}", ran.units.len(), pieces.len()));
        self.out
    }

    /// Document 02, (c): "the sizes of the unit's symbols of known size that are listed as
    /// `common`, each once".
    fn common_size(&self, symbol: &PieceSymbol) -> u64 {
        let of_image = self.symbols[symbol.symbol as usize];
        let counts = self.additions == Additions::Shown && symbol.piece == NONE && of_image.known;
        if counts { of_image.size as u64 } else { 0 }
    }

    fn line(&mut self, line: std::fmt::Arguments) {
        writeln!(self.out, "{line}").unwrap();
    }

    /// "Unit: number, name", its pieces' sizes plus those of its common symbols. Then its pieces,
    /// symbols, relocations.
    fn unit(&mut self, number: usize) {
        let ran = self.ran;
        let walked = &ran.walked;
        let of_unit = |unit: u16| unit as usize == number;
        let pieces = walked.pieces.iter().filter(|p| of_unit(p.unit));
        let symbols = walked.symbols.iter().filter(|s| of_unit(s.unit));
        let mut size: u64 = pieces.clone().map(|p| p.size as u64).sum();
        let mut commons = HashSet::new();
        for symbol in symbols.clone() {
            // "each once"
            if commons.insert(symbol.symbol) {
                size += self.common_size(symbol);
            }
        }
        let name = self.name(ran.units[number].name);
        self.line(format_args!("unit {number} {name} {size}"));
        pieces.for_each(|piece| self.piece(piece));
        symbols.for_each(|symbol| self.symbol(symbol));
        let of_piece = |r: &&PieceRelocation| of_unit(walked.pieces[r.piece as usize].unit);
        walked.relocations.iter().filter(of_piece).for_each(|r| self.relocation(r));
    }

    /// "Piece: number in its unit, name, address, size, alignment." "A piece line in the
    /// listing ends with this number."
    fn piece(&mut self, piece: &Piece) {
        let Piece { number, address, size, alignment, origin, .. } = piece;
        let name = self.name(piece.name);
        let origin = match self.additions {
            Additions::Shown => format!(" {origin}"),
            Additions::LeftOut => String::new(),
        };
        self.line(format_args!("piece {number} {name} {address:08X} {size} {alignment}{origin}"));
    }

    /// "`sym` name (`-` if empty), piece or `common`, address, size"
    fn symbol(&mut self, symbol: &PieceSymbol) {
        let of_image = self.symbols[symbol.symbol as usize];
        let name = if of_image.name.is_empty() { b"-" } else { of_image.name };
        let name = text(name);
        let piece = self.ran.walked.pieces.get(symbol.piece as usize);
        let place = piece.map_or("common".to_string(), |piece| piece.number.to_string());
        self.line(format_args!("sym {name} {place} {:08X} {}", symbol.address, of_image.size));
    }

    /// "`reloc` piece, offset, kind, target, addend"
    fn relocation(&mut self, relocation: &PieceRelocation) {
        let record = &self.t.relocations[23 * relocation.relocation as usize..][..23];
        let piece = self.ran.walked.pieces[relocation.piece as usize].number;
        let (kind, target) = (record[6], word_at(record, 7));
        let addend = i64::from_le_bytes(record[11..19].try_into().unwrap());
        let offset = relocation.offset;
        self.line(format_args!("reloc {piece} {offset:08X} {kind} {target} {addend}"));
    }

    fn name(&self, number: u16) -> &'a str {
        text(&self.ran.names[number as usize])
    }
}

/// A name has bytes 0x21 to 0x7E only.
fn text(name: &[u8]) -> &str {
    std::str::from_utf8(name).unwrap()
}
