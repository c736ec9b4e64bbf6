//! The walk: the entry `split_obj`.
use super::{
    Refusal,
    check_tables::{LIMITS, Tables, checked},
    ends::{alignment, splitting_end},
    image::{Image, NONE, Relocation, Section, Split, Symbol, splits_in},
    order::{Unit, units_in},
    outputs::{Answer, accepted, refused},
};

#[derive(Clone, Debug, Eq, PartialEq)]
pub struct Piece {
    pub unit: u16,
    pub number: u16,
    pub section: u16,
    pub name: u16,
    pub address: u32,
    pub size: u32,
    pub alignment: u32,
    pub file_offset: u64,
    pub origin: u16,
}

#[derive(Clone, Debug, Eq, PartialEq)]
pub struct PieceSymbol {
    pub unit: u16,
    /// Its place among the pieces; `NONE`: common.
    pub piece: u16,
    pub symbol: u16,
    pub flags: u16,
    pub address: u32,
}

#[derive(Clone, Debug, Eq, PartialEq)]
pub struct PieceRelocation {
    pub piece: u16,
    pub relocation: u16,
    pub offset: u32,
}

#[derive(Default)]
pub struct Walked {
    pub pieces: Vec<Piece>,
    pub symbols: Vec<PieceSymbol>,
    pub relocations: Vec<PieceRelocation>,
}

/// How many pieces, piece symbols and piece relocations there is room for.
pub type Room = [usize; 3];

pub const CEILINGS: Room = [1024, 4096, 4096];
pub const PIECE_BYTES: usize = 30;
const WIDTHS: [usize; 3] = [PIECE_BYTES, 12, 8];

/// The room of lent pieces, symbols and relocations.
pub fn room(lent: &[usize]) -> Room {
    std::array::from_fn(|i| CEILINGS[i].min(lent[i] / WIDTHS[i]))
}

/// `lent`: the pieces, their symbols, their relocations, the counts.
pub fn answer(t: &Tables, lent: &[usize]) -> Answer {
    let walked = || {
        checked(t, &LIMITS)?;
        walk(&Image::of(t), &splits_in(t.splits), &units_in(t.units), room(lent))
    };
    match walked() {
        Ok(walked) => accepted(walked.tables(), lent),
        Err(refusal) => refused(refusal, lent),
    }
}

impl Walked {
    pub fn tables(&self) -> Vec<(Vec<u8>, usize)> {
        vec![
            (self.pieces.iter().flat_map(Piece::bytes).collect(), self.pieces.len()),
            (self.symbols.iter().flat_map(PieceSymbol::bytes).collect(), self.symbols.len()),
            (
                self.relocations.iter().flat_map(PieceRelocation::bytes).collect(),
                self.relocations.len(),
            ),
        ]
    }

    fn over(&self, room: Room) -> bool {
        let [pieces, symbols, relocations] = room;
        self.pieces.len() > pieces
            || self.symbols.len() > symbols
            || self.relocations.len() > relocations
    }
}

impl Piece {
    fn bytes(&self) -> Vec<u8> {
        let halves = [self.unit, self.number, self.section, self.name];
        let words = [self.address, self.size, self.alignment];
        let mut record: Vec<u8> = halves.iter().flat_map(|n| n.to_le_bytes()).collect();
        record.extend(words.iter().flat_map(|n| n.to_le_bytes()));
        record.extend(self.file_offset.to_le_bytes());
        record.extend(self.origin.to_le_bytes());
        record
    }
}

impl PieceSymbol {
    fn bytes(&self) -> Vec<u8> {
        let halves = [self.unit, self.piece, self.symbol, self.flags];
        let mut record: Vec<u8> = halves.iter().flat_map(|n| n.to_le_bytes()).collect();
        record.extend(self.address.to_le_bytes());
        record
    }
}

impl PieceRelocation {
    fn bytes(&self) -> Vec<u8> {
        let halves = [self.piece, self.relocation];
        let mut record: Vec<u8> = halves.iter().flat_map(|n| n.to_le_bytes()).collect();
        record.extend(self.offset.to_le_bytes());
        record
    }
}

pub fn walk(
    image: &Image,
    splits: &[Split],
    units: &[Unit],
    room: Room,
) -> Result<Walked, Refusal> {
    let mut walked = Walked::default();
    for (number, section) in (0..).zip(&image.sections) {
        let end = splitting_end(image, number)?;
        let seen = |s: &&Split| s.section == number && (section.address..end).contains(&s.start);
        let mut ahead = splits.iter().filter(seen).peekable();
        let mut current = section.address;
        while current < end {
            let refusal = |n| Refusal { number: n, section: number, address: current };
            // "70 no split; 71 start isn't current"
            let split = ahead.next().ok_or(refusal(70))?;
            if split.start != current {
                return Err(refusal(71));
            }
            let next = ahead.peek().map_or(end, |next| next.start);
            if let Some(fault) = fault_between(section, split.end, next) {
                return Err(refusal(fault));
            }
            if !split.skipped() {
                take(image, split, units, &mut walked)?;
                // "76 output table full"
                if walked.over(room) {
                    return Err(refusal(76));
                }
            }
            current = next;
        }
    }
    Ok(walked)
}

/// "bytes between two, or from the last to the splitting end, must be zero": 72 where the
/// range reaches outside the section, 73 where it isn't zero.
fn fault_between(section: &Section, from: u32, to: u32) -> Option<u16> {
    if from >= to {
        return None;
    }
    if from < section.address || to > section.end() {
        return Some(72);
    }
    let at = |address: u32| (address - section.address) as usize;
    let bytes = section.bytes.get(at(from)..at(to)).unwrap_or(&[]);
    bytes.iter().any(|b| *b != 0).then_some(73)
}

/// What one split gives: its piece with symbols and relocations, or its common symbols.
fn take(image: &Image, split: &Split, units: &[Unit], walked: &mut Walked) -> Result<(), Refusal> {
    let Split { section, start, end, .. } = *split;
    let refusal = |number| Refusal { number, section, address: start };
    // "74 unit not listed"; "Of units with one name the last takes the pieces."
    let unit = units.iter().rposition(|u| u.name == split.unit).ok_or(refusal(74))? as u16;
    let alignment = fitting(start, alignment(image, split, start)?).ok_or(refusal(75))?;
    let relocations = relocations_in(image, section, start, end)?;
    let symbols = symbols_of(image, split, unit, walked)?;
    // "11 .. or a piece of negative length"; a common split gives no piece.
    if end < start && !split.common() {
        return Err(refusal(11));
    }
    let piece = if split.common() { NONE } else { walked.pieces.len() as u16 };
    walked.symbols.extend(symbols.iter().map(|s| piece_symbol(s, split, unit, piece)));
    if split.common() {
        return Ok(());
    }
    // "Relocation offsets in a piece are rounded down to fours."
    let offset = |r: &Relocation| (r.address - start) & !3;
    walked.relocations.extend(relocations.map(|r| PieceRelocation {
        piece,
        relocation: r.number,
        offset: offset(r),
    }));
    let whole = image.section(section);
    walked.pieces.push(Piece {
        unit,
        number: walked.pieces.iter().filter(|p| p.unit == unit).count() as u16,
        section,
        name: if split.rename == NONE { whole.name } else { split.rename },
        address: start,
        size: end - start,
        alignment,
        file_offset: whole.file_offset as u64 + (start - whole.address) as u64,
        origin: split.origin,
    });
    Ok(())
}

/// "A misfitting alignment is halved until it fits or is 4 or less."
fn fitting(address: u32, mut alignment: u32) -> Option<u32> {
    while !address.is_multiple_of(alignment) && alignment > 4 {
        alignment /= 2;
    }
    address.is_multiple_of(alignment).then_some(alignment)
}

fn relocations_in<'a>(
    image: &'a Image,
    section: u16,
    start: u32,
    end: u32,
) -> Result<impl Iterator<Item = &'a Relocation>, Refusal> {
    let mut all = image.relocations.iter().filter(move |r| r.section == section).peekable();
    if start > end && all.peek().is_some() {
        return Err(Refusal { number: 11, section, address: start });
    }
    Ok(all.filter(move |r| (start..end).contains(&r.address)))
}

/// "Symbols lie in start..=end without linker labels; one at the end is passed over,
/// `gTRKInterruptVectorTableEnd` at the start instead; each once per unit."
fn symbols_of<'a>(
    image: &'a Image,
    split: &Split,
    unit: u16,
    walked: &Walked,
) -> Result<Vec<&'a Symbol<'a>>, Refusal> {
    let Split { section, start, end, .. } = *split;
    let symbols = image.symbols_of(section).iter();
    if start > end && symbols.len() > 0 {
        return Err(Refusal { number: 11, section, address: start });
    }
    let passed_over = |s: &Symbol| match s.name {
        b"gTRKInterruptVectorTableEnd" => s.address == start,
        _ => s.address == end,
    };
    let there = |s: &Symbol| walked.symbols.iter().any(|p| p.unit == unit && p.symbol == s.number);
    let taken = symbols
        .filter(|s| (start..=end).contains(&s.address) && !LINKER_LABELS.contains(&s.name))
        .filter(|s| !passed_over(s) && !there(s));
    Ok(taken.collect())
}

/// "its symbols take their alignment (else 4) as address, and only the flags of
/// `keep_flags` plus Common"
fn piece_symbol(symbol: &Symbol, split: &Split, unit: u16, piece: u16) -> PieceSymbol {
    let (flags, address) = match (split.common(), symbol.alignment) {
        (false, _) => (symbol.flags, symbol.address - split.start),
        (true, 0) => (symbol.flags & KEEP_FLAGS | 2, 4),
        (true, alignment) => (symbol.flags & KEEP_FLAGS | 2, alignment),
    };
    PieceSymbol { unit, piece, symbol: symbol.number, flags, address }
}

/// The Rust's `keep_flags`: Stripped, Exported, NoWrite, RelocationIgnore, NoExport, NoReloc.
const KEEP_FLAGS: u16 = 0b1111_1100;

/// Document 01 leaves the labels' names to the Rust.
const LINKER_LABELS: [&[u8]; 56] = [
    b"_ctors",
    b"_dtors",
    b"_f_init",
    b"_f_init_rom",
    b"_e_init",
    b"_fextab",
    b"_fextab_rom",
    b"_eextab",
    b"_fextabindex",
    b"_fextabindex_rom",
    b"_eextabindex",
    b"_f_text",
    b"_f_text_rom",
    b"_e_text",
    b"_f_ctors",
    b"_f_ctors_rom",
    b"_e_ctors",
    b"_f_dtors",
    b"_f_dtors_rom",
    b"_e_dtors",
    b"_f_rodata",
    b"_f_rodata_rom",
    b"_e_rodata",
    b"_f_data",
    b"_f_data_rom",
    b"_e_data",
    b"_f_sdata",
    b"_f_sdata_rom",
    b"_e_sdata",
    b"_f_sbss",
    b"_f_sbss_rom",
    b"_e_sbss",
    b"_f_sdata2",
    b"_f_sdata2_rom",
    b"_e_sdata2",
    b"_f_sbss2",
    b"_f_sbss2_rom",
    b"_e_sbss2",
    b"_f_bss",
    b"_f_bss_rom",
    b"_e_bss",
    b"_f_stack",
    b"_f_stack_rom",
    b"_e_stack",
    b"_stack_addr",
    b"_stack_end",
    b"_db_stack_addr",
    b"_db_stack_end",
    b"_heap_addr",
    b"_heap_end",
    b"_nbfunctions",
    b"SIZEOF_HEADERS",
    b"_SDA_BASE_",
    b"_SDA2_BASE_",
    b"_ABS_SDA_BASE_",
    b"_ABS_SDA2_BASE_",
];
