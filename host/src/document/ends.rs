//! The splitting end and the alignment of a split, and their two entries
//! `end_for_section` and `split_alignment`.
use super::{
    Refusal,
    check_tables::{LIMITS, Tables, checked},
    image::{Image, OBJECT, Section, Split, Symbol, splits_in},
    outputs::{Answer, number_then_zeros, refused},
};

/// "one of the five linker object names"; document 01 leaves the names to the Rust.
const LINKER_OBJECTS: [&[u8]; 5] =
    [b"_eti_init_info", b"_rom_copy_info", b"_bss_init_info", b"_ctors$99", b"_dtors$99"];

pub fn splitting_end(image: &Image, number: u16) -> Result<u32, Refusal> {
    let section = image.section(number);
    // "Sections without bytes skip both reductions."
    if section.bytes.is_empty() {
        return Ok(section.end());
    }
    let mut end = section.end();
    if section.is_ctors_or_dtors() {
        let Some(last) = section.bytes.last_chunk::<4>() else {
            return Err(Refusal { number: 10, section: number, address: section.address });
        };
        if *last == [0; 4] {
            end -= 4;
        }
    }
    // "while the last unstripped Object symbol below it of known nonzero size has one of
    // the five linker object names, that symbol's address"
    let counts = |s: &&Symbol| s.kind == OBJECT && s.sized() && !s.stripped();
    while let Some(last) = image.symbols_below(number, end).iter().rev().find(counts)
        && LINKER_OBJECTS.contains(&last.name)
    {
        end = last.address;
    }
    Ok(end)
}

/// "the default (code, `.ctors`, `.dtors`, `extab`, `extabindex`: 4; else 8)"
pub fn default_alignment(section: &Section) -> u32 {
    let named = [&b"extab"[..], b"extabindex"].contains(&section.text);
    if section.kind == 0 || section.is_ctors_or_dtors() || named { 4 } else { 8 }
}

/// The alignment of a split; its symbols are looked for from `start` on, which is its
/// own start in every stage but one question of the trim.
pub fn alignment(image: &Image, split: &Split, start: u32) -> Result<u32, Refusal> {
    // "The given one, else the larger of the default and the highest alignment of sized
    // symbols in start..end, stripped ones included."
    if split.alignment != 0 {
        return Ok(split.alignment);
    }
    let symbols = image.symbols_in(split.section, start, split.end)?;
    let highest = symbols.iter().filter(|s| s.sized()).map(|s| s.alignment).max().unwrap_or(0);
    Ok(highest.max(default_alignment(image.section(split.section))))
}

pub fn end_for_section(t: &Tables, section: u16, lent: &[usize]) -> Answer {
    let end = checked(t, &LIMITS).and_then(|_| end_if_there(&Image::of(t), section));
    answer(end, lent)
}

/// 20 at (section, 0) if there is no such section.
pub fn end_if_there(image: &Image, section: u16) -> Result<u32, Refusal> {
    if section as usize >= image.sections.len() {
        return Err(Refusal { number: 20, section, address: 0 });
    }
    splitting_end(image, section)
}

pub fn split_alignment(t: &Tables, which: u16, lent: &[usize]) -> Answer {
    let ask = || {
        checked(t, &LIMITS)?;
        let splits = splits_in(t.splits);
        let split = splits.get(which as usize);
        let split = split.ok_or(Refusal { number: 20, section: 0, address: which as u32 })?;
        alignment(&Image::of(t), split, split.start)
    };
    answer(ask(), lent)
}

fn answer(found: Result<u32, Refusal>, lent: &[usize]) -> Answer {
    match found {
        Ok(found) => Answer { word: 0, outputs: vec![number_then_zeros(found, lent[0])] },
        Err(refusal) => refused(refusal, lent),
    }
}
