//! A record file that passed its checks, as the tables of the stages.
use super::{
    Refusal,
    check_file::{self, first},
    check_tables::Tables,
    records::{NO_BYTES, SECTIONS},
};
use crate::bytes::put_half;

/// The partial splits are no split table yet. The image is the file itself.
#[derive(Default)]
pub struct Loaded<'a> {
    name_ends: Vec<u8>,
    name_bytes: Vec<u8>,
    sections: Vec<u8>,
    section_places: Vec<u8>,
    image: &'a [u8],
    symbols: Vec<u8>,
    relocations: Vec<u8>,
    pub partials: Vec<u8>,
    pub units: Vec<u8>,
}

pub fn load(file: &[u8]) -> Result<Loaded<'_>, Refusal> {
    let known = check_file::load(file).map_err(|fault| fault.refusal())?;
    let mut loaded = Loaded { image: file, ..Loaded::default() };
    for name in known.names {
        loaded.name_bytes.extend(name);
        put_half(&mut loaded.name_ends, u16::try_from(loaded.name_bytes.len()).unwrap());
    }
    let mut rest = file;
    while let Ok(((kind, payload), next)) = first(rest) {
        let end = file.len() - next.len();
        loaded.add(kind, payload, end - payload.len());
        rest = next;
    }
    Ok(loaded)
}

impl<'a> Loaded<'a> {
    fn add(&mut self, kind: u16, payload: &[u8], place: usize) {
        match kind {
            1 => {}
            2 => {
                let (head, bytes) = payload.split_at(SECTIONS.width);
                self.sections.extend(head);
                let place = if head[2] == NO_BYTES { 0 } else { place + head.len() };
                self.section_places.extend((place as u32).to_le_bytes());
                assert!(place + bytes.len() <= self.image.len(), "the file holds the bytes");
            }
            3 => self.symbols.extend(payload),
            4 => self.relocations.extend(payload),
            5 => self.partials.extend(payload),
            _ => self.units.extend(payload),
        }
    }

    /// The tables with an empty split table.
    pub fn tables(&self) -> Tables<'_> {
        Tables {
            name_ends: &self.name_ends,
            name_bytes: &self.name_bytes,
            sections: &self.sections,
            section_places: &self.section_places,
            image: self.image,
            symbols: &self.symbols,
            relocations: &self.relocations,
            splits: &[],
            units: &self.units,
        }
    }
}
