//! Document 01's record files. Only the form is read here: what the Rust can't be
//! given (a cut file, an unknown number) is an `Err`; document 01's table checks
//! are not repeated.
use std::collections::HashSet;

use flagset::FlagSet;

use crate::obj::{
    ObjArchitecture, ObjInfo, ObjKind, ObjReloc, ObjRelocKind, ObjRelocations, ObjSection,
    ObjSectionKind, ObjSplit, ObjSymbol, ObjSymbolFlagSet, ObjSymbolFlags, ObjSymbolKind, ObjUnit,
};

/// Flag bits 0 to 7 of a symbol record.
const FLAGS: [ObjSymbolFlags; 8] = [
    ObjSymbolFlags::Local,
    ObjSymbolFlags::Common,
    ObjSymbolFlags::Stripped,
    ObjSymbolFlags::Exported,
    ObjSymbolFlags::NoWrite,
    ObjSymbolFlags::RelocationIgnore,
    ObjSymbolFlags::NoExport,
    ObjSymbolFlags::NoReloc,
];

/// Bits 8 to 15 of a record travel in bits 24 to 31 of the Rust's set, which no flag uses.
pub fn flags_in(bits: u16) -> ObjSymbolFlagSet {
    let mut set = FlagSet::from_raw(((bits & 0xFF00) as u32) << 16);
    for (i, &flag) in FLAGS.iter().enumerate() {
        if bits & 1 << i != 0 {
            set |= flag;
        }
    }
    ObjSymbolFlagSet(set)
}

pub fn flags_out(flags: &ObjSymbolFlagSet) -> u16 {
    let mut bits = (flags.0.bits() >> 16) as u16 & 0xFF00;
    for (i, &flag) in FLAGS.iter().enumerate() {
        if flags.0.contains(flag) {
            bits |= 1 << i;
        }
    }
    bits
}

/// The relocation kinds by document 01's numbers.
const RELOC_KINDS: [ObjRelocKind; 7] = [
    ObjRelocKind::Absolute,
    ObjRelocKind::PpcAddr16Hi,
    ObjRelocKind::PpcAddr16Ha,
    ObjRelocKind::PpcAddr16Lo,
    ObjRelocKind::PpcRel24,
    ObjRelocKind::PpcRel14,
    ObjRelocKind::PpcEmbSda21,
];

fn reloc_kind_in(k: u8) -> Result<ObjRelocKind, String> {
    let kind = RELOC_KINDS.get(k as usize).copied();
    kind.ok_or_else(|| format!("unknown relocation kind {k}"))
}

pub fn reloc_kind_out(kind: ObjRelocKind) -> u8 {
    RELOC_KINDS.iter().position(|k| *k == kind).unwrap() as u8
}

fn section_kind_in(k: u8) -> Result<ObjSectionKind, String> {
    match k {
        0 => Ok(ObjSectionKind::Code),
        1 => Ok(ObjSectionKind::Data),
        2 => Ok(ObjSectionKind::ReadOnlyData),
        3 => Ok(ObjSectionKind::Bss),
        k => Err(format!("unknown section kind {k}")),
    }
}

fn symbol_kind_in(k: u8) -> Result<ObjSymbolKind, String> {
    match k {
        0 => Ok(ObjSymbolKind::Unknown),
        1 => Ok(ObjSymbolKind::Function),
        2 => Ok(ObjSymbolKind::Object),
        3 => Ok(ObjSymbolKind::Section),
        k => Err(format!("unknown symbol kind {k}")),
    }
}

#[derive(Debug, Clone)]
pub struct PartialSplit {
    pub section: u32,
    pub start: u32,
    pub split: ObjSplit,
}

#[derive(Debug, Default)]
pub struct Tables {
    pub names: Vec<String>,
    known_names: HashSet<String>,
    pub sections: Vec<ObjSection>,
    pub symbols: Vec<ObjSymbol>,
    pub splits: Vec<PartialSplit>,
    pub units: Vec<ObjUnit>,
}

struct Payload<'a>(&'a [u8]);

impl<'a> Payload<'a> {
    fn take<const N: usize>(&mut self) -> Result<[u8; N], String> {
        let (head, tail) = self.0.split_first_chunk::<N>().ok_or("payload too short")?;
        self.0 = tail;
        Ok(*head)
    }
    fn u8(&mut self) -> Result<u8, String> {
        Ok(self.take::<1>()?[0])
    }
    fn u16(&mut self) -> Result<u16, String> {
        Ok(u16::from_le_bytes(self.take()?))
    }
    fn u32(&mut self) -> Result<u32, String> {
        Ok(u32::from_le_bytes(self.take()?))
    }
    fn i32(&mut self) -> Result<i32, String> {
        Ok(i32::from_le_bytes(self.take()?))
    }
    fn i64(&mut self) -> Result<i64, String> {
        Ok(i64::from_le_bytes(self.take()?))
    }
    fn rest(&mut self) -> &'a [u8] {
        std::mem::take(&mut self.0)
    }
}

/// A field in which one number stands for none.
fn some_unless<T: PartialEq>(v: T, none: T) -> Option<T> {
    if v == none { None } else { Some(v) }
}

impl Tables {
    /// The error is `record N: reason`.
    pub fn parse(mut file: &[u8]) -> Result<Self, String> {
        let mut out = Self::default();
        let mut number = 0;
        while !file.is_empty() {
            out.record(&mut file).map_err(|e| format!("record {number}: {e}"))?;
            number += 1;
        }
        Ok(out)
    }

    fn name(&self, number: u16) -> Result<String, String> {
        self.names.get(number as usize).cloned().ok_or_else(|| format!("unknown name {number}"))
    }

    fn record(&mut self, file: &mut &[u8]) -> Result<(), String> {
        let (head, rest) = file.split_first_chunk::<6>().ok_or("file cut")?;
        let len = u32::from_le_bytes([head[0], head[1], head[2], head[3]]) as usize;
        let kind = u16::from_le_bytes([head[4], head[5]]);
        if rest.len() < len {
            return Err("file cut".to_string());
        }
        let mut p = Payload(&rest[..len]);
        *file = &rest[len..];
        match kind {
            1 => self.add_name(&mut p)?,
            2 => self.add_section(&mut p)?,
            3 => self.add_symbol(&mut p)?,
            4 => self.add_relocation(&mut p)?,
            5 => self.add_split(&mut p)?,
            6 => self.add_unit(&mut p)?,
            k => return Err(format!("unknown kind {k}")),
        }
        if p.0.is_empty() { Ok(()) } else { Err("payload too long".to_string()) }
    }

    fn add_name(&mut self, p: &mut Payload) -> Result<(), String> {
        let name = std::str::from_utf8(p.rest()).map_err(|e| e.to_string())?.to_string();
        if self.known_names.insert(name.clone()) {
            self.names.push(name);
        }
        Ok(())
    }

    fn add_section(&mut self, p: &mut Payload) -> Result<(), String> {
        let name = self.name(p.u16()?)?;
        let kind = section_kind_in(p.u8()?)?;
        let address = p.u32()? as u64;
        let size = p.u32()? as u64;
        let file_offset = p.u32()? as u64;
        let mut data = vec![];
        if kind != ObjSectionKind::Bss {
            data = p.rest().to_vec();
            if data.len() as u64 != size {
                return Err("section bytes aren't its size".to_string());
            }
        }
        self.sections.push(ObjSection {
            name,
            kind,
            address,
            size,
            data,
            align: 0,
            elf_index: self.sections.len() as u32 + 1,
            relocations: Default::default(),
            virtual_address: None,
            file_offset,
            section_known: true,
            splits: Default::default(),
        });
        Ok(())
    }

    fn add_symbol(&mut self, p: &mut Payload) -> Result<(), String> {
        self.symbols.push(ObjSymbol {
            name: self.name(p.u16()?)?,
            section: some_unless(p.u16()?, 0xFFFF).map(u32::from),
            address: p.u32()? as u64,
            size: p.u32()? as u64,
            size_known: p.u8()? != 0,
            kind: symbol_kind_in(p.u8()?)?,
            flags: flags_in(p.u16()?),
            align: some_unless(p.u32()?, 0),
            ..Default::default()
        });
        Ok(())
    }

    fn add_relocation(&mut self, p: &mut Payload) -> Result<(), String> {
        let section = p.u16()?;
        let address = p.u32()?;
        let reloc = ObjReloc {
            kind: reloc_kind_in(p.u8()?)?,
            target_symbol: p.u32()?,
            addend: p.i64()?,
            module: some_unless(p.u32()?, 0xFFFFFFFF),
        };
        self.sections
            .get_mut(section as usize)
            .ok_or_else(|| format!("unknown section {section}"))?
            .relocations
            .insert(address, reloc)
            .map_err(|e| e.to_string())
    }

    fn add_split(&mut self, p: &mut Payload) -> Result<(), String> {
        let section = p.u16()? as u32;
        let start = p.u32()?;
        let end = p.u32()?;
        let unit = self.name(p.u16()?)?;
        let align = some_unless(p.u32()?, 0);
        let flags = p.u8()?;
        let rename = some_unless(p.u16()?, 0xFFFF).map(|n| self.name(n)).transpose()?;
        let split = ObjSplit {
            unit,
            end,
            align,
            common: flags & 1 != 0,
            autogenerated: flags & 2 != 0,
            skip: flags & 4 != 0,
            rename,
        };
        self.splits.push(PartialSplit { section, start, split });
        Ok(())
    }

    fn add_unit(&mut self, p: &mut Payload) -> Result<(), String> {
        let name = self.name(p.u16()?)?;
        let autogenerated = p.u8()? != 0;
        let has_order = p.u8()? != 0;
        let order = p.i32()?;
        self.units.push(ObjUnit {
            name,
            autogenerated,
            comment_version: None,
            order: has_order.then_some(order),
        });
        Ok(())
    }

    /// The image without splits.
    pub fn object(&self) -> ObjInfo {
        let mut obj = ObjInfo::new(
            ObjKind::Executable,
            ObjArchitecture::PowerPc,
            "image".to_string(),
            self.symbols.clone(),
            self.sections.clone(),
        );
        obj.link_order = self.units.clone();
        obj
    }

    /// The image with the partial splits as its split table, in the order given
    /// (`push` alone would sort the splits at one start by end).
    pub fn object_with_table(&self) -> Result<ObjInfo, String> {
        let mut obj = self.object();
        for s in 0..obj.sections.len() {
            let rows: Vec<_> = self.splits.iter().filter(|p| p.section == s).collect();
            if rows.windows(2).any(|w| w[0].start > w[1].start) {
                return Err(format!("starts fall in section {s}"));
            }
            let splits = &mut obj.sections[s].splits;
            for (i, row) in rows.iter().enumerate() {
                splits.push(row.start, ObjSplit { end: i as u32, ..row.split.clone() });
            }
            for ((_, split), row) in splits.iter_mut().zip(&rows) {
                split.end = row.split.end;
            }
        }
        match self.splits.iter().find(|p| p.section >= obj.sections.len()) {
            Some(p) => Err(format!("unknown section {}", p.section)),
            None => Ok(obj),
        }
    }
}
