//! Random large record files: hundreds to 1,024 splits, hundreds to thousands of symbols,
//! relocations and names, over several sections, as far as a file has room. Most are accepted;
//! the others have a fault somewhere.
use super::files;
use crate::{
    check_file::files::damage_records,
    document::image::Split,
    random::Random,
    records::numbered_name,
    stage::make::{Maker, Place},
};

/// The bytes of a file, but for a few that no record is planned for.
const BYTES: usize = 65_400;

/// What a record takes in a file, with its length and kind.
const NAME: usize = 9;
const SYMBOL: usize = 26;
const RELOCATION: usize = 29;
const SPLIT: usize = 25;
const UNIT: usize = 14;

pub fn random(r: &mut Random) -> Vec<u8> {
    if r.one_in(8) {
        return files::large(r.below(files::LARGE.len()), r);
    }
    let file = spread(r);
    if r.one_in(8) {
        let mut records = files::records(&file);
        damage_records(&mut records, r);
        return records.concat();
    }
    file
}

/// Splits in a row in each section, then as much of the rest as there is room for.
fn spread(r: &mut Random) -> Vec<u8> {
    let mut maker = Maker::new(1, r);
    maker.step = 4;
    let holes = r.pick(&[0, 0, 100, 12]);
    let splits = if holes == 0 { 300 + r.below(725) } else { 200 + r.below(500) };
    let mut left = BYTES - splits * (SPLIT + NAME);
    let mut partials = vec![];
    let sections = 1 + r.below(4);
    for section in 0..sections {
        let row = row(&mut maker, section, splits / sections, &mut left, r);
        partials.extend(row.into_iter().filter(|_| holes == 0 || !r.one_in(holes)));
    }
    if !r.one_in(4) {
        // Other bytes behind a split that is trimmed are refused.
        maker.zero_image();
    }
    fill(&mut maker, left, r);
    if r.one_in(3) {
        (0..1 + r.below(3)).for_each(|_| fault(&mut maker, &mut partials, r));
    }
    if r.one_in(4) {
        r.shuffle(&mut partials);
    }
    files::file(maker, &partials, r)
}

/// A section whose splits lie one behind another, each of the next unit.
fn row(
    maker: &mut Maker,
    section: usize,
    count: usize,
    left: &mut usize,
    r: &mut Random,
) -> Vec<Split> {
    let width = r.pick(&[8, 8, 16, 24, 64]);
    let size = width * count as u32 + 8 * r.below(3) as u32;
    let bytes = r.one_in(3) && size as usize <= *left / 2;
    let kind = if bytes { r.pick(&[0, 1, 2]) } else { 3 };
    let name: &[u8] = if kind == 3 { b".bss" } else { r.pick(&[b".text", b".data", b"extab"]) };
    *left -= if bytes { size as usize } else { 0 };
    maker.section_at(0x8000_0000 + 0x10_0000 * section as u32, name, kind, size, r);
    let start = maker.sections[section].start;
    let part = |n: usize| {
        let unit = maker.name(&numbered_name(n));
        let (start, alignment) = (start + width * n as u32, r.pick(&[0, 4, 4, 8]));
        let flags = r.pick(&[0, 0, 0, 0, 0, 0, 0, 2]);
        let (section, end) = (section as u16, start + width);
        let (rename, origin) = (0xFFFF, 0xFFFF);
        Split { section, start, end, unit, alignment, flags, rename, origin }
    };
    (0..count).map(part).collect()
}

/// Symbols, relocations, units and names in the bytes that are left.
fn fill(maker: &mut Maker, left: usize, r: &mut Random) {
    let mut left = left;
    let mut share = |width: usize, r: &mut Random| {
        let most = left / width;
        let count = if r.one_in(2) { r.below(most + 1) } else { r.below(most / 8 + 1) };
        left -= count * width;
        count
    };
    let symbols = share(SYMBOL, r);
    for _ in 0..symbols {
        let section = r.below(maker.sections.len());
        let Place { start, end, .. } = maker.sections[section];
        let at = start + 4 * r.below((end - start) as usize / 4) as u32;
        maker.plain_symbol(&numbered_name(r.below(200)), section as u64, at);
    }
    let relocations = if symbols == 0 { 0 } else { share(RELOCATION, r) };
    row_of_relocations(maker, relocations, r);
    let units = share(UNIT, r).min(r.pick(&[0, 40, 1024]));
    for n in 0..units {
        let unit = maker.name(&numbered_name(n));
        maker.unit(unit, n as i32 - 100);
    }
    // One after another they are new, so that none is looked for among the others.
    let names = share(NAME, r).min(4096 - maker.names.len());
    maker.names.extend((0..names).map(|n| numbered_name(2000 + n)));
}

fn row_of_relocations(maker: &mut Maker, count: usize, r: &mut Random) {
    let each = count / maker.sections.len();
    for section in 0..maker.sections.len() {
        let Place { start, end, .. } = maker.sections[section];
        let places = (end - start) as usize / 4;
        let mut rising: Vec<usize> = (0..each.min(places)).map(|_| r.below(places)).collect();
        rising.sort();
        rising.dedup();
        for place in rising {
            let at = start + 4 * place as u32;
            maker.relocation(section as u64, at, r.below(7) as u64, r.next());
        }
    }
}

/// Something that one of the stages may refuse.
fn fault(maker: &mut Maker, partials: &mut Vec<Split>, r: &mut Random) {
    if partials.is_empty() {
        return;
    }
    let (i, j) = (r.below(partials.len()), r.below(partials.len()));
    // An earlier fault may have named a section that isn't there.
    let section = (partials[i].section as usize).min(maker.sections.len() - 1);
    let near = maker.near(section, r);
    match r.below(9) {
        0 => partials[i].unit = partials[j].unit,
        1 => partials[i].end = r.pick(&[near, 0, partials[i].start]),
        2 => partials[i].start = near,
        3 => partials[i].alignment = 1 << r.below(17),
        4 => partials[i].flags ^= 1 << r.below(3),
        5 => partials[i].section = r.below(maker.sections.len() + 1) as u16,
        6 => partials.push(partials[i]),
        7 => (partials[i].unit, partials[j].unit) = (partials[j].unit, partials[i].unit),
        _ => maker.any_symbol(r),
    }
}
