//! The whole run: the entry `split_file`. "It merges the partial splits in file order,
//! marks common with no start, fills gaps, checks, trims, orders and walks."
use super::{
    Refusal,
    check_tables::LIMITS,
    common::{places, update_common},
    gaps::{Filled, Places, fill, name_table},
    image::{Image, Split, partials_in, split_table},
    load::load,
    merge::merge,
    order::{Found, Unit, link_order, unit_table, units_in},
    outputs::{Answer, accepted, refused},
    records::UNITS,
    trim::trim,
    validate::validate,
    walk::{self, Walked, walk},
    word,
};

/// How much the outputs hold.
pub struct Room {
    pub places: Places,
    pub units: usize,
    pub walked: walk::Room,
}

/// Document 01's own ceilings, and none at all.
pub const CEILINGS: Room = Room {
    places: Places { names: LIMITS.names, name_bytes: LIMITS.name_bytes, splits: LIMITS.splits },
    units: UNITS.ceiling,
    walked: walk::CEILINGS,
};
pub const NO_CEILING: Room = Room {
    places: Places { names: usize::MAX, name_bytes: usize::MAX, splits: usize::MAX },
    units: usize::MAX,
    walked: [usize::MAX; 3],
};

/// What a run leaves: the names of the file and those of the gaps, the trimmed splits, the
/// units in order, and what the walk gives.
pub struct Ran {
    pub names: Vec<Vec<u8>>,
    pub splits: Vec<Split>,
    pub units: Vec<Unit>,
    pub walked: Walked,
}

pub enum Ended {
    Whole(Ran),
    /// "61 cycle, left in the unit table"
    Cycle(Vec<Unit>),
}

pub const CYCLE: Refusal = Refusal { number: 61, section: 0, address: 0 };

pub fn run(
    image: &Image,
    partials: &[Split],
    units: &[Unit],
    room: &Room,
) -> Result<Ended, Refusal> {
    let mut splits = merge(image, vec![], partials, room.places.splits)?;
    update_common(image, &mut splits, None)?;
    let Filled { names, splits } = fill(image, splits, &room.places)?;
    validate(image, &splits)?;
    let splits = trim(image, &splits)?;
    let units = match link_order(image, &splits, units, room.units)? {
        Found::Order(units) => units,
        Found::Cycle(units) => return Ok(Ended::Cycle(units)),
    };
    let walked = walk(image, &splits, &units, room.walked)?;
    Ok(Ended::Whole(Ran { names, splits, units, walked }))
}

/// `lent`: the ends and the bytes of the names that are added, the splits, the units, the
/// pieces, their symbols, their relocations, the counts.
pub fn answer(file: &[u8], lent: &[usize]) -> Answer {
    let loaded = match load(file) {
        Ok(loaded) => loaded,
        Err(refusal) => return refused(refusal, lent),
    };
    let t = loaded.tables();
    let image = Image::of(&t);
    let (partials, units) = (partials_in(&loaded.partials), units_in(&loaded.units));
    match run(&image, &partials, &units, &room(&image, lent)) {
        Ok(Ended::Whole(ran)) => accepted(ran.tables(image.names.len()), lent),
        Ok(Ended::Cycle(units)) => cycle(&units, lent),
        Err(refusal) => refused(refusal, lent),
    }
}

/// "A shorter lent output table has its own length as ceiling": for names that of those
/// that are added.
fn room(image: &Image, lent: &[usize]) -> Room {
    let bytes: usize = image.names.iter().map(|name| name.len()).sum();
    Room {
        places: Places {
            names: LIMITS.names.min(image.names.len() + lent[0] / 2),
            name_bytes: LIMITS.name_bytes.min(bytes + lent[1]),
            splits: places(lent[2]),
        },
        units: UNITS.ceiling.min(lent[3] / UNITS.width),
        walked: walk::room(&lent[4..7]),
    }
}

impl Ran {
    /// `from_file`: how many of the names stand in the file.
    fn tables(&self, from_file: usize) -> Vec<(Vec<u8>, usize)> {
        let added = &self.names[from_file..];
        let (ends, bytes) = name_table(added);
        let count = bytes.len();
        let mut tables = vec![(ends, added.len()), (bytes, count)];
        tables.extend([split_table(&self.splits), unit_table(&self.units)]);
        tables.extend(self.walked.tables());
        tables
    }
}

/// The units of the cycle and their count, each at its place; all else is zeros.
fn cycle(units: &[Unit], lent: &[usize]) -> Answer {
    let mut tables = vec![(vec![], 0); 7];
    tables[3] = unit_table(units);
    Answer { word: word(Some(CYCLE)), ..accepted(tables, lent) }
}
