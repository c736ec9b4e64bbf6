//! The questions of `answers` put to the Rust.
use std::time::{Duration, Instant};

use anyhow::Result;

use crate::{
    answers::{
        Piece, PieceSymbol, Question, ROUNDS_END, Relocation, Reply, Split, Stop, Unit, WalkedUnit,
        quietly,
    },
    obj::{ObjInfo, ObjReloc, ObjSection, ObjSplit, ObjSymbol, ObjUnit, SectionIndex, SymbolIndex},
    records::{PartialSplit, Tables, flags_out, reloc_kind_out},
    stages,
    util::split::{end_for_section, probe},
};

pub fn ask(file: &[u8], question: Question) -> Result<Reply, Stop> {
    let mut tables = Tables::parse(file).expect("the tables were checked");
    let partials = match question {
        Question::Merge(table) => tables.splits.split_off(table),
        _ => vec![],
    };
    let mut obj = tables.object_with_table().expect("the tables were checked");
    answer(|| reply(&mut obj, question, partials))
}

fn answer<T>(ask: impl FnOnce() -> Result<T>) -> Result<T, Stop> {
    match quietly(ask) {
        Ok(Ok(answer)) => Ok(answer),
        Ok(Err(e)) => Err(Stop::Error(e.to_string())),
        Err(panic) if panic.message == log::ENDLESS => Err(Stop::Endless),
        Err(panic) => Err(Stop::Panic(panic)),
    }
}

/// The stages one after another on one object.
pub fn run(file: &[u8]) -> Result<String, (Question, Stop)> {
    use Question::*;
    let tables = Tables::parse(file).expect("the tables were checked");
    let mut obj = tables.object();
    for question in [Merge(0), Common(None), Gaps, Validate, Trim] {
        let partials = if let Merge(_) = question { tables.splits.clone() } else { vec![] };
        let done = answer(|| reply(&mut obj, question, partials));
        done.map_err(|stop| (question, stop))?;
    }
    let units = answer(|| probe::link_order(&obj)).map_err(|stop| (Order, stop))?;
    obj.link_order = units;
    let walk = answer(|| probe::split_obj_sections(&obj, None, false));
    let (objects, symbols) = walk.map_err(|stop| (Walk, stop))?;
    Ok(stages::listing(&stages::Walk { objects, symbols }))
}

/// The run as the program `oracle` does it, with nothing between the stages.
pub fn timed(file: &[u8]) -> Vec<(&'static str, Duration)> {
    let mut begin = Instant::now();
    let mut times = vec![];
    let mut lap = |step| {
        times.push((step, begin.elapsed()));
        begin = Instant::now();
    };
    let (_tables, _obj, walk) = steps(file, &mut lap);
    stages::listing(&walk);
    lap("listing");
    times
}

/// The same up to the walk, as one function that instructions can be counted in; gives how
/// many units there are.
#[inline(never)]
pub fn walked(file: &[u8]) -> usize {
    let (_, _, walk) = steps(file, &mut |_| ());
    walk.objects.len()
}

/// Loading and the stages, and all that they hold at the end; `done` is told of each.
fn steps(file: &[u8], done: &mut impl FnMut(&'static str)) -> (Tables, ObjInfo, stages::Walk) {
    log::allow_rounds(usize::MAX);
    let tables = Tables::parse(file).expect("the file is accepted");
    let mut obj = tables.object();
    done("load");
    let mut walk = None;
    for (i, step) in stages::STAGES.into_iter().enumerate() {
        let Ok(ended) = stages::stage(i, &tables, &mut obj, None) else {
            panic!("the file is accepted");
        };
        walk = ended;
        done(step);
    }
    (tables, obj, walk.expect("the last stage is the walk"))
}

fn reply(obj: &mut ObjInfo, question: Question, partials: Vec<PartialSplit>) -> Result<Reply> {
    match question {
        Question::End(section) => Ok(Reply::Number(end_for_section(obj, section)?.address)),
        Question::Alignment(which) => {
            let (index, section, start, split) = obj.sections.all_splits().nth(which).unwrap();
            Ok(Reply::Number(split.alignment(obj, index, section, start)))
        }
        Question::Validate => probe::validate(obj).map(|()| Reply::Passed),
        Question::Common(start) => {
            probe::update_common(obj, start)?;
            Ok(Reply::Splits(splits(obj)))
        }
        Question::Trim => {
            probe::trim_alignment(obj)?;
            probe::trim_linker(obj)?;
            Ok(Reply::Splits(splits(obj)))
        }
        Question::Merge(_) => {
            for PartialSplit { section, start, split } in partials {
                // Each round but the last takes a split away.
                allow_rounds(obj.sections.all_splits().count() + 1);
                obj.add_split(section, start, split)?;
            }
            Ok(Reply::Splits(splits(obj)))
        }
        Question::Gaps => gaps(obj),
        Question::Order => order(obj),
        Question::Walk => {
            let (objects, kept) = probe::split_obj_sections(obj, None, false)?;
            let units = objects.iter().zip(&kept);
            Ok(Reply::Walked(units.map(|(unit, kept)| walked_unit(unit, kept)).collect()))
        }
    }
}

fn gaps(obj: &mut ObjInfo) -> Result<Reply> {
    // A gap for each section, symbol and split at most, and a merge for each gap.
    let count = obj.sections.all_splits().count();
    let most = (obj.sections.len() + obj.symbols.count()) as usize + count;
    allow_rounds(2 * most + count);
    probe::create_gaps(obj)?;
    Ok(Reply::Splits(splits(obj)))
}

/// What stands before the units of a cycle.
const CYCLE: &str = "Cyclic dependency encountered while resolving link order: ";

fn order(obj: &ObjInfo) -> Result<Reply> {
    let unit = |ObjUnit { name, autogenerated, order, .. }| Unit { name, autogenerated, order };
    match probe::link_order(obj) {
        Ok(units) => Ok(Reply::Units(units.into_iter().map(unit).collect())),
        Err(e) => match e.to_string().strip_prefix(CYCLE) {
            Some(names) => Ok(Reply::Cycle(names.split(" -> ").map(String::from).collect())),
            None => Err(e),
        },
    }
}

fn allow_rounds(rounds: usize) {
    log::allow_rounds(if ROUNDS_END.get() { rounds } else { usize::MAX });
}

fn splits(obj: &ObjInfo) -> Vec<Split> {
    let split = |(section, _, start, split): (SectionIndex, _, u32, &ObjSplit)| Split {
        section,
        start,
        end: split.end,
        unit: split.unit.clone(),
        alignment: split.align,
        flags: split.common as u8 | (split.autogenerated as u8) << 1 | (split.skip as u8) << 2,
        rename: split.rename.clone(),
    };
    obj.sections.all_splits().map(split).collect()
}

/// `kept`: the unit's number for each symbol of the image.
fn walked_unit(unit: &ObjInfo, kept: &[Option<SymbolIndex>]) -> WalkedUnit {
    let image_number = |i| kept.iter().position(|n| *n == Some(i)).unwrap();
    let symbols = unit.symbols.iter().map(|(i, symbol)| piece_symbol(image_number(i), symbol));
    WalkedUnit {
        pieces: unit.sections.iter().map(|(_, section)| piece(section)).collect(),
        symbols: symbols.collect(),
    }
}

fn piece(section: &ObjSection) -> Piece {
    let relocation = |(offset, r): (u32, &ObjReloc)| Relocation {
        offset,
        kind: reloc_kind_out(r.kind),
        target: r.target_symbol,
        addend: r.addend,
        module: r.module,
    };
    Piece {
        name: section.name.clone(),
        address: section.virtual_address.unwrap(),
        size: section.size,
        alignment: section.align,
        file_offset: section.file_offset,
        bytes: section.data.clone(),
        relocations: section.relocations.iter().map(relocation).collect(),
    }
}

fn piece_symbol(number: usize, symbol: &ObjSymbol) -> PieceSymbol {
    PieceSymbol {
        number,
        name: symbol.name.clone(),
        piece: symbol.section,
        address: symbol.address,
        size: symbol.size,
        known: symbol.size_known,
        kind: symbol.kind as u8,
        flags: flags_out(&symbol.flags),
        alignment: symbol.align,
    }
}
