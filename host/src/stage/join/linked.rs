//! Images linked from Debian's PowerPC libraries (packages libc6-dev-powerpc-cross and
//! binutils-powerpc-linux-gnu), split at the objects that the linker's map names, and joined.
//! Where these aren't installed, a line says so.
use std::{
    collections::BTreeMap,
    fs,
    path::{Path, PathBuf},
    process::Command,
};

use super::{
    super::{Case, given, make::alignment_of, restore::accepted, walk::SplitObj},
    back::{self, Counts},
};
use crate::{
    bytes::put_half,
    check_tables::{
        HEADS, IMAGE, NAME_BYTES, NAME_ENDS, PLACES, SPLIT_TABLE, SYMBOL_TABLE, UNIT_TABLE,
    },
    document::{
        self,
        image::{Split, split_table, splits_in},
        records::NO_BYTES,
    },
    random::Random,
    records::packed,
    tally::Tally,
};

const LINKER: &str = "powerpc-linux-gnu-ld";
const LIBRARIES: &str = "/usr/powerpc-linux-gnu/lib";

/// The libraries of each image, and the functions that it is linked for.
const IMAGES: [(&[&str], &[&str]); 5] = [
    (&["libm.a"], &["sin", "cos", "exp", "log", "pow"]),
    (&["libc.a"], &["strlen", "memcpy", "qsort"]),
    (&["libc.a"], &["regcomp", "regexec"]),
    (&["libresolv.a", "libc.a"], &["ns_sprintrr"]),
    (&["libm.a", "libc.a"], &["printf", "tgamma", "strtod"]),
];

pub fn run(tally: &mut Tally) {
    let title = "pieces of images linked from Debian's PowerPC libraries, joined";
    let there = Path::new(LIBRARIES).join("libc.a").exists();
    if !there || Command::new(LINKER).arg("--version").output().is_err() {
        println!("{title}: not tried, {LINKER} or {LIBRARIES}/libc.a isn't installed");
        return;
    }
    tally.begin(title);
    let folder = std::env::temp_dir().join(format!("mizhakkon-linked-{}", std::process::id()));
    let (mut counts, mut r) = (Counts::default(), Random::new(1));
    let mut all = || -> Result<(), String> {
        fs::create_dir_all(&folder).map_err(|e| e.to_string())?;
        for (libraries, functions) in IMAGES {
            let (elf, map) = link(&folder, libraries, functions)?;
            joined(&elf, &map, &mut counts, &mut r, tally)?;
        }
        Ok(())
    };
    if let Err(why) = all() {
        tally.difference("-", &[why]);
    }
    // What can't be removed is the system's to clear.
    let _ = fs::remove_dir_all(&folder);
    tally.end(&[0]);
    counts.print();
}

/// The linked file and the linker's map.
fn link(
    folder: &Path,
    libraries: &[&str],
    functions: &[&str],
) -> Result<(Vec<u8>, String), String> {
    let (elf, map): (PathBuf, PathBuf) = (folder.join("image.elf"), folder.join("image.map"));
    let mut command = Command::new(LINKER);
    // A branch to a function that isn't there must reach address 0.
    command.args([
        "-static",
        "-e",
        "0",
        "-Ttext-segment=0x10000",
        "--unresolved-symbols=ignore-all",
    ]);
    command.args(["--defsym=__stack_chk_fail_local=0", "-o"]).arg(&elf);
    command.arg(format!("-Map={}", map.display()));
    command.args(functions.iter().flat_map(|name| ["-u", name]));
    command.args(libraries.iter().map(|name| Path::new(LIBRARIES).join(name)));
    let run = command.output().map_err(|e| format!("{LINKER}: {e}"))?;
    if !run.status.success() {
        return Err(format!("{LINKER}: {}", String::from_utf8_lossy(&run.stderr)));
    }
    let elf = fs::read(&elf).map_err(|e| e.to_string())?;
    let map = fs::read_to_string(&map).map_err(|e| e.to_string())?;
    Ok((elf, map))
}

/// Splits the image and joins its pieces.
fn joined(
    elf: &[u8],
    map: &str,
    counts: &mut Counts,
    r: &mut Random,
    tally: &mut Tally,
) -> Result<(), String> {
    let case = tables(elf, map);
    let answer = given::<SplitObj>(&case);
    let said = || format!("the walk is {}", document::describe(answer.word));
    let pieces = accepted(&answer, 0).ok_or_else(said)?;
    let t = case.tables();
    back::image(&t, &splits_in(t.splits), &pieces, counts, r, tally);
    Ok(())
}

/// Most significant byte first.
fn half(b: &[u8], at: usize) -> usize {
    u16::from_be_bytes([b[at], b[at + 1]]) as usize
}

fn word(b: &[u8], at: usize) -> usize {
    u32::from_be_bytes([b[at], b[at + 1], b[at + 2], b[at + 3]]) as usize
}

fn string(b: &[u8], at: usize) -> &[u8] {
    let end = b[at..].iter().position(|byte| *byte == 0).expect("strings are ended");
    &b[at..at + end]
}

/// Names by first use.
#[derive(Default)]
struct Names<'a>(Vec<&'a [u8]>, BTreeMap<&'a [u8], u16>);

impl<'a> Names<'a> {
    fn number(&mut self, name: &'a [u8]) -> u16 {
        let next = self.0.len() as u16;
        *self.1.entry(name).or_insert_with(|| {
            self.0.push(name);
            next
        })
    }
}

/// A section that the program is loaded with; its number in the file is its place in a list.
struct Loaded {
    number: u16,
    start: u32,
    end: u32,
}

/// The stage tables of a linked file: its loaded sections, its functions and objects, and a
/// split for each object of the libraries in `.text`, one for each other section.
fn tables(elf: &[u8], map: &str) -> Case {
    let mut names = Names::default();
    let mut case = Case { lent: vec![30_720, 49_152, 32_768, 6], ..Case::default() };
    let headers: Vec<&[u8]> =
        (0..half(elf, 48)).map(|i| &elf[word(elf, 32) + 40 * i..][..40]).collect();
    let strings = word(headers[half(elf, 50)], 16);
    let mut loaded: Vec<Option<Loaded>> = vec![];
    let mut splits = vec![];
    for header in &headers {
        let [kind, flags, start, offset, size] = [4, 8, 12, 16, 20].map(|at| word(header, at));
        if flags & 2 == 0 {
            loaded.push(None);
            continue;
        }
        let number = loaded.iter().flatten().count() as u16;
        let name = string(elf, strings + word(header, 0));
        let kind = match (kind, flags & 4, flags & 1) {
            (8, ..) => NO_BYTES,
            (_, 4, _) => 0,
            (.., written) => 2 - written as u8,
        };
        let place = if kind == NO_BYTES { 0 } else { offset };
        let name_number = names.number(name) as u64;
        let fields = [(name_number, 2), (kind as u64, 1), (start as u64, 4), (size as u64, 4)];
        case.set[HEADS].extend(packed(&[&fields[..], &[(offset as u64, 4)]].concat()));
        case.set[PLACES].extend((place as u32).to_le_bytes());
        let end = (start + size) as u32;
        let objects = if name == b".text" { objects(map) } else { vec![(start as u32, name)] };
        let bytes = &elf[place..place + if kind == NO_BYTES { 0 } else { size }];
        splits.extend(cut(number, start as u32, end, bytes, &objects, &mut names));
        loaded.push(Some(Loaded { number, start: start as u32, end }));
    }
    symbols(elf, &headers, &loaded, &mut names, &mut case);
    case.set[IMAGE] = elf.to_vec();
    put_units(&splits, &mut case);
    case.set[SPLIT_TABLE] = split_table(&splits).0;
    for name in &names.0 {
        case.set[NAME_BYTES].extend(*name);
        let end = case.set[NAME_BYTES].len() as u16;
        put_half(&mut case.set[NAME_ENDS], end);
    }
    case
}

/// A record for each unit that has a split.
fn put_units(splits: &[Split], case: &mut Case) {
    let mut units: Vec<u16> = splits.iter().map(|split| split.unit).collect();
    units.sort();
    units.dedup();
    case.set[UNIT_TABLE] =
        units.iter().flat_map(|unit| packed(&[(*unit as u64, 2), (0, 6)])).collect();
}

/// Where the bytes of each object begin in `.text`, by the linker's map: lines such as
/// ` .text  0x000100e0  0x4a8 /usr/lib/libc.a(qsort.o)`.
fn objects(map: &str) -> Vec<(u32, &[u8])> {
    let mut objects: BTreeMap<u32, &[u8]> = BTreeMap::new();
    for line in map.lines().filter_map(|line| line.strip_prefix(" .text")) {
        let words: Vec<&str> = line.split_whitespace().collect();
        let number = |word: &str| u32::from_str_radix(word.strip_prefix("0x")?, 16).ok();
        let [.., start, size, object] = words[..] else {
            continue;
        };
        let (Some(start), Some(1..)) = (number(start), number(size)) else {
            continue;
        };
        let object = object.rsplit(['(', '/']).next().unwrap_or(object).trim_end_matches(')');
        objects.insert(start, object.as_bytes());
    }
    objects.into_iter().collect()
}

/// A split from each object to the next, without the zeros that stand last where it can.
fn cut<'a>(
    section: u16,
    start: u32,
    end: u32,
    bytes: &[u8],
    objects: &[(u32, &'a [u8])],
    names: &mut Names<'a>,
) -> Vec<Split> {
    let starts: Vec<(u32, &[u8])> =
        objects.iter().copied().filter(|(at, _)| (start..end).contains(at)).collect();
    let split = |i: usize| {
        let from = if i == 0 { start } else { starts[i].0 };
        let next = starts.get(i + 1).map_or(end, |(at, _)| *at);
        let own = bytes.get((from - start) as usize..(next - start) as usize).unwrap_or(&[]);
        let zeros = own.iter().rev().take_while(|byte| **byte == 0).count() as u32;
        let to = if zeros < next - from { next - zeros / 4 * 4 } else { next };
        let (unit, alignment) = (names.number(starts[i].1), alignment_of(from));
        let (start, end, flags, rename, origin) = (from, to, 0, 0xFFFF, 0xFFFF);
        Split { section, start, end, unit, alignment, flags, rename, origin }
    };
    (0..starts.len()).map(split).collect()
}

/// Functions and objects of known size that lie in a loaded section.
fn symbols<'a>(
    elf: &'a [u8],
    headers: &[&[u8]],
    loaded: &[Option<Loaded>],
    names: &mut Names<'a>,
    case: &mut Case,
) {
    let Some(table) = headers.iter().find(|header| word(header, 4) == 2) else {
        return;
    };
    let strings = word(headers[word(table, 24)], 16);
    for entry in elf[word(table, 16)..][..word(table, 20)].chunks_exact(16) {
        let (start, size) = (word(entry, 4) as u32, word(entry, 8) as u32);
        let kind = match entry[12] & 15 {
            1 => 2,
            2 => 1,
            _ => continue,
        };
        let Some(Some(home)) = loaded.get(half(entry, 14)) else {
            continue;
        };
        if size == 0 || start < home.start || home.end < start + size {
            continue;
        }
        let name = names.number(string(elf, strings + word(entry, 0))) as u64;
        let head = [(name, 2), (home.number as u64, 2), (start as u64, 4), (size as u64, 4)];
        let rest = [(1, 1), (kind, 1), (0, 2), (0, 4)];
        case.set[SYMBOL_TABLE].extend(packed(&[&head[..], &rest].concat()));
    }
}
