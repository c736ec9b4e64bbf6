//! Files linked from Debian's PowerPC libraries (packages libc6-dev-powerpc-cross and
//! binutils-powerpc-linux-gnu), imported: the tables must be those that `readelf -SsW` prints. A
//! file whose linker's own symbols lie outside their sections must be refused with 5 at the first,
//! and be accepted once `objcopy -N` has left them out. Where these packages aren't installed, a
//! line says so.
use std::{
    fs,
    path::{Path, PathBuf},
    process::Command,
};

use super::{
    super::{Case, compare, given},
    ImportElf,
    rows::{Section, Symbol, rows},
};
use crate::{
    bytes::half_at,
    document::{self, check_tables::Tables, outputs::Answer},
    entries,
    tally::Tally,
};

const LINKER: &str = "powerpc-linux-gnu-ld";
const READER: &str = "powerpc-linux-gnu-readelf";
const COPIER: &str = "powerpc-linux-gnu-objcopy";
const LIBRARIES: &str = "/usr/powerpc-linux-gnu/lib";

/// The libraries of each file, and the functions that it is linked for.
const FILES: [(&[&str], &[&str]); 20] = [
    (&["libm.a"], &["sin", "cos", "exp", "log", "pow"]),
    (&["libm.a"], &["tgamma", "lgamma", "j0"]),
    (&["libm.a"], &["cbrt", "hypot", "fma", "floor", "log2"]),
    (&["libm.a"], &["sinf", "cosf", "expf", "lgammaf", "j0f"]),
    (&["libm.a"], &["sinh", "cosh", "tanh", "asin"]),
    (&["libc.a"], &["strlen", "memcpy", "qsort"]),
    (&["libc.a"], &["regcomp", "regexec"]),
    (&["libc.a"], &["strtol", "strtoul", "atoi"]),
    (&["libc.a"], &["printf"]),
    (&["libc.a"], &["getaddrinfo"]),
    (&["libc.a"], &["glob", "fnmatch"]),
    (&["libc.a"], &["wcstod", "mbstowcs"]),
    (&["libc.a"], &["strftime", "mktime"]),
    (&["libc.a"], &["hsearch", "tsearch", "lsearch"]),
    (&["libc.a"], &["random", "drand48", "lrand48"]),
    (&["libresolv.a", "libc.a"], &["ns_sprintrr"]),
    (&["libresolv.a", "libc.a"], &["res_nmkquery", "ns_name_pton"]),
    (&["libm.a", "libc.a"], &["printf", "tgamma", "strtod"]),
    (&["libc.a"], &["getopt_long", "argp_parse"]),
    (&["libc.a"], &["malloc", "free", "realloc"]),
];

/// How long a file is.
const LENGTHS: std::ops::Range<usize> = 10_000..1_000_000;

/// Outputs at document 01's ceilings.
const LENT: [usize; 6] = [8192, 65_535, 960, 256, 81_920, 10];

/// Sections or symbols as text.
type Rows = Vec<String>;

#[derive(Default)]
struct Counts {
    files: usize,
    refused: usize,
    bytes: usize,
    sections: usize,
    symbols: usize,
}

pub fn run(tally: &mut Tally) {
    let title = "files linked from Debian's PowerPC libraries, imported, beside readelf";
    let there = Path::new(LIBRARIES).join("libc.a").exists();
    if !there || Command::new(LINKER).arg("--version").output().is_err() {
        println!("{title}: not tried, {LINKER} or {LIBRARIES}/libc.a isn't installed");
        return;
    }
    tally.begin(title);
    let folder = std::env::temp_dir().join(format!("mizhakkon-imported-{}", std::process::id()));
    let mut counts = Counts::default();
    let mut all = || -> Result<(), String> {
        fs::create_dir_all(&folder).map_err(|e| e.to_string())?;
        for (libraries, functions) in FILES {
            imported(&folder, libraries, functions, &mut counts, tally)?;
        }
        Ok(())
    };
    if let Err(why) = all() {
        tally.difference("-", &[why]);
    }
    // What can't be removed is the system's to clear.
    let _ = fs::remove_dir_all(&folder);
    tally.end(&[0]);
    let Counts { files, refused, bytes, sections, symbols } = counts;
    println!(
        "          {files} files, {refused} of them accepted only without the linker's own \
         symbols, {bytes} bytes, {sections} sections, {symbols} symbols"
    );
}

/// Links a file and imports it, as it is and, where it is refused with 5, without the symbols
/// that lie outside.
fn imported(
    folder: &Path,
    libraries: &[&str],
    functions: &[&str],
    counts: &mut Counts,
    tally: &mut Tally,
) -> Result<(), String> {
    let (linked, left) = (folder.join("linked.elf"), folder.join("left.elf"));
    link(&linked, libraries, functions)?;
    let mut path = linked;
    let mut table = Table::of(&path)?;
    let outside = table.outside();
    if let Some((first, _)) = outside.first() {
        let word = document::word(Some(document::Refusal {
            number: 5,
            section: 0,
            address: *first as u32,
        }));
        let answer = import(&fs::read(&path).map_err(|e| e.to_string())?, tally);
        if answer.word != word {
            return Err(format!("{functions:?}: {}", document::describe(answer.word)));
        }
        let mut command = Command::new(COPIER);
        command.args(outside.iter().map(|(_, name)| format!("--strip-symbol={name}")));
        run_one(command.arg(&path).arg(&left))?;
        path = left;
        table = Table::of(&path)?;
        counts.refused += 1;
    }
    let file = fs::read(&path).map_err(|e| e.to_string())?;
    if !LENGTHS.contains(&file.len()) {
        return Err(format!("{functions:?}: a file of {} bytes", file.len()));
    }
    let answer = import(&file, tally);
    if answer.word != 0 {
        return Err(format!("{functions:?}: {}", document::describe(answer.word)));
    }
    let (sections, symbols) = rows(cut(&answer));
    same(&sections, &table.sections())?;
    same(&symbols, &table.symbols())?;
    goes_on(&file, &answer)?;
    counts.files += 1;
    counts.bytes += file.len();
    counts.sections += sections.len();
    counts.symbols += symbols.len();
    Ok(())
}

fn import(file: &[u8], tally: &mut Tally) -> Answer {
    let case = Case { file: file.to_vec(), lent: LENT.to_vec(), ..Case::default() };
    compare::<ImportElf>(&case, None, tally);
    given::<ImportElf>(&case)
}

fn same(given: &Rows, right: &Rows) -> Result<(), String> {
    let differing = given.iter().zip(right).find(|(given, right)| given != right);
    match differing {
        Some((given, right)) => Err(format!("readelf has {right}, given {given}")),
        None if given.len() != right.len() => {
            Err(format!("readelf has {}, given {}", right.len(), given.len()))
        }
        None => Ok(()),
    }
}

/// The outputs before the counts, cut to them.
fn cut(answer: &Answer) -> [&[u8]; 5] {
    let counts = &answer.outputs[5];
    std::array::from_fn(|i| {
        &answer.outputs[i][..[2, 1, 15, 4, 20][i] * half_at(counts, 2 * i) as usize]
    })
}

/// The tables pass `check_tables` with the file as image.
fn goes_on(image: &[u8], answer: &Answer) -> Result<(), String> {
    let [name_ends, name_bytes, sections, section_places, symbols] = cut(answer);
    let none: &[u8] = &[];
    let tables = Tables {
        name_ends,
        name_bytes,
        sections,
        section_places,
        image,
        symbols,
        relocations: none,
        splits: none,
        units: none,
    };
    match entries::check_tables(&tables) {
        0 => Ok(()),
        word => Err(format!("check_tables: {}", document::describe(word))),
    }
}

/// What `readelf -SsW` prints, as words: a section's number, name, type, address, offset, size and
/// flags; a symbol's value, size, type, binding, section and name.
struct Table {
    headers: Vec<(usize, [String; 6])>,
    entries: Vec<[String; 6]>,
}

impl Table {
    fn of(path: &Path) -> Result<Self, String> {
        let text = run_one(Command::new(READER).arg("-SsW").arg(path))?;
        let mut table = Self { headers: vec![], entries: vec![] };
        let mut symbols = false;
        for line in text.lines() {
            symbols |= line.starts_with("Symbol table '.symtab'");
            let own = |word: &&str| word.to_string();
            if let Some((number, rest)) = line.strip_prefix("  [").and_then(|l| l.split_once(']')) {
                let words: Vec<&str> = rest.split_whitespace().collect();
                // The null section has no name, and a section may have no flags.
                let (Ok(number), [name, kind, address, offset, size, _, rest @ ..]) =
                    (number.trim().parse(), &words[..])
                else {
                    continue;
                };
                let flags = if rest.len() == 4 { rest[0] } else { "" };
                let words = [name, kind, address, offset, size, &flags].map(own);
                table.headers.push((number, words));
            } else if symbols {
                let words: Vec<&str> = line.split_whitespace().collect();
                if let [number, value, size, kind, binding, _, section, name @ ..] = &words[..]
                    && number
                        .strip_suffix(':')
                        .is_some_and(|n| n.parse::<usize>().is_ok_and(|n| n > 0))
                {
                    let name = name.first().unwrap_or(&"");
                    table.entries.push([value, size, kind, binding, section, name].map(own));
                }
            }
        }
        Ok(table)
    }

    /// The allocated sections.
    fn taken(&self) -> Vec<&(usize, [String; 6])> {
        self.headers.iter().filter(|(_, words)| words[5].contains('A')).collect()
    }

    fn sections(&self) -> Rows {
        let row = |(_, [name, kind, address, offset, size, flags]): &&(usize, [String; 6])| {
            let no_bits = kind == "NOBITS";
            let kind = match () {
                _ if no_bits => 3,
                _ if flags.contains('X') => 0,
                _ if flags.contains('W') => 1,
                _ => 2,
            };
            let (offset, size) = (hex(offset), hex(size));
            let place = if no_bits { 0 } else { offset };
            Section { name, kind, address: hex(address), size, offset, place }.row()
        };
        self.taken().iter().map(row).collect()
    }

    /// The number among the sections taken over, and their numbers.
    fn home(&self, section: &str) -> Option<usize> {
        let number: usize = section.parse().ok()?;
        self.taken().iter().position(|(taken, _)| *taken == number)
    }

    fn symbols(&self) -> Rows {
        let row = |[value, size, kind, binding, section, name]: &[String; 6]| {
            // A section symbol has no name in the file; readelf shows the section's.
            let name = if kind == "SECTION" { "" } else { name };
            let size = number(size);
            let home = self.home(section).map_or(0xFFFF, |home| home as u16);
            let kind = match &kind[..] {
                "FUNC" => 1,
                "OBJECT" => 2,
                "SECTION" => 3,
                _ => 0,
            };
            let flags = (binding == "LOCAL") as u16;
            Symbol { name, home, address: hex(value), size, known: (size > 0) as u8, kind, flags }
                .row()
        };
        self.entries.iter().map(row).collect()
    }

    /// The symbols outside the section that they name: number and name.
    fn outside(&self) -> Vec<(usize, &str)> {
        let taken = self.taken();
        let outside = |[value, _, _, _, section, _]: &[String; 6]| {
            self.home(section).is_some_and(|home| {
                let (_, [_, _, address, _, size, _]) = taken[home];
                !(hex(address)..=hex(address) + hex(size)).contains(&hex(value))
            })
        };
        let all = self.entries.iter().enumerate().filter(|(_, entry)| outside(entry));
        all.map(|(number, entry)| (number, &entry[5][..])).collect()
    }
}

fn hex(word: &str) -> u32 {
    u32::from_str_radix(word, 16).expect("readelf's number")
}

/// Decimal, or hexadecimal where readelf says so.
fn number(word: &str) -> u32 {
    word.strip_prefix("0x").map_or_else(|| word.parse().expect("readelf's number"), hex)
}

fn link(path: &PathBuf, libraries: &[&str], functions: &[&str]) -> Result<(), String> {
    let mut command = Command::new(LINKER);
    // A branch to a function that isn't there must reach address 0.
    command.args(["-static", "-e", "0", "-Ttext-segment=0x10000", "-z", "max-page-size=0x1000"]);
    command.args(["--unresolved-symbols=ignore-all", "--defsym=__stack_chk_fail_local=0", "-o"]);
    command.arg(path);
    command.args(functions.iter().flat_map(|name| ["-u", name]));
    command.args(libraries.iter().map(|name| Path::new(LIBRARIES).join(name)));
    run_one(&mut command).map(|_| ())
}

/// What a command prints.
fn run_one(command: &mut Command) -> Result<String, String> {
    let run = command.output().map_err(|e| format!("{command:?}: {e}"))?;
    if !run.status.success() {
        return Err(format!("{command:?}: {}", String::from_utf8_lossy(&run.stderr)));
    }
    Ok(String::from_utf8_lossy(&run.stdout).into_owned())
}
