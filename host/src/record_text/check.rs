//! The forms that docs/RECORDS.md names, each packed and shown again; random files; wrong
//! lines and cut files.
use super::{pack, show};
use crate::{random::Random, stage::run::files, tally::Tally};

pub fn run(tally: &mut Tally) {
    tally.begin("records as text and back");
    forms(tally);
    random_files(tally);
    wrong_lines(tally);
    cut_files(tally);
    tally.end(&[]);
}

/// Stand before each form.
const NAMES: &str = "name a.c\nname .data\nname \"\"\nname \\x23hash\nname back\\x5Cslash\n";

const FORMS: [&str; 18] = [
    "name bad\\x20byte",
    "section .data data 00001000 4 00000040 01020304",
    "section .data bss 80001000 4096 00000000",
    "section .data 7 00000000 0 00000000",
    "section #9 code 00001000 12 00000000 00*8 01020304",
    "section a.c code 00001000 17 00000000 000102030405060708090A0B0C0D0E0F 10",
    "symbol \"\" none F0000000 0 unknown",
    "symbol a.c 0 00001000 4 object known=0 flags=Local+Stripped+0x8100 align=32",
    "symbol back\\x5Cslash 65534 00001000 4 9 known=2",
    "relocation 0 00001004 6 3 -9223372036854775808",
    "relocation 0 00001004 255 4294967295 5 module=7",
    "split 0 00001008..00001010 a.c",
    "split 65535 00001008..00000000 \\x23hash align=3 common auto skip rename=.data",
    "split 1 00001008..00001010 #7 flags=8 rename=#8",
    "unit a.c",
    "unit a.c auto order=-5",
    "unit a.c auto=2 unused-order=7",
    "unit a.c order=7 has-order=2",
];

pub fn forms(tally: &mut Tally) {
    for form in FORMS {
        comes_back(&format!("{NAMES}{form}\n"), tally);
    }
    let with_comments = "# a comment\n\nname  a.c \n# another\n";
    tally.count(0, ", with comments");
    if pack(with_comments) != pack("name a.c\n") {
        tally.difference("-", &["comments or blanks add something".to_string()]);
    }
}

fn comes_back(text: &str, tally: &mut Tally) {
    tally.count(0, ", a form");
    let back = pack(text).and_then(|file| show(&file));
    if back.as_deref() != Ok(text) {
        tally.difference("-", &[text.to_string(), format!("comes back as {back:?}")]);
    }
}

const FILES: usize = 3000;

/// Every file with whole records comes back byte for byte.
pub fn random_files(tally: &mut Tally) {
    let mut r = Random::new(1);
    for _ in 0..FILES {
        let file = files::random(&mut r);
        let Ok(text) = show(&file) else {
            tally.reach(1, ", not whole records");
            continue;
        };
        tally.count(0, ", a random file");
        if pack(&text).as_ref() != Ok(&file) {
            tally.difference("-", &[text, "doesn't give its file back".to_string()]);
        }
    }
}

/// Lines, and a part of what is said of each.
const WRONG: [(&str, &str); 18] = [
    ("nam a", "`nam` is no kind of record"),
    ("name", "the name is missing"),
    ("name #a", "write \\x23"),
    ("name a\\y", "a backslash without xHH"),
    ("section b.c data 1000 0 0", "no line `name b.c` stands before this one"),
    ("section .data date 1000 0 0", "`date` is no kind: code, data, read-only, bss"),
    ("section .data data 1000 2 0 01", "1 bytes are given, and there must be 2"),
    ("section .data bss 1000 2 0 0102", "2 bytes are given, and there must be 0"),
    ("section .data data 1000 1 0 0G", "isn't pairs of hexadecimal digits"),
    ("section .data data 123456789 0 0", "is no address"),
    ("symbol a.c 0 1000 4 object flags=Locale", "`Locale` is no flag"),
    ("symbol a.c 0 1000 4 object align=4 known=0", "`known=0` is no field of a symbol, or"),
    ("relocation 0 1000 0 0", "the addend is missing"),
    ("relocation 0 1000 256 0 0", "the kind is `256`, and must be a decimal number up to 255"),
    ("split 0 1000-1008 a.c", "`1000-1008` isn't START..END"),
    ("split 65536 1000..1008 a.c", "the section is `65536`"),
    ("split 0 1000..1008 a.c hidden", "`hidden` is no field of a split, or"),
    ("unit a.c order=2147483648", "the order is `2147483648`"),
];

pub fn wrong_lines(tally: &mut Tally) {
    for (line, why) in WRONG {
        tally.count(0, ", a wrong line");
        let packed = pack(&format!("{NAMES}\n{line}\n"));
        let said = |error: &String| error.starts_with("line 7: ") && error.contains(why);
        if !packed.as_ref().is_err_and(said) {
            tally.difference("-", &[line.to_string(), format!("gives {packed:?}")]);
        }
    }
}

pub fn cut_files(tally: &mut Tally) {
    let file = pack(NAMES).expect("right lines");
    let cut = &file[..file.len() - 1];
    tally.count(0, ", a cut file");
    let shown = show(cut);
    if shown != Err("record 4 (number 1): payload cut".to_string()) {
        tally.difference("-", &[format!("a cut file gives {shown:?}")]);
    }
}
