//! Whole runs whose printed answers are written by hand: inputs on which document 01 could be
//! read otherwise, in the form of docs/RECORDS.md.
use super::{
    super::{AS_WRITTEN, compare},
    SplitFile,
    store::whole,
};
use crate::{
    document::{listing::printed, run::CEILINGS},
    record_text::pack,
    tally::Tally,
};

pub fn run(tally: &mut Tally) {
    tally.begin("split_file, listings written by hand");
    for (text, right) in POINTS {
        point(text, right, tally);
    }
    for (text, right) in repeated() {
        point(&text, right, tally);
    }
    tally.end(&[]);
}

fn point(text: &str, right: &str, tally: &mut Tally) {
    let file = pack(text).expect("the texts are right");
    let given = printed(&file, &CEILINGS);
    if given != right {
        let lines = [text.to_string(), format!("must print {right}"), format!("prints {given}")];
        tally.difference("-", &lines);
    }
    compare::<SplitFile>(&whole(&file), Some(AS_WRITTEN), tally);
}

/// Records again and again, to above a ceiling.
fn repeated() -> Vec<(String, &'static str)> {
    vec![
        // The place is printed as an address whatever it counts.
        (format!("name a\n{}", "unit a\n".repeat(1025)), "refused 2 0 00000401\n"),
        // The partial list has the ceiling, even if all would become one split.
        (format!("name a\n{}", "split 0 0..0 a\n".repeat(1025)), "refused 2 0 00000401\n"),
        // Kind 1 has no wrong length for 1.
        (format!("name {}\n", "a".repeat(129)), "refused 3 0 00000000\n"),
    ]
}

const POINTS: [(&str, &str); 27] = [
    ("", "total 0 0 0\n"),
    // The empty name is a name that only symbols may use.
    ("name \"\"\n", "total 0 0 0\n"),
    ("name \"\"\nunit \"\"\n", "refused 8 0 00000001\n"),
    // A repeated name is counted as a record.
    ("name a\nname a\nname \\x20\n", "refused 3 0 00000002\n"),
    ("name a\nsymbol a none F0000000 1 unknown known=0\n", "refused 5 0 00000001\n"),
    ("name a\nsplit 65535 1000..1008 a\n", "refused 20 65535 00001000\n"),
    // A split may stand before its section.
    (
        "name a\nname .data\nsplit 0 1000..1008 a\nsection .data data 1000 8 0 00*8\n",
        "unit 0 a 8\npiece 0 .data 00001000 8 8 0\ntotal 1 1 8\n",
    ),
    ("name .ctors\nsection .ctors data 100 0 0\n", "total 0 0 0\n"),
    ("name .ctors\nsection .ctors data 100 3 0 000000\n", "refused 10 0 00000100\n"),
    // The gap behind a common split isn't common.
    (
        "name .bss\nname a\nsection .bss bss 2000 24 0\nsplit 0 2000..2008 a common\n",
        "unit 0 a 0\nunit 1 auto_00_00002008_bss 16\npiece 0 .bss 00002008 16 8 65535\n\
         total 2 1 16\n",
    ),
    // A common symbol of known size is in its unit's figure, one of unknown size isn't.
    (
        "name .bss\nname a\nname x\nname y\nsection .bss bss 2000 24 0\n\
         symbol y 0 2000 8 object known=0\nsymbol x 0 2010 6 object\n\
         split 0 2000..2018 a common\n",
        "unit 0 a 6\nsym y common 00000004 8\nsym x common 00000004 6\ntotal 1 0 6\n",
    ),
    // An open split doesn't survive a run.
    (
        "name .data\nname b.c\nsection .data data 1000 16 0 00*16\nsplit 0 1008..0 b.c\n",
        "refused 51 0 00001008\n",
    ),
    // Sums pass 32 bits.
    (
        "name .bss\nname a\nsection .bss bss 0 4026531840 0\nsection .bss bss 0 4026531840 0\n\
         split 0 0..F0000000 a\nsplit 1 0..F0000000 a\n",
        "unit 0 a 8053063680\npiece 0 .bss 00000000 4026531840 8 0\n\
         piece 1 .bss 00000000 4026531840 8 1\ntotal 1 2 8053063680\n",
    ),
    // A place behind the last split is filled by the default alignment alone.
    (
        "name .data\nname a\nsection .data data 1000 12 0 00*12\nsplit 0 1000..1009 a\n",
        "unit 0 a 9\npiece 0 .data 00001000 9 8 0\ntotal 1 1 9\n",
    ),
    (
        "name .data\nname a\nsection .data data 1000 12 0 01*12\nsplit 0 1000..1009 a\n",
        "refused 73 0 00001000\n",
    ),
    // A split below its section.
    (
        "name .data\nname a\nsection .data data 1000 16 0 00*16\nsplit 0 F00..1010 a\n",
        "refused 40 0 00001000\n",
    ),
    // Empty names are a repeated name.
    (
        "name .data\nname \"\"\nsection .data data 1000 16 0 00*16\n\
         symbol \"\" 0 1004 0 unknown\nsymbol \"\" 0 1008 0 unknown\n",
        "unit 0 auto_00_00001000_data 8\npiece 0 .data 00001000 8 8 65535\nsym - 0 00000004 0\n\
         unit 1 auto_00_00001008_data 8\npiece 0 .data 00001008 8 8 65535\nsym - 0 00000000 0\n\
         total 2 2 16\n",
    ),
    // A gap's name that a hand split has: the gap changes nothing.
    (
        "name .data\nname auto_00_00001000_data\nsection .data data 1000 16 0 01*16\n\
         split 0 1008..1010 auto_00_00001000_data\n",
        "refused 71 0 00001000\n",
    ),
    // A section that is shorter than its padding has no split.
    ("name .data\nsection .data data 1001 2 0 0000\n", "refused 70 0 00001001\n"),
    (
        "name .data\nname a\nsection .data data 1004 12 0 00*12\nsplit 0 1008..1010 a\n",
        "refused 71 0 00001004\n",
    ),
    // All gaps' refusals come before any gap enters; sections in their order.
    (
        "name .data\nname .ctors\nname a\nname b\nsection .data data 1000 24 0 00*24\n\
         section .ctors data 100 3 0 000000\nsplit 0 1000..1010 a\nsplit 0 1008..1010 b\n",
        "refused 40 0 00001010\n",
    ),
    // Order numbers: of units without splits too, those that aren't used not.
    ("name a\nname b\nunit a order=5\nunit b order=5\n", "refused 60 0 00000000\n"),
    ("name a\nname b\nunit a unused-order=5\nunit b order=5\n", "total 0 0 0\n"),
    // A unit that is to stand before itself.
    (
        "name .data\nname a\nsection .data data 1000 8 0 00*8\nsplit 0 1000..1008 a\n\
         unit a order=1\nunit a order=2\n",
        "refused 61 0 00000000\n",
    ),
    // A skipped split's unit is listed, without a piece.
    (
        "name .data\nname a\nsection .data data 1000 8 0 00*8\nsplit 0 1000..1008 a skip\n",
        "unit 0 a 0\ntotal 1 0 0\n",
    ),
    // The piece has the new name; the relocation's offset is rounded down, its target the
    // image's symbol.
    (
        "name .data\nname a\nname r\nsection .data data 1002 6 0 00*6\nsymbol a none 0 0 unknown\n\
         relocation 0 1004 2 0 -1\nsplit 0 1002..1008 a align=2 rename=r\n",
        "unit 0 a 6\npiece 0 r 00001002 6 2 0\nreloc 0 00000000 2 0 -1\ntotal 1 1 6\n",
    ),
    // Linker labels aren't listed, and neither is a symbol at a split's end.
    (
        "name .data\nname a\nname _f_data\nname x\nsection .data data 1000 8 0 00*8\n\
         symbol _f_data 0 1000 0 unknown\nsymbol x 0 1008 0 unknown\nsplit 0 1000..1008 a\n",
        "unit 0 a 8\npiece 0 .data 00001000 8 8 0\ntotal 1 1 8\n",
    ),
];
