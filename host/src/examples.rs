//! The inputs that readers are shown: examples/, each as text, records and listing, and the
//! pages with inputs and listings, which must belong together.
use std::{
    fs,
    path::{Path, PathBuf},
};

use oracle::answers;

use crate::{
    document::{
        listing::{listed_as_the_rust, printed},
        load::load,
        run::CEILINGS,
    },
    record_text::{pack, show},
    tally::Tally,
};

fn root() -> PathBuf {
    Path::new(env!("CARGO_MANIFEST_DIR")).join("..")
}

pub fn run(tally: &mut Tally) {
    tally.begin("examples, as text, records and listing");
    for name in ["document-01", "firmware", "refused"] {
        if let Err(why) = example(name, tally) {
            tally.difference("-", &[format!("examples/{name}: {why}")]);
        }
    }
    for (name, wanted) in PAGES {
        if let Err(why) = page(name, wanted, tally) {
            tally.difference("-", &[format!("{name}: {why}")]);
        }
    }
    tally.end(&[]);
}

fn example(name: &str, tally: &mut Tally) -> Result<(), String> {
    let file = |ending: &str| {
        let path = root().join("examples").join(format!("{name}.{ending}"));
        fs::read(&path).map_err(|e| format!("{}: {e}", path.display()))
    };
    let (text, records, listing) = (file("txt")?, file("rec")?, file("lst")?);
    let text = String::from_utf8(text).map_err(|e| e.to_string())?;
    same("the text packed", &pack(&text)?, &records)?;
    same("the records shown", show(&records)?.as_bytes(), text.as_bytes())?;
    lists(&records, &listing, tally)
}

/// The reading's listing, and the Rust's where it gives one.
fn lists(records: &[u8], listing: &[u8], tally: &mut Tally) -> Result<(), String> {
    // The Rust can't be given a file that the table checks refuse.
    let asked = load(records).ok().and_then(|_| answers::run(records));
    let note = match (listed_as_the_rust(records, &CEILINGS), asked) {
        (Ok(reading), Some(Ok(rust))) => {
            same("the Rust's listing", rust.as_bytes(), reading.as_bytes())?;
            ", as the Rust"
        }
        (Ok(_), Some(Err(_))) => return Err("the Rust stops".to_string()),
        (Err(_), Some(Ok(_))) => return Err("the Rust gives a listing".to_string()),
        (Err(_), Some(Err(_))) => ", the Rust stops too",
        (_, None) => "",
    };
    tally.count(refusal_number(listing), note);
    same("the listing", printed(records, &CEILINGS).as_bytes(), listing)
}

/// 0 for a listing.
fn refusal_number(listing: &[u8]) -> u16 {
    let text = String::from_utf8_lossy(listing);
    let number = text.strip_prefix("refused ").and_then(|rest| rest.split(' ').next());
    number.and_then(|word| word.parse().ok()).unwrap_or(0)
}

fn same(what: &str, given: &[u8], wanted: &[u8]) -> Result<(), String> {
    if given == wanted {
        return Ok(());
    }
    let given = String::from_utf8_lossy(given);
    let wanted = String::from_utf8_lossy(wanted);
    Err(format!("{what} is\n{given}\nand not\n{wanted}"))
}

/// Pages with inputs, and how many each has.
const PAGES: [(&str, usize); 2] = [("docs/ALIGNMENT.md", 4), ("examples/refusals.md", 29)];

/// Each block of records there, and the block of its listing after it.
fn page(name: &str, wanted: usize, tally: &mut Tally) -> Result<(), String> {
    let page = fs::read_to_string(root().join(name)).map_err(|e| e.to_string())?;
    let (records, listings) = (blocks(&page, "records"), blocks(&page, "listing"));
    if [records.len(), listings.len()] != [wanted; 2] {
        return Err(format!("{} inputs, {} listings", records.len(), listings.len()));
    }
    for (text, listing) in records.iter().zip(&listings) {
        let file = pack(text)?;
        same("the records shown", show(&file)?.as_bytes(), text.as_bytes())?;
        lists(&file, listing.as_bytes(), tally)?;
    }
    Ok(())
}

/// The text between "```kind" and "```".
fn blocks(page: &str, kind: &str) -> Vec<String> {
    let mut blocks = vec![];
    let mut lines = page.lines();
    while let Some(line) = lines.next() {
        if line.strip_prefix("```") == Some(kind) {
            let block = lines.by_ref().take_while(|line| *line != "```");
            blocks.push(block.map(|line| format!("{line}\n")).collect());
        }
    }
    blocks
}
