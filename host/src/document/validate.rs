//! The check of the splits: the entry `validate_splits`.
use super::{
    Refusal,
    check_tables::{LIMITS, Limits, Tables, checked},
    image::{Image, Split, splits_in},
    outputs::Answer,
    word,
};

pub fn answer(t: &Tables) -> Answer {
    let passed = checked(t, &Limits { image: false, ..LIMITS });
    let passed = passed.and_then(|_| validate(&Image::of(t), &splits_in(t.splits)));
    Answer { word: word(passed.err()), outputs: vec![] }
}

pub fn validate(image: &Image, splits: &[Split]) -> Result<(), Refusal> {
    for (i, split) in splits.iter().enumerate() {
        let before = i.checked_sub(1).map(|i| &splits[i]);
        let before = before.filter(|before| before.section == split.section);
        if let Some(number) = fault(image, split, before) {
            return Err(Refusal { number, section: split.section, address: split.start });
        }
    }
    Ok(())
}

fn fault(image: &Image, split: &Split, before: Option<&Split>) -> Option<u16> {
    // "50 overlap"
    if before.is_some_and(|before| split.start < before.end) {
        return Some(50);
    }
    // "51 end 0 or below start"
    if split.end == 0 || split.end < split.start {
        return Some(51);
    }
    // "52 start inside symbol", "53 end inside symbol"
    if inside_symbol(image, split.section, split.start) {
        return Some(52);
    }
    inside_symbol(image, split.section, split.end).then_some(53)
}

/// "Only the last sized unstripped symbol below .. is looked at."
fn inside_symbol(image: &Image, section: u16, address: u32) -> bool {
    let below = image.symbols_below(section, address).iter();
    let last = below.rev().find(|s| s.sized() && !s.stripped());
    last.is_some_and(|s| address < s.end())
}
