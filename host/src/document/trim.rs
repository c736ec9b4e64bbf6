//! Trimming ends: the entry `trim_splits`.
use super::{
    Refusal,
    check_tables::{LIMITS, Limits, Tables, checked},
    common::places,
    ends::{alignment, splitting_end},
    image::{Image, Split, split_table, splits_in},
    outputs::{Answer, accepted, refused},
};

/// `lent`: the splits, the counts.
pub fn answer(t: &Tables, lent: &[usize]) -> Answer {
    let trimmed = || {
        checked(t, &Limits { splits: places(lent[0]), ..LIMITS })?;
        trim(&Image::of(t), &splits_in(t.splits))
    };
    match trimmed() {
        Ok(splits) => accepted(vec![split_table(&splits)], lent),
        Err(refusal) => refused(refusal, lent),
    }
}

pub fn trim(image: &Image, splits: &[Split]) -> Result<Vec<Split>, Refusal> {
    // "after every 11 of the stage": all falls are found before any is carried out.
    let mut falls = vec![];
    for i in 0..splits.len() {
        falls.extend(fall(image, splits, i)?.map(|end| (&splits[i], end)));
    }
    let mut trimmed = splits.to_vec();
    for (split, end) in falls {
        fallen(&mut trimmed, split, end)?;
    }
    for number in 0..image.sections.len() as u16 {
        cut(image, number, &mut trimmed)?;
    }
    Ok(trimmed)
}

pub fn align_up(address: u32, alignment: u32) -> u32 {
    address.div_ceil(alignment) * alignment
}

/// Where the end of split `i` falls to, if it does.
fn fall(image: &Image, splits: &[Split], i: usize) -> Result<Option<u32>, Refusal> {
    let split = &splits[i];
    // "The end falls to the end of the last such symbol in start..end, aligned up."
    let symbols = image.symbols_in(split.section, split.start, split.end)?;
    let Some(last) = symbols.iter().rev().find(|s| s.sized() && !s.stripped()) else {
        return Ok(None);
    };
    let end = align_up(last.end(), alignment(image, split, split.start)?);
    if end >= split.end {
        return Ok(None);
    }
    // "Where an end falls, the alignment of the section's next split is still asked, from
    // this split's start."
    if let Some(next) = splits.get(i + 1).filter(|next| next.section == split.section) {
        alignment(image, next, split.start)?;
    }
    Ok(Some(end))
}

/// "It falls in the last split at that start"; 54 if that one "ends at or below it and
/// isn't open".
fn fallen(trimmed: &mut [Split], split: &Split, end: u32) -> Result<(), Refusal> {
    let Split { section, start, .. } = *split;
    let at_start = |s: &&mut Split| s.section == section && s.start == start;
    let last = trimmed.iter_mut().rev().find(at_start).unwrap();
    if last.end != 0 && last.end <= start {
        return Err(Refusal { number: 54, section, address: start });
    }
    last.end = end;
    Ok(())
}

/// "Then, where the splitting end isn't the section's end, a last split that ends above
/// it is cut to it."
fn cut(image: &Image, number: u16, trimmed: &mut [Split]) -> Result<(), Refusal> {
    let end = splitting_end(image, number)?;
    if end == image.section(number).end() {
        return Ok(());
    }
    let last = trimmed.iter_mut().rev().find(|s| s.section == number);
    if let Some(last) = last.filter(|last| last.end > end) {
        last.end = end;
    }
    Ok(())
}
