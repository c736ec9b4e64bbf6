//! Marking common: the entries `update_common_splits` and `mark_common_splits`.
use super::{
    Refusal,
    check_tables::{LIMITS, Limits, Tables, checked},
    image::{COMMON, Image, Split, split_table, splits_in},
    outputs::{Answer, accepted, refused},
    records::SPLITS,
};

/// `lent`: the splits, the counts.
pub fn answer(t: &Tables, start: Option<u32>, lent: &[usize]) -> Answer {
    let limits = Limits { image: false, splits: places(lent[0]), ..LIMITS };
    let marked = || {
        checked(t, &limits)?;
        let mut splits = splits_in(t.splits);
        update_common(&Image::of(t), &mut splits, start)?;
        Ok(splits)
    };
    match marked() {
        Ok(splits) => accepted(vec![split_table(&splits)], lent),
        Err(refusal) => refused(refusal, lent),
    }
}

/// "A shorter lent output table has its own length as ceiling."
pub fn places(lent: usize) -> usize {
    SPLITS.ceiling.min(lent / SPLITS.width)
}

pub fn update_common(
    image: &Image,
    splits: &mut [Split],
    start: Option<u32>,
) -> Result<(), Refusal> {
    let sections = (0..).zip(&image.sections);
    let bss: Vec<u16> = sections.filter(|(_, s)| s.text == b".bss").map(|(n, _)| n).collect();
    let refusal = |number| Err(Refusal { number, section: 0, address: 0 });
    // "Every `.bss` split from the given address on, else from the first common one on"
    let (section, from) = match (bss[..].len(), start) {
        (1, Some(start)) => (bss[0], Some(start)),
        (1, None) => {
            let first = splits.iter().find(|s| s.section == bss[0] && s.common());
            (bss[0], first.map(|s| s.start))
        }
        // "30 several `.bss`; 31 none; both only with a start given"
        (_, None) => return Ok(()),
        (0, Some(_)) => return refusal(31),
        (_, Some(_)) => return refusal(30),
    };
    if let Some(from) = from {
        mark(splits, section, from);
    }
    Ok(())
}

pub fn mark(splits: &mut [Split], section: u16, from: u32) {
    for split in splits {
        if split.section == section && split.start >= from {
            split.flags |= COMMON;
        }
    }
}
