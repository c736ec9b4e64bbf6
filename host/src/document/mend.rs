//! Mending overlapping lists: document 02, (m), the entry `mend_splits`.
use super::{
    Refusal,
    check_tables::{LIMITS, Limits, Tables, checked},
    common::places,
    image::{Image, Section, Split, split_table, splits_in},
    outputs::{Answer, refused},
};
use crate::bytes::put_half;

/// `lent`: the splits, the lines, the counts.
pub fn answer(t: &Tables, lent: &[usize]) -> Answer {
    let mended = || {
        checked(t, &Limits { image: false, splits: places(lent[0]), ..LIMITS })?;
        let ends: Vec<u32> = Image::of(t).sections.iter().map(Section::end).collect();
        let (splits, lines) = mend(&ends, &splits_in(t.splits))?;
        // "80, the lines don't fit, last"
        if lines.len() > lent[1] { Err(refusal(80)) } else { Ok((splits, lines)) }
    };
    match mended() {
        Ok((splits, lines)) => written(&splits, lines, lent[2]),
        Err(refusal) => refused(refusal, lent),
    }
}

fn refusal(number: u16) -> Refusal {
    Refusal { number, section: 0, address: 0 }
}

/// "Here and later, lent bytes past an accepted output stay": the outputs end with what
/// is written.
fn written(splits: &[Split], lines: String, counts_len: usize) -> Answer {
    let (table, count) = split_table(splits);
    let mut counts = vec![];
    for number in [count, lines.len()].into_iter().take(counts_len / 2) {
        put_half(&mut counts, u16::try_from(number).unwrap());
    }
    Answer { word: 0, outputs: vec![table, lines.into_bytes(), counts] }
}

/// The mended list and its lines. `ends`: where each section ends.
pub fn mend(ends: &[u32], list: &[Split]) -> Result<(Vec<Split>, String), Refusal> {
    let mut mended = list.to_vec();
    // "within each section in order of start"
    for (number, section_end) in ends.iter().enumerate() {
        let mut own: Vec<&mut Split> =
            mended.iter_mut().filter(|s| s.section as usize == number).collect();
        let starts: Vec<u32> = own.iter().map(|s| s.start).collect();
        for (i, split) in own.iter_mut().enumerate() {
            let next = starts.get(i + 1).copied();
            // "an end that is 0, below its start or above the next start"
            let above_next = next.is_some_and(|next| split.end > next);
            if split.end == 0 || split.end < split.start || above_next {
                // "by the next start, or by the section's end for the last split"
                split.end = next.unwrap_or(*section_end);
                // "86, a new end would be 0 or below its start"
                if split.end == 0 || split.end < split.start {
                    return Err(refusal(86));
                }
            }
        }
    }
    // "a line .. for each end it replaced, in table order"
    let replaced = list.iter().zip(&mended).filter(|(old, new)| old.end != new.end);
    let lines = replaced.map(|(old, new)| {
        let (section, start) = (old.section, old.start);
        format!("{section} {start:08X} {:08X} {:08X}\n", old.end, new.end)
    });
    let lines = lines.collect();
    Ok((mended, lines))
}
