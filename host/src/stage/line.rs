//! A case of a stage entry and the right answer as a line of text.
use super::{Beside, Case, Stage, made};
use crate::{
    document::{self, outputs::Answer},
    entries::stages::StageEntry,
    random::Random,
    text,
};

fn format_of(entry: &StageEntry) -> String {
    let fields = |names: &[&str], value: &str| -> String {
        names.iter().map(|name| format!(" {name}{value}")).collect()
    };
    format!(
        "# A line is a case: the entry's name, then fields, each a word and its value. Tables are\n\
         # hexadecimal bytes (- for none), the numbers and the lengths of the outputs decimal:\n\
         #  {tables}{numbers}{lengths}\n\
         # and the right answer: the word (number, section, address in 4, 4 and 8 hexadecimal\n\
         # digits), and what the outputs hold then:\n\
         #   word W{left}\n",
        tables = fields(entry.inputs, " B"),
        numbers = fields(entry.numbers, " N"),
        lengths = fields(entry.outputs, "_len N"),
        left = fields(entry.outputs, " B"),
    )
}

pub fn put(entry: &StageEntry, case: &Case, right: &Answer) -> String {
    let mut line = entry.name.to_string();
    for name in entry.inputs {
        text::put_bytes(&mut line, name, case.table(name));
    }
    for (name, number) in entry.numbers.iter().zip(&case.numbers) {
        text::put(&mut line, name, [*number as u64]);
    }
    for (name, len) in entry.outputs.iter().zip(&case.lent) {
        text::put(&mut line, &format!("{name}_len"), [*len as u64]);
    }
    text::put_answer(&mut line, right.word);
    for (name, left) in entry.outputs.iter().zip(&right.outputs) {
        text::put_bytes(&mut line, name, left);
    }
    line
}

/// The case, and the answer if the line has one.
pub fn read(entry: &StageEntry, line: &str) -> Result<(Case, Option<Answer>), String> {
    let values = text::values(line)?;
    let number = |name: &str| -> Result<u32, String> {
        let value = values.get(name).ok_or(format!("no {name}"))?;
        value.parse().map_err(|e| format!("{name}: {e}"))
    };
    let mut case = Case::default();
    for name in entry.inputs {
        *case.table_mut(name) = text::bytes(&values, name)?;
    }
    for name in entry.numbers {
        case.numbers.push(number(name)?);
    }
    for name in entry.outputs {
        case.lent.push(number(&format!("{name}_len"))? as usize);
    }
    let Some(word) = text::answer(&values)? else {
        return Ok((case, None));
    };
    let left = entry.outputs.iter().map(|name| text::bytes(&values, name));
    let outputs = left.collect::<Result<_, _>>()?;
    Ok((case, Some(Answer { word, outputs })))
}

/// The file `stored/NAME.txt`: small cases of every number that the random ones come to.
pub fn store<S: Stage>(seed: u64) -> String {
    let mut r = Random::new(seed);
    let mut text = format_of(&S::ENTRY);
    let mut stored = [0; 256];
    for _ in 0..S::COUNT {
        let case = made::<S>(&mut r);
        let right = S::right(&case);
        let number = document::number(right.word);
        let inputs: usize = S::ENTRY.inputs.iter().map(|name| case.table(name).len()).sum();
        let (most, longest) = S::stored_of(number);
        let stored = &mut stored[number as usize];
        if *stored < most && inputs + case.lent.iter().sum::<usize>() <= longest {
            assert!(!matches!(S::beside(&case), Beside::Differs(_)), "the Rust says otherwise");
            *stored += 1;
            text += &put(&S::ENTRY, &case, &right);
            text += "\n";
        }
    }
    text
}
