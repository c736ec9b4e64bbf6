//! Record files as readable text, a line for each record, and back: the command `records`.
//! docs/RECORDS.md has the form.
pub mod check;
mod fields;
mod pack;
mod show;

use std::{
    io::{Read, Write, stdin, stdout},
    process::ExitCode,
};

pub use fields::{byte_words, bytes_of};
pub use pack::pack;
pub use show::show;

use crate::{
    document::{listing::printed, run::CEILINGS},
    not_done,
};

/// What is given on standard input, packed, shown or listed, on standard output.
pub fn command(name: &str) -> ExitCode {
    let mut input = vec![];
    if let Err(e) = stdin().read_to_end(&mut input) {
        return not_done(&format!("standard input: {e}"));
    }
    let output = match name {
        "pack" => match String::from_utf8(input) {
            Ok(text) => pack(&text),
            Err(_) => Err("the text holds bytes that are no characters".to_string()),
        },
        "show" => show(&input).map(String::into_bytes),
        _ => Ok(printed(&input, &CEILINGS).into_bytes()),
    };
    match output.map(|bytes| stdout().write_all(&bytes)) {
        Ok(Ok(())) => ExitCode::SUCCESS,
        Ok(Err(e)) => not_done(&format!("standard output: {e}")),
        Err(why) => not_done(&why),
    }
}

#[cfg(test)]
mod tests {
    use super::check;
    use crate::tally::Tally;

    fn holds(group: fn(&mut Tally)) {
        let mut tally = Tally::default();
        group(&mut tally);
        assert!(tally.compared > 0 && tally.differ == 0);
    }

    #[test]
    fn every_form_comes_back() {
        holds(check::forms);
    }

    #[test]
    fn random_files_come_back() {
        holds(check::random_files);
    }

    #[test]
    fn a_wrong_line_gets_its_number_and_what_is_wrong() {
        holds(check::wrong_lines);
    }

    #[test]
    fn a_cut_file_names_the_record() {
        holds(check::cut_files);
    }
}
