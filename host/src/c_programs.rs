//! The C programs of c/, over include/mizhakkon.h.
use std::{path::Path, process::Command};

use crate::tally::Tally;

/// One comparison: c/run.sh must find no difference.
pub fn run(tally: &mut Tally) {
    tally.begin("C programs");
    tally.compared += 1;
    let script = Path::new(env!("CARGO_MANIFEST_DIR")).join("c/run.sh");
    let run = Command::new("sh").arg(script).arg(env!("ENTRIES_FOLDER")).status();
    match run {
        Ok(status) if status.success() => {}
        Ok(status) => tally.difference("-", &[format!("run.sh: {status}")]),
        Err(e) => tally.difference("-", &[format!("run.sh: {e}")]),
    }
    tally.end(&[]);
}
