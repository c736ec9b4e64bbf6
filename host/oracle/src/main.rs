//! The oracle as a program; README.md has its calls.
#[cfg(sources)]
mod command;

#[cfg(sources)]
fn main() {
    command::main();
}

#[cfg(not(sources))]
fn main() {
    eprintln!("oracle: built without the Rust sources (ORACLE_SRC)");
    std::process::exit(64);
}
