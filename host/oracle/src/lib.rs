//! The stages of encounter/decomp-toolkit's splitting, compiled from its sources,
//! over record files of document 01. Without the sources only `answers` is left,
//! and it answers nothing. See README.md.
#![allow(dead_code, unused_imports, unused_variables, clippy::all)]

pub mod answers;

#[cfg(sources)]
mod asked;
#[cfg(sources)]
pub mod records;
#[cfg(sources)]
pub mod shims;
#[cfg(sources)]
pub mod stages;

#[cfg(sources)]
include!(concat!(env!("OUT_DIR"), "/root.rs"));
