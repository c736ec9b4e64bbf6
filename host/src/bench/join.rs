//! How long `join_pieces` takes on pieces that overlap, beside reading their bytes once, and
//! `write_srecords` on the same.
use std::{hint::black_box, process::ExitCode};

use super::{Spread, spread, times};
use crate::{
    document::join::{MOST, Part},
    entries::stages::{Call, JOIN_PIECES, WRITE_SRECORDS},
    markdown::Table,
    not_done,
    records::packed,
};

/// How many bytes each piece has.
const BYTES: usize = 60_000;

pub fn run(rounds: u64) -> ExitCode {
    let (Some(join), Some(write)) = (JOIN_PIECES.call, WRITE_SRECORDS.call) else {
        return not_done("join_pieces or write_srecords isn't linked");
    };
    let rounds = rounds.max(1) as usize;
    println!(
        "Pieces of {BYTES} bytes, each a byte after the one before; least and median of {rounds} \
         rounds, in microseconds.\n"
    );
    let heads = [
        "pieces",
        "joined, least",
        "median",
        "read once, least",
        "median",
        "ratio, least",
        "as lines, least",
        "median",
        "over joined, least",
    ];
    let mut table = Table::new(&heads);
    for pieces in [MOST / 4, MOST / 2, MOST] {
        let (sections, records, size) = input(pieces);
        let timed = |call: Call, room: usize| {
            let (mut out, mut held) = (vec![0; room], [0; 8]);
            spread(times(rounds, || {
                let inputs: [&[u8]; 4] = [&[5, 0], b".data", &sections, &records];
                assert_eq!(call(&inputs, &[], &mut [&mut out, &mut held]), 0, "the pieces agree");
            }))
        };
        let joined = timed(join, size);
        let read = spread(times(rounds, || {
            let bytes = black_box(&records).iter();
            black_box(bytes.fold(0_u64, |sum, byte| sum.wrapping_add(*byte as u64)));
        }));
        let lines = timed(write, 15 * size.div_ceil(16) + 2 * size + 15);
        let number = |n: f64| format!("{n:.1}");
        let columns = |s: &Spread| [number(s.least), number(s.median)];
        let mut row = vec![pieces.to_string()];
        row.extend(columns(&joined));
        row.extend(columns(&read));
        row.push(format!("{:.2}", joined.least / read.least));
        row.extend(columns(&lines));
        row.push(format!("{:.2}", lines.least / joined.least));
        table.row(row);
    }
    table.print();
    ExitCode::SUCCESS
}

/// One section, its pieces as records, and the section's size.
fn input(pieces: usize) -> (Vec<u8>, Vec<u8>, usize) {
    const START: u32 = 0x1000;
    let size = BYTES + pieces - 1;
    let image: Vec<u8> = (0..size).map(|i| (i * 7 % 251) as u8).collect();
    let fields = [(0, 2), (1, 1), (START as u64, 4), (size as u64, 4), (0, 4)];
    let part =
        |i: usize| Part { section: 0, address: START + i as u32, bytes: &image[i..i + BYTES] };
    let records = (0..pieces).flat_map(|i| part(i).record()).collect();
    (packed(&fields), records, size)
}
