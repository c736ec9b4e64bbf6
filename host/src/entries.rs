//! The entries of libentries.a behind safe functions: slices in and out, lent by
//! `&` and `&mut`, so that no two lent slices can overlap. include/mizhakkon.h
//! says what each entry does.
pub mod stages;

use crate::document::check_tables::Tables;

mod c {
    unsafe extern "C" {
        pub fn toposort(
            nodes: u32,
            edges: *const u8,
            edges_len: usize,
            out_nodes: *mut u8,
            out_nodes_len: usize,
            counts: *mut u8,
            counts_len: usize,
        ) -> u64;

        pub fn check_file(
            file: *const u8,
            file_len: usize,
            counts: *mut u8,
            counts_len: usize,
        ) -> u64;

        pub fn check_tables(
            name_ends: *const u8,
            name_ends_len: usize,
            name_bytes: *const u8,
            name_bytes_len: usize,
            sections: *const u8,
            sections_len: usize,
            section_places: *const u8,
            section_places_len: usize,
            image: *const u8,
            image_len: usize,
            symbols: *const u8,
            symbols_len: usize,
            relocations: *const u8,
            relocations_len: usize,
            splits: *const u8,
            splits_len: usize,
            units: *const u8,
            units_len: usize,
        ) -> u64;
    }
}

pub fn toposort(nodes: u32, edges: &[u8], out_nodes: &mut [u8], counts: &mut [u8]) -> u64 {
    // SAFETY: each pointer and length is a whole slice; the borrows keep the
    // outputs apart from each other and from the input.
    unsafe {
        c::toposort(
            nodes,
            edges.as_ptr(),
            edges.len(),
            out_nodes.as_mut_ptr(),
            out_nodes.len(),
            counts.as_mut_ptr(),
            counts.len(),
        )
    }
}

pub fn check_file(file: &[u8], counts: &mut [u8]) -> u64 {
    // SAFETY: each pointer and length is a whole slice; the borrows keep the output
    // apart from the input.
    unsafe { c::check_file(file.as_ptr(), file.len(), counts.as_mut_ptr(), counts.len()) }
}

pub fn check_tables(t: &Tables) -> u64 {
    // SAFETY: each pointer and length is a whole slice, and none is written.
    unsafe {
        c::check_tables(
            t.name_ends.as_ptr(),
            t.name_ends.len(),
            t.name_bytes.as_ptr(),
            t.name_bytes.len(),
            t.sections.as_ptr(),
            t.sections.len(),
            t.section_places.as_ptr(),
            t.section_places.len(),
            t.image.as_ptr(),
            t.image.len(),
            t.symbols.as_ptr(),
            t.symbols.len(),
            t.relocations.as_ptr(),
            t.relocations.len(),
            t.splits.as_ptr(),
            t.splits.len(),
            t.units.as_ptr(),
            t.units.len(),
        )
    }
}
