//! The stage entries. Each is one line below, with `linked` where libentries.a has it and
//! `absent` where it doesn't yet: then the second reading is compared with the Rust alone.
use crate::{
    document::image::{SPLIT_BYTES, Split, split_table, splits_in},
    lent,
};

/// An entry on byte tables: which ones it takes and gives, in the order of its
/// parameters, the numbers between them, and the call if libentries.a has it.
pub struct StageEntry {
    pub name: &'static str,
    pub inputs: &'static [&'static str],
    pub numbers: &'static [&'static str],
    pub outputs: &'static [&'static str],
    pub call: Option<Call>,
}

/// Takes the inputs, the numbers and the outputs, and gives the answer word.
pub type Call = fn(&[&[u8]], &[u32], &mut [&mut [u8]]) -> u64;

macro_rules! stage_entry {
    (absent $name:ident $inputs:tt $numbers:tt $outputs:tt) => {
        stage_entry!(None, $name $inputs $numbers $outputs)
    };
    (linked $name:ident
        ($($input:ident),*) ($($number:ident: $type:ty),*) ($($output:ident),*)) => {{
        unsafe extern "C" {
            fn $name($($input: *const u8, _: usize,)* $($number: $type,)*
                     $($output: *mut u8, _: usize,)*) -> u64;
        }
        let call: Call = |inputs, numbers, outputs| {
            let &[$($input),*] = inputs else { panic!("other inputs") };
            let &[$($number),*] = numbers else { panic!("other numbers") };
            let [$($output),*] = outputs else { panic!("other outputs") };
            // SAFETY: each pointer and length is a whole slice; the borrows keep the
            // outputs apart from each other and from the inputs.
            unsafe {
                $name($($input.as_ptr(), $input.len(),)* $($number as $type,)*
                      $($output.as_mut_ptr(), $output.len(),)*)
            }
        };
        stage_entry!(Some(call), $name ($($input),*) ($($number: $type),*) ($($output),*))
    }};
    ($call:expr, $name:ident
        ($($input:ident),*) ($($number:ident: $type:ty),*) ($($output:ident),*)) => {
        StageEntry {
            name: stringify!($name),
            inputs: &[$(stringify!($input)),*],
            numbers: &[$(stringify!($number)),*],
            outputs: &[$(stringify!($output)),*],
            call: $call,
        }
    };
}

macro_rules! call_of_mark {
    (absent) => {
        None
    };
    (linked) => {{
        unsafe extern "C" {
            fn mark_common_splits(splits: *mut Split, count: usize, section: u16, from: u32);
        }
        let call: Call = |inputs, numbers, outputs| {
            marked(inputs[0], outputs[0], |splits| {
                // SAFETY: the pointer and count are a whole slice of such structs.
                unsafe {
                    let (first, count) = (splits.as_mut_ptr(), splits.len());
                    mark_common_splits(first, count, numbers[0] as u16, numbers[1]);
                }
            })
        };
        Some(call)
    }};
}

/// The records as structs, lent between two that must stay as they are (but alone where
/// slices are lent exactly), and back. No
/// answer word: 0, or another where one of the two was written.
#[allow(dead_code, reason = "while the entry is absent")]
fn marked(records: &[u8], out: &mut [u8], mark: impl Fn(&mut [Split])) -> u64 {
    let guards = vec![Split::read(&[0x55; SPLIT_BYTES]); !lent::exactly() as usize];
    let mut splits = [&guards[..], &splits_in(records), &guards].concat();
    let lent = guards.len()..splits.len() - guards.len();
    mark(&mut splits[lent.clone()]);
    out.copy_from_slice(&split_table(&splits[lent.clone()]).0);
    let whole = splits[..lent.start] == guards && splits[lent.end..] == guards;
    if whole { 0 } else { u64::MAX }
}

pub const END_FOR_SECTION: StageEntry = stage_entry!(linked end_for_section
    (name_ends, name_bytes, sections, section_places, image, symbols) (section: u16) (end));

pub const SPLIT_ALIGNMENT: StageEntry = stage_entry!(linked split_alignment
    (name_ends, name_bytes, sections, section_places, image, symbols, splits) (which: u16) (alignment));

pub const VALIDATE_SPLITS: StageEntry = stage_entry!(linked validate_splits
    (name_ends, name_bytes, sections, symbols, splits) () ());

pub const UPDATE_COMMON_SPLITS: StageEntry = stage_entry!(linked update_common_splits
    (name_ends, name_bytes, sections, splits) (has_start: u8, start: u32) (out_splits, counts));

pub const TRIM_SPLITS: StageEntry = stage_entry!(linked trim_splits
    (name_ends, name_bytes, sections, section_places, image, symbols, splits) ()
    (out_splits, counts));

pub const ADD_SPLITS: StageEntry = stage_entry!(linked add_splits
    (name_ends, name_bytes, sections, splits, partials) () (out_splits, counts));

/// Document 02, (m).
pub const MEND_SPLITS: StageEntry = stage_entry!(linked mend_splits
    (name_ends, name_bytes, sections, splits) () (out_splits, lines, counts));

pub const CREATE_GAP_SPLITS: StageEntry = stage_entry!(linked create_gap_splits
    (name_ends, name_bytes, sections, section_places, image, symbols, splits) ()
    (out_name_ends, out_name_bytes, out_splits, counts));

pub const RESOLVE_LINK_ORDER: StageEntry = stage_entry!(linked resolve_link_order
    (name_ends, name_bytes, sections, splits, units) () (out_units, counts));

pub const SPLIT_OBJ: StageEntry = stage_entry!(linked split_obj
    (name_ends, name_bytes, sections, section_places, image, symbols, relocations, splits, units) ()
    (pieces, piece_symbols, piece_relocations, counts));

/// Where a piece's bytes lie in the image; it has no second reading, and is asked of the
/// pieces that are restored.
pub const PIECE_BYTES: StageEntry = stage_entry!(linked piece_bytes
    (sections, section_places, image, pieces) (which: u32) (place));

/// Document 02, (e).
pub const JOIN_PIECES: StageEntry = stage_entry!(linked join_pieces
    (name_ends, name_bytes, sections, pieces) () (joined, size));

/// Document 02, (h).
pub const IMPORT_ELF: StageEntry = stage_entry!(linked import_elf
    (file) () (name_ends, name_bytes, sections, section_places, symbols, counts));

/// Document 02, (n).
pub const WRITE_SRECORDS: StageEntry = stage_entry!(linked write_srecords
    (name_ends, name_bytes, sections, pieces) () (lines, size));

/// The whole run; the names are those that are added to the file's.
pub const SPLIT_FILE: StageEntry = stage_entry!(linked split_file
    (file) ()
    (added_name_ends, added_name_bytes, out_splits, out_units, pieces, piece_symbols,
    piece_relocations, counts));

/// Takes and gives split records here, and structs over the C convention.
pub const MARK_COMMON_SPLITS: StageEntry = stage_entry!(call_of_mark!(linked), mark_common_splits
    (splits) (section: u16, from: u32) (out_splits));
