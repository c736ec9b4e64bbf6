//! Memory lent to an entry, between guard bytes that must stay as they are; or, for a tool
//! that watches every access, without them.
use std::sync::atomic::{AtomicBool, AtomicUsize, Ordering};

/// Wide enough for a whole table of nodes that is written past a short output.
const GUARD: usize = 4096;
const SHIFTS: usize = 16;
const PERIOD: usize = 255;

/// What lies in the memory before it is lent, from any place on; never 0, so that
/// a byte that should have been cleared shows.
static PATTERN: [u8; PERIOD + GUARD + SHIFTS] = {
    let mut bytes = [0; PERIOD + GUARD + SHIFTS];
    let mut i = 0;
    while i < bytes.len() {
        bytes[i] = (i * 7 % PERIOD) as u8 + 1;
        i += 1;
    }
    bytes
};

fn pattern(from: usize, len: usize) -> &'static [u8] {
    &PATTERN[from % PERIOD..][..len]
}

/// Whether each slice is a block of the heap of its own, and nothing around it.
static EXACT: AtomicBool = AtomicBool::new(false);
static LENT: AtomicUsize = AtomicUsize::new(0);
static EMPTY: AtomicUsize = AtomicUsize::new(0);

/// From now on.
pub fn lend_exactly() {
    EXACT.store(true, Ordering::SeqCst);
}

pub fn exactly() -> bool {
    EXACT.load(Ordering::Relaxed)
}

/// How many slices were lent exactly, and how many of them had no length.
pub fn exactly_lent() -> (usize, usize) {
    (LENT.load(Ordering::SeqCst), EMPTY.load(Ordering::SeqCst))
}

pub struct Lent {
    bytes: Vec<u8>,
    start: usize,
    len: usize,
}

impl Lent {
    /// An output of `len` bytes. `shift` moves its start, so that entries meet
    /// addresses of every alignment.
    pub fn output(len: usize, shift: usize) -> Self {
        if exactly() {
            return Self::exact(len, shift);
        }
        let start = GUARD + shift % SHIFTS;
        let total = start + len + GUARD;
        let mut bytes = Vec::with_capacity(total);
        while bytes.len() < total {
            let next = pattern(bytes.len(), GUARD.min(total - bytes.len()));
            bytes.extend_from_slice(next);
        }
        Self { bytes, start, len }
    }

    /// One of no length is the end of a block of one byte, or lies where no memory is.
    fn exact(len: usize, shift: usize) -> Self {
        LENT.fetch_add(1, Ordering::Relaxed);
        EMPTY.fetch_add((len == 0) as usize, Ordering::Relaxed);
        let start = (len == 0 && shift.is_multiple_of(2)) as usize;
        let bytes: Box<[u8]> = (0..start + len).map(|i| PATTERN[i % PERIOD]).collect();
        Self { bytes: bytes.into_vec(), start, len }
    }

    /// An input that holds `content`.
    pub fn input(content: &[u8], shift: usize) -> Self {
        let mut lent = Self::output(content.len(), shift);
        lent.slice_mut().copy_from_slice(content);
        lent
    }

    pub fn slice(&self) -> &[u8] {
        &self.bytes[self.start..self.start + self.len]
    }

    pub fn slice_mut(&mut self) -> &mut [u8] {
        &mut self.bytes[self.start..self.start + self.len]
    }

    pub fn guards_whole(&self) -> bool {
        let end = self.start + self.len;
        self.bytes[..self.start] == *pattern(0, self.start)
            && self.bytes[end..] == *pattern(end, self.bytes.len() - end)
    }
}
