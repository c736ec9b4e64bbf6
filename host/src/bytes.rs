//! Little-endian numbers in byte tables.

pub fn half_at(bytes: &[u8], at: usize) -> u16 {
    u16::from_le_bytes([bytes[at], bytes[at + 1]])
}

pub fn word_at(bytes: &[u8], at: usize) -> u32 {
    u32::from_le_bytes([bytes[at], bytes[at + 1], bytes[at + 2], bytes[at + 3]])
}

pub fn put_half(bytes: &mut Vec<u8>, value: u16) {
    bytes.extend(value.to_le_bytes());
}

pub fn hex(bytes: &[u8]) -> String {
    let words: Vec<String> = bytes.iter().map(|b| format!("{b:02X}")).collect();
    words.join(" ")
}

/// The first place where two byte strings of one length differ, and what follows it.
pub fn differing(what: &str, right: &[u8], given: &[u8]) -> Option<String> {
    let at = right.iter().zip(given).position(|(r, g)| r != g)?;
    let end = right.len().min(at + 16);
    let (right, given) = (hex(&right[at..end]), hex(&given[at..end]));
    Some(format!("{what}: from byte {at} on {right} is right, given {given}"))
}
