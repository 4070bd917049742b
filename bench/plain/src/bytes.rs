//! Little-endian numbers in slices, and the layout that both kinds of file share.

use crate::Refusal;

pub fn u16_at(bytes: &[u8], at: usize) -> u16 {
    u16::from_le_bytes([bytes[at], bytes[at + 1]])
}

pub fn u32_at(bytes: &[u8], at: usize) -> u32 {
    u32::from_le_bytes([bytes[at], bytes[at + 1], bytes[at + 2], bytes[at + 3]])
}

pub fn i32_at(bytes: &[u8], at: usize) -> i32 {
    u32_at(bytes, at) as i32
}

pub fn i64_at(bytes: &[u8], at: usize) -> i64 {
    i64::from_le_bytes(bytes[at..at + 8].try_into().expect("eight bytes"))
}

/// Questions 1 and 2: is the header whole, and of this kind?
pub fn ask_header(bytes: &[u8], words: usize, kind: u32) -> Result<(), Refusal> {
    if bytes.len() < 4 * words {
        return Err(Refusal::new(1, bytes.len()));
    }
    if u32_at(bytes, 0) != kind {
        return Err(Refusal::new(2, 0));
    }
    Ok(())
}

/// The count in a header word.
pub fn count(bytes: &[u8], word: usize) -> usize {
    u32_at(bytes, 4 * word) as usize
}

/// Question 4: does each table of these sizes begin where the one before it ends, and the file end with the last?
/// The tables, in order.
pub fn ask_tables<const N: usize>(bytes: &[u8], sizes: [usize; N]) -> Result<[&[u8]; N], Refusal> {
    let words = 2 * N + 1;
    let mut end = 4 * words;
    for (i, size) in sizes.iter().enumerate() {
        let word = 2 * i + 2;
        if count(bytes, word) != end {
            return Err(Refusal::new(4, word));
        }
        end += size;
    }
    if bytes.len() != end {
        return Err(Refusal::new(4, words));
    }
    let mut rest = &bytes[4 * words..];
    Ok(sizes.map(|size| {
        let (table, behind) = rest.split_at(size);
        rest = behind;
        table
    }))
}

/// No at the first place, from the lowest, that does not pass.
pub fn ask(number: u8, mut passes: impl Iterator<Item = bool>) -> Result<(), Refusal> {
    match passes.position(|ok| !ok) {
        Some(place) => Err(Refusal::new(number, place)),
        None => Ok(()),
    }
}
