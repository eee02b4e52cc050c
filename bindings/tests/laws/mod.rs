//! What tests make law files of.

/// A section: its count, and its records of words.
pub fn section<const N: usize>(law: &mut Vec<u8>, records: &[[u32; N]]) {
    law.extend((records.len() as u32).to_le_bytes());
    law.extend(records.iter().flatten().flat_map(|word| word.to_le_bytes()));
}
