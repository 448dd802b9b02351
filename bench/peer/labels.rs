//! Labels: the successor, sixteen of them in a word, and what a seen record is beside a held one.

pub const PLACES: usize = 16;

pub type Labels = [u8; PLACES];

pub fn successor(label: u8) -> u8 {
    if label < 2 { label + 1 } else { 0 }
}

/// Whether the first n entries are labels.
pub fn in_limits(labels: &Labels, n: usize) -> bool {
    labels.iter().enumerate().fold(true, |inside, (j, &label)| inside & (j >= n || label <= 2))
}

/// The first n labels, two bits each.
pub fn pack(labels: &Labels, n: usize) -> u32 {
    let word = labels.iter().rev().fold(0, |word, &label| word << 2 | u64::from(label & 3));
    word as u32 & first(n)
}

/// The bits of the first n labels of a word.
pub fn first(n: usize) -> u32 {
    !(u64::MAX << (2 * n)) as u32
}

/// The label of station k in a word.
pub fn unpacked(word: u32, k: usize) -> u8 {
    (word >> (2 * k) & 3) as u8
}

/// Whether the first n labels of a word are labels.
pub fn labels_of_word(word: u32, n: usize) -> bool {
    word & word >> 1 & 0x5555_5555 & first(n) == 0
}

/// Whether a word holds n labels and zeros above them.
pub fn word_in_limits(word: u32, n: usize) -> bool {
    word & word >> 1 & 0x5555_5555 == 0 && u64::from(word) >> (2 * n) == 0
}

/// Whether a seen record is newer than a held one of the same station, both given by own label and count.
fn newer(seen: (u8, u8), held: (u8, u8)) -> bool {
    (seen.0 == successor(held.0)) | (seen.0 == held.0) & (seen.1 > held.1)
}

#[derive(Clone, Copy, Debug, PartialEq, Eq)]
pub enum Age {
    Newer,
    Same,
    Conflicting,
    Older,
}

/// What a seen record is beside a held one, both given by own label and count; `agrees` tells whether all else is equal.
pub fn age(seen: (u8, u8), held: (u8, u8), agrees: impl FnOnce() -> bool) -> Age {
    if newer(seen, held) {
        Age::Newer
    } else if seen != held {
        Age::Older
    } else if agrees() {
        Age::Same
    } else {
        Age::Conflicting
    }
}
