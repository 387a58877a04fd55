//! Words and their kinds, words as bytes, and the words of a system (docs/FORMAT.md).

use crate::values::{Polynomial, System};

/// The top four bits of a word.
#[derive(Clone, Copy, PartialEq)]
pub enum Kind {
    SystemHead = 1,
    Start = 2,
    Coefficient = 3,
    End = 4,
    CertificateHead = 5,
}

pub const SOLUTION: u32 = 1;
pub const ABSENCE: u32 = 2;

const PAYLOAD_BITS: u32 = 28;

pub fn word(kind: Kind, payload: u32) -> u32 {
    (kind as u32) << PAYLOAD_BITS | payload
}

pub fn has_kind(word: u32, kind: Kind) -> bool {
    word >> PAYLOAD_BITS == kind as u32
}

pub fn payload(word: u32) -> u32 {
    word & ((1 << PAYLOAD_BITS) - 1)
}

/// The number of right sides that the head of a system says.
pub fn sides_in(head: u32) -> usize {
    (head >> 24 & 0xF) as usize + 1
}

/// Head, A row by row, the right sides one after another, end. The system is within the limits.
pub fn system_words(system: &System) -> Vec<u32> {
    let (rows, columns, sides) = (system.matrix.len() as u32, system.columns() as u32, system.sides.len() as u32);
    let mut words = vec![word(Kind::SystemHead, (sides - 1) << 24 | columns << 20 | rows << 16 | system.modulus)];
    for polynomial in system.matrix.iter().chain(&system.sides).flatten() {
        push_polynomial(&mut words, polynomial);
    }
    words.push(word(Kind::End, words.len() as u32 + 1));
    words
}

fn push_polynomial(words: &mut Vec<u32>, polynomial: &Polynomial) {
    words.push(word(Kind::Start, polynomial.len() as u32));
    words.extend(polynomial.iter().map(|c| word(Kind::Coefficient, *c)));
}

/// Four bytes a word, lowest first.
pub fn bytes_of(words: &[u32]) -> Vec<u8> {
    words.iter().flat_map(|w| w.to_le_bytes()).collect()
}

/// The words of bytes, the number of which is a multiple of four.
pub fn words_of(bytes: &[u8]) -> Vec<u32> {
    bytes.chunks_exact(4).map(|b| u32::from_le_bytes([b[0], b[1], b[2], b[3]])).collect()
}
