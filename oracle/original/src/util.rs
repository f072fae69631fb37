//! Stand-in for the original's util.

use std::cell::Cell;

thread_local!(static FAULTY: Cell<usize> = Cell::new(0));

/// Sets f for the validator set that is built next. The repository always takes (N-1)/3; other
/// numbers are outside the domain of comparison, but the originals run with them.
pub fn set_max_faulty(f: usize) {
    FAULTY.with(|cell| cell.set(f));
}

pub fn max_faulty(_: usize) -> usize {
    FAULTY.with(Cell::get)
}

/// Bytes are a handle, and after it the index of the proposer whose value or plaintext it is, so
/// that a stand-in that reads them knows whom the answer must name.
pub fn bytes(handle: u64, proposer: u64) -> Vec<u8> {
    [handle.to_le_bytes(), proposer.to_le_bytes()].concat()
}

/// The handle and the proposer in such bytes.
pub fn handle_and_proposer(bytes: &[u8]) -> (u64, u64) {
    let word = |i: usize| {
        let mut word = [0; 8];
        word.copy_from_slice(&bytes[i..i + 8]);
        u64::from_le_bytes(word)
    };
    (word(0), word(8))
}
