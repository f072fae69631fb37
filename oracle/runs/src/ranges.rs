//! The range of each word of a state, after docs/STATE.md.

use crate::oracle::MAX_EPOCH;
use crate::state::{epoch_len, EPOCH, HEADER, PROPOSER};

const WORD32: u64 = (1 << 32) - 1;

/// The lowest and the highest value that a word may have while all others stay as they are. The
/// state must be in range.
pub fn ranges(words: &[u64]) -> Vec<[u64; 2]> {
    let (n, look_ahead, strategy) = (words[1] as usize, words[3], words[6]);
    let mut ranges = header(words);
    for _ in 0..look_ahead + 1 {
        ranges.extend(epoch(n, strategy));
    }
    debug_assert_eq!(ranges.len(), words.len());
    ranges
}

fn header(words: &[u64]) -> Vec<[u64; 2]> {
    let (n, look_ahead) = (words[1], words[3]);
    let (a, b) = (words[8], words[9]);
    let (first, second) = match words[7] {
        2 => ([1, WORD32], [0, 0]),
        // Their sum is 1 to 2^32 - 1.
        3 => ([(b == 0) as u64, WORD32 - b], [(a == 0) as u64, WORD32 - a]),
        _ => ([0, 0], [0, 0]),
    };
    // Contributions are kept under AllAtEnd only.
    let epochs = words[HEADER..].chunks(epoch_len(n as usize));
    let keeps = epochs.into_iter().any(|epoch| epoch[3] > 0);
    let mut header = vec![[0, 0]; HEADER];
    header[0] = [1, 1];
    // Another N or F wants another length.
    header[1] = [n, n];
    header[2] = [0, (n - 1) / 3];
    header[3] = [look_ahead, look_ahead];
    header[4] = [0, n];
    header[5] = [0, 1];
    header[6] = [keeps as u64, 1];
    header[7] = schedules(a, b);
    header[8] = first;
    header[9] = second;
    header[10] = [0, MAX_EPOCH + look_ahead + 1];
    header[11] = [0, 1];
    header[12] = [0, WORD32];
    header
}

/// The schedule kinds that go with these two numbers: they are next to each other.
fn schedules(a: u64, b: u64) -> [u64; 2] {
    match (a, b) {
        (0, 0) => [0, 1],
        (0, _) => [3, 3],
        (_, 0) => [2, 3],
        _ => [3, 3],
    }
}

fn epoch(n: usize, strategy: u64) -> Vec<[u64; 2]> {
    let mut words = vec![[0, 0]; EPOCH];
    words[0] = [0, 2];
    words[1] = [0, 1];
    words[2] = [0, (1 << n) - 1];
    words[3] = [0, n as u64 * strategy];
    for _ in 0..n {
        let last = n as u64 - 1;
        let fields = [4, WORD32, 2, WORD32, WORD32, 1, 1, last];
        debug_assert_eq!(fields.len(), PROPOSER);
        words.extend(fields.iter().map(|max| [0, *max]));
        words.extend(vec![[0, WORD32]; n]);
    }
    words
}
