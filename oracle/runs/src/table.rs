//! Document 01's tables of records: next, kind, a, b.

use answers::Answer;
use original::driver::StepLists;

pub const MAX_WORDS: usize = 4096;

fn is_handle(word: u64) -> bool {
    1 <= word && word < 1 << 32
}

/// The answers on the chain of a table, none if the table is malformed (reply 5).
pub fn chain(words: &[u64], n: u64) -> Option<Vec<Answer>> {
    let records = words.len() / 4;
    if words.len() < 4 || words.len() > MAX_WORDS || words.len() % 4 != 0 {
        return None;
    }
    if words[1..4] != [0, 0, 0] {
        return None;
    }
    let mut chain = Vec::new();
    let mut parts_of = 0; // the answer kind whose parts may stand here, 0 for none
    let mut at = 0;
    while words[4 * at] != 0 {
        let next = words[4 * at];
        if next <= at as u64 || next >= records as u64 {
            return None;
        }
        at = next as usize;
        let answer = Answer { kind: words[4 * at + 1], a: words[4 * at + 2], b: words[4 * at + 3] };
        if !in_range(&answer, parts_of, n) {
            return None;
        }
        if answer.kind < 16 {
            let has_parts = (3..=7).contains(&answer.kind) && answer.a == 1;
            parts_of = if has_parts { answer.kind } else { 0 };
        }
        chain.push(answer);
    }
    Some(chain)
}

fn in_range(answer: &Answer, parts_of: u64, n: u64) -> bool {
    let Answer { kind, a, b } = *answer;
    let handle_if_yes = if a == 1 { is_handle(b) } else { b == 0 };
    match kind {
        1 => a <= 1 && b == 0,
        2 | 12 => a <= 1 && handle_if_yes,
        3..=10 | 13 => a <= 1 && b < n,
        11 => a == 1 && is_handle(b),
        16 => parts_of != 0 && a == 0,
        17 => parts_of != 0 && a < n && b < 1 << 32,
        18 => match parts_of {
            3 | 4 => a == 0 && is_handle(b),
            5..=7 => a == 0 && b <= 1,
            _ => false,
        },
        _ => false,
    }
}

/// The words of a step: header, then all messages, all faults and all outputs.
pub fn step_words(step: &StepLists, epoch: u64) -> Vec<u64> {
    let lists = [&step.messages, &step.faults, &step.outputs];
    let mut words = vec![0, 0, 0, epoch];
    for (i, list) in lists.iter().enumerate() {
        let first = words.len() as u64 / 4;
        words[i] = if list.is_empty() { 0 } else { first };
        for (j, &[kind, a, b]) in list.iter().enumerate() {
            let last = j + 1 == list.len();
            let next = if last { 0 } else { first + j as u64 + 1 };
            words.extend_from_slice(&[next, kind, a, b]);
        }
    }
    words
}

/// The lists that stand in the words of a step.
#[cfg(feature = "engine")]
pub fn step_lists(words: &[u64]) -> StepLists {
    let chain = |first: u64| {
        let mut list = Vec::new();
        let mut at = first as usize;
        while at != 0 {
            list.push([words[4 * at + 1], words[4 * at + 2], words[4 * at + 3]]);
            at = words[4 * at] as usize;
        }
        list
    };
    StepLists { messages: chain(words[0]), faults: chain(words[1]), outputs: chain(words[2]) }
}
