//! Calls that the original can't make: replies 2, 3 and 4, and states that no run leaves. What
//! they must do stands in document 01 and docs/STATE.md.

use original::driver::Numbers;

use crate::compare::{same, Against, Tally};
use crate::engine;
use crate::lent::Lent;
use crate::oracle::{Call, MAX_EPOCH};
use crate::random::Random;
use crate::ranges::ranges;
use crate::table::step_lists;

fn count(tally: &mut Tally, operation: &'static str, reply: u64, number: u64) {
    *tally.entry((Against::Document, operation, reply)).or_default() += number;
}

/// Create's 2: states of other lengths than the right one.
pub fn lengths(
    numbers: &Numbers,
    right: usize,
    random: &mut Random,
    tally: &mut Tally,
) -> Result<(), String> {
    for len in [right - 1, right + 1, random.below(right as u64) as usize].iter() {
        let mut state = Lent::rubbish(*len, random);
        same("reply of create", engine::create(numbers, state.words()), 2)?;
        state.check("state of another length", &[])?;
        count(tally, "create", 2, 1);
    }
    Ok(())
}

/// The call with a state that is none, with too little scratch, and on another state in range.
pub fn calls(
    state: &[u64],
    call: &Call,
    answers: &[u64],
    random: &mut Random,
    tally: &mut Tally,
) -> Result<(), String> {
    let bad = spoiled(state, random);
    refused(&bad, call, answers, 3, random, tally)?;
    refused(state, call, answers, 4, random, tally)?;
    skip_and_queries(&bad, random, tally)?;
    in_range(state, call, answers, random, tally)
}

/// A state with one word out of its range, or of another length.
fn spoiled(state: &[u64], random: &mut Random) -> Vec<u64> {
    let mut words = state.to_vec();
    if random.chance(150) {
        let len = words.len();
        let other = random.pick(&[len - 1, len + 1, 0, 15, 16, len / 2]);
        words.resize(other, 0);
        return words;
    }
    let i = pick_word(state, random);
    let [low, high] = ranges(state)[i];
    let above = [high + 1, u64::MAX, high + 1 + random.below(u64::MAX - high)];
    words[i] = match low {
        0 => random.pick(&above),
        _ => random.pick(&[low - 1, above[0], above[1], above[2]]),
    };
    words
}

/// Any word, those of the header more often.
fn pick_word(state: &[u64], random: &mut Random) -> usize {
    let bound = if random.chance(400) { 16 } else { state.len() };
    random.below(bound as u64) as usize
}

/// The call must be turned down with 3 or 4 before anything is written; 3 goes before 4, both
/// before the answers' 5.
fn refused(
    words: &[u64],
    call: &Call,
    answers: &[u64],
    wanted: u64,
    random: &mut Random,
    tally: &mut Tally,
) -> Result<(), String> {
    let len = words.len();
    let short = [len.saturating_sub(1), 0, len / 2];
    let scratch_len = match wanted {
        3 => random.pick(&[len, len + 1, 0, len.saturating_sub(1)]),
        _ => random.pick(&short),
    };
    let mut state = Lent::new(words, random);
    let mut scratch = Lent::rubbish(scratch_len, random);
    let mut table = match random.chance(300) {
        true => Lent::rubbish(answers.len(), random),
        false => Lent::new(answers, random),
    };
    let records = random.pick(&[0, 1, 60]);
    let mut step = Lent::rubbish(4 * records, random);
    let reply = engine::call(call, state.words(), scratch.words(), table.words(), step.words());
    same("reply of a call that is no call", reply, wanted)?;
    state.check("state that is none", &[])?;
    scratch.check("scratch after 3 or 4", &[])?;
    table.check("answers after 3 or 4", &[])?;
    step.check("step after 3 or 4", &[])?;
    count(tally, if *call == Call::Propose { "propose" } else { "message" }, reply, 1);
    Ok(())
}

/// 3 of skip and the queries; 3 goes before 12.
fn skip_and_queries(words: &[u64], random: &mut Random, tally: &mut Tally) -> Result<(), String> {
    let mut state = Lent::new(words, random);
    let target = random.pick(&[0, 5, MAX_EPOCH, MAX_EPOCH + 1, u64::MAX]);
    same("reply of skip", engine::skip(target, state.words()), 3)?;
    let before = [random.word(), random.word(), random.word(), random.word()];
    let mut results = before;
    let replies = engine::queries(state.words(), &mut results);
    if replies != [3; 4] || results != before {
        return Err(format!("queries of no state: {:?}, {:?}", replies, results));
    }
    state.check("state that is none", &[])?;
    count(tally, "skip", 3, 1);
    count(tally, "queries", 3, 4);
    Ok(())
}

/// A state in range, whatever its past: never 3 or 4, a refusal changes nothing, what a call leaves
/// is in range, and faults are counted up to the limit.
fn in_range(
    words: &[u64],
    call: &Call,
    answers: &[u64],
    random: &mut Random,
    tally: &mut Tally,
) -> Result<(), String> {
    let mut words = words.to_vec();
    for _ in 0..1 + random.below(4) {
        let i = pick_word(&words, random);
        let [low, high] = ranges(&words)[i];
        let between = low + random.below(high - low + 1);
        words[i] = random.pick(&[low, high, between]);
    }
    state_queries(&words)?;
    let mut state = Lent::new(&words, random);
    let mut scratch = Lent::rubbish(words.len(), random);
    let mut step = Lent::rubbish(4 * 200, random);
    let reply = engine::call(call, state.words(), scratch.words(), answers, step.words());
    match reply {
        0 => {
            let faults = words[12] + step_lists(step.words()).faults.len() as u64;
            same("fault count", state.words()[12], faults.min((1 << 32) - 1))?;
            within(state.words())?
        }
        20..=25 => {
            same("fault count after a failure", state.words()[12], words[12])?;
            within(state.words())?
        }
        5..=11 => {
            state.check("state after a refusal", &[])?;
            step.check("step after a refusal", &[])?;
        }
        _ => return Err(format!("reply {} on a state in range", reply)),
    }
    scratch.check("scratch", &vec![0; words.len()])?;
    count(tally, "in range", reply, 1);

    let mut state = Lent::new(&words, random);
    let near = words[10] + random.below(40);
    let target = random.pick(&[0, near.min(MAX_EPOCH), MAX_EPOCH]);
    same("reply of skip on a state in range", engine::skip(target, state.words()), 0)?;
    same("epoch after a skip", state.words()[10], words[10].max(target))?;
    within(state.words())
}

/// Each word is in its range, and the engine says so.
fn within(words: &[u64]) -> Result<(), String> {
    let ranges = ranges(words);
    if ranges.len() != words.len() {
        return Err("a state of another length".into());
    }
    for (i, (word, [low, high])) in words.iter().zip(&ranges).enumerate() {
        if word < low || word > high {
            return Err(format!("word {} is left out of range: {}", i, word));
        }
    }
    state_queries(words)
}

/// The queries' results, by their definitions.
fn state_queries(words: &[u64]) -> Result<(), String> {
    let n = words[1] as usize;
    let len = 16 + n * (8 + n);
    let place = 16 + (words[10] % (words[3] + 1)) as usize * len;
    let epoch = &words[place..place + len];
    let tag = |p: &usize| epoch[16 + p * (8 + n)];
    let received = match epoch[0] {
        0 => 0,
        2 => u64::from(epoch[2].count_ones()),
        _ => (0..n).filter(|p| tag(p) == 1 || tag(p) == 4).count() as u64,
    };
    let input = (words[11] == 1 || words[4] == words[1]) as u64;
    let wanted = [words[10], input, received, words[12]];
    let mut results = [7; 4];
    let replies = engine::queries(words, &mut results);
    match replies == [0; 4] && results == wanted {
        true => Ok(()),
        false => Err(format!("queries: {:?}, {:?}, should be {:?}", replies, results, wanted)),
    }
}
