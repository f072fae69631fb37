//! Lays answers out in a table, and damages calls.

use answers::Answer;

use crate::oracle::Call;
use crate::random::Random;
use crate::table::MAX_WORDS;

/// A call that is ready to be made.
#[derive(Clone)]
pub struct Made {
    pub call: Call,
    pub records: u64,
    pub table: Vec<u64>,
}

/// How a table is laid out.
#[derive(Clone, Copy, PartialEq)]
pub enum Layout {
    Contiguous,
    Gaps,
    Full,
}

pub fn pick_layout(random: &mut Random) -> Layout {
    match random.below(1000) {
        0 => Layout::Full,
        1..=200 => Layout::Gaps,
        _ => Layout::Contiguous,
    }
}

/// The table with this chain; records off the chain hold rubbish. None if there is no room.
pub fn lay_out(chain: &[Answer], layout: Layout, random: &mut Random) -> Option<Vec<u64>> {
    let mut places = Vec::new();
    let mut place = 0;
    let room = MAX_WORDS / 4 - 1 - chain.len().min(MAX_WORDS / 4 - 1);
    let mut gaps = match layout {
        Layout::Contiguous => 0,
        Layout::Gaps => room.min(6),
        Layout::Full => room,
    };
    for _ in chain {
        place += 1;
        if gaps > 0 && random.chance(300) {
            let gap = 1 + random.below(gaps.min(3) as u64) as usize;
            place += gap;
            gaps -= gap;
        }
        places.push(place);
    }
    let last = place;
    let records = match layout {
        Layout::Contiguous => last + 1,
        Layout::Gaps => last + 1 + random.below(gaps as u64 + 1) as usize,
        Layout::Full => MAX_WORDS / 4,
    };
    if 4 * records > MAX_WORDS || last >= records {
        return None;
    }
    let mut table: Vec<u64> = (0..4 * records).map(|_| rubbish(random)).collect();
    table[..4].copy_from_slice(&[places.first().map_or(0, |p| *p as u64), 0, 0, 0]);
    for (i, answer) in chain.iter().enumerate() {
        let next = places.get(i + 1).map_or(0, |p| *p as u64);
        let words = [next, answer.kind, answer.a, answer.b];
        table[4 * places[i]..4 * places[i] + 4].copy_from_slice(&words);
    }
    Some(table)
}

fn rubbish(random: &mut Random) -> u64 {
    match random.below(4) {
        0 => random.word(),
        1 => u64::MAX,
        _ => random.below(20),
    }
}

/// An answer or part whose numbers are in range, wherever it stands.
fn any_answer(n: u64, random: &mut Random) -> Answer {
    let kind = 1 + random.below(13);
    let a = if kind == 11 { 1 } else { random.below(2) };
    let b = match kind {
        1 => 0,
        2 | 11 | 12 => a * random.handle(),
        _ => random.below(n),
    };
    Answer { kind, a, b }
}

/// The call with one or two things wrong; most, but not all, of these calls are turned down.
pub fn damage(
    call: Call,
    needed: u64,
    chain: &[Answer],
    n: u64,
    random: &mut Random,
) -> Option<Made> {
    let mut chain = chain.to_vec();
    let mut call = call;
    let mut records = needed + random.below(3);
    let mut words: Vec<u64> = Vec::new();
    for _ in 0..1 + random.chance(250) as u64 {
        match random.below(20) {
            0..=9 => damage_chain(&mut chain, n, random),
            10..=13 => damage_call(&mut call, n, random),
            14..=16 => records = random.pick(&[needed - 1, 0, needed - 1, needed / 2]),
            _ => words.push(random.below(7)),
        }
    }
    let layout = if random.chance(250) { Layout::Gaps } else { Layout::Contiguous };
    let mut table = lay_out(&chain, layout, random)?;
    for which in words {
        damage_table(&mut table, which, random);
    }
    Some(Made { call, records, table })
}

fn damage_chain(chain: &mut Vec<Answer>, n: u64, random: &mut Random) {
    let extra = any_answer(n, random);
    if chain.is_empty() {
        chain.push(extra);
        return;
    }
    let i = random.below(chain.len() as u64) as usize;
    match random.below(13) {
        0 => chain.truncate(i),
        1 => drop(chain.pop()),
        2 => drop(chain.remove(i)),
        3 => chain.push(extra),
        4 => chain.insert(i, extra),
        5 if i > 0 => chain.swap(i - 1, i),
        6 if (3..=10).contains(&chain[i].kind) || chain[i].kind == 13 => {
            chain[i].b = (chain[i].b % n + 1 + random.below(n)) % n
        }
        7 => {
            chain[i].a = 1 - chain[i].a.min(1);
            if chain[i].kind == 2 || chain[i].kind == 12 {
                chain[i].b = chain[i].a * random.handle();
            }
        }
        8 => chain[i].a = random.pick(&[2, u64::MAX, 1, n]),
        9 => chain[i].b = random.pick(&[n, 0, 1, 2, 1 << 32, (1 << 32) - 1, u64::MAX]),
        10 => chain[i].kind = random.pick(&[0, 14, 15, 19, u64::MAX, 16, 17, 18]),
        11 => chain[i].kind = 1 + random.below(18),
        _ => {
            let a = if random.chance(500) { random.below(n) } else { 0 };
            chain.insert(i, Answer { kind: 16 + random.below(3), a, b: random.below(2) });
        }
    }
}

/// Changes one of a message's numbers.
pub fn damage_call(call: &mut Call, n: u64, random: &mut Random) {
    if let Call::Message(x) = call {
        match random.below(7) {
            0 | 1 => x[0] = random.pick(&[n, n + 1, u64::MAX]),
            2 => x[2] = random.pick(&[0, 4, u64::MAX]),
            3 => x[3] = random.pick(&[n, u64::MAX]),
            4 => x[4] = random.pick(&[0, 1, 1 << 32, (1 << 32) - 1, u64::MAX]),
            5 => x[3] = random.below(n),
            _ => x[2] = 1 + random.below(3),
        }
    }
}

fn damage_table(table: &mut Vec<u64>, which: u64, random: &mut Random) {
    let records = (table.len() / 4) as u64;
    let first = if records > 1 { table[0].min(records - 1) } else { 0 };
    match which {
        0 => table.truncate(0),
        1 => table.resize(table.len() + 1 + random.below(3) as usize, 0),
        // As long as is too long, but seldom: such records are large.
        2 if random.chance(30) => table.resize(MAX_WORDS + 4, 0),
        2 => table.resize(3, 0),
        3 if records > 0 => table[1 + random.below(3) as usize] = 1 + random.below(3),
        4 if records > 1 => table[4 * first as usize] = random.pick(&[first, 1]),
        5 if !table.is_empty() => table[0] = random.pick(&[records, u64::MAX, records + 1]),
        _ if records > 1 => table[4 * first as usize] = random.pick(&[records, u64::MAX, 0]),
        _ => {}
    }
}
