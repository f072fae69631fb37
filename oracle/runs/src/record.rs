//! Recorded calls: words in a file, and their text.

use std::fs;
use std::io;

use original::driver::Numbers;

use crate::command::{join, numbers};
use crate::oracle::{Call, Oracle, Reply, Trouble};
use crate::state;

/// No record is longer.
pub const MAX_RECORD: usize = 65_536 / 8;

/// A call and what the original made of it.
#[derive(Clone, Debug)]
pub enum Record {
    Create { numbers: Numbers, reply: u64 },
    Call { call: Call, records: u64, answers: Vec<u64>, reply: Reply, digest: u64 },
    Skip { target: u64, reply: u64, digest: u64 },
    Queries([u64; 4]),
}

pub fn number_list(x: &Numbers) -> [u64; 10] {
    [x.n, x.f, x.look_ahead, x.own, x.key, x.strategy, x.start, x.schedule, x.number_a, x.number_b]
}

impl Record {
    /// The record's words, its length first.
    pub fn words(&self) -> Vec<u64> {
        let mut words = vec![0];
        match self {
            Record::Create { numbers, reply } => {
                words.push(1);
                words.extend_from_slice(&number_list(numbers));
                words.push(*reply);
            }
            Record::Call { call, records, answers, reply, digest } => {
                match call {
                    Call::Propose => words.push(2),
                    Call::Message(x) => {
                        words.push(3);
                        words.extend_from_slice(x);
                    }
                }
                words.extend_from_slice(&[*records, answers.len() as u64]);
                words.extend_from_slice(answers);
                words.extend_from_slice(&[reply.reply, reply.step.len() as u64]);
                words.extend_from_slice(&reply.step);
                words.push(*digest);
            }
            Record::Skip { target, reply, digest } => {
                words.extend_from_slice(&[4, *target, *reply, *digest])
            }
            Record::Queries(results) => {
                words.push(5);
                words.extend_from_slice(results);
            }
        }
        words[0] = words.len() as u64;
        words
    }

    fn read(x: &[u64]) -> Record {
        match x[1] {
            1 => Record::Create { numbers: numbers(&x[2..12]), reply: x[12] },
            2 | 3 => {
                let (call, x) = match x[1] {
                    2 => (Call::Propose, &x[2..]),
                    _ => (Call::Message([x[2], x[3], x[4], x[5], x[6]]), &x[7..]),
                };
                let records = x[0];
                let (answers, x) = x[2..].split_at(x[1] as usize);
                let (step, rest) = x[2..].split_at(x[1] as usize);
                let reply = Reply { reply: x[0], step: step.to_vec() };
                Record::Call { call, records, answers: answers.to_vec(), reply, digest: rest[0] }
            }
            4 => Record::Skip { target: x[2], reply: x[3], digest: x[4] },
            5 => Record::Queries([x[2], x[3], x[4], x[5]]),
            op => panic!("no such record: {}", op),
        }
    }
}

pub fn bytes(records: &[Record]) -> Vec<u8> {
    records.iter().flat_map(Record::words).flat_map(u64::to_le_bytes).collect()
}

pub fn read(path: &str) -> io::Result<Vec<Record>> {
    let bytes = fs::read(path)?;
    let word = |x: &[u8]| x.iter().rev().fold(0, |word, byte| word << 8 | u64::from(*byte));
    let words: Vec<u64> = bytes.chunks(8).map(word).collect();
    let mut records = Vec::new();
    let mut rest = &words[..];
    while !rest.is_empty() {
        let (record, after) = rest.split_at(rest[0] as usize);
        records.push(Record::read(record));
        rest = after;
    }
    Ok(records)
}

/// What the original does today with a recorded call; the oracle changes along.
pub fn again(oracle: &mut Option<Oracle>, record: &Record) -> Result<Record, Trouble> {
    if let Record::Create { numbers, .. } = record {
        let reply = match Oracle::create(numbers)? {
            Ok(created) => {
                *oracle = Some(created);
                0
            }
            Err(reply) => reply,
        };
        return Ok(Record::Create { numbers: *numbers, reply });
    }
    let oracle = oracle.as_mut().ok_or("nothing was created")?;
    match record {
        Record::Call { call, records, answers, .. } => {
            let reply = oracle.call(call, *records, answers)?;
            let digest = state::digest(&oracle.state()?);
            Ok(Record::Call {
                call: *call,
                records: *records,
                answers: answers.clone(),
                reply,
                digest,
            })
        }
        Record::Skip { target, .. } => {
            let reply = oracle.skip(*target)?;
            Ok(Record::Skip { target: *target, reply, digest: state::digest(&oracle.state()?) })
        }
        _ => Ok(Record::Queries(oracle.queries())),
    }
}

/// Replays the records; the error is the first difference.
pub fn replay(records: &[Record], with_state: bool) -> Result<(), String> {
    let mut oracle = None;
    for (i, record) in records.iter().enumerate() {
        let now =
            again(&mut oracle, record).map_err(|trouble| format!("record {}: {}", i, trouble))?;
        let (mut was, mut is) = (record.words(), now.words());
        let has_digest = matches!(record, Record::Call { .. } | Record::Skip { .. });
        if has_digest && !with_state {
            was.pop();
            is.pop();
        }
        if was != is {
            let state_only = has_digest && was[1..was.len() - 1] == is[1..is.len() - 1];
            let what = if with_state && state_only { "state" } else { "reply, step or query" };
            return Err(format!("record {}: another {}", i, what));
        }
    }
    Ok(())
}

/// A call as in command mode; none for queries.
fn call_line(record: &Record) -> Option<String> {
    Some(match record {
        Record::Create { numbers, .. } => format!("create {}", join(&number_list(numbers))),
        Record::Call { call, records, answers, .. } => {
            let name = match call {
                Call::Propose => format!("propose {}", records),
                Call::Message(x) => format!("message {} {}", join(x), records),
            };
            format!("{} {}", name, join(answers))
        }
        Record::Skip { target, .. } => format!("skip {}", target),
        Record::Queries(_) => return None,
    })
}

/// The calls of a run as in command mode, without the queries.
#[cfg(feature = "engine")]
pub fn calls(records: &[Record]) -> Vec<String> {
    records.iter().filter_map(call_line).collect()
}

/// The text of the records, each call with the queries and all state words after it.
pub fn text(records: &[Record]) -> Result<String, Trouble> {
    let mut text = String::new();
    let mut oracle = None;
    for record in records {
        let now = again(&mut oracle, record)?;
        let reply = match &now {
            Record::Create { reply, .. } | Record::Skip { reply, .. } => reply.to_string(),
            Record::Call { reply, .. } => join(&[&[reply.reply], &reply.step[..]].concat()),
            Record::Queries(_) => continue,
        };
        let call = call_line(&now).unwrap_or_default();
        text.push_str(&format!("call {}\nreply {}\n", call, reply));
        if let Some(oracle) = &oracle {
            let (queries, state) = (join(&oracle.queries()), join(&oracle.state()?));
            text.push_str(&format!("queries {}\nstate {}\n", queries, state));
        }
    }
    Ok(text)
}
