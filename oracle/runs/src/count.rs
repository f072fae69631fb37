//! Counts what recorded runs reach.

use std::collections::BTreeMap;

use original::driver::Numbers;

use crate::oracle::{Call, MAX_EPOCH};
use crate::record::Record;
use crate::schedule::{given, is_encrypted, TICK_TOCK};

/// How often each thing occurs, by its name.
pub type Counts = BTreeMap<String, u64>;

/// The rows, in order, so that one that never occurs shows.
pub fn rows() -> Vec<String> {
    let mut rows = vec!["runs".to_string(), "calls".into()];
    let mut add = |name: &str, numbers: &[u64]| {
        rows.extend(numbers.iter().map(|number| format!("{} {}", name, number)));
    };
    add("create reply", &[0, 1]);
    add("propose reply", &[0, 5, 6, 8, 9, 10, 20, 21, 22, 24, 25]);
    add("message reply", &[0, 5, 6, 7, 8, 9, 10, 11, 20, 23, 24, 25]);
    add("skip reply", &[0, 12]);
    add("message kind", &[1, 2, 3]);
    add("fault kind", &[1, 2, 3, 4, 5, 6, 7, 8, 9]);
    add("output kind", &[1, 2]);
    add("calls with batches:", &(1..=16).collect::<Vec<_>>());
    add("answers read, kind", &[1, 2, 3, 4, 5, 6, 7, 8, 9, 10, 11, 12, 13, 16, 17, 18]);
    add("answers with a = 0, kind", &[1, 2, 3, 4, 5, 6, 7, 8, 9, 10, 12, 13]);
    add("runs with N", &(1..=16).collect::<Vec<_>>());
    add("runs with F", &(0..=15).collect::<Vec<_>>());
    add("runs with strategy", &[0, 1]);
    add("runs with schedule", &[0, 1, 2, 3]);
    let rest = [
        "runs of a validator",
        "runs of an observer",
        "tables contiguous",
        "tables with records off the chain",
        "tables of 4096 words",
        "empty successful steps",
        "late messages",
        "messages for a later epoch that run",
        "messages for an epoch above 2^62 that run",
        "calls for a later epoch with a batch",
        "batches of encrypted epochs",
        "batches of plain epochs",
        "skips to 2^62",
        "skips that change nothing",
        "shares for an unknown proposer (reply 7)",
        "step tables without a header (reply 10)",
        "calls with TickTock, both numbers above 0",
        "calls with TickTock, on 0",
        "calls with TickTock, off 0",
        "batches of encrypted epochs, TickTock",
        "batches of plain epochs, TickTock",
        "runs that start at most 12 epochs before 2^62",
        "runs without a failure and with a batch",
    ];
    rows.extend(rest.iter().map(|row| row.to_string()));
    rows
}

pub fn count(records: &[Record]) -> Counts {
    let mut counts = Counts::new();
    let mut failed = true;
    let mut batch = false;
    let mut run = None;
    let mut current = 0;
    for record in records {
        let mut add = |row: String| *counts.entry(row).or_default() += 1;
        if matches!(record, Record::Call { .. } | Record::Skip { .. }) {
            add("calls".into());
            count_tick_tock(run.as_ref().expect("a create"), &mut add);
        }
        match record {
            Record::Create { numbers, reply } => {
                add(format!("create reply {}", reply));
                if *reply != 0 {
                    continue;
                }
                if !failed && batch {
                    add("runs without a failure and with a batch".into());
                }
                failed = false;
                batch = false;
                run = Some(*numbers);
                current = numbers.start;
                if MAX_EPOCH - current <= 12 {
                    add("runs that start at most 12 epochs before 2^62".into());
                }
                add("runs".into());
                add(format!("runs with N {}", numbers.n));
                add(format!("runs with F {}", numbers.look_ahead));
                add(format!("runs with strategy {}", numbers.strategy));
                add(format!("runs with schedule {}", numbers.schedule));
                let observer = numbers.own == numbers.n;
                add(format!("runs of {}", if observer { "an observer" } else { "a validator" }));
            }
            Record::Skip { target, reply, .. } => {
                add(format!("skip reply {}", reply));
                if *reply == 0 && *target <= current {
                    add("skips that change nothing".into());
                } else if *reply == 0 {
                    current = *target;
                }
                if *target == MAX_EPOCH {
                    add("skips to 2^62".into());
                }
            }
            Record::Queries(_) => {}
            Record::Call { call, records, answers, reply, .. } => {
                let name = if *call == Call::Propose { "propose" } else { "message" };
                add(format!("{} reply {}", name, reply.reply));
                failed |= reply.reply >= 20;
                if reply.reply == 0 || reply.reply >= 20 {
                    count_answers(answers, &mut add);
                }
                if reply.reply == 10 && *records == 0 {
                    add("step tables without a header (reply 10)".into());
                }
                if let Call::Message([_, epoch, content, proposer, _]) = *call {
                    let numbers = run.as_ref().expect("a create");
                    if reply.reply == 7 && content == 3 && proposer >= numbers.n {
                        add("shares for an unknown proposer (reply 7)".into());
                    }
                    let runs = current <= epoch && epoch - current <= numbers.look_ahead;
                    if reply.reply == 0 && epoch < current {
                        add("late messages".into());
                    }
                    if reply.reply == 0 && runs && epoch > current {
                        add("messages for a later epoch that run".into());
                    }
                    if reply.reply == 0 && runs && epoch > MAX_EPOCH {
                        add("messages for an epoch above 2^62 that run".into());
                    }
                }
                if reply.reply == 0 {
                    let numbers = run.as_ref().expect("a create");
                    let batches = count_step(&reply.step, numbers, &mut add);
                    current += batches;
                    batch |= batches > 0;
                }
            }
        }
    }
    if !failed && batch {
        *counts.entry("runs without a failure and with a batch".into()).or_default() += 1;
    }
    counts
}

fn count_tick_tock(x: &Numbers, add: &mut impl FnMut(String)) {
    if let [TICK_TOCK, on, off] = given(x) {
        let which = match (on, off) {
            (0, _) => "on 0",
            (_, 0) => "off 0",
            _ => "both numbers above 0",
        };
        add(format!("calls with TickTock, {}", which));
    }
}

fn count_answers(table: &[u64], add: &mut impl FnMut(String)) {
    let mut at = 0;
    let mut read = 1;
    while table[4 * at] != 0 {
        at = table[4 * at] as usize;
        read += 1;
        let (kind, a) = (table[4 * at + 1], table[4 * at + 2]);
        add(format!("answers read, kind {}", kind));
        if a == 0 && kind < 16 {
            add(format!("answers with a = 0, kind {}", kind));
        }
    }
    let contiguous = read == table.len() / 4;
    add(if contiguous { "tables contiguous" } else { "tables with records off the chain" }.into());
    if table.len() == 4096 {
        add("tables of 4096 words".into());
    }
}

/// Counts a successful step's records; answers the number of batches.
fn count_step(step: &[u64], numbers: &Numbers, add: &mut impl FnMut(String)) -> u64 {
    let mut batches = 0;
    for (i, name) in ["message kind", "fault kind", "output kind"].iter().enumerate() {
        let mut at = step[i] as usize;
        while at != 0 {
            let (kind, a) = (step[4 * at + 1], step[4 * at + 2]);
            add(format!("{} {}", name, kind));
            if i == 2 && kind == 1 {
                batches += 1;
                let encrypted = is_encrypted(given(numbers), a);
                let kind = if encrypted { "encrypted" } else { "plain" };
                add(format!("batches of {} epochs", kind));
                if numbers.schedule == TICK_TOCK {
                    add(format!("batches of {} epochs, TickTock", kind));
                }
                if batches == 1 && a < step[3] {
                    add("calls for a later epoch with a batch".into());
                }
            }
            at = step[4 * at] as usize;
        }
    }
    if step[..3] == [0, 0, 0] {
        add("empty successful steps".into());
    }
    if batches > 0 {
        add(format!("calls with batches: {}", batches));
    }
    batches
}
