//! Rounds of groups: four and seven hosts, none to all of them originals, or replaced one by one.

use std::collections::BTreeMap;

use crate::groups::{self, Mix, Totals};
use crate::random::hash;

/// Epochs of one group.
const EPOCHS: u64 = 12;

/// Runs groups for at least so many epochs in all.
pub fn run(seed: u64, epochs: u64) -> Result<(), String> {
    let mut rows: BTreeMap<(u64, String), Totals> = BTreeMap::new();
    let mut made = 0;
    let mut round = 0;
    while made < epochs {
        for n in [4, 7].iter().copied() {
            let mut first = None;
            for count in 0..=n + 1 {
                let mix = if count > n { Mix::Replaced } else { Mix::Originals(count) };
                let name = if count > n { "replaced".into() } else { count.to_string() };
                let totals = rows.entry((n, name.clone())).or_default();
                let outcome = groups::run(hash(&[seed, round]), n, mix, EPOCHS, totals)
                    .map_err(|text| format!("round {}, {} hosts, {}: {}", round, n, name, text))?;
                // World and order of events are the same for each mix, so the batches must be.
                if *first.get_or_insert_with(|| outcome.clone()) != outcome {
                    return Err(format!("round {}, {} hosts, {}: other batches", round, n, name));
                }
                made += EPOCHS;
            }
        }
        round += 1;
    }
    print(&rows);
    println!("{} epochs, the same batches on all hosts", made);
    Ok(())
}

fn print(rows: &BTreeMap<(u64, String), Totals>) {
    let columns = "epochs | encrypted | batches | entries | unreadable | calls of originals";
    println!("| hosts | originals | {} | calls of the engine |", columns);
    println!("|{}", "--:|".repeat(9));
    for ((n, name), x) in rows {
        let numbers = [x.epochs, x.encrypted, x.batches, x.entries, x.unreadable, x.calls[0]];
        let texts: Vec<String> = numbers.iter().map(u64::to_string).collect();
        println!("| {} | {} | {} | {} |", n, name, texts.join(" | "), x.calls[1]);
    }
}
