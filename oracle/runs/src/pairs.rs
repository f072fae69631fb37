//! Compares the batches of two runs that share a world: what demand 3 says, seen on the original.

use std::collections::BTreeMap;

use crate::record::Record;

/// The batches of each run, by epoch: the output records from the batch to the next one.
fn batches(records: &[Record]) -> Vec<BTreeMap<u64, Vec<[u64; 3]>>> {
    let mut runs = Vec::new();
    for record in records {
        match record {
            Record::Create { reply: 0, .. } => runs.push(BTreeMap::new()),
            Record::Call { reply, .. } if reply.reply == 0 => {
                let run: &mut BTreeMap<u64, Vec<[u64; 3]>> = runs.last_mut().expect("a create");
                let mut at = reply.step[2] as usize;
                let mut epoch = 0;
                while at != 0 {
                    let x =
                        [reply.step[4 * at + 1], reply.step[4 * at + 2], reply.step[4 * at + 3]];
                    if x[0] == 1 {
                        epoch = x[1];
                    }
                    run.entry(epoch).or_default().push(x);
                    at = reply.step[4 * at] as usize;
                }
            }
            _ => {}
        }
    }
    runs
}

/// How many batches two runs of a pair both have; the error is the first difference.
pub fn common_batches(records: &[Record]) -> Result<usize, String> {
    let runs = batches(records);
    let mut common = 0;
    for (i, pair) in runs.chunks(2).enumerate().filter(|(_, pair)| pair.len() == 2) {
        for (epoch, batch) in &pair[0] {
            if let Some(other) = pair[1].get(epoch) {
                if other != batch {
                    return Err(format!("pair {}: two batches for epoch {}", i, epoch));
                }
                common += 1;
            }
        }
    }
    Ok(common)
}
