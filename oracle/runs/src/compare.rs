//! Makes the calls of a run on the original and on the engine, and compares every word.

use std::collections::BTreeMap;

use original::driver::Numbers;

use crate::document;
use crate::engine;
use crate::lent::Lent;
use crate::oracle::{Call, Oracle};
use crate::random::Random;
use crate::record::Record;
use crate::state::state_len;

/// How many calls had which reply, by what they were compared with and operation.
pub type Tally = BTreeMap<(Against, &'static str, u64), u64>;

#[derive(Clone, Copy, PartialEq, Eq, PartialOrd, Ord)]
pub enum Against {
    Original,
    /// Replies and states that the original can't have.
    Document,
}

/// The first difference of a run: at which record, and what.
pub type Difference = (usize, String);

/// Compares a run. One call in so many is also made as the original can't make it.
pub fn run(records: &[Record], seed: &[u64], tally: &mut Tally) -> Result<(), Difference> {
    let mut beside = Beside { random: Random::new(seed), tally, both: None };
    for (i, record) in records.iter().enumerate() {
        beside.record(record).map_err(|text| (i, text))?;
    }
    Ok(())
}

/// The original, and the engine's state.
struct Both {
    oracle: Oracle,
    state: Vec<u64>,
}

struct Beside<'a> {
    random: Random,
    tally: &'a mut Tally,
    both: Option<Both>,
}

impl Beside<'_> {
    fn record(&mut self, record: &Record) -> Result<(), String> {
        match record {
            Record::Create { numbers, .. } => self.create(numbers)?,
            Record::Call { call, records, answers, .. } => {
                if self.random.chance(60) {
                    let state = &self.both.as_ref().ok_or("nothing was created")?.state;
                    document::calls(state, call, answers, &mut self.random, self.tally)?;
                }
                self.call(call, *records, answers)?
            }
            Record::Skip { target, .. } => self.skip(*target)?,
            Record::Queries(_) => return Ok(()),
        }
        self.queries()
    }

    fn create(&mut self, numbers: &Numbers) -> Result<(), String> {
        let created = Oracle::create(numbers)?;
        let right = match created {
            Ok(_) => state_len(numbers.n as usize, numbers.look_ahead as usize),
            Err(_) => self.random.pick(&[0, 15, 41, 272, 6416]),
        };
        let wanted = created.as_ref().err().copied().unwrap_or(0);
        if wanted == 0 {
            document::lengths(numbers, right, &mut self.random, self.tally)?;
        }
        let mut state = Lent::rubbish(right, &mut self.random);
        let reply = engine::create(numbers, state.words());
        same("reply", reply, wanted)?;
        match created {
            Err(_) => state.check("state", &[])?,
            Ok(oracle) => {
                state.check("state", &oracle.state()?)?;
                self.both = Some(Both { oracle, state: state.words().to_vec() });
            }
        }
        self.count("create", reply);
        Ok(())
    }

    fn call(&mut self, call: &Call, records: u64, answers: &[u64]) -> Result<(), String> {
        let random = &mut self.random;
        let both = self.both.as_mut().ok_or("nothing was created")?;
        let len = both.state.len();
        let mut state = Lent::new(&both.state, random);
        let extra = random.pick(&[0, 0, 1, 40]);
        let mut scratch = Lent::rubbish(len + extra, random);
        let mut table = Lent::new(answers, random);
        let extra = random.below(4) as usize;
        let mut step = Lent::rubbish(4 * records as usize + extra, random);

        let reply = engine::call(call, state.words(), scratch.words(), table.words(), step.words());
        let wanted = both.oracle.call(call, records, answers)?;
        same("reply", reply, wanted.reply)?;
        step.check("step", &wanted.step)?;
        state.check("state", &both.oracle.state()?)?;
        scratch.check("scratch", &vec![0; len])?;
        table.check("answers", &[])?;
        both.state.copy_from_slice(state.words());
        self.count(if *call == Call::Propose { "propose" } else { "message" }, reply);
        Ok(())
    }

    fn skip(&mut self, target: u64) -> Result<(), String> {
        let both = self.both.as_mut().ok_or("nothing was created")?;
        let mut state = Lent::new(&both.state, &mut self.random);
        let reply = engine::skip(target, state.words());
        same("reply", reply, both.oracle.skip(target)?)?;
        state.check("state", &both.oracle.state()?)?;
        both.state.copy_from_slice(state.words());
        self.count("skip", reply);
        Ok(())
    }

    fn queries(&mut self) -> Result<(), String> {
        let both = match &self.both {
            Some(both) => both,
            None => return Ok(()),
        };
        let mut state = Lent::new(&both.state, &mut self.random);
        let mut results = [self.random.word(); 4];
        let replies = engine::queries(state.words(), &mut results);
        state.check("state after the queries", &[])?;
        for ((reply, result), wanted) in replies.iter().zip(&results).zip(&both.oracle.queries()) {
            same("reply of a query", *reply, 0)?;
            same("query", *result, *wanted)?;
        }
        *self.tally.entry((Against::Original, "queries", 0)).or_default() += 4;
        Ok(())
    }

    fn count(&mut self, operation: &'static str, reply: u64) {
        *self.tally.entry((Against::Original, operation, reply)).or_default() += 1;
    }
}

pub fn same(what: &str, is: u64, wanted: u64) -> Result<(), String> {
    match is == wanted {
        true => Ok(()),
        false => Err(format!("{}: {}, should be {}", what, is, wanted)),
    }
}

/// How many calls have an original to be compared with; queries are not counted.
pub fn calls(tally: &Tally) -> u64 {
    let counted = |(against, operation, _): &(Against, &str, u64)| {
        *against == Against::Original && *operation != "queries"
    };
    tally.iter().filter(|(key, _)| counted(key)).map(|(_, number)| number).sum()
}

/// A row for each operation.
pub fn print(tally: &Tally) {
    for (against, title) in
        [(Against::Original, "with the original"), (Against::Document, "with document 01")].iter()
    {
        println!("| {} | replies |\n|---|---|", title);
        for operation in ["create", "propose", "message", "skip", "queries", "in range"].iter() {
            let of_row = tally.iter().filter(|(x, _)| x.0 == *against && x.1 == *operation);
            let replies: Vec<String> =
                of_row.map(|((_, _, reply), number)| format!("{}: {}", reply, number)).collect();
            if !replies.is_empty() {
                println!("| {} | {} |", operation, replies.join(", "));
            }
        }
    }
}
