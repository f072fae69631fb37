//! The original behind document 01's calls: checks, replies, and what a refusal leaves.

use std::panic::{catch_unwind, AssertUnwindSafe};

use answers::{Answer, Refused};
use original::driver::{Instance, Numbers, Outcome};

use crate::schedule::{given, original_numbers};
use crate::{state, table};

pub const MAX_EPOCH: u64 = 1 << 62;

/// The original counts epochs one by one, so a longer skip is not run.
pub const MAX_SKIP: u64 = 1 << 24;

/// What can't be said with a reply: the original stopped, or can't be asked.
pub type Trouble = String;

/// A call that has a step.
#[derive(Clone, Copy, Debug, PartialEq, Eq)]
pub enum Call {
    Propose,
    /// Sender, epoch, content, proposer, item.
    Message([u64; 5]),
}

/// A reply and the words written to the step table.
#[derive(Clone, Debug, PartialEq, Eq)]
pub struct Reply {
    pub reply: u64,
    pub step: Vec<u64>,
}

/// What changed the state, to be done again after a refusal: the original can't be copied. A call
/// is kept with its answers and the fault count before it.
enum Past {
    Call(Call, Vec<Answer>, u64),
    Skip(u64),
}

pub struct Oracle {
    numbers: Numbers,
    instance: Instance,
    fault_count: u64,
    past: Vec<Past>,
}

impl Oracle {
    /// The oracle, or reply 1.
    pub fn create(x: &Numbers) -> Result<Result<Oracle, u64>, Trouble> {
        let numbers_in_range = match x.schedule {
            2 => 1 <= x.number_a && x.number_a < 1 << 32,
            3 => {
                let sum = x.number_a.checked_add(x.number_b);
                sum.map_or(false, |sum| 1 <= sum && sum < 1 << 32)
            }
            schedule => schedule <= 1,
        };
        let in_range = 1 <= x.n
            && x.n <= 16
            && x.f < x.n
            && 3 * x.f < x.n
            && x.look_ahead <= 15
            && x.own <= x.n
            && x.key <= 1
            && x.strategy <= 1
            && x.start <= MAX_EPOCH
            && numbers_in_range;
        if !in_range {
            return Ok(Err(1));
        }
        let instance = catch_unwind(|| Instance::new(&original_numbers(x)));
        let instance = instance.map_err(|payload| text(&*payload))?;
        Ok(Ok(Oracle { numbers: *x, instance, fault_count: 0, past: Vec::new() }))
    }

    pub fn numbers(&self) -> &Numbers {
        &self.numbers
    }

    /// Propose or message, with a step table of so many whole records.
    pub fn call(&mut self, call: &Call, records: u64, answers: &[u64]) -> Result<Reply, Trouble> {
        let refuse = |reply| Ok(Reply { reply, step: Vec::new() });
        let chain = match table::chain(answers, self.numbers.n) {
            Some(chain) => chain,
            None => return refuse(5),
        };
        if let Call::Message([sender, _, content, proposer, item]) = *call {
            if sender >= self.numbers.n {
                return refuse(11);
            }
            let item_in_range = match content {
                1 | 2 => item == 0,
                3 => 1 <= item && item < 1 << 32,
                _ => false,
            };
            if proposer >= self.numbers.n || !item_in_range {
                return refuse(7);
            }
        }
        if self.instance.current_epoch() > MAX_EPOCH {
            return refuse(6);
        }
        let epoch = match call {
            Call::Propose => self.instance.current_epoch(),
            Call::Message(x) => x[1],
        };
        let (outcome, unread) = match execute(&mut self.instance, call, chain.clone()) {
            Ended::Done(outcome, unread) => (outcome, unread),
            Ended::Refused => {
                self.roll_back();
                return refuse(8);
            }
            Ended::Stopped(text) => {
                self.roll_back();
                return Err(text);
            }
        };
        if unread > 0 {
            self.roll_back();
            return refuse(9);
        }
        let (reply, step) = match &outcome {
            Ok(lists) => (0, table::step_words(lists, epoch)),
            Err(number) => (*number, vec![0, 0, 0, epoch]),
        };
        if records < step.len() as u64 / 4 {
            self.roll_back();
            return refuse(10);
        }
        self.past.push(Past::Call(*call, chain, self.fault_count));
        if let Ok(lists) = outcome {
            let faults = self.fault_count + lists.faults.len() as u64;
            self.fault_count = faults.min((1 << 32) - 1);
        }
        Ok(Reply { reply, step })
    }

    pub fn skip(&mut self, target: u64) -> Result<u64, Trouble> {
        if target > MAX_EPOCH {
            return Ok(12);
        }
        if target > self.instance.current_epoch() + MAX_SKIP {
            return Err(format!("a skip of more than {} epochs is not run", MAX_SKIP));
        }
        // A skip asks for nothing; a changed original that does is stopped.
        answers::give(Vec::new());
        let result = catch_unwind(AssertUnwindSafe(|| self.instance.skip(target)));
        result.map_err(|payload| text(&*payload))?;
        self.past.push(Past::Skip(target));
        Ok(0)
    }

    /// Current epoch, has input, received proposals, fault count.
    pub fn queries(&self) -> [u64; 4] {
        let x = &self.instance;
        [x.current_epoch(), x.has_input(), x.received_proposals(), self.fault_count]
    }

    pub fn debug(&self) -> String {
        self.instance.debug()
    }

    pub fn state(&self) -> Result<Vec<u64>, Trouble> {
        let debug = self.debug();
        let words = catch_unwind(|| state::words(&debug, given(&self.numbers), self.fault_count));
        words.map_err(|payload| text(&*payload))
    }

    fn roll_back(&mut self) {
        self.instance = self.second();
    }

    /// Takes back the last call that changed the state.
    pub fn undo(&mut self) {
        if let Some(Past::Call(_, _, fault_count)) = self.past.pop() {
            self.fault_count = fault_count;
        }
        self.roll_back();
    }

    /// A second instance in the same state.
    pub fn second(&self) -> Instance {
        let mut instance = Instance::new(&original_numbers(&self.numbers));
        for past in &self.past {
            match past {
                Past::Skip(target) => instance.skip(*target),
                Past::Call(call, chain, _) => {
                    execute(&mut instance, call, chain.clone());
                }
            }
        }
        instance
    }
}

/// How a call of the original ended: with an outcome and unread answers, refused by a stand-in,
/// or stopped by itself.
pub enum Ended {
    Done(Outcome, usize),
    Refused,
    Stopped(Trouble),
}

fn execute(instance: &mut Instance, call: &Call, chain: Vec<Answer>) -> Ended {
    answers::give(chain);
    run(instance, call).0
}

/// Runs the call with the answers that were set, and takes them out.
pub fn run(instance: &mut Instance, call: &Call) -> (Ended, Vec<Answer>) {
    let result = catch_unwind(AssertUnwindSafe(|| match call {
        Call::Propose => instance.propose(),
        Call::Message(x) => instance.message(x),
    }));
    let (answers, read) = answers::take();
    let ended = match result {
        Ok(outcome) => Ended::Done(outcome, answers.len() - read),
        Err(payload) if payload.is::<Refused>() => Ended::Refused,
        Err(payload) => Ended::Stopped(text(&*payload)),
    };
    (ended, answers)
}

/// The answers of a table as they are; for raw calls, whose tables are not checked.
pub fn table_to_answers(table: &[u64]) -> Vec<Answer> {
    let records = table.chunks_exact(4).skip(1);
    records.map(|x| Answer { kind: x[1], a: x[2], b: x[3] }).collect()
}

/// The text of a panic.
pub fn text(payload: &(dyn std::any::Any + Send)) -> String {
    let text = payload.downcast_ref::<&str>().map(|text| text.to_string());
    let text = text.or_else(|| payload.downcast_ref::<String>().cloned());
    let text = text.or_else(|| payload.is::<Refused>().then(|| "an answer was wanted".into()));
    format!("the original stopped: {}", text.unwrap_or_default().replace('\n', " "))
}
