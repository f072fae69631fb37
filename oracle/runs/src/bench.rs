//! Measures the engine beside the original: the same calls in one process, by turns.

use std::arch::x86_64::{_mm_lfence, _rdtsc};
use std::time::{Duration, Instant};

use answers::Answer;
use original::driver::{Given, Instance, Numbers};

use crate::engine;
use crate::generate::{run_with, Class};
use crate::oracle::{Call, Trouble};
use crate::record::Record;
use crate::schedule::original_numbers;
use crate::state::state_len;
use crate::table;

/// Runs of one N and look-ahead, without damaged calls.
pub fn runs(n: u64, ahead: u64, seed: u64, runs: u64, calls: usize) -> Result<Vec<Record>, Trouble> {
    let class = Class {
        name: "clean",
        consistent: true,
        fail: 0,
        damage: 0,
        ahead: false,
        edge: false,
        other_f: false,
    };
    let change = |x: Numbers| Numbers {
        n,
        f: (n - 1) / 3,
        look_ahead: ahead,
        own: if x.key == 1 { x.own % n } else { n },
        ..x
    };
    let mut records = Vec::new();
    for index in 0..runs {
        records.extend(run_with(&class, seed, index, calls, change)?);
    }
    Ok(records)
}

/// What is measured of a call. The last four are calls that are turned down on the way: their
/// differences are the parts of the call.
#[derive(Clone, Copy)]
enum What {
    Original,
    Engine,
    /// A skip to the current epoch: the range check of the state.
    Range,
    /// 11 with an empty table: range check and zeroing.
    Zeroing,
    /// 11 with the call's table: that and the table's check.
    Table,
    /// 10: that and the first run.
    First,
}

const WHATS: usize = 6;

enum Action {
    Call { call: Call, table: Vec<u64>, chain: Vec<Answer>, reply: u64, records: usize },
    Skip(u64),
    Queries,
}

struct Run {
    numbers: Numbers,
    actions: Vec<Action>,
    /// Ticks, by action, by what, by repetition.
    ticks: Vec<[Vec<u64>; WHATS]>,
}

/// The runs of a file; calls that were turned down are left out.
fn read(records: &[Record]) -> Vec<Run> {
    let mut runs: Vec<Run> = Vec::new();
    for record in records {
        if let Record::Create { numbers, reply: 0 } = record {
            runs.push(Run { numbers: *numbers, actions: Vec::new(), ticks: Vec::new() });
        }
        let run = match runs.last_mut() {
            Some(run) => run,
            None => continue,
        };
        let action = match record {
            Record::Call { call, answers, reply, .. } if reply.reply == 0 || reply.reply >= 20 => {
                let chain = table::chain(answers, run.numbers.n).expect("a table");
                let records = reply.step.len() / 4;
                Action::Call { call: *call, table: answers.clone(), chain, reply: reply.reply, records }
            }
            Record::Skip { target, reply: 0, .. } => Action::Skip(*target),
            Record::Queries(_) => Action::Queries,
            _ => continue,
        };
        run.actions.push(action);
        run.ticks.push(Default::default());
    }
    runs
}

fn now() -> u64 {
    // Safe: both are there on every x86-64.
    unsafe {
        _mm_lfence();
        let ticks = _rdtsc();
        _mm_lfence();
        ticks
    }
}

/// Nanoseconds of a tick, and the ticks that measuring nothing takes.
fn calibrate() -> (f64, u64) {
    let (start, ticks) = (Instant::now(), now());
    while start.elapsed() < Duration::from_millis(50) {}
    let scale = start.elapsed().as_nanos() as f64 / (now() - ticks) as f64;
    let mut empty: Vec<u64> = (0..1001).map(|_| now()).map(|t| now() - t).collect();
    empty.sort_unstable();
    (scale, empty[500])
}

impl Run {
    fn add(&mut self, i: usize, what: What, start: u64, end: u64) {
        self.ticks[i][what as usize].push(end - start);
    }

    fn original(&mut self) {
        let mut x = Instance::new(&original_numbers(&self.numbers));
        for i in 0..self.actions.len() {
            let (start, end);
            match &self.actions[i] {
                Action::Call { call: Call::Propose, chain, reply, .. } => {
                    answers::give(chain.clone());
                    start = now();
                    let ok = x.bare_propose().is_ok();
                    end = now();
                    assert_eq!(ok, *reply == 0);
                }
                Action::Call { call: Call::Message(numbers), chain, reply, .. } => {
                    answers::give(chain.clone());
                    let message = Given::new(numbers);
                    start = now();
                    let ok = x.bare_message(numbers[0], message).is_ok();
                    end = now();
                    assert_eq!(ok, *reply == 0);
                }
                Action::Skip(target) => {
                    start = now();
                    x.skip(*target);
                    end = now();
                }
                Action::Queries => {
                    start = now();
                    std::hint::black_box([x.current_epoch(), x.has_input(), x.received_proposals()]);
                    end = now();
                }
            }
            self.add(i, What::Original, start, end);
        }
    }

    fn engine(&mut self) {
        let mut words = Words::new(&self.numbers);
        for i in 0..self.actions.len() {
            let (start, end) = words.make(&self.actions[i]);
            self.add(i, What::Engine, start, end);
        }
    }

    /// The calls that are turned down, before each call of the run.
    fn parts(&mut self) {
        let mut words = Words::new(&self.numbers);
        for i in 0..self.actions.len() {
            if let Action::Call { call, table, .. } = &self.actions[i] {
                let stranger = Call::Message([self.numbers.n, 0, 1, 0, 0]);
                let current = words.state[10];
                words.settle(&stranger, table);
                let start = now();
                let skip = engine::skip(current, &mut words.state);
                let end = now();
                assert_eq!(skip, 0);
                words.settle(&stranger, table);
                let zeroing = words.refused(&stranger, &[0; 4], 11);
                words.settle(&stranger, table);
                let checks = words.refused(&stranger, table, 11);
                words.settle(&stranger, table);
                let first = words.refused(call, table, 10);
                self.add(i, What::Range, start, end);
                self.add(i, What::Zeroing, zeroing.0, zeroing.1);
                self.add(i, What::Table, checks.0, checks.1);
                self.add(i, What::First, first.0, first.1);
            }
            words.make(&self.actions[i]);
        }
    }
}

/// A host has just written the answers.
fn touch(table: &[u64]) {
    std::hint::black_box(table.iter().fold(0, |all, word| all ^ word));
}

/// What a host lends to the engine.
struct Words {
    state: Vec<u64>,
    scratch: Vec<u64>,
    step: Vec<u64>,
}

impl Words {
    fn new(x: &Numbers) -> Words {
        let len = state_len(x.n as usize, x.look_ahead as usize);
        let mut state = vec![0; len];
        assert_eq!(engine::create(x, &mut state), 0);
        Words { state, scratch: vec![0; len], step: vec![0; 8192] }
    }

    fn make(&mut self, action: &Action) -> (u64, u64) {
        let (start, end);
        match action {
            Action::Call { call, table, reply, .. } => {
                touch(table);
                start = now();
                let r = engine::call(call, &mut self.state, &mut self.scratch, table, &mut self.step);
                end = now();
                assert_eq!(r, *reply);
            }
            Action::Skip(target) => {
                start = now();
                let r = engine::skip(*target, &mut self.state);
                end = now();
                assert_eq!(r, 0);
            }
            Action::Queries => {
                let mut results = [0; 4];
                start = now();
                std::hint::black_box(engine::queries(&self.state, &mut results));
                end = now();
            }
        }
        (start, end)
    }

    /// Leaves the caches as the call before leaves them: its scratch was just zeroed.
    fn settle(&mut self, stranger: &Call, table: &[u64]) {
        self.refused(stranger, &[0; 4], 11);
        touch(table);
    }

    fn refused(&mut self, call: &Call, table: &[u64], wanted: u64) -> (u64, u64) {
        let step = if wanted == 10 { &mut self.step[..0] } else { &mut self.step[..] };
        let start = now();
        let reply = engine::call(call, &mut self.state, &mut self.scratch, table, step);
        let end = now();
        assert_eq!(reply, wanted);
        (start, end)
    }
}

/// Writes a line for each call: where it stands, then first quartile, median and third quartile of
/// each measured time, in nanoseconds.
pub fn measure(name: &str, records: &[Record], repeats: usize) -> Result<(), Trouble> {
    let (scale, empty) = calibrate();
    let mut runs = read(records);
    // The runs of a file one after the other, so that no call is made again before many others were.
    // The first repetition is not counted: what it brings in is there afterwards.
    for repetition in 0..=repeats {
        for run in &mut runs {
            if repetition % 2 == 0 {
                run.original();
                run.engine();
            } else {
                run.engine();
                run.original();
            }
        }
        runs.iter_mut().for_each(Run::parts);
        if repetition == 0 {
            let ticks = runs.iter_mut().flat_map(|run| &mut run.ticks);
            ticks.for_each(|ticks| *ticks = Default::default());
        }
    }
    for (r, run) in runs.iter().enumerate() {
        for (i, action) in run.actions.iter().enumerate() {
            let x = &run.numbers;
            let (kind, reply, chain, records) = describe(action);
            print!("{}\t{}\t{}\t{}\t{}\t{}\t{}", name, r, x.n, x.look_ahead, x.schedule, x.strategy, i);
            print!("\t{}\t{}\t{}\t{}", kind, reply, chain, records);
            for ticks in &run.ticks[i] {
                let mut ticks: Vec<u64> = ticks.clone();
                ticks.sort_unstable();
                let quantile = |part: usize| match ticks.len() {
                    0 => 0.0,
                    len => ticks[(len - 1) * part / 4].saturating_sub(empty) as f64 * scale,
                };
                print!("\t{:.1}\t{:.1}\t{:.1}", quantile(1), quantile(2), quantile(3));
            }
            println!();
        }
    }
    Ok(())
}

fn describe(action: &Action) -> (&'static str, u64, usize, usize) {
    match action {
        Action::Call { call, chain, reply, records, .. } => {
            let kind = match call {
                Call::Propose => "propose",
                Call::Message([_, _, 1, _, _]) => "broadcast",
                Call::Message([_, _, 2, _, _]) => "agreement",
                Call::Message(_) => "share",
            };
            (kind, *reply, chain.len(), *records)
        }
        Action::Skip(_) => ("skip", 0, 0, 0),
        Action::Queries => ("queries", 0, 0, 0),
    }
}
