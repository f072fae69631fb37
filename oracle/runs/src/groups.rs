//! Groups of hosts over one simulated world, some of which run the original and the others the
//! engine.

use std::cell::RefCell;
use std::collections::BTreeMap;
use std::rc::Rc;

use original::driver::{Instance, Numbers, StepLists};

use crate::asker;
use crate::damage::{lay_out, Layout};
use crate::engine;
use crate::oracle::{self, Call, Ended};
use crate::random::{hash, Random};
use crate::schedule::{given, is_encrypted, original_numbers, Schedule};
use crate::state;
use crate::table::step_lists;
use crate::world::{Asked, World};

/// Kinds and numbers; TickTock with on 0 and with off 0 too.
const SCHEDULES: [(u64, u64, u64); 8] =
    [(0, 0, 0), (1, 0, 0), (2, 2, 0), (3, 1, 1), (3, 1, 2), (3, 2, 3), (3, 0, 2), (3, 2, 0)];

/// What all hosts of a group must have in common: batches by epoch, and whose contributions did
/// not read, in order.
#[derive(Clone, Debug, Default, PartialEq)]
pub struct Outcome {
    batches: BTreeMap<u64, Vec<[u64; 3]>>,
    unreadable: Vec<u64>,
}

/// Which hosts run the original, from the start and later on.
#[derive(Clone, Copy, PartialEq)]
pub enum Mix {
    /// So many, to the end.
    Originals(u64),
    /// All; one after the other is replaced by the engine, which takes over its state words.
    Replaced,
}

#[derive(Default)]
pub struct Totals {
    pub epochs: u64,
    pub encrypted: u64,
    /// On all hosts.
    pub batches: u64,
    /// Of one host.
    pub entries: u64,
    pub unreadable: u64,
    /// Of originals, and of the engine.
    pub calls: [u64; 2],
}

enum Host {
    Original(Instance, u64),
    Engine(Vec<u64>),
}

impl Host {
    /// The current epoch, and whether it has the host's input.
    fn queries(&self) -> (u64, bool) {
        match self {
            Host::Original(x, _) => (x.current_epoch(), x.has_input() == 1),
            Host::Engine(state) => {
                let mut results = [0; 4];
                assert_eq!(engine::queries(state, &mut results), [0; 4], "a query's reply");
                (results[0], results[1] == 1)
            }
        }
    }

    /// Makes a call that must succeed.
    fn call(&mut self, call: &Call, world: &Rc<RefCell<World>>) -> Result<StepLists, String> {
        match self {
            Host::Original(instance, faults) => {
                let world = world.clone();
                answers::choose(Box::new(move |question| world.borrow_mut().answer(question)));
                match oracle::run(instance, call).0 {
                    Ended::Done(Ok(step), _) => {
                        *faults += step.faults.len() as u64;
                        Ok(step)
                    }
                    _ => Err("a call of an original went wrong".into()),
                }
            }
            Host::Engine(state) => call_engine(state, call, &mut world.borrow_mut()),
        }
    }

    /// The engine takes over the words that the original's state stands for.
    fn replace(&mut self, schedule: Schedule) {
        if let Host::Original(instance, faults) = self {
            *self = Host::Engine(state::words(&instance.debug(), schedule, *faults));
        }
    }
}

fn call_engine(state: &mut [u64], call: &Call, world: &mut World) -> Result<StepLists, String> {
    let chain = asker::chain(state, call, &mut |question| world.answer(question));
    let mut random = Random::new(&[chain.len() as u64, state[10]]);
    let layout = if random.chance(200) { Layout::Gaps } else { Layout::Contiguous };
    let table = lay_out(&chain, layout, &mut random).ok_or("too many answers")?;
    let mut scratch = vec![7; state.len()];
    let mut step = vec![7; 4 * 1553];
    match engine::call(call, state, &mut scratch, &table, &mut step) {
        0 => Ok(step_lists(&step)),
        reply => Err(format!("the engine replied {}", reply)),
    }
}

/// A message on its way.
struct Sent {
    to: usize,
    /// Sender, epoch, content, proposer, item.
    numbers: [u64; 5],
}

struct Group {
    world: Rc<RefCell<World>>,
    hosts: Vec<Host>,
    /// What the hosts' queries say now.
    now: Vec<(u64, bool)>,
    look_ahead: Vec<u64>,
    /// Create's numbers; those of the last host.
    numbers: Numbers,
    outcomes: Vec<Outcome>,
    sent: Vec<Sent>,
    /// No host proposes from this epoch on.
    end: u64,
    random: Random,
    calls: [u64; 2],
}

/// Runs a group for so many epochs; all hosts must come to the same batches.
pub fn run(
    seed: u64,
    n: u64,
    mix: Mix,
    epochs: u64,
    totals: &mut Totals,
) -> Result<Outcome, String> {
    let mut group = Group::new(seed, n, mix, epochs);
    let start = group.end - epochs;
    let mut replaced = 0;
    while group.turn()? {
        let done = group.now.iter().map(|x| x.0).min().unwrap_or(0) - start;
        // Whatever the host is at.
        if mix == Mix::Replaced && replaced < n && done * (n + 1) > replaced * epochs {
            group.hosts[replaced as usize].replace(given(&group.numbers));
            replaced += 1;
        }
    }
    let outcome = group.outcomes[0].clone();
    if group.outcomes.iter().any(|x| *x != outcome) {
        return Err("the hosts' batches differ".into());
    }
    if outcome.batches.len() as u64 != epochs {
        return Err(format!("{} of {} epochs came to a batch", outcome.batches.len(), epochs));
    }
    if mix == Mix::Replaced && replaced < n {
        return Err("not all hosts were replaced".into());
    }
    totals.epochs += epochs;
    let encrypted = |epoch: &u64| is_encrypted(given(&group.numbers), *epoch);
    totals.encrypted += (start..group.end).filter(encrypted).count() as u64;
    totals.batches += group.outcomes.iter().map(|x| x.batches.len() as u64).sum::<u64>();
    totals.entries += outcome.batches.values().map(|x| x.len() as u64 - 1).sum::<u64>();
    totals.unreadable += outcome.unreadable.len() as u64;
    totals.calls[0] += group.calls[0];
    totals.calls[1] += group.calls[1];
    Ok(outcome)
}

impl Group {
    fn new(seed: u64, n: u64, mix: Mix, epochs: u64) -> Group {
        // The originals' places depend on the mix; all else is the same for each mix.
        let mut random = Random::new(&[seed, n]);
        let start = random.pick(&[0, 1, 1000]);
        let schedule = random.pick(&SCHEDULES);
        let rank = |p: u64| (hash(&[seed, n, 9, p]), p);
        let mut hosts = Vec::new();
        let mut look_ahead = Vec::new();
        let mut numbers = Numbers {
            n,
            f: (n - 1) / 3,
            look_ahead: 0,
            own: 0,
            key: 1,
            strategy: 0,
            start,
            schedule: schedule.0,
            number_a: schedule.1,
            number_b: schedule.2,
        };
        for own in 0..n {
            numbers.own = own;
            numbers.look_ahead = random.pick(&[0, 1, 3, 5]);
            numbers.strategy = random.below(2);
            let place = (0..n).filter(|p| rank(*p) < rank(own)).count() as u64;
            let original = match mix {
                Mix::Originals(count) => place < count,
                Mix::Replaced => true,
            };
            look_ahead.push(numbers.look_ahead);
            hosts.push(match original {
                true => Host::Original(Instance::new(&original_numbers(&numbers)), 0),
                false => {
                    let len = state::state_len(n as usize, numbers.look_ahead as usize);
                    let mut state = vec![7; len];
                    assert_eq!(engine::create(&numbers, &mut state), 0, "create's reply");
                    Host::Engine(state)
                }
            });
        }
        Group {
            world: Rc::new(RefCell::new(World::new(hash(&[seed, n, 8]), n))),
            outcomes: vec![Outcome::default(); hosts.len()],
            now: hosts.iter().map(Host::queries).collect(),
            hosts,
            look_ahead,
            numbers,
            sent: Vec::new(),
            end: start + epochs,
            random,
            calls: [0; 2],
        }
    }

    /// Makes one call, if there is one to make: a host proposes, or a message arrives.
    fn turn(&mut self) -> Result<bool, String> {
        let can_propose = |host: &usize| {
            let (epoch, has_input) = self.now[*host];
            let silent = || self.world.borrow().is_silent(epoch, *host as u64);
            !has_input && epoch < self.end && !silent()
        };
        let proposers: Vec<usize> = (0..self.hosts.len()).filter(can_propose).collect();
        // A sender queue keeps what its receiver can't handle yet.
        let arrives = |x: &Sent| x.numbers[1] <= self.now[x.to].0 + self.look_ahead[x.to];
        let ready: Vec<usize> = (0..self.sent.len()).filter(|i| arrives(&self.sent[*i])).collect();
        if !proposers.is_empty() && (ready.is_empty() || self.random.chance(50)) {
            let host = self.random.pick(&proposers);
            self.call(host, &Call::Propose)?;
        } else if !ready.is_empty() {
            let i = self.random.pick(&ready);
            let message = self.sent.swap_remove(i);
            self.call(message.to, &Call::Message(message.numbers))?;
        } else {
            return Ok(false);
        }
        Ok(true)
    }

    fn call(&mut self, host: usize, call: &Call) -> Result<(), String> {
        let (epoch, sender) = match call {
            Call::Propose => (self.now[host].0, 0),
            Call::Message(x) => (x[1], x[0]),
        };
        self.world.borrow_mut().called(Asked { host: host as u64, epoch, sender });
        self.calls[matches!(self.hosts[host], Host::Engine(_)) as usize] += 1;
        let step = self.hosts[host]
            .call(call, &self.world)
            .map_err(|text| format!("host {} epoch {} {:?}: {}", host, epoch, call, text))?;
        self.now[host] = self.hosts[host].queries();
        for [content, proposer, b] in step.messages {
            let item = if content == 3 { b } else { 0 };
            for to in (0..self.hosts.len()).filter(|to| *to != host) {
                let numbers = [host as u64, epoch, content, proposer, item];
                self.sent.push(Sent { to, numbers });
            }
        }
        let outcome = &mut self.outcomes[host];
        outcome.unreadable.extend(step.faults.iter().filter(|x| x[0] == 5).map(|x| x[1]));
        let mut number = 0;
        for output in step.outputs {
            if output[0] == 1 {
                number = output[1];
            }
            outcome.batches.entry(number).or_default().push(output);
        }
        Ok(())
    }
}
