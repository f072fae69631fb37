//! Makes runs: the original says what each call replies and leaves.

use std::cell::RefCell;
use std::rc::Rc;

use original::driver::Numbers;

use crate::chooser::{Chooser, Style, World};
use crate::damage::{damage, damage_call, lay_out, pick_layout, Layout, Made};
use crate::guide::{plan, Habit, Plan};
use crate::oracle::{self, Call, Ended, Oracle, Trouble, MAX_EPOCH};
use crate::random::{hash, Random};
use crate::record::{Record, MAX_RECORD};
use crate::state;

/// A kind of runs.
pub struct Class {
    pub name: &'static str,
    /// Two runs each share their world (and N, f and schedule); no call fails.
    pub consistent: bool,
    /// In thousandths: answers that are no, and damaged calls.
    pub fail: u64,
    pub damage: u64,
    /// Later epochs first.
    pub ahead: bool,
    /// Starts near 2^62.
    pub edge: bool,
    /// f other than (N-1)/3, outside the domain of comparison.
    pub other_f: bool,
}

const BASE: Class = Class {
    name: "",
    consistent: false,
    fail: 0,
    damage: 60,
    ahead: false,
    edge: false,
    other_f: false,
};

pub const CLASSES: [Class; 7] = [
    Class { name: "clean", consistent: true, ..BASE },
    Class { name: "wild", ..BASE },
    Class { name: "failing", fail: 60, ..BASE },
    Class { name: "damaged", fail: 20, damage: 700, ..BASE },
    Class { name: "ahead", consistent: true, ahead: true, ..BASE },
    Class { name: "edge", fail: 10, damage: 200, edge: true, ..BASE },
    Class { name: "other-f", fail: 15, other_f: true, ..BASE },
];

/// One run of so many calls.
pub fn run(class: &Class, seed: u64, index: u64, calls: usize) -> Result<Vec<Record>, Trouble> {
    run_with(class, seed, index, calls, |numbers| numbers)
}

/// The same, with create's numbers changed.
pub fn run_with(
    class: &Class,
    seed: u64,
    index: u64,
    calls: usize,
    change: impl Fn(Numbers) -> Numbers,
) -> Result<Vec<Record>, Trouble> {
    let name = hash(&class.name.bytes().map(u64::from).collect::<Vec<_>>());
    let mut random = Random::new(&[seed, name, index]);
    // What two runs of a pair share is drawn from a generator of its own.
    let pair = if class.consistent { index / 2 } else { index };
    let mut shared = Random::new(&[seed, name, pair, 1]);
    let numbers = change(choose_numbers(class, name, index, pair, &mut shared, &mut random));
    let world = World {
        seed: shared.word(),
        n: numbers.n,
        f: numbers.f,
        few_values: shared.chance(200),
        bad_ciphertext: shared.pick(&[0, 0, 15, 80]),
        bad_contribution: shared.pick(&[0, 30, 200]),
    };
    let style = Style {
        consistent: class.consistent,
        fail: class.fail,
        fail_decryption: random.pick(&[class.fail, class.fail * 6]),
        output: random.pick(&[100, 400, 800]),
        vote: if class.ahead { 950 } else { random.pick(&[50, 300, 800, 950]) },
        bad_share: random.pick(&[0, 50, 250]),
        parts: random.pick(&[50, 150, 400]),
    };
    let habit = Habit {
        ahead: class.ahead || random.chance(100),
        skip: if class.ahead { random.pick(&[0, 10]) } else { random.pick(&[0, 10, 40]) },
        stray: random.pick(&[10, 40, 100]),
        propose: if class.fail > 0 { random.pick(&[30, 300]) } else { 30 },
    };

    let mut run = Run::start(class, numbers, calls, &mut random)?;
    while run.made < calls {
        let words = run.oracle.state()?;
        match plan(&words, &habit, &mut random) {
            Plan::Skip(target) => run.skip(target)?,
            Plan::Call(call, eager) => {
                let epoch = match call {
                    Call::Propose => words[10],
                    Call::Message(x) => x[1],
                };
                let random_answers = Random::new(&[random.word()]);
                let chooser = Chooser { random: random_answers, world, style, epoch, eager };
                run.call(call, chooser, &mut random)?;
            }
        }
        if random.chance(400) {
            run.records.push(Record::Queries(run.oracle.queries()));
        }
    }
    Ok(run.records)
}

struct Run<'a> {
    class: &'a Class,
    records: Vec<Record>,
    /// Calls recorded, queries and creates not counted.
    made: usize,
    /// Calls wanted.
    calls: usize,
    /// Of the state now.
    digest: u64,
    oracle: Oracle,
    /// In the same state: on it a call's answers are chosen.
    second: original::driver::Instance,
}

impl Run<'_> {
    fn start<'a>(
        class: &'a Class,
        x: Numbers,
        calls: usize,
        random: &mut Random,
    ) -> Result<Run<'a>, Trouble> {
        let mut records = Vec::new();
        for _ in 0..random.below(3) {
            let numbers = bad_numbers(x, random);
            if let Err(reply) = Oracle::create(&numbers)? {
                records.push(Record::Create { numbers, reply });
            }
        }
        let oracle = Oracle::create(&x)?.map_err(|_| "the numbers are out of range")?;
        records.push(Record::Create { numbers: x, reply: 0 });
        let second = oracle.second();
        let digest = state::digest(&oracle.state()?);
        Ok(Run { class, records, made: 0, calls, digest, oracle, second })
    }

    fn skip(&mut self, target: u64) -> Result<(), Trouble> {
        let reply = self.oracle.skip(target)?;
        if reply == 0 {
            self.second.skip(target);
        }
        let digest = self.digest_after(reply)?;
        self.records.push(Record::Skip { target, reply, digest });
        self.made += 1;
        Ok(())
    }

    fn call(&mut self, call: Call, chooser: Chooser, random: &mut Random) -> Result<(), Trouble> {
        if self.oracle.queries()[0] > MAX_EPOCH {
            let mut call = call;
            if random.chance(300) {
                damage_call(&mut call, self.oracle.numbers().n, random);
            }
            let table = vec![0, 0, 0, random.pick(&[0, 0, 0, 0, 1])];
            self.make(Made { call, records: random.below(3), table })?;
            return Ok(());
        }
        let chooser = Rc::new(RefCell::new(chooser));
        answers::choose(Box::new(move |question| chooser.borrow_mut().answer(question)));
        let (ended, chain) = oracle::run(&mut self.second, &call);
        let needed = match ended {
            Ended::Done(Ok(step), _) => {
                1 + (step.messages.len() + step.faults.len() + step.outputs.len()) as u64
            }
            Ended::Done(Err(_), _) => 1,
            Ended::Refused => return Err("a chosen answer was refused".into()),
            Ended::Stopped(text) => return Err(text),
        };
        if random.chance(self.class.damage) && self.made + 1 < self.calls {
            let n = self.oracle.numbers().n;
            if let Some(made) = damage(call, needed, &chain, n, random) {
                let reply = self.make(made)?;
                let changed = reply == 0 || reply >= 20;
                if changed && self.class.consistent {
                    // It may have broken what the runs of a pair have in common.
                    self.oracle.undo();
                    self.digest = state::digest(&self.oracle.state()?);
                    self.records.pop();
                    self.made -= 1;
                } else if changed {
                    self.second = self.oracle.second();
                    return Ok(());
                }
            }
        }
        let layout = pick_layout(random);
        let table = lay_out(&chain, layout, random);
        let table = table.or_else(|| lay_out(&chain, Layout::Contiguous, random));
        let table = match table {
            Some(table) => table,
            None => {
                // More answers than a table holds.
                self.second = self.oracle.second();
                return Ok(());
            }
        };
        let records = needed + random.pick(&[0, 0, 1, 50]);
        let reply = self.make(Made { call, records, table })?;
        match reply {
            0 | 20..=25 => Ok(()),
            _ => Err(format!("a sound call was turned down with {}", reply)),
        }
    }

    /// The state's digest after a reply; a call that is turned down must not change it.
    fn digest_after(&mut self, reply: u64) -> Result<u64, Trouble> {
        let before = self.digest;
        self.digest = state::digest(&self.oracle.state()?);
        assert!(self.digest == before || reply == 0 || reply >= 20, "a refusal left its mark");
        Ok(self.digest)
    }

    /// Makes the call and records it.
    fn make(&mut self, made: Made) -> Result<u64, Trouble> {
        let Made { call, records, table } = made;
        let reply = self.oracle.call(&call, records, &table)?;
        let number = reply.reply;
        let digest = self.digest_after(number)?;
        let record = Record::Call { call, records, answers: table, reply, digest };
        assert!(record.words().len() <= MAX_RECORD, "a record is too long");
        self.records.push(record);
        self.made += 1;
        Ok(number)
    }
}

/// The highest number of a schedule.
const BIG: u64 = (1 << 32) - 1;

/// TickTock's numbers: both above 0, on 0, off 0.
const TICK_TOCKS: [(u64, u64); 12] = [
    (1, 1),
    (1, 2),
    (2, 1),
    (3, 2),
    (1, BIG - 1),
    (BIG - 1, 1),
    (0, 1),
    (0, 4),
    (0, BIG),
    (1, 0),
    (2, 0),
    (BIG, 0),
];

/// Create's numbers. N, f and schedule are shared by a pair of runs, the others may differ.
fn choose_numbers(
    class: &Class,
    name: u64,
    index: u64,
    pair: u64,
    shared: &mut Random,
    own: &mut Random,
) -> Numbers {
    // All N and all F come round, for each class from another one on; small N more often, since
    // their epochs end sooner.
    let n = match pair % 2 {
        _ if class.other_f => 4 + shared.below(13),
        _ if class.ahead && pair % 4 != 0 => shared.pick(&[1, 1, 2, 2, 3, 4]),
        0 => 1 + (name + pair / 2 * 5) % 16,
        _ => shared.pick(&[1, 2, 3, 4, 4, 5, 7]),
    };
    let f = match class.other_f {
        true => shared.below((n - 1) / 3),
        false => (n - 1) / 3,
    };
    let schedule = shared.pick(&[0, 1, 1, 2, 3]);
    let (number_a, number_b) = match schedule {
        2 => (shared.pick(&[1, 2, 3, 5, BIG]), own.word()),
        3 => shared.pick(&TICK_TOCKS),
        _ => (own.word(), own.word()),
    };
    let look_ahead = match class.ahead {
        // A large network doesn't finish many epochs.
        true if n > 4 => own.pick(&[1, 2, 3]),
        true => 15 - (index - 2 * (index / 8 + 1).min(index / 2)) % 16,
        false if pair % 3 == 0 => (name / 16 + pair / 3 * 7) % 16,
        false => own.pick(&[0, 1, 3, 3, 5, 15]),
    };
    let validator = own.chance(750);
    let near = MAX_EPOCH - shared.below(12);
    let start = match class.edge {
        true => near,
        false => shared.pick(&[0, 0, 0, 1, 7, 1000, near]),
    };
    Numbers {
        n,
        f,
        look_ahead,
        own: if validator { own.below(n) } else { n },
        key: validator as u64,
        strategy: own.below(2),
        start,
        schedule,
        number_a,
        number_b,
    }
}

/// The numbers with one out of range, as a rule just so.
fn bad_numbers(x: Numbers, random: &mut Random) -> Numbers {
    let mut x = x;
    match random.below(12) {
        0 => x.n = random.pick(&[0, 17, u64::MAX]),
        1 => x.f = random.pick(&[(x.n + 2) / 3, x.n, u64::MAX, 1 << 63]),
        2 => x.look_ahead = random.pick(&[16, u64::MAX]),
        3 => x.own = random.pick(&[x.n + 1, u64::MAX]),
        4 => x.key = random.pick(&[2, u64::MAX]),
        5 => x.strategy = random.pick(&[2, u64::MAX]),
        6 => x.start = random.pick(&[MAX_EPOCH + 1, u64::MAX]),
        7 => x.schedule = random.pick(&[4, u64::MAX]),
        8 => {
            x.schedule = 2;
            x.number_a = random.pick(&[0, 1 << 32, u64::MAX]);
        }
        _ => {
            x.schedule = 3;
            let bad = [(0, 0), (1 << 32, 0), (1, (1 << 32) - 1), (u64::MAX, 1), (u64::MAX, 5)];
            let (a, b) = random.pick(&bad);
            x.number_a = a;
            x.number_b = b;
        }
    }
    x
}
