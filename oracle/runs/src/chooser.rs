//! Chooses what the outside answers.

use answers::{Answer, Question};

use crate::random::{hash, Random};

/// What is the same for all hosts: values, decisions, and what reads, verifies and decrypts.
#[derive(Clone, Copy)]
pub struct World {
    pub seed: u64,
    pub n: u64,
    pub f: u64,
    /// Few different values, so that proposers share them.
    pub few_values: bool,
    /// How many in a thousand ciphertexts and contributions are bad.
    pub bad_ciphertext: u64,
    pub bad_contribution: u64,
}

impl World {
    fn value(&self, epoch: u64, proposer: u64) -> u64 {
        let h = hash(&[self.seed, 1, epoch, proposer]);
        1 + h % if self.few_values { 4 } else { (1 << 32) - 1 }
    }

    /// At least N-f proposers of an epoch are decided 1.
    fn decision(&self, epoch: u64, proposer: u64) -> bool {
        let yes = self.n - self.f + hash(&[self.seed, 2, epoch]) % (self.f + 1);
        let rank = |p| (hash(&[self.seed, 3, epoch, p]), p);
        (0..self.n).filter(|&p| rank(p) < rank(proposer)).count() < yes as usize
    }

    /// How many in a thousand answers of kind 8, 9 or 13 are no.
    fn bad(&self, kind: u64) -> u64 {
        if kind == 13 {
            self.bad_contribution
        } else {
            self.bad_ciphertext
        }
    }

    fn plaintext(&self, handle: u64) -> u64 {
        1 + hash(&[self.seed, 12, handle]) % if self.few_values { 5 } else { (1 << 32) - 1 }
    }
}

/// How a host's run goes.
#[derive(Clone, Copy)]
pub struct Style {
    /// All answers come from the world, so that two runs can be compared.
    pub consistent: bool,
    /// In thousandths: an answer is no, decrypting fails, an output comes at once, a vote decides,
    /// a share is bad.
    pub fail: u64,
    pub fail_decryption: u64,
    pub output: u64,
    pub vote: u64,
    pub bad_share: u64,
    /// Parts besides outputs, in thousandths for each.
    pub parts: u64,
}

pub struct Chooser {
    pub random: Random,
    pub world: World,
    pub style: Style,
    /// The epoch that the call is for.
    pub epoch: u64,
    /// The call is meant to bring its epoch on.
    pub eager: bool,
}

impl Chooser {
    pub fn answer(&mut self, question: Question) -> Vec<Answer> {
        let Question { kind, name, about } = question;
        let fail = if kind == 12 { self.style.fail_decryption } else { self.style.fail };
        let ok = !self.random.chance(fail);
        let good = match self.style.consistent {
            true => hash(&[self.world.seed, kind, about]) % 1000 >= self.world.bad(kind),
            false => !self.random.chance(self.world.bad(kind)),
        };
        let (a, b) = match kind {
            1 => (ok, 0),
            2 => (ok, self.random.handle()),
            3..=7 => (ok, name.unwrap()),
            8 | 9 | 13 => (good, name.unwrap()),
            10 => (!self.random.chance(self.style.bad_share), name.unwrap()),
            11 => (true, self.random.handle()),
            _ if self.style.consistent => (ok, self.world.plaintext(about)),
            _ => (ok, self.random.handle()),
        };
        let b = if !a && (kind == 2 || kind == 12) { 0 } else { b };
        let mut answers = vec![Answer { kind, a: a as u64, b }];
        if (3..=7).contains(&kind) && a {
            answers.extend(self.parts(kind, b));
        }
        answers
    }

    fn parts(&mut self, kind: u64, proposer: u64) -> Vec<Answer> {
        let mut parts = Vec::new();
        while self.random.chance(self.style.parts) && parts.len() < 4 {
            parts.push(match self.random.below(4) {
                0 => {
                    let b = self.random.pick(&[0, 1, 77, (1 << 32) - 1]);
                    Answer { kind: 17, a: self.random.below(self.world.n), b }
                }
                _ => {
                    let any = self.random.word();
                    let b = self.random.pick(&[0, 1, 5, any, u64::MAX]);
                    Answer { kind: 16, a: 0, b }
                }
            });
        }
        let chance = match kind {
            6 | 7 => self.style.vote,
            _ if self.eager => 850,
            _ => self.style.output,
        };
        if self.random.chance(chance) {
            if self.random.chance(80) {
                // An output that doesn't count: another one follows.
                let b = if kind <= 4 { self.random.handle() } else { self.random.below(2) };
                self.put(&mut parts, 0, b);
            }
            let last = parts.iter().rposition(|x| x.kind == 18).map_or(0, |i| i + 1);
            let b = self.output(kind, proposer);
            self.put(&mut parts, last, b);
        }
        parts
    }

    /// Puts an output anywhere from this place on.
    fn put(&mut self, parts: &mut Vec<Answer>, from: usize, b: u64) {
        let place = from + self.random.below((parts.len() - from) as u64 + 1) as usize;
        parts.insert(place, Answer { kind: 18, a: 0, b });
    }

    fn output(&mut self, kind: u64, proposer: u64) -> u64 {
        match (kind, self.style.consistent) {
            (3 | 4, true) => self.world.value(self.epoch, proposer),
            (3 | 4, false) => self.random.handle(),
            (_, true) => self.world.decision(self.epoch, proposer) as u64,
            (7, false) => self.random.chance(250) as u64,
            (_, false) => self.random.chance(800) as u64,
        }
    }
}
