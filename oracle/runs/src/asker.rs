//! What a call will ask outside, told from the state's words: the engine wants its answers before
//! the call. It is written after document 01; where it is wrong, the engine replies 8 or 9.

use answers::{Answer, Question};

use crate::guide::View;
use crate::oracle::Call;
use crate::state::{EPOCH, PROPOSER};

/// A proposer's words, as docs/STATE.md has them.
const PROPOSAL: usize = 0;
const VALUE: usize = 1;
const DECRYPTION: usize = 2;
const PLAINTEXT: usize = 3;
const CIPHERTEXT: usize = 4;
const HAD_INPUT: usize = 5;
const TERMINATED: usize = 6;
const ARRIVAL: usize = 7;

pub type Ask<'a> = &'a mut dyn FnMut(Question) -> Vec<Answer>;

/// The answers to all that the call asks, in order. No answer may make it fail.
pub fn chain(state: &[u64], call: &Call, ask: Ask) -> Vec<Answer> {
    let view = View(state);
    let (current, own) = (view.current(), state[4]);
    let epoch = match call {
        Call::Propose => current,
        Call::Message(x) => x[1],
    };
    let runs = match call {
        Call::Propose => own < view.n(),
        Call::Message(_) => current <= epoch && epoch - current <= view.look_ahead(),
    };
    if !runs {
        return Vec::new();
    }
    let mut asker = Asker {
        n: view.n() as usize,
        f: state[2] as usize,
        share_of: Some(own as usize).filter(|_| own < view.n() && state[5] == 1),
        all_at_end: state[6] == 1,
        encrypted: view.is_encrypted(epoch),
        words: view.epoch(epoch).to_vec(),
        handed: Vec::new(),
        ask,
        answers: Vec::new(),
    };
    asker.call(call, own as usize);
    asker.batches(&view, epoch);
    asker.answers
}

struct Asker<'a> {
    n: usize,
    f: usize,
    /// The own index, where there is a key share.
    share_of: Option<usize>,
    all_at_end: bool,
    encrypted: bool,
    /// The words of the call's epoch.
    words: Vec<u64>,
    /// Contributions that the subset hands up: proposer and value.
    handed: Vec<(usize, u64)>,
    ask: Ask<'a>,
    answers: Vec<Answer>,
}

impl Asker<'_> {
    /// Asks, and answers whether the answer is yes, with its b; of several outputs the last.
    fn wants(&mut self, kind: u64, name: Option<usize>, about: u64) -> (bool, Option<u64>, u64) {
        let name = name.map(|p| p as u64);
        let answers = (self.ask)(Question { kind, name, about });
        let output = answers.iter().rev().find(|x| x.kind == 18).map(|x| x.b);
        let first = answers[0];
        self.answers.extend(answers);
        (first.a == 1, output, first.b)
    }

    fn at(&mut self, p: usize, field: usize) -> &mut u64 {
        &mut self.words[EPOCH + p * (PROPOSER + self.n) + field]
    }

    fn shares(&mut self, p: usize) -> usize {
        (0..self.n).filter(|s| *self.at(p, PROPOSER + s) != 0).count()
    }

    fn call(&mut self, call: &Call, own: usize) {
        if self.words[0] == 0 {
            self.wants(1, None, 0);
            self.words.iter_mut().for_each(|word| *word = 0);
            self.words[0] = 1;
        }
        let ongoing = self.words[0] == 1;
        match *call {
            Call::Propose => {
                self.wants(2, None, 0);
                if ongoing {
                    self.broadcast(3, own);
                    self.after_subset_call();
                }
            }
            Call::Message([sender, _, 3, p, item]) => {
                self.share(sender as usize, p as usize, item);
            }
            Call::Message([_, _, content, p, _]) if ongoing => {
                match content {
                    1 => self.broadcast(4, p as usize),
                    _ => self.agreement(5, p as usize),
                }
                self.after_subset_call();
            }
            Call::Message(_) => {}
        }
    }

    fn broadcast(&mut self, kind: u64, p: usize) {
        let proposal = *self.at(p, PROPOSAL);
        if proposal != 0 && proposal != 2 {
            return;
        }
        let (_, output, _) = self.wants(kind, Some(p), 0);
        match (proposal, output) {
            (_, None) => {}
            (0, Some(value)) => {
                *self.at(p, PROPOSAL) = 1;
                *self.at(p, VALUE) = value;
                self.agreement(6, p);
            }
            (_, Some(value)) => {
                *self.at(p, PROPOSAL) = 4;
                self.handed.push((p, value));
            }
        }
    }

    fn agreement(&mut self, kind: u64, p: usize) {
        let proposal = *self.at(p, PROPOSAL);
        if proposal > 1 {
            return;
        }
        let (_, output, _) = self.wants(kind, Some(p), 0);
        match (proposal, output) {
            (_, None) => {}
            (_, Some(0)) => *self.at(p, PROPOSAL) = 3,
            (0, Some(_)) => *self.at(p, PROPOSAL) = 2,
            (_, Some(_)) => {
                *self.at(p, PROPOSAL) = 4;
                let value = *self.at(p, VALUE);
                self.handed.push((p, value));
            }
        }
    }

    /// Votes where N-f are accepted, then what the subset hands up.
    fn after_subset_call(&mut self) {
        let mut done = false;
        let accepted =
            |x: &mut Self| (0..x.n).filter(|p| [2, 4].contains(x.at(*p, PROPOSAL))).count();
        let before = accepted(self);
        if self.words[1] == 0 && before >= self.n - self.f {
            if before == self.n - self.f {
                (0..self.n).for_each(|p| self.agreement(7, p));
            }
            done = (0..self.n).all(|p| *self.at(p, PROPOSAL) >= 3);
        }
        for (p, value) in std::mem::take(&mut self.handed) {
            match self.all_at_end {
                false => self.contribution(p, value),
                true => self.keep(p, value),
            }
        }
        if done {
            for i in 0..self.words[3] as usize {
                let p = *self.at(i, ARRIVAL) as usize;
                let value = *self.at(p, VALUE);
                self.contribution(p, value);
            }
            self.words[0] = 2;
        }
    }

    fn keep(&mut self, p: usize, value: u64) {
        let count = self.words[3] as usize;
        *self.at(count, ARRIVAL) = p as u64;
        *self.at(p, VALUE) = value;
        self.words[3] += 1;
    }

    fn contribution(&mut self, p: usize, value: u64) {
        if self.encrypted {
            self.send_decryption_share(p, value);
        } else {
            self.decrypted(p, value);
        }
        self.words[2] |= 1 << p;
    }

    fn decrypted(&mut self, p: usize, plaintext: u64) {
        *self.at(p, DECRYPTION) = 2;
        *self.at(p, PLAINTEXT) = plaintext;
    }

    fn send_decryption_share(&mut self, p: usize, value: u64) {
        if !self.wants(8, Some(p), value).0 {
            return;
        }
        if *self.at(p, DECRYPTION) == 2 {
            return;
        }
        *self.at(p, DECRYPTION) = 1;
        if !self.wants(9, Some(p), value).0 {
            return;
        }
        *self.at(p, CIPHERTEXT) = value;
        for s in 0..self.n {
            if *self.at(p, PROPOSER + s) != 0 && !self.wants(10, Some(s), 0).0 {
                *self.at(p, PROPOSER + s) = 0;
            }
        }
        *self.at(p, HAD_INPUT) = 1;
        if let Some(own) = self.share_of {
            *self.at(p, PROPOSER + own) = self.wants(11, None, value).2;
        }
        self.combine(p);
    }

    fn share(&mut self, sender: usize, p: usize, item: u64) {
        let is_accepted = self.words[2] >> p & 1 == 1;
        if self.words[0] == 2 && !is_accepted || *self.at(p, DECRYPTION) == 2 {
            return;
        }
        *self.at(p, DECRYPTION) = 1;
        if *self.at(p, TERMINATED) == 1 {
            return;
        }
        if *self.at(p, CIPHERTEXT) != 0 && !self.wants(10, Some(sender), 0).0 {
            return;
        }
        let is_second = *self.at(p, PROPOSER + sender) != 0;
        *self.at(p, PROPOSER + sender) = item;
        if !is_second {
            self.combine(p);
        }
    }

    fn combine(&mut self, p: usize) {
        let ciphertext = *self.at(p, CIPHERTEXT);
        if *self.at(p, TERMINATED) == 1 || self.shares(p) <= self.f || ciphertext == 0 {
            return;
        }
        *self.at(p, TERMINATED) = 1;
        let plaintext = self.wants(12, None, ciphertext).2;
        self.decrypted(p, plaintext);
    }

    /// The contributions of all batches that go out.
    fn batches(&mut self, view: &View, epoch: u64) {
        for number in view.current()..=view.current() + view.look_ahead() {
            let words = match number == epoch {
                true => self.words.clone(),
                false => view.epoch(number).to_vec(),
            };
            let record = |p: usize| &words[EPOCH + p * (PROPOSER + self.n)..];
            let accepted: Vec<usize> = (0..self.n).filter(|p| words[2] >> p & 1 == 1).collect();
            if words[0] != 2 || accepted.iter().any(|p| record(*p)[DECRYPTION] != 2) {
                return;
            }
            for p in accepted {
                self.wants(13, Some(p), words[EPOCH + p * (PROPOSER + self.n) + PLAINTEXT]);
            }
        }
    }
}
