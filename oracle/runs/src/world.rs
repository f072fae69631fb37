//! One outside world for a group of hosts: reliable broadcast, binary agreement and a threshold
//! cipher, simulated honestly and as simply as they can be.

use std::collections::BTreeMap;

use answers::{Answer, Question};

use crate::random::hash;

/// An epoch and a proposer.
type Place = (u64, u64);

pub struct World {
    seed: u64,
    n: u64,
    f: u64,
    /// Contributions that don't read, in thousandths.
    unreadable: u64,
    /// A host whose shares don't verify, if there is one.
    liar: Option<u64>,
    values: BTreeMap<Place, u64>,
    agreements: BTreeMap<Place, Agreement>,
    /// What a host has of a broadcast and an agreement.
    parts: BTreeMap<(u64, Place), Part>,
    call: Asked,
}

/// Who makes the call, for which epoch, and who sent the message, if it is one.
#[derive(Clone, Copy, Default)]
pub struct Asked {
    pub host: u64,
    pub epoch: u64,
    pub sender: u64,
}

#[derive(Default)]
struct Agreement {
    votes: BTreeMap<u64, bool>,
    decision: Option<bool>,
}

/// The hosts whose echoes and whose votes are here, as bits.
#[derive(Default)]
struct Part {
    echoes: u64,
    votes: u64,
}

impl World {
    pub fn new(seed: u64, n: u64) -> World {
        let draw = |what: u64, bound: u64| hash(&[seed, what]) % bound;
        World {
            seed,
            n,
            f: (n - 1) / 3,
            unreadable: [0, 0, 100][draw(1, 3) as usize],
            liar: Some(draw(2, 2 * n)).filter(|host| *host < n),
            values: BTreeMap::new(),
            agreements: BTreeMap::new(),
            parts: BTreeMap::new(),
            call: Asked::default(),
        }
    }

    /// Whether a host proposes nothing in an epoch: at most f of them do.
    pub fn is_silent(&self, epoch: u64, host: u64) -> bool {
        let some = hash(&[self.seed, 3, epoch]) % 3 == 0;
        let rank = |p: u64| (hash(&[self.seed, 4, epoch, p]), p);
        some && (0..self.n).filter(|p| rank(*p) < rank(host)).count() < self.f as usize
    }

    /// Sets who asks from now on.
    pub fn called(&mut self, call: Asked) {
        self.call = call;
    }

    pub fn answer(&mut self, question: Question) -> Vec<Answer> {
        let Question { kind, name, about } = question;
        let host = self.call.host;
        let (a, b) = match kind {
            1 => (1, 0),
            2 => (1, self.propose()),
            3..=7 => {
                let proposer = name.expect("a proposer");
                let mut answers = vec![Answer { kind, a: 1, b: proposer }];
                answers.extend(match kind {
                    3 | 4 => self.broadcast(kind, proposer),
                    _ => self.agreement(kind, proposer),
                });
                return answers;
            }
            8 | 9 => (1, name.expect("a proposer")),
            10 => ((name != self.liar) as u64, name.expect("a sender")),
            11 => (1, self.handle(&[kind, about, host])),
            12 => (1, self.handle(&[kind, about])),
            _ => {
                let bad = hash(&[self.seed, kind, about]) % 1000 < self.unreadable;
                (!bad as u64, name.expect("a proposer"))
            }
        };
        vec![Answer { kind, a, b }]
    }

    /// The handle of what this makes; it is the same for all hosts.
    fn handle(&self, words: &[u64]) -> u64 {
        1 + hash(&[&[self.seed], words].concat()) % ((1 << 32) - 1)
    }

    fn propose(&mut self) -> u64 {
        let Asked { host, epoch, .. } = self.call;
        let value = self.handle(&[2, epoch, host]);
        self.values.insert((epoch, host), value);
        value
    }

    fn message(&self, kind: u64, proposer: u64) -> Answer {
        let Asked { host, epoch, .. } = self.call;
        Answer { kind: 16, a: 0, b: hash(&[self.seed, kind, epoch, host, proposer]) }
    }

    /// A host echoes what it is sent first; N-f echoes deliver the value.
    fn broadcast(&mut self, kind: u64, proposer: u64) -> Vec<Answer> {
        let Asked { host, epoch, sender } = self.call;
        let echo = self.message(kind, proposer);
        let part = self.parts.entry((host, (epoch, proposer))).or_default();
        let mut parts = Vec::new();
        if part.echoes >> host & 1 == 0 {
            part.echoes |= 1 << host;
            parts.push(echo);
        }
        if kind == 4 {
            part.echoes |= 1 << sender;
        }
        if u64::from(part.echoes.count_ones()) >= self.n - self.f {
            let value = self.values[&(epoch, proposer)];
            parts.push(Answer { kind: 18, a: 0, b: value });
        }
        parts
    }

    /// A host votes once. N-f votes decide, for one that was cast; who has N-f of them knows.
    fn agreement(&mut self, kind: u64, proposer: u64) -> Vec<Answer> {
        let Asked { host, epoch, sender } = self.call;
        let enough = self.n - self.f;
        let vote = self.message(kind, proposer);
        let any = hash(&[self.seed, 5, epoch, proposer]) % 2 == 0;
        let agreement = self.agreements.entry((epoch, proposer)).or_default();
        let part = self.parts.entry((host, (epoch, proposer))).or_default();
        let mut parts = Vec::new();
        if kind == 5 {
            part.votes |= 1 << sender;
        } else if !agreement.votes.contains_key(&host) {
            agreement.votes.insert(host, kind == 6);
            part.votes |= 1 << host;
            parts.push(vote);
            if agreement.votes.len() as u64 == enough {
                let agreed = agreement.votes.values().any(|vote| *vote == any);
                agreement.decision = Some(if agreed { any } else { !any });
            }
        }
        if u64::from(part.votes.count_ones()) >= enough {
            let decision = agreement.decision.expect("N-f votes decide") as u64;
            parts.push(Answer { kind: 18, a: 0, b: decision });
        }
        parts
    }
}
