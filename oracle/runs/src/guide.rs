//! Chooses the next call of a run from the state words, so that epochs come to an end.

use crate::oracle::{Call, MAX_EPOCH};
use crate::random::Random;
use crate::schedule::is_encrypted;
use crate::state::{epoch_len, EPOCH, HEADER, PROPOSER};

pub enum Plan {
    Skip(u64),
    /// A call, and whether it is meant to bring its epoch on.
    Call(Call, bool),
}

/// A state, seen by epoch.
pub struct View<'a>(pub &'a [u64]);

impl View<'_> {
    pub fn n(&self) -> u64 {
        self.0[1]
    }

    pub fn look_ahead(&self) -> u64 {
        self.0[3]
    }

    pub fn current(&self) -> u64 {
        self.0[10]
    }

    pub fn epoch(&self, epoch: u64) -> &[u64] {
        let len = epoch_len(self.n() as usize);
        let place = HEADER + (epoch % (self.look_ahead() + 1)) as usize * len;
        &self.0[place..place + len]
    }

    fn record(&self, epoch: u64, proposer: u64) -> &[u64] {
        let n = self.n() as usize;
        &self.epoch(epoch)[EPOCH + proposer as usize * (PROPOSER + n)..][..PROPOSER + n]
    }

    fn accepted(&self, epoch: u64) -> impl Iterator<Item = u64> {
        let bits = self.epoch(epoch)[2];
        (0..self.n()).filter(move |p| bits >> p & 1 == 1)
    }

    /// The epoch's batch could go out.
    fn is_ready(&self, epoch: u64) -> bool {
        self.epoch(epoch)[0] == 2 && self.accepted(epoch).all(|p| self.record(epoch, p)[2] == 2)
    }

    pub fn is_encrypted(&self, epoch: u64) -> bool {
        is_encrypted([self.0[7], self.0[8], self.0[9]], epoch)
    }

    /// Content, proposer and sender of a message that brings the epoch on, if one does.
    fn helpful(&self, epoch: u64, random: &mut Random) -> Option<[u64; 3]> {
        let n = self.n();
        let words = self.epoch(epoch);
        if words[0] == 2 {
            let mut open = Vec::new();
            for p in self.accepted(epoch) {
                let record = self.record(epoch, p);
                if record[2] == 1 && record[4] != 0 && record[6] == 0 {
                    let silent = (0..n).filter(|s| record[PROPOSER + *s as usize] == 0);
                    open.extend(silent.map(|s| [3, p, s]));
                }
            }
            return Some(open).filter(|open| !open.is_empty()).map(|open| random.pick(&open));
        }
        let early = if self.is_encrypted(epoch) { 150 } else { 20 };
        if random.chance(early) {
            return Some([3, random.below(n), random.below(n)]);
        }
        let open: Vec<u64> = (0..n).filter(|p| self.record(epoch, *p)[0] < 3).collect();
        if open.is_empty() || words[1] == 1 {
            return None;
        }
        let p = random.pick(&open);
        let content = match self.record(epoch, p)[0] {
            0 => 1 + random.chance(400) as u64,
            1 => 2,
            _ => 1,
        };
        Some([content, p, random.below(n)])
    }
}

/// How the calls of a run are chosen.
#[derive(Clone, Copy)]
pub struct Habit {
    /// Later epochs are finished before the current one.
    pub ahead: bool,
    /// In thousandths.
    pub skip: u64,
    pub stray: u64,
    /// Proposing again, or as an observer.
    pub propose: u64,
}

pub fn plan(words: &[u64], habit: &Habit, random: &mut Random) -> Plan {
    let view = View(words);
    let (n, current, look_ahead) = (view.n(), view.current(), view.look_ahead());
    if random.chance(habit.skip) {
        return Plan::Skip(skip_target(current, look_ahead, random));
    }
    // After such a skip, a message for a later epoch hands out the current one's batch.
    let next_is_ready = look_ahead > 0 && view.is_ready(current + 1);
    if next_is_ready && random.chance(8) {
        return Plan::Skip(current + 1);
    }
    let wants_input = words[11] == 0 && words[4] < n && !habit.ahead;
    if random.chance(if wants_input { 150 } else { habit.propose }) {
        return Plan::Call(Call::Propose, random.chance(700));
    }
    let epoch = if view.is_ready(current) {
        // The batch goes out with the next call that runs an epoch.
        current + random.below(look_ahead + 1)
    } else if random.chance(habit.stray) {
        let far = current + look_ahead;
        random.pick(&[current.saturating_sub(1), 0, far, far + 1, far + 2, MAX_EPOCH, u64::MAX])
    } else {
        focus(&view, habit, random)
    };
    let reachable = current <= epoch && epoch - current <= look_ahead;
    if reachable && !random.chance(60) {
        if let Some([content, proposer, sender]) = view.helpful(epoch, random) {
            let item = if content == 3 { random.handle() } else { 0 };
            return Plan::Call(Call::Message([sender, epoch, content, proposer, item]), true);
        }
        if epoch == current && random.chance(500) {
            return Plan::Skip(current + 1);
        }
    }
    let content = 1 + random.below(3);
    let item = if content == 3 { random.handle() } else { 0 };
    let proposer = random.below(n);
    Plan::Call(Call::Message([random.below(n), epoch, content, proposer, item]), false)
}

fn focus(view: &View, habit: &Habit, random: &mut Random) -> u64 {
    let (current, look_ahead) = (view.current(), view.look_ahead());
    if habit.ahead && !random.chance(30) {
        let open = |epoch: &u64| !view.is_ready(*epoch);
        let mut later = (current + 1..=current + look_ahead).filter(open);
        return later.next().unwrap_or(current);
    }
    match random.chance(750) {
        true => current,
        false => current + random.below(look_ahead + 1),
    }
}

fn skip_target(current: u64, look_ahead: u64, random: &mut Random) -> u64 {
    match random.below(12) {
        0 => current,
        1 => current.saturating_sub(1),
        2 => 0,
        3 => MAX_EPOCH + 1,
        4 => random.pick(&[u64::MAX, MAX_EPOCH + 2]),
        5 => current + look_ahead,
        6 => current + look_ahead + 1,
        7 => current + 1 + random.below(40),
        8 if current + 1000 > MAX_EPOCH => MAX_EPOCH,
        8 => current + random.below(1000),
        _ => current + 1,
    }
}
