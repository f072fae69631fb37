//! Words lent to the engine, with guard words around them.

use crate::random::Random;

const GUARD: usize = 8;

pub struct Lent {
    all: Vec<u64>,
    before: Vec<u64>,
}

impl Lent {
    pub fn new(words: &[u64], random: &mut Random) -> Lent {
        let mut all = rubbish(GUARD, random);
        all.extend_from_slice(words);
        all.extend(rubbish(GUARD, random));
        Lent { before: all.clone(), all }
    }

    pub fn rubbish(len: usize, random: &mut Random) -> Lent {
        Lent::new(&rubbish(len, random), random)
    }

    pub fn words(&mut self) -> &mut [u64] {
        let len = self.all.len();
        &mut self.all[GUARD..len - GUARD]
    }

    /// Compares all words with those before, the first of which have become these.
    pub fn check(&self, what: &str, first: &[u64]) -> Result<(), String> {
        let mut wanted = self.before.clone();
        wanted[GUARD..GUARD + first.len()].copy_from_slice(first);
        match self.all.iter().zip(&wanted).position(|(is, wanted)| is != wanted) {
            None => Ok(()),
            Some(i) => {
                let (is, wanted) = (self.all[i], wanted[i]);
                let place = i as i64 - GUARD as i64;
                Err(format!("{} word {}: {}, should be {}", what, place, is, wanted))
            }
        }
    }
}

fn rubbish(len: usize, random: &mut Random) -> Vec<u64> {
    (0..len).map(|_| random.word()).collect()
}
