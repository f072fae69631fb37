//! The words of the engine's state, made from the original's debug text.

use crate::schedule::{as_original, Schedule, EVERY_NTH_EPOCH, NEVER, TICK_TOCK};
use crate::tree::Tree;

pub const HEADER: usize = 16;
pub const EPOCH: usize = 16;
pub const PROPOSER: usize = 8;

/// Words of one epoch.
pub fn epoch_len(n: usize) -> usize {
    EPOCH + n * (PROPOSER + n)
}

pub fn state_len(n: usize, look_ahead: usize) -> usize {
    HEADER + (look_ahead + 1) * epoch_len(n)
}

/// The state words. The fault count is not the original's: 01 adds it. The schedule is the one that
/// create was given, and the original must have been built with what stands for it.
pub fn words(debug: &str, schedule: Schedule, fault_count: u64) -> Vec<u64> {
    let badger = Tree::read(debug);
    let netinfo = badger.field("netinfo");
    let validators = netinfo.field("val_set");
    let params = badger.field("params");
    let n = validators.field("indices").map().len();
    let look_ahead = params.field("max_future_epochs").number();
    let current = badger.field("epoch").number();

    let mut words = vec![0; state_len(n, look_ahead as usize)];
    words[0] = 1;
    words[1] = n as u64;
    words[2] = validators.field("num_faulty").number();
    words[3] = look_ahead;
    words[4] = netinfo.field("our_id").number();
    words[5] = (netinfo.field("secret_key_share").name() == "Some") as u64;
    words[6] = match params.field("subset_handling_strategy").name() {
        "Incremental" => 0,
        "AllAtEnd" => 1,
        other => panic!("no strategy: {}", other),
    };
    assert_eq!(schedule_in(params), as_original(schedule), "another schedule");
    words[7..10].copy_from_slice(&schedule);
    words[10] = current;
    words[11] = badger.field("has_input").flag();
    words[12] = fault_count;

    for (epoch, tree) in badger.field("epochs").map() {
        let epoch = epoch.number();
        assert_eq!(epoch, tree.field("epoch").number(), "an epoch under another number");
        assert!(current <= epoch && epoch <= current + look_ahead, "an epoch without a place");
        let place = HEADER + (epoch % (look_ahead + 1)) as usize * epoch_len(n);
        write_epoch(tree, n, &mut words[place..place + epoch_len(n)]);
    }
    words
}

/// The schedule that the original has.
fn schedule_in(params: &Tree) -> Schedule {
    let tree = params.field("encryption_schedule");
    let numbers = |i: usize| tree.list()[i].number();
    match tree.name() {
        "Always" => [0, 0, 0],
        "Never" => [NEVER, 0, 0],
        "EveryNthEpoch" => [EVERY_NTH_EPOCH, numbers(0), 0],
        "TickTock" => [TICK_TOCK, numbers(0), numbers(1)],
        other => panic!("no schedule: {}", other),
    }
}

fn write_epoch(tree: &Tree, n: usize, words: &mut [u64]) {
    let record = |proposer: u64| EPOCH + proposer as usize * (PROPOSER + n);
    let subset = tree.field("subset");
    match subset.name() {
        "Ongoing" => {
            let subset = &subset.list()[0];
            words[0] = 1;
            words[1] = subset.field("decided").flag();
            for (proposer, proposal) in subset.field("proposal_states").map() {
                let place = record(proposer.number());
                words[place] = match proposal.name() {
                    "Ongoing" => 0,
                    "HasValue" => 1,
                    "Accepted" => 2,
                    "Complete" => 3 + proposal.list()[0].flag(),
                    other => panic!("no proposal state: {}", other),
                };
                if words[place] == 1 {
                    words[place + 1] = handle(&proposal.list()[0]);
                }
            }
        }
        "Complete" => {
            words[0] = 2;
            let ids = bits(&subset.list()[0]);
            assert_eq!(ids, bits(tree.field("accepted_proposers")), "two sets of accepted ones");
        }
        other => panic!("no subset state: {}", other),
    }
    words[2] = bits(tree.field("accepted_proposers"));

    let handler = tree.field("subset_handler");
    if handler.name() == "AllAtEnd" {
        let kept = handler.list()[0].list();
        words[3] = kept.len() as u64;
        for (i, contribution) in kept.iter().enumerate() {
            let proposer = contribution.list()[0].number();
            words[record(i as u64) + 7] = proposer;
            words[record(proposer) + 1] = handle(&contribution.list()[1]);
        }
    }

    for (proposer, decryption) in tree.field("decryption").map() {
        let words = &mut words[record(proposer.number())..];
        let inner = &decryption.list()[0];
        match decryption.name() {
            "Ongoing" => {
                words[2] = 1;
                let ciphertext = inner.field("ciphertext");
                if ciphertext.name() == "Some" {
                    words[4] = ciphertext.list()[0].field("handle").number();
                }
                words[5] = inner.field("had_input").flag();
                words[6] = inner.field("terminated").flag();
                for (sender, share) in inner.field("shares").map() {
                    assert_eq!(sender.number(), share.list()[0].number(), "a share's index");
                    let share = &share.list()[1];
                    words[PROPOSER + sender.number() as usize] = share.list()[0].number();
                }
            }
            "Complete" => {
                words[2] = 2;
                words[3] = handle(inner);
            }
            other => panic!("no decryption state: {}", other),
        }
    }
}

fn bits(set: &Tree) -> u64 {
    set.map().iter().map(|(id, _)| 1 << id.number()).sum()
}

/// The handle in bytes: the first eight of them.
fn handle(bytes: &Tree) -> u64 {
    bytes.list()[..8].iter().rev().fold(0, |word, byte| word << 8 | byte.number())
}

/// One number for a whole state.
pub fn digest(words: &[u64]) -> u64 {
    const MODULUS: u64 = 4_294_967_291;
    words.iter().fold(0, |h, w| (h * 65_599 + w % MODULUS) % MODULUS)
}
