//! The original with document 01's numbers: hosts are 0 to N-1, bytes are handles.

use std::sync::Arc;

use rand::Rng;
use serde::{de::DeserializeOwned, Serialize};

use crate::crypto::{DecryptionShare, PublicKeySet, SecretKeyShare};
use crate::honey_badger::{
    content, EncryptionSchedule, Error, FaultKind, HoneyBadger, Message, MessageContent, Params,
    Result, Step, SubsetHandlingStrategy,
};
use crate::{binary_agreement, broadcast, subset, threshold_decrypt, util};
use crate::{NetworkInfo, Target};

/// A contribution. What is proposed has no content: kind 2 gives its handle.
#[derive(Debug, PartialEq, Eq, Hash)]
pub struct Plaintext(u64);

impl Serialize for Plaintext {
    fn write(&self) -> Option<Vec<u8>> {
        let answer = answers::wanted(2, None, 0);
        Some(util::bytes(answer.b, 0)).filter(|_| answer.a == 1)
    }
}

impl DeserializeOwned for Plaintext {
    fn read(bytes: &[u8]) -> Option<Self> {
        let (handle, proposer) = util::handle_and_proposer(bytes);
        let answer = answers::wanted(13, Some(proposer), handle);
        Some(Plaintext(handle)).filter(|_| answer.a == 1)
    }
}

struct NoRng;
impl Rng for NoRng {}

/// Create's ten numbers, in the order of document 01.
#[derive(Clone, Copy, Debug, PartialEq, Eq)]
pub struct Numbers {
    pub n: u64,
    pub f: u64,
    pub look_ahead: u64,
    pub own: u64,
    pub key: u64,
    pub strategy: u64,
    pub start: u64,
    pub schedule: u64,
    pub number_a: u64,
    pub number_b: u64,
}

/// The three lists of a step, each entry as kind, a and b.
#[derive(Clone, Debug, Default)]
pub struct StepLists {
    pub messages: Vec<[u64; 3]>,
    pub faults: Vec<[u64; 3]>,
    pub outputs: Vec<[u64; 3]>,
}

/// A step, or the number of the Rust's error.
pub type Outcome = std::result::Result<StepLists, u64>;

pub struct Instance(HoneyBadger<Plaintext, u64>);

impl Instance {
    /// Stops if the key flag doesn't go with the own index: the original's constructor does.
    pub fn new(x: &Numbers) -> Self {
        util::set_max_faulty(x.f as usize);
        let key = Some(SecretKeyShare(x.own)).filter(|_| x.key == 1);
        let netinfo = NetworkInfo::new(x.own, key, PublicKeySet, 0..x.n);
        let params = Params {
            max_future_epochs: x.look_ahead,
            subset_handling_strategy: match x.strategy {
                0 => SubsetHandlingStrategy::Incremental,
                _ => SubsetHandlingStrategy::AllAtEnd,
            },
            encryption_schedule: match x.schedule {
                0 => EncryptionSchedule::Always,
                1 => EncryptionSchedule::Never,
                2 => EncryptionSchedule::EveryNthEpoch(x.number_a as u32),
                _ => EncryptionSchedule::TickTock(x.number_a as u32, x.number_b as u32),
            },
        };
        Instance(HoneyBadger::builder(Arc::new(netinfo)).build(x.start, params))
    }

    pub fn propose(&mut self) -> Outcome {
        let epoch = self.current_epoch();
        outcome(epoch, self.0.propose(&Plaintext(0), &mut NoRng))
    }

    pub fn message(&mut self, x: &[u64; 5]) -> Outcome {
        let result = self.0.handle_message(&x[0], message(x));
        outcome(x[1], result)
    }

    /// The original's call and nothing else, to be measured.
    pub fn bare_propose(&mut self) -> Bare {
        Bare(self.0.propose(&Plaintext(0), &mut NoRng))
    }

    pub fn bare_message(&mut self, sender: u64, message: Given) -> Bare {
        Bare(self.0.handle_message(&sender, message.0))
    }

    /// What the original itself answers.
    pub fn raw_propose(&mut self) -> String {
        format!("{:?}", self.0.propose(&Plaintext(0), &mut NoRng))
    }

    pub fn raw_message(&mut self, x: &[u64; 5]) -> String {
        format!("{:?}", self.0.handle_message(&x[0], message(x)))
    }

    pub fn skip(&mut self, target: u64) {
        self.0.skip_to_epoch(target)
    }

    pub fn current_epoch(&self) -> u64 {
        self.0.next_epoch()
    }

    pub fn has_input(&self) -> u64 {
        self.0.has_input() as u64
    }

    pub fn received_proposals(&self) -> u64 {
        self.0.received_proposals() as u64
    }

    /// The inner state, which the original shows by `Debug` only.
    pub fn debug(&self) -> String {
        format!("{:?}", self.0)
    }
}

/// What the original hands back, as it is.
pub struct Bare(Result<Step<Plaintext, u64>>);

impl Bare {
    pub fn is_ok(&self) -> bool {
        self.0.is_ok()
    }
}

/// A message as the original takes it.
pub struct Given(Message<u64>);

impl Given {
    pub fn new(x: &[u64; 5]) -> Given {
        Given(message(x))
    }
}

/// A message from its five numbers; the sender is not part of it.
fn message(x: &[u64; 5]) -> Message<u64> {
    let [_, epoch, kind, proposer_id, item] = *x;
    let subset = |content| MessageContent::Subset(subset::Message { proposer_id, content });
    let content = match kind {
        1 => subset(subset::MessageContent::Broadcast(broadcast::Message(item))),
        2 => subset(subset::MessageContent::Agreement(binary_agreement::Message(item))),
        _ => {
            let share = threshold_decrypt::Message(DecryptionShare(item));
            MessageContent::DecryptionShare { proposer_id, share }
        }
    };
    content.with_epoch(epoch)
}

fn outcome(epoch: u64, result: Result<Step<Plaintext, u64>>) -> Outcome {
    result.map(|step| lists(epoch, step)).map_err(|error| match error {
        Error::CreateSubset(_) => 20,
        Error::ProposeBincode(_) => 21,
        Error::InputSubset(_) => 22,
        Error::HandleSubsetMessage(_) => 23,
        Error::ThresholdDecrypt(threshold_decrypt::Error::Decryption(_)) => 24,
        Error::ThresholdDecrypt(threshold_decrypt::Error::MultipleInputs(_)) => 25,
        other => panic!("an error without a number: {:?}", other),
    })
}

fn lists(epoch: u64, step: Step<Plaintext, u64>) -> StepLists {
    let mut lists = StepLists::default();
    for message in step.messages {
        assert_eq!(message.target, Target::all(), "a target that 01 can't show");
        assert_eq!(message.message.epoch(), epoch, "a message for another epoch");
        lists.messages.push(match content(message.message) {
            MessageContent::Subset(message) => match message.content {
                subset::MessageContent::Broadcast(x) => [1, message.proposer_id, x.0],
                subset::MessageContent::Agreement(x) => [2, message.proposer_id, x.0],
            },
            MessageContent::DecryptionShare { proposer_id, share } => [3, proposer_id, (share.0).0],
        });
    }
    for fault in step.fault_log {
        let (kind, b) = fault_number(&fault.kind);
        lists.faults.push([kind, fault.node_id, b]);
    }
    for batch in step.output {
        lists.outputs.push([1, batch.epoch, batch.contributions.len() as u64]);
        for (proposer, plaintext) in batch.contributions {
            lists.outputs.push([2, proposer, plaintext.0]);
        }
    }
    lists
}

fn fault_number(kind: &FaultKind) -> (u64, u64) {
    use threshold_decrypt::FaultKind::*;
    match kind {
        FaultKind::UnexpectedHbMessageEpoch => (1, 0),
        FaultKind::UnexpectedDecryptionShare => (2, 0),
        FaultKind::DeserializeCiphertext => (3, 0),
        FaultKind::InvalidCiphertext => (4, 0),
        FaultKind::BatchDeserializationFailed => (5, 0),
        FaultKind::DecryptionFault(MultipleDecryptionShares) => (6, 0),
        FaultKind::DecryptionFault(UnverifiedDecryptionShareSender) => (7, 0),
        FaultKind::SubsetFault(subset::FaultKind::BroadcastFault(x)) => (8, x.0),
        FaultKind::SubsetFault(subset::FaultKind::BaFault(x)) => (9, x.0),
    }
}
