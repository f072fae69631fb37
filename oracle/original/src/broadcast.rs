//! Stand-in for reliable broadcast: kinds 3 and 4 answer for it.

use std::fmt;
use std::sync::Arc;

use failure::Fail;

use crate::{util, Fault, NodeIdT, Target, ValidatorSet};

#[derive(Clone, Debug, Fail)]
pub struct Error;

pub type Result<T> = std::result::Result<T, Error>;

/// The fault's number.
#[derive(Clone, Debug, Fail, PartialEq)]
pub struct FaultKind(pub u64);

/// The message's number.
#[derive(Clone, Debug)]
pub struct Message(pub u64);

pub type Step<N> = crate::Step<Message, Vec<u8>, N, FaultKind>;

pub struct Broadcast<N> {
    validators: Arc<ValidatorSet<N>>,
    proposer: u64,
}

impl<N: NodeIdT> Broadcast<N> {
    pub fn new(_our_id: N, validators: Arc<ValidatorSet<N>>, proposer_id: N) -> Result<Self> {
        let proposer = validators.index(&proposer_id).ok_or(Error)? as u64;
        Ok(Broadcast { validators, proposer })
    }

    pub fn broadcast(&mut self, _value: Vec<u8>) -> Result<Step<N>> {
        self.answer(3)
    }

    pub fn handle_message(&mut self, _sender_id: &N, _message: Message) -> Result<Step<N>> {
        self.answer(4)
    }

    fn answer(&self, kind: u64) -> Result<Step<N>> {
        if answers::wanted(kind, Some(self.proposer), 0).a == 0 {
            return Err(Error);
        }
        let mut step = Step::default();
        for part in answers::parts() {
            match part.kind {
                16 => step.messages.push(Target::all().message(Message(part.b))),
                17 => {
                    let node = self.validators.all_ids().nth(part.a as usize).unwrap();
                    step.fault_log.append_fault(Fault::new(node.clone(), FaultKind(part.b)));
                }
                _ => step.output.push(util::bytes(part.b, self.proposer)),
            }
        }
        Ok(step)
    }
}

/// Nothing in it is state.
impl<N> fmt::Debug for Broadcast<N> {
    fn fmt(&self, f: &mut fmt::Formatter<'_>) -> fmt::Result {
        f.write_str("Broadcast")
    }
}
