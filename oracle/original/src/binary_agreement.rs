//! Stand-in for binary agreement: kinds 1 and 5 to 7 answer for it.

use std::fmt;
use std::marker::PhantomData;
use std::sync::Arc;

use failure::Fail;

use crate::{Fault, NetworkInfo, NodeIdT, SessionIdT, Target};

#[derive(Clone, Debug, Fail)]
pub struct Error;

pub type Result<T> = std::result::Result<T, Error>;

/// The fault's number.
#[derive(Clone, Debug, Fail, PartialEq)]
pub struct FaultKind(pub u64);

/// The message's number.
#[derive(Clone, Debug)]
pub struct Message(pub u64);

pub type Step<N> = crate::Step<Message, bool, N, FaultKind>;

pub struct BinaryAgreement<N, S> {
    netinfo: Arc<NetworkInfo<N>>,
    proposer: u64,
    session: PhantomData<S>,
}

impl<N: NodeIdT, S: SessionIdT> BinaryAgreement<N, S> {
    /// One kind 1 answers for all instances of an epoch: the first one's constructor reads it.
    /// The proposer's index shows only in the session identifier, as "… proposer #7".
    pub fn new(netinfo: Arc<NetworkInfo<N>>, session_id: S) -> Result<Self> {
        let session_id = session_id.to_string();
        let index = session_id.rsplit('#').next().expect("an index");
        let proposer = index.parse().expect("an index");
        if proposer == 0 && answers::wanted(1, None, 0).a == 0 {
            return Err(Error);
        }
        Ok(BinaryAgreement { netinfo, proposer, session: PhantomData })
    }

    pub fn handle_message(&mut self, _sender_id: &N, _message: Message) -> Result<Step<N>> {
        self.answer(5)
    }

    pub fn propose(&mut self, vote: bool) -> Result<Step<N>> {
        self.answer(if vote { 6 } else { 7 })
    }

    fn answer(&self, kind: u64) -> Result<Step<N>> {
        if answers::wanted(kind, Some(self.proposer), 0).a == 0 {
            return Err(Error);
        }
        let mut step = Step::default();
        for part in answers::parts() {
            match part.kind {
                16 => step.messages.push(Target::all().message(Message(part.b))),
                17 => {
                    let node = self.netinfo.all_ids().nth(part.a as usize).unwrap();
                    step.fault_log.append_fault(Fault::new(node.clone(), FaultKind(part.b)));
                }
                _ => step.output.push(part.b == 1),
            }
        }
        Ok(step)
    }
}

/// Nothing in it is state.
impl<N, S> fmt::Debug for BinaryAgreement<N, S> {
    fn fmt(&self, f: &mut fmt::Formatter<'_>) -> fmt::Result {
        f.write_str("BinaryAgreement")
    }
}
