//! Stand-in for the honey_badger module's own file and its builder: its parts, its error types,
//! and ways to what only this module can see.

use std::collections::BTreeMap;
use std::marker::PhantomData;
use std::sync::Arc;

use failure::Fail;

use crate::{subset, threshold_decrypt, NetworkInfo};

original! {
    "../../originals/honey_badger/batch.rs" batch,
    "../../originals/honey_badger/epoch_state.rs" epoch_state,
    "../../originals/honey_badger/honey_badger.rs" honey_badger,
    "../../originals/honey_badger/message.rs" message,
    "../../originals/honey_badger/params.rs" params
}

pub use self::batch::Batch;
pub use self::epoch_state::SubsetHandlingStrategy;
pub use self::honey_badger::{EncryptionSchedule, HoneyBadger, Step};
pub use self::message::{Message, MessageContent};
pub use self::params::Params;

#[derive(Debug, Fail)]
pub enum Error {
    ProposeBincode(bincode::ErrorKind),
    CreateSubset(subset::Error),
    InputSubset(subset::Error),
    HandleSubsetMessage(subset::Error),
    ThresholdDecrypt(threshold_decrypt::Error),
    UnknownSender,
}

pub type Result<T> = std::result::Result<T, Error>;

#[derive(Clone, Debug, Fail, PartialEq)]
pub enum FaultKind {
    UnexpectedHbMessageEpoch,
    UnexpectedDecryptionShare,
    DeserializeCiphertext,
    InvalidCiphertext,
    BatchDeserializationFailed,
    SubsetFault(subset::FaultKind),
    DecryptionFault(threshold_decrypt::FaultKind),
}

pub type FaultLog<N> = crate::fault_log::FaultLog<N, FaultKind>;

/// Builds an instance at a given epoch.
pub struct HoneyBadgerBuilder<C, N> {
    netinfo: Arc<NetworkInfo<N>>,
    phantom: PhantomData<C>,
}

impl<C, N> HoneyBadgerBuilder<C, N> {
    pub fn new(netinfo: Arc<NetworkInfo<N>>) -> Self {
        HoneyBadgerBuilder { netinfo, phantom: PhantomData }
    }

    pub fn build(self, epoch: u64, params: Params) -> HoneyBadger<C, N> {
        HoneyBadger {
            netinfo: self.netinfo,
            session_id: 0,
            epoch,
            has_input: false,
            epochs: BTreeMap::new(),
            params,
        }
    }
}

/// A message's content, which is private to this module.
pub fn content<N>(message: Message<N>) -> MessageContent<N> {
    message.content
}
