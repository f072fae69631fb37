//! Stand-in for the subset module's own file: its parts and error types.

use failure::Fail;

use crate::{binary_agreement, broadcast};

original! {
    "../../originals/subset/message.rs" message,
    "../../originals/subset/proposal_state.rs" proposal_state,
    "../../originals/subset/subset.rs" subset
}

pub use self::message::{Message, MessageContent};
pub use self::subset::{Step, Subset, SubsetOutput};

#[derive(Clone, Debug, Fail)]
pub enum Error {
    NewAgreement(binary_agreement::Error),
    NewBroadcast(broadcast::Error),
    HandleAgreement(binary_agreement::Error),
    HandleBroadcast(broadcast::Error),
    UnknownProposer,
}

pub type Result<T> = std::result::Result<T, Error>;

#[derive(Clone, Debug, Fail, PartialEq)]
pub enum FaultKind {
    BroadcastFault(broadcast::FaultKind),
    BaFault(binary_agreement::FaultKind),
}
