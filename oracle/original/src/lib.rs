//! The original Honey Badger: the files in `originals/` unchanged, and stand-ins for the rest of
//! their crate. The stand-ins decide nothing: they do what the call's answers say.

macro_rules! original {
    ($($path:literal $name:ident),*) => {
        $(#[path = $path] #[allow(warnings)] pub mod $name;)*
    };
}

original! {
    "../../originals/fault_log.rs" fault_log,
    "../../originals/messaging.rs" messaging,
    "../../originals/network_info.rs" network_info,
    "../../originals/threshold_decrypt.rs" threshold_decrypt,
    "../../originals/traits.rs" traits
}

pub mod binary_agreement;
pub mod broadcast;
pub mod crypto;
pub mod driver;
pub mod honey_badger;
pub mod sender_queue;
pub mod subset;
pub mod util;

pub use crate::fault_log::Fault;
pub use crate::messaging::{Target, TargetedMessage};
pub use crate::network_info::{NetworkInfo, ValidatorSet};
pub use crate::traits::{
    ConsensusProtocol, Contribution, CpStep, EpochT, NodeIdT, SessionIdT, Step,
};
