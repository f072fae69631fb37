//! Stand-in for the sender queue: the bound of a function that nothing calls.

pub trait SenderQueueableMessage {
    type Epoch: crate::EpochT;
    fn is_premature(&self, them: Self::Epoch, max_future_epochs: u64) -> bool;
    fn is_obsolete(&self, them: Self::Epoch) -> bool;
}
