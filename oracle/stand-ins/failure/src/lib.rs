//! Stand-in for failure: the bound alone.

pub use derives::Fail;

pub trait Fail {}
