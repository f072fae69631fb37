//! Stand-in for serde: bytes are a handle, and only two types are written or read.

pub use derives::{Deserialize, Serialize};

/// A type that can be written. Only the contribution and the ciphertext are; for every other
/// type the originals want nothing but the bound.
pub trait Serialize {
    fn write(&self) -> Option<Vec<u8>> {
        unreachable!("nothing writes this type")
    }
}

impl<T: Serialize + ?Sized> Serialize for &T {
    fn write(&self) -> Option<Vec<u8>> {
        (**self).write()
    }
}

pub mod de {
    /// A type that can be read from bytes.
    pub trait DeserializeOwned: Sized {
        fn read(bytes: &[u8]) -> Option<Self>;
    }
}
