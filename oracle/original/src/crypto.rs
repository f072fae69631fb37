//! Stand-in for threshold cryptography: kinds 8 to 12 answer for it.

use serde::{de::DeserializeOwned, Serialize};

use crate::util;

pub mod error {
    #[derive(Clone, Debug, PartialEq, Eq)]
    pub struct Error;
}

#[derive(Clone, Debug)]
pub struct PublicKeySet;

pub struct PublicKey;

/// The share of the validator with this index.
#[derive(Clone, Debug, PartialEq)]
pub struct PublicKeyShare(u64);

#[derive(Clone, Debug)]
pub struct SecretKeyShare(pub u64);

/// For the original's `generate_map`, which nothing calls.
pub struct SecretKeySet;

/// The value that it was read from, and that value's proposer.
#[derive(Clone, Debug, PartialEq, Eq)]
pub struct Ciphertext {
    handle: u64,
    proposer: u64,
}

#[derive(Clone, Debug, PartialEq)]
pub struct DecryptionShare(pub u64);

impl PublicKeySet {
    pub fn public_key(&self) -> PublicKey {
        PublicKey
    }

    pub fn public_key_share(&self, index: &usize) -> PublicKeyShare {
        PublicKeyShare(*index as u64)
    }

    pub fn decrypt<'a, I>(&self, _shares: I, ct: &Ciphertext) -> Result<Vec<u8>, error::Error>
    where
        I: Iterator<Item = (&'a usize, &'a DecryptionShare)>,
    {
        let answer = answers::wanted(12, None, ct.handle);
        if answer.a == 1 {
            Ok(util::bytes(answer.b, ct.proposer))
        } else {
            Err(error::Error)
        }
    }
}

impl PublicKey {
    /// Kind 2 stands for serialising and encrypting and was read when serialising: the handle
    /// stays.
    pub fn encrypt_with_rng<R>(&self, _: &mut R, bytes: Vec<u8>) -> Ciphertext {
        let (handle, proposer) = util::handle_and_proposer(&bytes);
        Ciphertext { handle, proposer }
    }
}

impl PublicKeyShare {
    pub fn verify_decryption_share(&self, _: &DecryptionShare, _: &Ciphertext) -> bool {
        answers::wanted(10, Some(self.0), 0).a == 1
    }
}

impl SecretKeyShare {
    pub fn public_key_share(&self) -> PublicKeyShare {
        PublicKeyShare(self.0)
    }

    pub fn decrypt_share_no_verify(&self, ct: &Ciphertext) -> DecryptionShare {
        DecryptionShare(answers::wanted(11, None, ct.handle).b)
    }
}

impl SecretKeySet {
    pub fn random<R>(_: usize, _: &mut R) -> Self {
        SecretKeySet
    }

    pub fn public_keys(&self) -> PublicKeySet {
        PublicKeySet
    }

    pub fn secret_key_share(&self, index: usize) -> SecretKeyShare {
        SecretKeyShare(index as u64)
    }
}

impl Ciphertext {
    pub fn verify(&self) -> bool {
        answers::wanted(9, Some(self.proposer), self.handle).a == 1
    }
}

impl Serialize for Ciphertext {
    fn write(&self) -> Option<Vec<u8>> {
        Some(util::bytes(self.handle, self.proposer))
    }
}

impl DeserializeOwned for Ciphertext {
    fn read(bytes: &[u8]) -> Option<Self> {
        let (handle, proposer) = util::handle_and_proposer(bytes);
        let answer = answers::wanted(8, Some(proposer), handle);
        Some(Ciphertext { handle, proposer }).filter(|_| answer.a == 1)
    }
}
