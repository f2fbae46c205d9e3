//! Supplied: a thin wrapper over the real blake3 crate. It adds `Hash::from_bytes`; all else is handed on.
#![no_std]

/// A digest. Compared by the real crate's comparison.
#[derive(Clone, Copy, PartialEq, Eq)]
pub struct Hash(real::Hash);

impl Hash {
    /// Added: version 1.3.1 has it only as `From<[u8; 32]>`.
    pub fn from_bytes(bytes: [u8; 32]) -> Self {
        Hash(real::Hash::from(bytes))
    }

    pub fn as_bytes(&self) -> &[u8; 32] {
        self.0.as_bytes()
    }
}

/// The real crate's hash state.
pub struct Hasher(real::Hasher);

impl Hasher {
    #[allow(clippy::new_without_default)]
    pub fn new() -> Self {
        Hasher(real::Hasher::new())
    }

    pub fn update(&mut self, input: &[u8]) -> &mut Self {
        self.0.update(input);
        self
    }

    pub fn finalize(&self) -> Hash {
        Hash(self.0.finalize())
    }
}

/// The hash of one byte string.
pub fn hash(input: &[u8]) -> Hash {
    Hash(real::hash(input))
}
