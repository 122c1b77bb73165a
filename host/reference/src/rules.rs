//! The rules as a value that carries the digest function they use.

use crate::sha256;

/// A digest of a block's bytes.
pub type Digest = fn(&[u8]) -> [u8; 32];

/// The calls of a replica over a chosen digest function; one method for each call.
#[derive(Clone, Copy, Debug)]
pub struct Rules {
    pub(crate) digest: Digest,
}

impl Rules {
    /// The rules of the document: blocks are digested with SHA-256.
    pub const SHA256: Rules = Rules::new(sha256::digest);

    /// The same rules over another digest function.
    pub const fn new(digest: Digest) -> Rules {
        Rules { digest }
    }
}
