//! Which replica lists and the rehearsal run on: the proved one where it is linked, else the reference.

/// The replica.
#[cfg(feature = "proved")]
pub const REPLICA: mavunilai::Proved = mavunilai::Proved;

/// The replica.
#[cfg(not(feature = "proved"))]
pub const REPLICA: reference::Rules = reference::Rules::SHA256;

/// Its name for people.
pub const NAME: &str =
    if cfg!(feature = "proved") { "the proved replica" } else { "the reference replica" };
