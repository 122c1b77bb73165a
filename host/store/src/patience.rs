//! How long a lock that another process has is waited for.

use crate::Holder;
use std::path::Path;
use std::time::Duration;

/// How long to wait for a lock, and whom to tell that it takes long. By itself it waits for ever and tells nobody.
#[derive(Clone, Copy, Debug)]
pub struct Patience {
    /// The longest time; none waits for ever.
    pub longest: Option<Duration>,
    /// Is called once after two seconds, with the file that is locked and who has it.
    pub tell: fn(&Path, Holder),
}

impl Default for Patience {
    fn default() -> Patience {
        Patience { longest: None, tell: |_, _| {} }
    }
}

impl Patience {
    /// Waits no longer than this, and tells nobody.
    pub fn of(longest: Duration) -> Patience {
        Patience { longest: Some(longest), ..Patience::default() }
    }
}
