//! What the tests share.
#![allow(dead_code)] // each test program uses a part of this

pub mod fake;
pub mod life;
pub mod random;
pub mod script;
