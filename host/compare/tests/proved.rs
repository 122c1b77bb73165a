//! The proved replica against the reference, in the short form, with another seed than the command has.
#![cfg(feature = "proved")]

use compare::{run, LARGE};
use mavunilai::Proved;
use reference::Rules;

#[test]
fn the_proved_replica_and_the_reference_agree() {
    let report =
        run(Rules::SHA256, Proved, 2, LARGE).unwrap_or_else(|sentence| panic!("{sentence}"));
    println!("{report}");
}
