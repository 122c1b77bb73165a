//! Prints calls with their answers and all bytes that they leave, as a list in full, to compare definitions with.
//!
//! One argument, the digest: `stand-in`, the default, or `sha256`.

use reference::Digest;

/// A digest that a proof checker can compute: byte i is the sum of each byte times its place counted from 1, plus i,
/// modulo 251.
fn stand_in(bytes: &[u8]) -> [u8; 32] {
    let sum: u64 = (1u64..).zip(bytes).map(|(place, &byte)| place * u64::from(byte)).sum();
    std::array::from_fn(|at| ((sum + at as u64) % 251) as u8)
}

fn main() -> Result<(), String> {
    let name = std::env::args().nth(1).unwrap_or_else(|| "stand-in".to_string());
    let digest: Digest = match name.as_str() {
        "stand-in" => stand_in,
        "sha256" => reference::sha256::digest,
        _ => return Err("the digest is stand-in or sha256".to_string()),
    };
    print!("{}", exchange::scenarios::vectors(digest));
    Ok(())
}
