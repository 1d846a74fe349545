//! The oracle's answer to one listing, and the kept states.
//!
//!     answer HEX...

use oracle::judge::{judge, kept_states};
use std::env;

fn main() {
    let hex: String = env::args().skip(1).collect();
    let pairs = hex.as_bytes().chunks(2).map(|pair| std::str::from_utf8(pair).expect("hex"));
    let listing: Vec<u8> = pairs.map(|pair| u8::from_str_radix(pair, 16).expect("hex")).collect();
    println!("{:?}", judge(&listing));
    for (entry, state) in kept_states(&listing).unwrap_or_default() {
        println!("{entry}: {state:?}")
    }
}
