//! Reads a history on standard input and prints the source's answers: what a replay of the port
//! must print as well.

use oracle::source::{AdaptiveIndexSets, BitSets, SortedVecSets, replay};
use std::io::Read;
use std::process::exit;

fn main() {
    let name = std::env::args().nth(1).unwrap_or_default();
    let mut history = String::new();
    let read = std::io::stdin().read_to_string(&mut history);
    let answers = read.map_err(|error| error.to_string()).and_then(|_| match name.as_str() {
        "bitset" => replay::<BitSets>(&history),
        "sorted_vec_set" => replay::<SortedVecSets>(&history),
        "adaptive_single" | "adaptive_xor" => replay::<AdaptiveIndexSets>(&history),
        _ => Err("name one of bitset, sorted_vec_set, adaptive_single, adaptive_xor".to_string()),
    });
    match answers {
        Ok(answers) => print!("{answers}"),
        Err(error) => {
            eprintln!("replay: {error}");
            exit(1)
        }
    }
}
