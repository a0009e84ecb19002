//! Runs random histories of the rules against the source without recording them, and prints what
//! was run. A difference ends the run with the history that shows it.

use oracle::histories::{AdaptiveSingle, AdaptiveXor, BitSetHistories, Histories, SortedVecSetHistories};
use oracle::random::Random;
use oracle::source::Source;
use oracle::tally::Tally;
use std::process::exit;

fn compare<H: Histories>(seed: u64, calls: u64) {
    let mut tally = Tally::default();
    let mut histories = 0;
    let mut narrow_capacity = 0;
    while tally.calls < calls {
        let session = H::history(&mut Random::new(seed, histories));
        tally.add(&session.tally);
        narrow_capacity = narrow_capacity.max(session.source.narrow_capacity());
        histories += 1;
    }
    println!("{}: seed {seed}, {histories} histories, {} calls, no difference", H::NAME, tally.calls);
    for (number, times) in &tally.refused {
        println!("{times:>8}  refused under {number} and not made");
    }
    for (walk, times) in &tally.walks {
        println!("{times:>8}  first walks: {walk}");
    }
    if narrow_capacity > 0 {
        println!("{narrow_capacity:>8}  words at most allocated by a narrow set of the source");
    }
    println!("{tally}");
}

fn main() {
    let arguments: Vec<_> = std::env::args().skip(1).map(|text| text.parse()).collect();
    let [Ok(seed), Ok(calls)] = arguments[..] else {
        eprintln!("oracle/compare: give a seed and a number of calls, both decimal");
        exit(1)
    };
    compare::<BitSetHistories>(seed, calls);
    compare::<SortedVecSetHistories>(seed, calls);
    compare::<AdaptiveSingle>(seed, calls);
    compare::<AdaptiveXor>(seed, calls);
}
