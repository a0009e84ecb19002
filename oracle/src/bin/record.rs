//! Writes the recorded files: histories that the seeds give, the source's answers to them, and the
//! table of what they reach.

use oracle::histories::{AdaptiveSingle, AdaptiveXor, BitSetHistories, Histories, SortedVecSetHistories};
use oracle::random::Random;
use oracle::source::replay;
use oracle::tally::Tally;
use std::path::Path;
use std::process::exit;

/// How many histories are searched for each file.
const SEARCHED: u64 = 15_000;
/// A history is kept if it brings this many cases that are still wanted; the richest come first.
const BRINGS: [usize; 6] = [32, 16, 8, 4, 2, 1];

fn fail(what: &str) -> ! {
    eprintln!("oracle/record: {what}");
    exit(1)
}

fn write(path: &Path, text: &str) {
    if let Err(error) = std::fs::write(path, text) {
        fail(&format!("cannot write {}: {error}", path.display()));
    }
}

/// Searches the histories of a seed and writes those that together meet each case `enough` times.
fn record<H: Histories>(directory: &Path, seed: u64, enough: u64) -> String {
    let mut searched: Vec<_> =
        (0..SEARCHED).map(|number| Some(H::history(&mut Random::new(seed, number)))).collect();
    let mut tally = Tally::default();
    let mut histories = 0;
    let mut lines = Vec::new();
    for wanted in BRINGS {
        for candidate in &mut searched {
            let brings = |tally: &Tally, other: &Tally| tally.lacking(other, enough) >= wanted;
            if let Some(session) = candidate.take_if(|session| brings(&tally, &session.tally)) {
                tally.add(&session.tally);
                histories += 1;
                lines.extend(session.lines);
            }
        }
    }
    if let Some(case) = tally.missing(H::required()) {
        fail(&format!("no history of {} with seed {seed} reaches \"{case}\"", H::NAME));
    }
    let history: String = lines.iter().map(|line| format!("{line}\n")).collect();
    let answers = replay::<H::Source>(&history).unwrap_or_else(|error| fail(&error));
    write(&directory.join(format!("{}.history", H::NAME)), &history);
    write(&directory.join(format!("{}.answers", H::NAME)), &answers);
    format!(
        "{}: seed {seed}, {histories} histories, {} lines, {} calls\n{tally}\n",
        H::NAME,
        lines.len(),
        tally.calls
    )
}

fn main() {
    let Some(directory) = std::env::args().nth(1) else { fail("name the directory to write to") };
    let directory = Path::new(&directory);
    let coverage = [
        record::<BitSetHistories>(directory, 1, 3),
        record::<SortedVecSetHistories>(directory, 2, 5),
        record::<AdaptiveSingle>(directory, 3, 6),
        record::<AdaptiveXor>(directory, 4, 1),
    ];
    write(&directory.join("coverage.txt"), &coverage.concat());
    for table in coverage {
        println!("{}", table.lines().next().unwrap_or_default());
    }
}
