//! Generators of histories, one for each recorded file. A seed and a number give one history.

mod adaptive_index_set;
mod adaptive_single;
mod adaptive_xor;
mod bitset;
mod sorted_vec_set;

pub use adaptive_single::AdaptiveSingle;
pub use adaptive_xor::AdaptiveXor;
pub use bitset::BitSetHistories;
pub use sorted_vec_set::SortedVecSetHistories;

use crate::format::{Call, Operation, SETS};
use crate::random::Random;
use crate::rules::{Members, Rules};
use crate::session::Session;
use crate::source::Source;

pub trait Histories {
    type Rules: Rules;
    type Source: Source;
    /// The name of the recorded files.
    const NAME: &'static str;

    fn history(random: &mut Random) -> Session<Self::Rules, Self::Source>;

    /// The cases without which a recording is refused; each may go on after the words given.
    fn required() -> Vec<String>;
}

/// Calls `operation` for each of the indices, neighbours in one line.
fn each<R: Rules, S: Source>(
    session: &mut Session<R, S>,
    operation: Operation,
    set: usize,
    indices: &Members,
) {
    let mut runs: Vec<(u64, u64)> = Vec::new();
    for &index in indices {
        match runs.last_mut() {
            Some((first, times)) if *first + *times == index => *times += 1,
            _ => runs.push((index, 1)),
        }
    }
    for (first, times) in runs {
        session.offer_run(Call::new(operation, set).with_number(first), times);
    }
}

/// A member of a set: its first, its last or any. 0 if there is none.
fn member(random: &mut Random, members: &Members) -> u64 {
    let any = random.below(members.len().max(1) as u64) as usize;
    let choices = [members.first(), members.last(), members.iter().nth(any)];
    random.pick(&choices).copied().unwrap_or(0)
}

/// Two operands for a target that is neither; they may be one set.
fn operands(random: &mut Random, target: usize) -> (usize, usize) {
    let others = [(target + 1) % SETS, (target + 2) % SETS];
    (random.pick(&others), random.pick(&others))
}

fn owned(cases: &[&str]) -> Vec<String> {
    cases.iter().map(|case| case.to_string()).collect()
}
