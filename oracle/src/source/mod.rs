//! The Rust source behind the lines of a history: three sets of one type that serve calls.

mod adaptive_index_set;
mod bitset;
mod sorted_vec_set;

pub use adaptive_index_set::AdaptiveIndexSets;
pub use bitset::BitSets;
pub use sorted_vec_set::SortedVecSets;

use crate::format::{Call, Line, Operation, SETS, Storage, answer};
use pecos_core::IndexSet;
use std::mem;

pub trait Source: Default {
    /// Makes the call on the source and gives its answer: yes is 1, unit is 0.
    fn serve(&mut self, call: &Call) -> u64;
    /// The members of a set, ascending.
    fn members(&self, set: usize) -> Vec<u64>;
    fn count(&self, set: usize) -> u64;
    fn storage(&self, set: usize) -> Storage;

    /// The most words that a narrow set was seen to have allocated: `clear` drops the span of one
    /// with more than 64.
    fn narrow_capacity(&self) -> usize {
        0
    }
}

/// Takes the target out of the row, so that its operands can be borrowed beside it.
fn beside<T: Default>(sets: &mut [T; SETS], target: usize, change: impl FnOnce(&mut T, &[T; SETS])) {
    let mut set = mem::take(&mut sets[target]);
    change(&mut set, sets);
    sets[target] = set;
}

/// The calls that all three types have under the trait's names, which lead to the types' own methods. `toggle` is not among
/// them: BitSet's own answers what the trait drops.
fn common<T: IndexSet + Default>(sets: &mut [T; SETS], call: &Call) -> Option<u64> {
    let Call { set, a, b, .. } = *call;
    let index = call.number as usize;
    match call.operation {
        Operation::New => sets[set] = T::new(),
        Operation::Insert => return Some(sets[set].insert(index).into()),
        Operation::Remove => return Some(sets[set].remove(index).into()),
        Operation::Contains => return Some(sets[set].contains(index).into()),
        Operation::Len | Operation::Dump => return Some(sets[set].len() as u64),
        Operation::IsEmpty => return Some(sets[set].is_empty().into()),
        Operation::Clear => sets[set].clear(),
        Operation::Xor => beside(sets, set, |target, sets| target.xor_assign(&sets[a])),
        Operation::IntersectionCount => return Some(sets[set].intersection_count(&sets[a]) as u64),
        Operation::XorIntersectionInto => beside(sets, set, |target, sets| {
            sets[a].xor_intersection_into(&sets[b], target);
        }),
        Operation::XorSymmetricDifferenceInto => beside(sets, set, |target, sets| {
            sets[a].xor_symmetric_difference_into(&sets[b], target);
        }),
        _ => return None,
    }
    Some(0)
}

/// The answers that the source gives to the text of a history file, or the line that does not read.
pub fn replay<S: Source>(history: &str) -> Result<String, String> {
    let mut source = S::default();
    let mut answers = String::new();
    for (place, text) in history.lines().enumerate() {
        let line = Line::parse(text).map_err(|error| format!("line {}: {error}", place + 1))?;
        let value = line.calls().map(|call| source.serve(&call)).sum();
        let set = line.call.set;
        if line.call.operation == Operation::Dump {
            for member in source.members(set) {
                answers += &format!("{member:016x}\n");
            }
        }
        answers += &answer(value, source.count(set), source.storage(set), line.shown);
        answers.push('\n');
    }
    Ok(answers)
}
