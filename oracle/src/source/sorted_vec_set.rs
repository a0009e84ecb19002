//! Three of the source's SortedVecSets.

use super::{Source, common};
use crate::format::{Call, Operation, SETS, Storage};
use pecos_core::sorted_vec_set::SortedVecSet;

#[derive(Default)]
pub struct SortedVecSets {
    sets: [SortedVecSet; SETS],
}

impl Source for SortedVecSets {
    fn serve(&mut self, call: &Call) -> u64 {
        if let Some(value) = common(&mut self.sets, call) {
            return value;
        }
        let Call { set, a, .. } = *call;
        let element = call.number as usize;
        match call.operation {
            Operation::Toggle => self.sets[set].toggle(element),
            Operation::Equality => return (self.sets[set] == self.sets[a]).into(),
            Operation::TakeClearing => self.sets[a] = self.sets[set].take_clearing(),
            Operation::SetSingle => self.sets[set].set_single(element),
            other => panic!("{} is no call of SortedVecSet", other.name()),
        }
        0
    }

    fn members(&self, set: usize) -> Vec<u64> {
        self.sets[set].iter().map(|element| element as u64).collect()
    }

    fn count(&self, set: usize) -> u64 {
        self.sets[set].len() as u64
    }

    fn storage(&self, _set: usize) -> Storage {
        Storage::Elements
    }
}
