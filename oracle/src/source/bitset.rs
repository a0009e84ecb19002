//! Three of the source's BitSets, and the list that its slice forms take.

use super::{Source, beside, common};
use crate::format::{Call, Operation, SETS, Storage};
use pecos_core::bitset::BitSet;
use std::mem;

#[derive(Default)]
pub struct BitSets {
    sets: [BitSet; SETS],
    list: Vec<usize>,
}

impl Source for BitSets {
    fn serve(&mut self, call: &Call) -> u64 {
        if let Some(value) = common(&mut self.sets, call) {
            return value;
        }
        let Call { set, a, .. } = *call;
        let index = call.number as usize;
        match call.operation {
            Operation::Toggle => return self.sets[set].toggle(index).into(),
            Operation::Equality => return (self.sets[set] == self.sets[a]).into(),
            Operation::Push => self.list.push(index),
            Operation::XorAssignSlice => {
                self.sets[set].xor_assign_slice(&mem::take(&mut self.list));
            }
            Operation::XorIntersectionSlice => {
                let list = mem::take(&mut self.list);
                beside(&mut self.sets, set, |target, sets| {
                    target.xor_intersection_slice(&list, &sets[a]);
                });
            }
            Operation::IntersectionCountSlice => {
                let list = mem::take(&mut self.list);
                return self.sets[set].intersection_count_slice(&list) as u64;
            }
            other => panic!("{} is no call of BitSet that document 01 ports", other.name()),
        }
        0
    }

    fn members(&self, set: usize) -> Vec<u64> {
        self.sets[set].iter().map(|index| index as u64).collect()
    }

    fn count(&self, set: usize) -> u64 {
        self.sets[set].len() as u64
    }

    fn storage(&self, set: usize) -> Storage {
        Storage::Words(self.sets[set].words().len() as u64)
    }
}
