//! Three of the source's AdaptiveIndexSets, their modes seen through the reader of the test copy.

use super::{Source, common};
use crate::format::{Call, Mode, Operation, SETS, Storage};
use pecos_core::IndexSet;
use pecos_core::adaptive_index_set::AdaptiveIndexSet;

/// The source's DENSE_MIN_WORDS: a dense set of at most this many words is narrow.
const NARROW_WORDS: usize = 32;

#[derive(Default)]
pub struct AdaptiveIndexSets {
    sets: [AdaptiveIndexSet; SETS],
    narrow_capacity: usize,
}

impl AdaptiveIndexSets {
    fn make(&mut self, call: &Call) -> u64 {
        if let Some(value) = common(&mut self.sets, call) {
            return value;
        }
        match call.operation {
            Operation::Toggle => self.sets[call.set].toggle(call.number as usize),
            other => panic!("{} is no call of the adaptive set that document 01 ports", other.name()),
        }
        0
    }
}

impl Source for AdaptiveIndexSets {
    fn serve(&mut self, call: &Call) -> u64 {
        let value = self.make(call);
        let reading = self.sets[call.set].storage_reading();
        if reading.dense && reading.span <= NARROW_WORDS {
            self.narrow_capacity = self.narrow_capacity.max(reading.capacity);
        }
        value
    }

    fn members(&self, set: usize) -> Vec<u64> {
        let mut members: Vec<u64> = self.sets[set].iter().map(|index| index as u64).collect();
        members.sort_unstable();
        members
    }

    fn count(&self, set: usize) -> u64 {
        self.sets[set].len() as u64
    }

    fn storage(&self, set: usize) -> Storage {
        let reading = self.sets[set].storage_reading();
        let mode = match (reading.dense, reading.span <= NARROW_WORDS) {
            (true, true) => Mode::Narrow,
            (true, false) => Mode::Wide,
            (false, _) => Mode::Sparse,
        };
        Storage::Adaptive(mode, reading.span as u64)
    }

    fn narrow_capacity(&self) -> usize {
        self.narrow_capacity
    }
}
