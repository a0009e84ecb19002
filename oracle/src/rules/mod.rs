//! Document 01's rules, written from its text and not from the source: sets of whole numbers,
//! spans, modes and refusals. `compare` holds them against the source call by call.

pub mod adaptive_index_set;
pub mod bitset;
pub mod modes;
pub mod sorted_vec_set;

use crate::format::{Call, Mode, Operation, Storage};
use std::collections::BTreeSet;

pub type Members = BTreeSet<u64>;

/// The state that the rules give is dense with a span above the words lent.
pub const SPAN_ABOVE_WORDS: u8 = 4;
/// The state that the rules give has more keys than room.
pub const MORE_KEYS_THAN_ROOM: u8 = 5;

/// A call answered 0.
pub struct Served {
    pub value: u64,
    /// The cases of document 01 that the call was one of, for the table of coverage.
    pub cases: Vec<String>,
    /// The modes that an XOR of the adaptive set combined, and the mode that it gave.
    pub combination: Option<(String, Mode)>,
}

pub trait Rules: Clone + Default {
    /// Serves the call, or gives the number of its refusal and changes nothing.
    fn attempt(&mut self, call: &Call) -> Result<Served, u8>;
    fn members(&self, set: usize) -> &Members;
    fn storage(&self, set: usize) -> Storage;

    /// Whether the call walks two or more indices into a dense target: from there on a history
    /// compares no modes.
    fn walks(&self, _call: &Call) -> bool {
        false
    }
}

pub fn count(members: &Members) -> u64 {
    members.len() as u64
}

/// The last nonzero word's place plus one, 0 if none.
pub fn exact_span(members: &Members) -> u64 {
    members.last().map_or(0, |last| last / 64 + 1)
}

/// What a fused XOR flips: the operands' intersection or their symmetric difference.
fn fused(operation: Operation, a: &Members, b: &Members) -> Members {
    if operation == Operation::XorIntersectionInto { a & b } else { a ^ b }
}

fn with(members: &Members, index: u64) -> Members {
    let mut members = members.clone();
    members.insert(index);
    members
}

fn without(members: &Members, index: u64) -> Members {
    let mut members = members.clone();
    members.remove(&index);
    members
}

fn flipped(members: &Members, index: u64) -> Members {
    if members.contains(&index) { without(members, index) } else { with(members, index) }
}

/// The most members that a set holds while these are flipped lowest first.
fn most_on_the_way(members: &Members, flips: &Members) -> u64 {
    let mut held = count(members);
    let mut most = held;
    for flip in flips {
        if members.contains(flip) {
            held -= 1;
        } else {
            held += 1;
        }
        most = most.max(held);
    }
    most
}
