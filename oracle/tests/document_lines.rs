//! The lines of document 01 under "Both sides of each line", on its rules and on the source alike:
//! a session compares the two at every call and ends the run where they differ.

use oracle::format::{Call, Mode, Operation, Storage};
use oracle::rules::adaptive_index_set::AdaptiveIndexSetRules;
use oracle::rules::{MORE_KEYS_THAN_ROOM, Rules, SPAN_ABOVE_WORDS};
use oracle::session::Session;
use oracle::source::AdaptiveIndexSets;

type Adaptive = Session<AdaptiveIndexSetRules, AdaptiveIndexSets>;

fn fresh(words: u64, keys: u64) -> Adaptive {
    Session::begin([(words, keys), (128, 64), (128, 64)])
}

fn insert(set: usize, index: u64) -> Call {
    Call::new(Operation::Insert, set).with_number(index)
}

fn remove(set: usize, index: u64) -> Call {
    Call::new(Operation::Remove, set).with_number(index)
}

fn xor(set: usize, operand: usize) -> Call {
    Call::new(Operation::Xor, set).with_operands(operand, 0)
}

fn narrow(span: u64) -> Storage {
    Storage::Adaptive(Mode::Narrow, span)
}

fn wide(span: u64) -> Storage {
    Storage::Adaptive(Mode::Wide, span)
}

const SPARSE: Storage = Storage::Adaptive(Mode::Sparse, 0);

#[test]
fn an_index_into_an_empty_set() {
    for (index, after) in [(2047, narrow(32)), (2048, SPARSE), (5000, SPARSE)] {
        let mut session = fresh(128, 64);
        assert!(session.offer(insert(0, index)));
        assert_eq!(session.rules.storage(0), after);
    }
}

#[test]
fn growing_past_narrow() {
    let mut session = fresh(128, 64);
    session.offer_run(insert(0, 0), 15);
    session.offer(insert(0, 2048));
    assert_eq!(session.rules.storage(0), SPARSE);

    let mut session = fresh(128, 64);
    session.offer_run(insert(0, 0), 16);
    session.offer(insert(0, 2048));
    assert_eq!(session.rules.storage(0), wide(33));

    let mut session = fresh(32, 64);
    session.offer_run(insert(0, 0), 16);
    assert_eq!(session.rules.attempt(&insert(0, 2048)).err(), Some(SPAN_ABOVE_WORDS));
}

/// The wide set {0..15, 2048} less 0..7.
fn wide_nine(set: usize) -> Adaptive {
    let mut session = fresh(128, 64);
    session.offer_run(insert(set, 0), 16);
    session.offer(insert(set, 2048));
    session.offer_run(remove(set, 0), 8);
    session
}

#[test]
fn shrinking_to_hold() {
    let mut session = wide_nine(0);
    assert_eq!(session.rules.storage(0), wide(33));
    session.offer(remove(0, 8));
    assert_eq!(session.rules.storage(0), SPARSE);

    let mut session = wide_nine(0);
    session.offer(remove(0, 2048));
    assert_eq!(session.rules.storage(0), narrow(1));
}

#[test]
fn a_sparse_target() {
    for (lows, after, members) in [(40, SPARSE, 41), (41, wide(79), 42)] {
        let mut session = fresh(128, 64);
        session.offer(insert(0, 5000));
        session.offer_run(insert(1, 0), lows);
        session.offer(xor(0, 1));
        assert_eq!(session.rules.storage(0), after);
        assert_eq!(session.rules.members(0).len(), members);
    }

    let mut session = fresh(128, 64);
    session.offer(insert(0, 5000));
    session.offer(remove(0, 5000));
    session.offer(xor(0, 1));
    assert_eq!(session.rules.storage(0), narrow(0));
}

#[test]
fn a_wide_operand_into_a_fresh_set() {
    let mut session = wide_nine(1);
    session.offer(xor(0, 1));
    assert_eq!(session.rules.storage(0), SPARSE);
}

#[test]
fn a_full_room() {
    let mut session = fresh(128, 1);
    session.offer(insert(0, 5000));
    assert_eq!(session.rules.attempt(&insert(0, 6000)).err(), Some(MORE_KEYS_THAN_ROOM));
    session.offer(insert(1, 5000));
    session.offer(insert(1, 6000));
    assert!(session.offer(xor(0, 1)));
    assert!(session.rules.members(0).iter().eq(&[6000]));
    session.offer(remove(0, 6000));
    assert!(session.offer(insert(0, 6000)));
}
