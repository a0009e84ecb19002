//! Histories of single calls, clears and reads on adaptive sets, each set by itself.

use super::adaptive_index_set::{AdaptiveSession, LAST_INDEX, Weights, index, lengths};
use super::{Histories, each, member, owned};
use crate::format::{Call, Operation};
use crate::random::Random;
use crate::rules::adaptive_index_set::AdaptiveIndexSetRules;
use crate::rules::modes::limit;
use crate::rules::{Members, Rules, count, exact_span};
use crate::session::Session;
use crate::source::AdaptiveIndexSets;

pub struct AdaptiveSingle;

const WORDS: &Weights = &[(400, 32), (400, 33), (400, 40), (600, 79), (800, 128), (30, 1024), (10, 8192)];
const KEYS: &Weights = &[(20, 0), (30, 1), (30, 2), (60, 16), (80, 64), (4, 2048)];

/// Lows in one line, then a top at the limit or just above 32 words.
fn grow_wide(random: &mut Random, session: &mut AdaptiveSession, set: usize) {
    let words = session.rules.words[set];
    let many = words >= 1024 && random.one_in(2);
    let lows = if many { words / 2 + random.below(4) } else { random.between(15, 64) };
    let insert = Call::new(Operation::Insert, set);
    session.offer_run(insert.with_number(random.below(3)), lows);
    let line = limit(count(session.rules.members(set)) + 1);
    let needed = random.pick(&[33, 34, line, line - 1]).min(words);
    session.offer(insert.with_number(64 * (needed - 1) + random.pick(&[0, 1, 63])));
}

/// Removes lows until the next removals pass hold, then makes those.
fn shrink_to_hold(random: &mut Random, session: &mut AdaptiveSession, set: usize) {
    let members = session.rules.members(set);
    let kept = exact_span(members).div_ceil(4) + random.below(2);
    let gone = count(members).saturating_sub(kept) as usize;
    let gone: Members = members.iter().copied().take(gone).collect();
    each(session, Operation::Remove, set, &gone);
    let operation = random.pick(&[Operation::Remove, Operation::Toggle]);
    for _ in 0..random.between(1, 3) {
        if let Some(first) = session.rules.members(set).first().copied() {
            session.offer(Call::new(operation, set).with_number(first));
        }
    }
}

/// Lows that turn sparse with one far index and then fill the room exactly.
fn fill_keys(random: &mut Random, session: &mut AdaptiveSession, set: usize) {
    let insert = Call::new(Operation::Insert, set);
    session.offer(Call::new(Operation::Clear, set));
    let lows = session.rules.keys[set].saturating_sub(1);
    if lows > 0 {
        session.offer_run(insert.with_number(random.below(2)), lows);
    }
    session.offer(insert.with_number(LAST_INDEX - random.below(2)));
}

#[derive(Clone, Copy)]
enum Step {
    Once(Operation, u64),
    Run(Operation),
    GrowWide,
    ShrinkToHold,
    FillKeys,
}

/// One call, or a few that lead a set to a line.
pub fn single_step(random: &mut Random, session: &mut AdaptiveSession, far: u64) {
    let set = random.pick(&[0, 0, 0, 1, 2]);
    let near = index(random, session, set, far);
    let present = member(random, session.rules.members(set));
    let step = random.weighted(&[
        (16, Step::Once(Operation::Insert, near)),
        (10, Step::Once(Operation::Toggle, near)),
        (4, Step::Once(Operation::Toggle, present)),
        (4, Step::Once(Operation::Remove, near)),
        (8, Step::Once(Operation::Remove, present)),
        (6, Step::Once(Operation::Contains, near)),
        (2, Step::Once(Operation::IsEmpty, 0)),
        (1, Step::Once(Operation::Len, 0)),
        (1, Step::Once(Operation::Dump, 0)),
        (2, Step::Once(Operation::Clear, 0)),
        (2, Step::Run(Operation::Insert)),
        (1, Step::Run(Operation::Toggle)),
        (4, Step::GrowWide),
        (3, Step::ShrinkToHold),
        (1, Step::FillKeys),
    ]);
    match step {
        Step::Once(operation, number) => {
            session.offer(Call::new(operation, set).with_number(number));
        }
        Step::Run(operation) => {
            let times = random.between(2, 20);
            let first = near.min(LAST_INDEX - times);
            session.offer_run(Call::new(operation, set).with_number(first), times);
        }
        Step::GrowWide => grow_wide(random, session, set),
        Step::ShrinkToHold => shrink_to_hold(random, session, set),
        Step::FillKeys => fill_keys(random, session, set),
    }
}

impl Histories for AdaptiveSingle {
    type Rules = AdaptiveIndexSetRules;
    type Source = AdaptiveIndexSets;
    const NAME: &'static str = "adaptive_single";

    fn history(random: &mut Random) -> AdaptiveSession {
        let mut session = Session::begin(lengths(random, WORDS, KEYS));
        let far = random.pick(&[0, 1, 6]);
        for _ in 0..random.between(15, 70) {
            single_step(random, &mut session, far);
        }
        session.dump();
        session
    }

    fn required() -> Vec<String> {
        let mut cases = owned(&[
            "new: 32 words",
            "new: 8192 words",
            "new: 0 keys",
            "new: 1 keys",
            "new: 2048 keys",
            "insert: narrow stays, narrow to narrow, trailing zeros",
            "insert: bit on, wide to wide",
            "toggle: bit on, wide to wide",
            "insert: wide above 1024 words",
            "remove: wide above 1024 words",
            "insert: sparse above 1024 keys",
            "remove: sparse above 1024 keys",
            "toggle: sparse above 1024 keys",
            "insert: wide, room exactly full",
            "insert: sparse, room exactly full",
            "toggle: wide, room exactly full",
            "toggle: sparse, room exactly full",
            "remove: narrow stays, narrow to narrow, trailing zeros",
            "remove: settles, wide to narrow",
            "toggle: settles, wide to narrow",
            "is_empty: narrow, answers 1",
            "is_empty: sparse, answers 1",
        ]);
        for operation in ["insert", "toggle"] {
            for before in ["narrow", "wide"] {
                cases.push(format!("{operation}: grows, {before} to wide, at the line"));
                cases.push(format!("{operation}: grows, {before} to sparse, one past the line"));
            }
            cases.push(format!("{operation}: sparse stays, sparse to sparse"));
        }
        for operation in ["remove", "toggle"] {
            cases.push(format!("{operation}: settles, wide to wide, at the line"));
            cases.push(format!("{operation}: settles, wide to sparse, one past the line"));
        }
        for mode in ["narrow", "wide", "sparse"] {
            cases.push(format!("clear: clears, {mode} to narrow"));
            cases.push(format!("remove: absent, {mode} to {mode}"));
            cases.push(format!("contains: {mode}, answers 0"));
            cases.push(format!("contains: {mode}, answers 1"));
            cases.push(format!("insert: {mode}, answers 0"));
            cases.push(format!("is_empty: {mode}, answers 0"));
            cases.push(format!("len: {mode}"));
            cases.push(format!("dump: {mode}"));
        }
        cases
    }
}
