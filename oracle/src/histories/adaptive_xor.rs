//! Histories of XORs, fused XORs and intersection counts between adaptive sets in every combination
//! of modes, most of them aimed at one rule's line.

use super::adaptive_index_set::{AdaptiveSession, LAST_INDEX, Weights, index, lengths};
use super::adaptive_single::single_step;
use super::{Histories, each, operands, owned};
use crate::format::{Call, Mode, Operation, SETS};
use crate::random::Random;
use crate::rules::adaptive_index_set::AdaptiveIndexSetRules;
use crate::rules::modes::{hold, limit};
use crate::rules::{Members, Rules, count, exact_span};
use crate::session::Session;
use crate::source::AdaptiveIndexSets;

pub struct AdaptiveXor;

// Most sets have room for each of the three modes.
const WORDS: &Weights = &[(100, 32), (150, 33), (200, 40), (600, 79), (1200, 128), (40, 1024), (10, 8192)];
const KEYS: &Weights = &[(20, 0), (20, 1), (20, 2), (120, 16), (240, 64), (10, 2048)];
const MODES: [Mode; 3] = [Mode::Narrow, Mode::Wide, Mode::Sparse];
const COMBINING: [Operation; 3] =
    [Operation::Xor, Operation::XorIntersectionInto, Operation::XorSymmetricDifferenceInto];

fn run(first: u64, times: u64) -> Members {
    (first..first + times).collect()
}

/// The densest mode that members can soundly have.
fn densest(members: &Members) -> Mode {
    match exact_span(members) {
        ..=32 => Mode::Narrow,
        span if span <= hold(count(members)) => Mode::Wide,
        _ => Mode::Sparse,
    }
}

/// Leads a set to these members in this mode, where the lengths lent allow it.
fn build(session: &mut AdaptiveSession, set: usize, mode: Mode, members: &Members) {
    session.offer(Call::new(Operation::Clear, set));
    match mode {
        Mode::Narrow => each(session, Operation::Insert, set, members),
        Mode::Wide => {
            // More lows than it keeps: it must grow within limit, and may then shrink to hold.
            let lows = run(0, exact_span(members).div_ceil(2));
            each(session, Operation::Insert, set, &lows);
            each(session, Operation::Insert, set, members);
            each(session, Operation::Remove, set, &(&lows - members));
        }
        Mode::Sparse => {
            session.offer(Call::new(Operation::Insert, set).with_number(LAST_INDEX));
            session.offer(Call::new(Operation::Remove, set).with_number(LAST_INDEX));
            each(session, Operation::Insert, set, members);
        }
    }
}

/// Members that suit a mode, most of them low, so that sets overlap.
fn members(random: &mut Random, mode: Mode) -> Members {
    match mode {
        Mode::Narrow => {
            let low = run(random.below(6), random.between(0, 48));
            let high = run(random.pick(&[60, 1000, 2040]), random.between(1, 8));
            if random.one_in(3) { &low | &high } else { low }
        }
        Mode::Wide => {
            let span: u64 = random.pick(&[33, 34, 36, 37, 40, 41, 64, 66, 79, 128]);
            let least = span.div_ceil(4) - 1;
            let low = run(random.below(3), random.between(least, least + 30));
            let top = run(64 * (span - 1) + random.below(60), random.pick(&[1, 1, 1, 4]));
            &low | &top
        }
        Mode::Sparse => {
            let low = run(random.below(12), random.pick(&[0, 1, 1, 2, 3, 20]));
            let far = Members::from([random.pick(&[2048, 5000, 6000, LAST_INDEX])]);
            if random.one_in(2) { &low | &far } else { low }
        }
    }
}

/// Makes the call, unless it would end the comparison of modes in a history that keeps to it.
fn combine(session: &mut AdaptiveSession, call: Call, walks: bool) {
    if walks || !session.rules.walks(&call) {
        session.offer(call);
    }
}

/// Sets in modes drawn alike often, then calls between them.
fn any_modes(random: &mut Random, session: &mut AdaptiveSession, walks: bool) {
    for set in 0..SETS {
        if !random.one_in(3) {
            let mode = random.pick(&MODES);
            let members = members(random, mode);
            build(session, set, mode, &members);
        }
    }
    for _ in 0..random.between(2, 6) {
        let set = random.below(SETS as u64) as usize;
        let (a, b) = operands(random, set);
        if random.one_in(3) {
            let with = random.pick(&[a, a, a, set]);
            session.offer(Call::new(Operation::IntersectionCount, set).with_operands(with, 0));
        }
        let operation = random.pick(&COMBINING);
        let b = if operation == Operation::Xor { 0 } else { b };
        combine(session, Call::new(operation, set).with_operands(a, b), walks);
    }
}

/// A drawn call on set 0 with dense operands built so that it flips exactly `flips`.
fn flipping(random: &mut Random, session: &mut AdaptiveSession, flips: &Members) -> Call {
    let operation = random.pick(&COMBINING);
    let call = Call::new(operation, 0);
    let others = run(random.below(30), random.below(12));
    match operation {
        Operation::Xor => {
            build(session, 1, densest(flips), flips);
            call.with_operands(1, 0)
        }
        Operation::XorIntersectionInto => {
            let more = flips | &others;
            build(session, 1, densest(flips), flips);
            build(session, 2, densest(&more), &more);
            call.with_operands(2, 1)
        }
        _ => {
            let one = flips ^ &others;
            build(session, 1, densest(&one), &one);
            build(session, 2, Mode::Narrow, &others);
            call.with_operands(1, 2)
        }
    }
}

/// Rule (a) on both sides of its lines: about as many members as the operand has, or a last member
/// of either about limit(n - c) words up.
fn sparse_target(random: &mut Random, session: &mut AdaptiveSession) {
    let n = random.between(1, 64);
    let c = random.pick(&[0, 1, 2, 3, n / 4, n - 1, n, n + 1]);
    let words = limit(n.saturating_sub(c)) + random.below(2);
    let top = run(64 * (words - 1) + random.below(64), 1);
    let low = run(random.below(3), c);
    let (mut target, mut flips) = (low.clone(), run(random.below(3), n));
    // A top in both cancels, and lets the result be narrow.
    let (own, operands) = random.pick(&[(true, false), (false, true), (true, true)]);
    if own {
        target = &target.into_iter().skip(1).collect() | &top;
    }
    if operands && words <= 4 * n {
        flips = &flips.into_iter().skip(1).collect() | &top;
    }
    let call = flipping(random, session, &flips);
    build(session, 0, Mode::Sparse, &target);
    combine(session, call, false);
}

/// Rule (c) on both sides of limit(count + n): a wide operand with fewer members than it grew by.
fn growing_target(random: &mut Random, session: &mut AdaptiveSession) {
    let n = random.between(9, 40);
    let c = random.below((4 * n - 1) / 2 - n + 1);
    let s = (2 * (n + c) + random.below(2)).max(33);
    let flips = &run(random.below(2), n - 1) | &run(64 * (s - 1) + random.below(64), 1);
    let call = flipping(random, session, &flips);
    build(session, 0, Mode::Narrow, &run(random.pick(&[0, 1, 100]), c));
    combine(session, call, false);
}

/// Rule (d) on both sides of hold: a wide target that loses lows until it has about four words to a
/// member, or loses its top.
fn settling_target(random: &mut Random, session: &mut AdaptiveSession) {
    let kept = random.between(8, 30);
    let span = (4 * kept + random.below(3)).max(33);
    let lost = random.between(span.div_ceil(2), span);
    let top = run(64 * (span - 1) + random.below(64), 1);
    let lows = run(kept - 1, lost);
    let flips = if random.one_in(4) { &lows | &top } else { lows };
    let call = flipping(random, session, &flips);
    build(session, 0, Mode::Wide, &(&run(0, kept - 1 + lost) | &top));
    combine(session, call, false);
}

/// Rule (c) but for the span: a fused operand that is no more than a top within a wide target's span.
fn lone_top(random: &mut Random, session: &mut AdaptiveSession) {
    let kept = random.between(9, 30);
    let span = 4 * kept - random.below(3);
    let top = run(64 * (span - 1 - random.below(2)), 1);
    let lows = run(0, random.between(kept, 2 * kept));
    let other_lows = run(100, count(&lows));
    let last = run(64 * (span - 1) + 63, 1);
    build(session, 1, Mode::Wide, &(&lows | &top));
    let operation = if random.one_in(2) {
        build(session, 2, Mode::Wide, &(&other_lows | &top));
        Operation::XorIntersectionInto
    } else {
        build(session, 2, Mode::Narrow, &lows);
        Operation::XorSymmetricDifferenceInto
    };
    build(session, 0, Mode::Wide, &(&run(0, kept) | &last));
    let (a, b) = random.pick(&[(1, 2), (2, 1)]);
    combine(session, Call::new(operation, 0).with_operands(a, b), false);
}

/// A sparse target whose room is full: new lows come in before as many of its members cancel.
fn full_room(random: &mut Random, session: &mut AdaptiveSession) {
    let room = session.rules.keys[0].clamp(1, 64);
    let far = Members::from([random.pick(&[5000, LAST_INDEX])]);
    let moved = random.between(1, room);
    let target = &run(100, room - 1) | &far;
    let cancelled: Members = target.iter().copied().take(moved as usize).collect();
    let flips = &run(random.below(3), moved) | &cancelled;
    let call = if random.one_in(2) {
        build(session, 1, Mode::Sparse, &flips);
        build(session, 2, Mode::Narrow, &Members::new());
        random.pick(&[
            Call::new(Operation::Xor, 0).with_operands(1, 0),
            Call::new(Operation::XorIntersectionInto, 0).with_operands(1, 1),
            Call::new(Operation::XorSymmetricDifferenceInto, 0).with_operands(1, 2),
        ])
    } else {
        flipping(random, session, &flips)
    };
    build(session, 0, Mode::Sparse, &target);
    combine(session, call, false);
}

/// Long sparse sets that overlap, where the room allows; only the target is kept for the dump.
fn long_keys(random: &mut Random, session: &mut AdaptiveSession) {
    if session.rules.keys.iter().any(|keys| *keys < 2048) {
        return;
    }
    let far = Members::from([LAST_INDEX]);
    let target = &run(0, random.between(1025, 1300)) | &far;
    let flips = &run(random.between(600, 1000), random.between(1025, 1300)) | &far;
    build(session, 0, Mode::Sparse, &target);
    build(session, 1, Mode::Sparse, &flips);
    build(session, 2, Mode::Sparse, &run(random.below(900), 1000));
    session.offer(Call::new(Operation::IntersectionCount, 0).with_operands(1, 0));
    let operation = random.pick(&COMBINING);
    let b = if operation == Operation::Xor { 0 } else { 2 };
    session.offer(Call::new(operation, 0).with_operands(1, b));
    session.offer(Call::new(Operation::Clear, 1));
    session.offer(Call::new(Operation::Clear, 2));
}

/// A walk of one index, at a line of the dense target's.
fn walk_of_one(random: &mut Random, session: &mut AdaptiveSession) {
    let mode = random.pick(&[Mode::Narrow, Mode::Wide]);
    let target = members(random, mode);
    build(session, 0, mode, &target);
    let one = Members::from([index(random, session, 0, 2)]);
    let others = run(random.between(30, 60), random.below(6));
    let operation = random.pick(&COMBINING);
    let call = Call::new(operation, 0);
    let call = match operation {
        Operation::Xor => {
            build(session, 1, Mode::Sparse, &one);
            call.with_operands(1, 0)
        }
        Operation::XorIntersectionInto => {
            let more = &one | &others;
            build(session, 1, random.pick(&[Mode::Sparse, densest(&more)]), &more);
            build(session, 2, Mode::Sparse, &one);
            call.with_operands(1, 2)
        }
        _ => {
            build(session, 1, random.pick(&[Mode::Sparse, Mode::Narrow]), &others);
            build(session, 2, Mode::Sparse, &(&one ^ &others));
            call.with_operands(2, 1)
        }
    };
    combine(session, call, false);
}

impl Histories for AdaptiveXor {
    type Rules = AdaptiveIndexSetRules;
    type Source = AdaptiveIndexSets;
    const NAME: &'static str = "adaptive_xor";

    fn history(random: &mut Random) -> AdaptiveSession {
        let mut session = Session::begin(lengths(random, WORDS, KEYS));
        let walks = random.one_in(4);
        for _ in 0..random.between(1, 5) {
            match random.below(12) {
                0 | 1 => sparse_target(random, &mut session),
                2 => growing_target(random, &mut session),
                3 => settling_target(random, &mut session),
                4 => lone_top(random, &mut session),
                5 => full_room(random, &mut session),
                6 => walk_of_one(random, &mut session),
                7 => single_step(random, &mut session, 1),
                8 => long_keys(random, &mut session),
                _ => any_modes(random, &mut session, walks),
            }
        }
        session.dump();
        session
    }

    fn required() -> Vec<String> {
        let mut cases = owned(&["new: 32 words", "new: 8192 words", "new: 0 keys", "new: 2048 keys"]);
        let modes = MODES.map(Mode::name);
        for target in modes {
            for a in modes {
                cases.push(format!("intersection_count: {target} with {a}, some in common"));
                cases.push(format!("xor: {target} with {a}"));
                for fused in ["xor_intersection_into", "xor_symmetric_difference_into"] {
                    cases.push(format!("{fused}: {target} with {a} twice"));
                    for b in modes {
                        cases.push(format!("{fused}: {target} with {a} and {b}"));
                    }
                }
            }
        }
        cases.push("xor: sparse above 1024 keys".to_string());
        for fused in ["xor_intersection_into", "xor_symmetric_difference_into"] {
            cases.push(format!("{fused}: sparse above 1024 keys"));
            cases.push(format!("{fused}: (d), (c) but for the span, wide to wide"));
        }
        for operation in COMBINING.map(Operation::name) {
            for rule in [
                "(a) one member too many, sparse to sparse",
                "(a) own span, sparse to sparse, one past the line",
                "(a) operand's span, sparse to sparse, one past the line",
                "(a) turns dense, own span at the line, sparse to wide",
                "(a) turns dense, operand's span at the line, sparse to wide",
                "(a) turns dense, own span, as many members, sparse to narrow",
                "(b), narrow to narrow, trailing zeros",
                "(b), span grows, narrow to narrow",
                "(c), narrow to sparse, one past the line",
                "(d), (c) at its line, narrow to",
                "(d), wide to narrow",
                "(d), wide to wide, at the line",
                "(d), wide to sparse, one past the line",
                "walk of none, narrow to narrow",
                "walk of none, wide to wide",
                "walk of one, narrow to narrow",
                "walk of one, narrow to wide",
                "walk of one, narrow to sparse",
                "walk of one, wide to narrow",
                "walk of one, wide to wide",
                "walk of one, wide to sparse",
                "walk, sparse stays",
            ] {
                cases.push(format!("{operation}: {rule}"));
            }
            cases.push(format!("{operation}: wide, room exactly full"));
            cases.push(format!("{operation}: sparse, room exactly full"));
            cases.push(format!("{operation}: narrow, more words than W on the way"));
            cases.push(format!("{operation}: sparse, more words than W on the way"));
            cases.push(format!("{operation}: sparse, more keys than K on the way"));
        }
        cases
    }
}
