//! Histories of BitSet: indices around 64k, spans up to W exactly, trailing zero words, lists with
//! repeats. Growing calls stay below 64W, since the rules refuse the others; reads go anywhere.

use super::{Histories, member, operands, owned};
use crate::format::{Call, Operation, SETS, Storage};
use crate::random::Random;
use crate::rules::Rules;
use crate::rules::bitset::BitSetRules;
use crate::session::Session;
use crate::source::BitSets;

pub struct BitSetHistories;

type BitSetSession = Session<BitSetRules, BitSets>;

const WORDS: [(u64, u64); 8] = [(4, 0), (8, 1), (10, 2), (10, 3), (6, 32), (6, 64), (2, 1024), (2, 8192)];
const LIST_ENTRIES: u64 = 16_384;

/// An index at an end of a word, or one beside it.
fn edge(random: &mut Random, word: u64) -> u64 {
    (64 * word + random.pick(&[0, 1, 63])).saturating_sub(random.below(2))
}

/// An index near a line: an end of a word, of the span or of the words lent, or a member.
fn index(random: &mut Random, session: &BitSetSession, set: usize, words: u64) -> u64 {
    let Storage::Words(span) = session.rules.storage(set) else { unreachable!("a BitSet shows its span") };
    let word = random.below(words + 1);
    let candidates = [
        random.below(8),
        random.below(64 * words + 1),
        edge(random, word),
        edge(random, words),
        edge(random, words.saturating_sub(1)),
        edge(random, span),
        edge(random, span.saturating_sub(1)),
        member(random, session.rules.members(set)),
        member(random, session.rules.members(set)),
    ];
    random.pick(&candidates)
}

/// An index that only a read or a removal may name.
fn anywhere(random: &mut Random, session: &BitSetSession, set: usize, words: u64) -> u64 {
    let near = index(random, session, set, words);
    let candidates =
        [(1, u64::MAX - random.below(2)), (1, 1 << random.below(64)), (1, random.draw()), (5, near)];
    random.weighted(&candidates)
}

/// A list of indices with repeats, then one call that takes it.
fn list(random: &mut Random, session: &mut BitSetSession, set: usize, words: u64) {
    let operation = random.pick(&[
        Operation::XorAssignSlice,
        Operation::XorIntersectionSlice,
        Operation::IntersectionCountSlice,
    ]);
    let (a, _) = operands(random, set);
    let looked_up = if operation == Operation::XorIntersectionSlice { a } else { set };
    let push = Call::new(Operation::Push, set);
    let mut last = 0;
    for _ in 0..random.pick(&[0, 1, 2, 3, 5, 9]) {
        let near = index(random, session, looked_up, words);
        let wherever = anywhere(random, session, looked_up, words);
        let entry = if operation == Operation::XorAssignSlice {
            // Past the words lent, one entry would have the whole list refused.
            near.min((64 * words).saturating_sub(1))
        } else {
            random.pick(&[near, wherever])
        };
        last = random.pick(&[entry, entry, entry, last]);
        session.offer(push.with_number(last));
    }
    if words >= 32 && random.one_in(16) {
        let first = 64 * random.below(words / 4);
        session.offer_run(push.with_number(first), random.between(65, 130));
    }
    if !session.offer(Call::new(operation, set).with_operands(a, 0)) {
        // A read takes the refused list, so that none outlives its call.
        session.offer(Call::new(Operation::IntersectionCountSlice, set));
    }
}

/// The longest list that a call may take, its second half taking back most of the first.
fn longest_list(session: &mut BitSetSession, set: usize) {
    let push = Call::new(Operation::Push, set);
    session.offer_run(push.with_number(100), LIST_ENTRIES / 2);
    session.offer_run(push.with_number(101), LIST_ENTRIES / 2);
    session.offer(Call::new(Operation::XorAssignSlice, set));
}

/// Equal members with other trailing zeros are unequal; with the same they are equal.
fn trailing_zeros(random: &mut Random, session: &mut BitSetSession, words: u64) {
    let (one, other) = (random.below(2) as usize, 2);
    let compare = Call::new(Operation::Equality, one).with_operands(other, 0);
    session.offer(Call::prepare(other, words, 0));
    session.offer(Call::new(Operation::Xor, other).with_operands(one, 0));
    session.offer(compare);
    let top = 64 * words.saturating_sub(1 + random.below(2)) + random.below(64);
    session.offer(Call::new(Operation::Toggle, other).with_number(top));
    session.offer(Call::new(Operation::Toggle, other).with_number(top));
    session.offer(compare);
    session.offer(Call::new(Operation::Equality, other).with_operands(one, 0));
    session.offer(Call::new(Operation::Xor, one).with_operands(other, 0));
    session.offer(Call::new(Operation::IsEmpty, one));
    session.offer(compare);
}

fn step(random: &mut Random, session: &mut BitSetSession, words: [u64; SETS]) {
    let set = random.below(SETS as u64) as usize;
    let near = index(random, session, set, words[set]);
    let wherever = anywhere(random, session, set, words[set]);
    let (a, b) = operands(random, set);
    let itself = random.pick(&[a, a, a, set]);
    let call = |operation| Call::new(operation, set);
    let drawn = random.weighted(&[
        (14, Some(call(Operation::Insert).with_number(near))),
        (12, Some(call(Operation::Toggle).with_number(near))),
        (10, Some(call(Operation::Remove).with_number(wherever))),
        (8, Some(call(Operation::Contains).with_number(wherever))),
        (1, Some(call(Operation::Len))),
        (3, Some(call(Operation::IsEmpty))),
        (2, Some(call(Operation::Clear))),
        (5, Some(call(Operation::Xor).with_operands(a, 0))),
        (5, Some(call(Operation::XorIntersectionInto).with_operands(a, b))),
        (5, Some(call(Operation::XorSymmetricDifferenceInto).with_operands(a, b))),
        (5, Some(call(Operation::IntersectionCount).with_operands(itself, 0))),
        (5, Some(call(Operation::Equality).with_operands(itself, 0))),
        (1, Some(call(Operation::Dump))),
        (7, None),
    ]);
    match drawn {
        Some(call) => {
            session.offer(call);
        }
        None => list(random, session, set, words[set]),
    }
}

impl Histories for BitSetHistories {
    type Rules = BitSetRules;
    type Source = BitSets;
    const NAME: &'static str = "bitset";

    fn history(random: &mut Random) -> BitSetSession {
        let shared = random.weighted(&WORDS);
        let words = [(); SETS].map(|()| if random.one_in(4) { random.weighted(&WORDS) } else { shared });
        let mut session = Session::begin(words.map(|words| (words, 0)));
        for _ in 0..random.between(15, 60) {
            step(random, &mut session, words);
        }
        if random.one_in(3) {
            trailing_zeros(random, &mut session, words[2]);
        }
        if words[0] >= 1024 && random.one_in(40) {
            longest_list(&mut session, 0);
        }
        session.dump();
        session
    }

    fn required() -> Vec<String> {
        owned(&[
            "new: 0 words",
            "new: 1 words",
            "new: 8192 words",
            "insert: span grown to W, answers 1",
            "insert: span kept, answers 0",
            "insert: span kept, answers 1",
            "insert: span kept, trailing zeros",
            "toggle: span grown to W, answers 1",
            "toggle: span kept, trailing zeros, answers 0",
            "toggle: span kept, answers 1",
            "remove: below the span, answers 0",
            "remove: below the span, answers 1, trailing zeros",
            "remove: beyond the span, answers 0",
            "contains: below the span, answers 0",
            "contains: below the span, answers 1",
            "contains: beyond the span, answers 0",
            "is_empty: answers 0",
            "is_empty: answers 1, trailing zeros",
            "len",
            "clear: filled, trailing zeros",
            "xor: operand longer, span grown to W",
            "xor: operand longer, span grown, trailing zeros",
            "xor: operand as long, span kept, trailing zeros",
            "xor: operand shorter, span kept",
            "xor_intersection_into: first operand shorter, span grown",
            "xor_intersection_into: first operand longer, span grown, trailing zeros",
            "xor_intersection_into: first operand as long, span kept",
            "xor_intersection_into: first operand one twice, span grown to W",
            "xor_symmetric_difference_into: first operand shorter, span grown",
            "xor_symmetric_difference_into: first operand longer, span grown to W",
            "xor_symmetric_difference_into: first operand as long, span kept, trailing zeros",
            "xor_symmetric_difference_into: first operand one twice, span grown to W, trailing zeros",
            "intersection_count: some in common, operand longer",
            "intersection_count: some in common, operand shorter",
            "intersection_count: none in common",
            "equality: itself, answers 1",
            "equality: equal, answers 1",
            "equality: other trailing zeros alone, answers 0",
            "equality: other members alone, answers 0",
            "xor_assign_slice: empty list, span kept",
            "xor_assign_slice: list with repeats, span grown to W, trailing zeros",
            "xor_assign_slice: list with repeats of 16384 entries",
            "xor_intersection_slice: list with repeats and entries past 64W, span kept",
            "xor_intersection_slice: list with repeats, span grown",
            "intersection_count_slice: list with repeats, more than members",
            "intersection_count_slice: list with repeats and entries past 64W",
            "dump",
        ])
    }
}
