//! Histories of SortedVecSet: small rooms filled exactly, elements at both ends of the numbers,
//! XORs that pass through more than the room and end within it.

use super::{Histories, each, member, operands, owned};
use crate::format::{Call, Operation, SETS};
use crate::random::Random;
use crate::rules::sorted_vec_set::SortedVecSetRules;
use crate::rules::{Members, Rules, count};
use crate::session::Session;
use crate::source::SortedVecSets;

pub struct SortedVecSetHistories;

type SortedVecSetSession = Session<SortedVecSetRules, SortedVecSets>;

// 8 is where the source leaves its inline buffer.
const ROOMS: [(u64, u64); 11] = [
    (200, 0),
    (300, 1),
    (400, 2),
    (400, 3),
    (400, 4),
    (300, 8),
    (300, 9),
    (300, 16),
    (200, 64),
    (8, 1024),
    (8, 8192),
];

/// An element near the others, at an end of the numbers, or anywhere.
fn element(random: &mut Random, members: &Members, universe: u64) -> u64 {
    let near = member(random, members);
    let candidates = [
        (1, random.pick(&[0, 1, u64::MAX - 1, u64::MAX])),
        (1, (1 << random.below(64)) - random.below(2)),
        (1, random.draw()),
        (1, near.saturating_add(1)),
        (1, near.saturating_sub(1)),
        (2, near),
        (5, random.below(universe)),
    ];
    random.weighted(&candidates)
}

/// A fused XOR whose lower flips are more than the room holds until the higher ones cancel.
fn more_than_room_on_the_way(random: &mut Random, session: &mut SortedVecSetSession) {
    let members: Members = (0..random.between(1, 3)).map(|i| 100 + i).collect();
    let others: Members = (0..random.between(1, 3)).map(|i| 50 + i).collect();
    for set in 0..SETS {
        session.offer(Call::new(Operation::Clear, set));
    }
    let flips = &members | &others;
    each(session, Operation::Insert, 0, &members);
    each(session, Operation::Insert, 1, &flips);
    let operation = if random.one_in(2) {
        each(session, Operation::Insert, 2, &flips);
        Operation::XorIntersectionInto
    } else {
        Operation::XorSymmetricDifferenceInto
    };
    session.offer(Call::new(operation, 0).with_operands(1, 2));
    session.offer(Call::new(Operation::Dump, 0));
}

/// As many elements as the room takes, in one line, handed from set to set. XORing two long sets
/// leaves the few elements that the dump at the end shows.
fn fill(random: &mut Random, session: &mut SortedVecSetSession, set: usize, room: u64) {
    let times = room.max(1);
    let first = random.pick(&[0, 1, u64::MAX - times + 1]);
    let operation = random.pick(&[Operation::Insert, Operation::Toggle]);
    let (a, b) = ((set + 1) % SETS, (set + 2) % SETS);
    session.offer(Call::new(Operation::Clear, set));
    session.offer_run(Call::new(operation, set).with_number(first), times);
    session.offer(Call::new(Operation::TakeClearing, set).with_operands(a, 0));
    session.offer(Call::new(Operation::Remove, a).with_number(first + times / 2));
    session.offer(Call::new(Operation::Xor, b).with_operands(a, 0));
    session.offer(Call::new(Operation::IntersectionCount, b).with_operands(a, 0));
    session.offer(Call::new(Operation::XorIntersectionInto, set).with_operands(a, b));
    session.offer(Call::new(Operation::Equality, set).with_operands(a, 0));
    session.offer(Call::new(Operation::Xor, a).with_operands(set, 0));
    for long in 0..SETS {
        if count(session.rules.members(long)) > 64 {
            session.offer_run(Call::new(Operation::Contains, long).with_number(first), 64);
            session.offer(Call::new(Operation::Clear, long));
        }
    }
}

fn step(random: &mut Random, session: &mut SortedVecSetSession, rooms: [u64; SETS], universe: u64) {
    let set = random.below(SETS as u64) as usize;
    let number = element(random, session.rules.members(set), universe);
    let (a, b) = operands(random, set);
    let itself = random.pick(&[a, a, a, set]);
    let call = |operation| Call::new(operation, set);
    let drawn = random.weighted(&[
        (16, Some(call(Operation::Insert).with_number(number))),
        (12, Some(call(Operation::Toggle).with_number(number))),
        (8, Some(call(Operation::Remove).with_number(number))),
        (8, Some(call(Operation::Contains).with_number(number))),
        (1, Some(call(Operation::Len))),
        (2, Some(call(Operation::IsEmpty))),
        (2, Some(call(Operation::Clear))),
        (5, Some(call(Operation::Xor).with_operands(a, 0))),
        (5, Some(call(Operation::XorIntersectionInto).with_operands(a, b))),
        (5, Some(call(Operation::XorSymmetricDifferenceInto).with_operands(a, b))),
        (5, Some(call(Operation::IntersectionCount).with_operands(itself, 0))),
        (4, Some(call(Operation::Equality).with_operands(itself, 0))),
        (3, Some(call(Operation::TakeClearing).with_operands(a, 0))),
        (2, Some(call(Operation::SetSingle).with_number(number))),
        (1, Some(call(Operation::Dump))),
        (1, None),
    ]);
    match drawn {
        Some(call) => {
            session.offer(call);
        }
        None => fill(random, session, set, rooms[set]),
    }
}

impl Histories for SortedVecSetHistories {
    type Rules = SortedVecSetRules;
    type Source = SortedVecSets;
    const NAME: &'static str = "sorted_vec_set";

    fn history(random: &mut Random) -> SortedVecSetSession {
        let shared = random.weighted(&ROOMS);
        let rooms = [(); SETS].map(|()| if random.one_in(3) { random.weighted(&ROOMS) } else { shared });
        let universe = random.pick(&[4, 8, 12, 24, 100]);
        let mut session = Session::begin(rooms.map(|room| (0, room)));
        for _ in 0..random.between(15, 60) {
            step(random, &mut session, rooms, universe);
        }
        if random.one_in(3) {
            more_than_room_on_the_way(random, &mut session);
        }
        session.dump();
        session
    }

    fn required() -> Vec<String> {
        owned(&[
            "new: room for 0",
            "new: room for 1",
            "new: room for 8",
            "new: room for 9",
            "new: room for 8192",
            "insert: more than 1024 elements",
            "xor: more than 1024 elements",
            "insert: alone, answers 1, exactly full",
            "insert: first, answers 1",
            "insert: last, answers 1, exactly full",
            "insert: between, answers 1, exactly full",
            "insert: between, answers 0, exactly full",
            "remove: first, answers 1",
            "remove: last, answers 1",
            "remove: between, answers 1",
            "remove: alone, answers 1",
            "remove: between, answers 0",
            "toggle: first, turned on, exactly full",
            "toggle: last, turned on, exactly full",
            "toggle: between, turned on, exactly full",
            "toggle: between, turned off",
            "contains: between, answers 0",
            "contains: between, answers 1",
            "is_empty: answers 0",
            "is_empty: answers 1",
            "len",
            "clear: filled",
            "clear: empty",
            "xor: filled with filled, left empty",
            "xor: filled with filled, left filled, exactly full",
            "xor: filled with empty, left filled",
            "xor: empty with filled, left filled, exactly full",
            "xor: empty with empty, left empty",
            "xor_intersection_into: two, more than room on the way",
            "xor_intersection_into: two, nothing flipped",
            "xor_intersection_into: one twice, left filled, exactly full",
            "xor_symmetric_difference_into: two, more than room on the way",
            "xor_symmetric_difference_into: two, left filled, exactly full",
            "xor_symmetric_difference_into: one twice, nothing flipped",
            "intersection_count: another, some in common",
            "intersection_count: another, none in common",
            "intersection_count: itself, some in common",
            "equality: another, answers 0",
            "equality: another, answers 1",
            "equality: itself, answers 1",
            "take_clearing: filled into filled, second exactly full",
            "take_clearing: filled into empty",
            "take_clearing: empty into filled",
            "set_single: filled",
            "set_single: empty, exactly full",
            "dump",
        ])
    }
}
