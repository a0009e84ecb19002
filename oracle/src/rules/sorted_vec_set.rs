//! SortedVecSet by document 01: members and room for them.

use super::{
    MORE_KEYS_THAN_ROOM, Members, Rules, Served, count, flipped, fused, most_on_the_way, with, without,
};
use crate::format::{Call, Operation, SETS, Storage};

#[derive(Clone, Default)]
struct State {
    room: u64,
    members: Members,
}

#[derive(Clone, Default)]
pub struct SortedVecSetRules {
    sets: [State; SETS],
}

/// Where an element lies among members: the ends are where an insertion or removal goes wrong.
fn place(members: &Members, element: u64) -> &'static str {
    let below = members.range(..element).next().is_some();
    let above = element < u64::MAX && members.range(element + 1..).next().is_some();
    match (below, above) {
        (false, false) => "alone",
        (false, true) => "first",
        (true, false) => "last",
        (true, true) => "between",
    }
}

impl SortedVecSetRules {
    /// The members after the call, and the answer; a read gives the members that stand.
    fn outcome(&self, call: &Call) -> (Members, u64) {
        let members = &self.sets[call.set].members;
        let (a, b) = (&self.sets[call.a].members, &self.sets[call.b].members);
        let element = call.number;
        let present = members.contains(&element);
        match call.operation {
            Operation::New | Operation::Clear | Operation::TakeClearing => (Members::new(), 0),
            Operation::Insert => (with(members, element), (!present).into()),
            Operation::Remove => (without(members, element), present.into()),
            Operation::Toggle => (flipped(members, element), 0),
            Operation::SetSingle => (Members::from([element]), 0),
            Operation::Xor => (members ^ a, 0),
            Operation::XorIntersectionInto | Operation::XorSymmetricDifferenceInto => {
                (members ^ &fused(call.operation, a, b), 0)
            }
            Operation::Contains => (members.clone(), present.into()),
            Operation::Len | Operation::Dump => (members.clone(), count(members)),
            Operation::IsEmpty => (members.clone(), members.is_empty().into()),
            Operation::IntersectionCount => (members.clone(), count(&(members & a))),
            Operation::Equality => (members.clone(), (members == a).into()),
            Operation::Push
            | Operation::XorAssignSlice
            | Operation::XorIntersectionSlice
            | Operation::IntersectionCountSlice => {
                panic!("{} is no call of SortedVecSet", call.operation.name())
            }
        }
    }

    fn case(&self, call: &Call, after: &Members, value: u64) -> String {
        let State { room, members } = &self.sets[call.set];
        let a = &self.sets[call.a].members;
        let name = call.operation.name();
        let full = if count(after) == *room { ", exactly full" } else { "" };
        let empty = |members: &Members| if members.is_empty() { "empty" } else { "filled" };
        match call.operation {
            Operation::New => format!("{name}: room for {room}"),
            Operation::Insert | Operation::Remove | Operation::Contains => {
                format!("{name}: {}, answers {value}{full}", place(members, call.number))
            }
            Operation::Toggle => {
                let turned = if members.contains(&call.number) { "off" } else { "on" };
                format!("{name}: {}, turned {turned}{full}", place(members, call.number))
            }
            Operation::Xor => {
                format!("{name}: {} with {}, left {}{full}", empty(members), empty(a), empty(after))
            }
            Operation::XorIntersectionInto | Operation::XorSymmetricDifferenceInto => {
                let twice = if call.a == call.b { "one twice" } else { "two" };
                format!("{name}: {twice}{}, left {}{full}", self.on_the_way(call), empty(after))
            }
            Operation::TakeClearing => {
                let filled = count(members) == self.sets[call.a].room;
                let filled = if filled { ", second exactly full" } else { "" };
                format!("{name}: {} into {}{filled}", empty(members), empty(a))
            }
            Operation::IntersectionCount => {
                let itself = if call.a == call.set { "itself" } else { "another" };
                let common = if value == 0 { "none" } else { "some" };
                format!("{name}: {itself}, {common} in common")
            }
            Operation::Equality => {
                let itself = if call.a == call.set { "itself" } else { "another" };
                format!("{name}: {itself}, answers {value}")
            }
            Operation::IsEmpty => format!("{name}: answers {value}"),
            Operation::SetSingle | Operation::Clear => format!("{name}: {}{full}", empty(members)),
            _ => name.to_string(),
        }
    }

    /// Whether a fused XOR holds more than the room while it toggles one by one, as the source does.
    fn on_the_way(&self, call: &Call) -> &'static str {
        let State { room, members } = &self.sets[call.set];
        let flips = fused(call.operation, &self.sets[call.a].members, &self.sets[call.b].members);
        match (flips.is_empty(), most_on_the_way(members, &flips) > *room) {
            (true, _) => ", nothing flipped",
            (false, true) => ", more than room on the way",
            (false, false) => "",
        }
    }
}

impl Rules for SortedVecSetRules {
    fn attempt(&mut self, call: &Call) -> Result<Served, u8> {
        if call.operation == Operation::New {
            self.sets[call.set].room = call.lengths().1;
        }
        let (after, value) = self.outcome(call);
        let taken = call.operation == Operation::TakeClearing;
        let (filled, keys) = if taken { (call.a, &self.sets[call.set].members) } else { (call.set, &after) };
        if count(keys) > self.sets[filled].room {
            return Err(MORE_KEYS_THAN_ROOM);
        }
        let mut cases = vec![self.case(call, &after, value)];
        if count(&after) > 1024 {
            cases.push(format!("{}: more than 1024 elements", call.operation.name()));
        }
        if taken {
            self.sets[call.a].members = keys.clone();
        }
        self.sets[call.set].members = after;
        Ok(Served { value, cases, combination: None })
    }

    fn members(&self, set: usize) -> &Members {
        &self.sets[set].members
    }

    fn storage(&self, _set: usize) -> Storage {
        Storage::Elements
    }
}
