//! BitSet by document 01: a span, which may end in zero words, and members below it.

use super::{Members, Rules, SPAN_ABOVE_WORDS, Served, count, exact_span, flipped, fused, with, without};
use crate::format::{Call, Operation, SETS, Storage};
use std::cmp::Ordering;
use std::collections::BTreeSet;

#[derive(Clone, Default, PartialEq)]
struct State {
    span: u64,
    members: Members,
}

#[derive(Clone, Default)]
pub struct BitSetRules {
    words: [u64; SETS],
    sets: [State; SETS],
    list: Vec<u64>,
}

impl State {
    /// XORs members in; the span reaches at least `span`.
    fn xor(&self, span: u64, flips: &Members) -> Self {
        Self { span: self.span.max(span), members: &self.members ^ flips }
    }

    /// XORs indices one by one: the span reaches each index flipped, though a repeat may flip it back.
    fn xor_each(&self, indices: impl Iterator<Item = u64>) -> Self {
        let mut after = self.clone();
        for index in indices {
            after.span = after.span.max(index / 64 + 1);
            if !after.members.remove(&index) {
                after.members.insert(index);
            }
        }
        after
    }

    fn ends_in_zeros(&self) -> bool {
        self.span > exact_span(&self.members)
    }
}

fn compared(one: u64, other: u64) -> &'static str {
    match one.cmp(&other) {
        Ordering::Less => "shorter",
        Ordering::Equal => "as long",
        Ordering::Greater => "longer",
    }
}

impl BitSetRules {
    /// The state after the call, and the answer; a read gives the state that stands.
    fn outcome(&self, call: &Call) -> (State, u64) {
        let [set, a, b] = [call.set, call.a, call.b].map(|place| &self.sets[place]);
        let index = call.number;
        let present = set.members.contains(&index);
        let reached = set.span.max(index / 64 + 1);
        match call.operation {
            Operation::New => (State::default(), 0),
            Operation::Insert => {
                (State { span: reached, members: with(&set.members, index) }, (!present).into())
            }
            Operation::Toggle => {
                (State { span: reached, members: flipped(&set.members, index) }, (!present).into())
            }
            Operation::Remove => {
                (State { span: set.span, members: without(&set.members, index) }, present.into())
            }
            Operation::Clear => (State { span: set.span, members: Members::new() }, 0),
            Operation::Xor => (set.xor(a.span, &a.members), 0),
            Operation::XorIntersectionInto => {
                (set.xor(a.span.min(b.span), &fused(call.operation, &a.members, &b.members)), 0)
            }
            Operation::XorSymmetricDifferenceInto => {
                (set.xor(a.span.max(b.span), &fused(call.operation, &a.members, &b.members)), 0)
            }
            Operation::XorAssignSlice => (set.xor_each(self.list.iter().copied()), 0),
            Operation::XorIntersectionSlice => {
                let common = self.list.iter().copied().filter(|index| a.members.contains(index));
                (set.xor_each(common), 0)
            }
            Operation::IntersectionCountSlice => {
                let common = self.list.iter().filter(|index| set.members.contains(index)).count();
                (set.clone(), common as u64)
            }
            Operation::Contains => (set.clone(), present.into()),
            Operation::Len | Operation::Dump => (set.clone(), count(&set.members)),
            Operation::IsEmpty => (set.clone(), set.members.is_empty().into()),
            Operation::IntersectionCount => (set.clone(), count(&(&set.members & &a.members))),
            Operation::Equality => (set.clone(), (set == a).into()),
            Operation::Push => (set.clone(), 0),
            Operation::TakeClearing | Operation::SetSingle => {
                panic!("{} is no call of BitSet that document 01 ports", call.operation.name())
            }
        }
    }

    fn list_case(&self, words: u64) -> String {
        let once: BTreeSet<u64> = self.list.iter().copied().collect();
        let repeats = match self.list.len() - once.len() {
            _ if once.is_empty() => "empty list",
            0 => "list",
            _ => "list with repeats",
        };
        let longest = if self.list.len() == 16_384 { " of 16384 entries" } else { "" };
        let beyond = once.last().is_some_and(|last| last / 64 >= words);
        let beyond = if beyond { " and entries past 64W" } else { "" };
        format!("{repeats}{longest}{beyond}")
    }

    fn case(&self, call: &Call, after: &State, value: u64) -> String {
        let [before, a, b] = [call.set, call.a, call.b].map(|place| &self.sets[place]);
        let words = self.words[call.set];
        let name = call.operation.name();
        let span = match after.span {
            span if span == before.span => "span kept",
            span if span == words => "span grown to W",
            _ => "span grown",
        };
        let zeros = if after.ends_in_zeros() { ", trailing zeros" } else { "" };
        match call.operation {
            Operation::New => format!("{name}: {words} words"),
            Operation::Insert | Operation::Toggle => format!("{name}: {span}{zeros}, answers {value}"),
            Operation::Remove | Operation::Contains => {
                let reach = if call.number / 64 < before.span { "below" } else { "beyond" };
                format!("{name}: {reach} the span, answers {value}{zeros}")
            }
            Operation::Clear => {
                let had = if before.members.is_empty() { "empty" } else { "filled" };
                format!("{name}: {had}{zeros}")
            }
            Operation::Xor => {
                format!("{name}: operand {}, {span}{zeros}", compared(a.span, before.span))
            }
            Operation::XorIntersectionInto | Operation::XorSymmetricDifferenceInto => {
                let first = if call.a == call.b { "one twice" } else { compared(a.span, b.span) };
                format!("{name}: first operand {first}, {span}{zeros}")
            }
            Operation::IntersectionCount => {
                let common = if value == 0 { "none" } else { "some" };
                format!("{name}: {common} in common, operand {}", compared(a.span, before.span))
            }
            Operation::Equality => {
                let why = match (before.span == a.span, before.members == a.members) {
                    (true, true) if call.a == call.set => "itself",
                    (true, true) => "equal",
                    (false, true) => "other trailing zeros alone",
                    (true, false) => "other members alone",
                    (false, false) => "other span and members",
                };
                format!("{name}: {why}, answers {value}")
            }
            Operation::XorAssignSlice | Operation::XorIntersectionSlice => {
                format!("{name}: {}, {span}{zeros}", self.list_case(words))
            }
            Operation::IntersectionCountSlice => {
                let twice = if value > count(&before.members) { ", more than members" } else { "" };
                format!("{name}: {}{twice}", self.list_case(words))
            }
            Operation::IsEmpty => format!("{name}: answers {value}{zeros}"),
            _ => name.to_string(),
        }
    }
}

impl Rules for BitSetRules {
    fn attempt(&mut self, call: &Call) -> Result<Served, u8> {
        if call.operation == Operation::New {
            self.words[call.set] = call.lengths().0;
        }
        let (after, value) = self.outcome(call);
        if after.span > self.words[call.set] {
            return Err(SPAN_ABOVE_WORDS);
        }
        let cases = vec![self.case(call, &after, value)];
        match call.operation {
            Operation::Push => self.list.push(call.number),
            Operation::XorAssignSlice
            | Operation::XorIntersectionSlice
            | Operation::IntersectionCountSlice => self.list.clear(),
            _ => {}
        }
        self.sets[call.set] = after;
        Ok(Served { value, cases, combination: None })
    }

    fn members(&self, set: usize) -> &Members {
        &self.sets[set].members
    }

    fn storage(&self, set: usize) -> Storage {
        Storage::Words(self.sets[set].span)
    }
}
