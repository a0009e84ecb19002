//! The calls of the adaptive set by document 01: a mode rule gives a state, and only that state is
//! measured against the words and keys lent.

use super::modes::{self, State, Step};
use super::{
    MORE_KEYS_THAN_ROOM, Members, Rules, SPAN_ABOVE_WORDS, Served, count, exact_span, fused, most_on_the_way,
};
use crate::format::{Call, Mode, Operation, SETS, Storage};

#[derive(Clone, Default)]
pub struct AdaptiveIndexSetRules {
    pub words: [u64; SETS],
    pub keys: [u64; SETS],
    pub sets: [State; SETS],
}

impl AdaptiveIndexSetRules {
    /// What a writing call does; none for a read.
    fn step(&self, call: &Call) -> Option<Step> {
        let [set, a, b] = [call.set, call.a, call.b].map(|place| &self.sets[place]);
        Some(match call.operation {
            Operation::New => modes::prepare(),
            Operation::Insert => modes::insert(set, call.number),
            Operation::Remove => modes::remove(set, call.number),
            Operation::Toggle => modes::toggle(set, call.number),
            Operation::Clear => modes::clear(set),
            Operation::Xor => modes::xor(set, a),
            Operation::XorIntersectionInto | Operation::XorSymmetricDifferenceInto => {
                modes::xor_fused(call.operation, set, a, b)
            }
            _ => return None,
        })
    }

    fn value(&self, call: &Call) -> u64 {
        let members = &self.sets[call.set].members;
        let present = members.contains(&call.number);
        match call.operation {
            Operation::Insert => (!present).into(),
            Operation::Remove | Operation::Contains => present.into(),
            Operation::Len | Operation::Dump => count(members),
            Operation::IsEmpty => members.is_empty().into(),
            Operation::IntersectionCount => count(&(members & &self.sets[call.a].members)),
            _ => 0,
        }
    }

    fn fits(&self, set: usize, state: &State) -> Result<(), u8> {
        match state.mode {
            Mode::Sparse if count(&state.members) > self.keys[set] => Err(MORE_KEYS_THAN_ROOM),
            Mode::Narrow | Mode::Wide if state.span > self.words[set] => Err(SPAN_ABOVE_WORDS),
            _ => Ok(()),
        }
    }

    fn exactly_full(&self, set: usize, state: &State) -> bool {
        match state.mode {
            Mode::Narrow => false,
            Mode::Wide => state.span == self.words[set],
            Mode::Sparse => count(&state.members) == self.keys[set],
        }
    }

    fn read_case(&self, call: &Call, value: u64) -> String {
        let name = call.operation.name();
        let [mode, a] = [call.set, call.a].map(|place| self.sets[place].mode.name());
        match call.operation {
            Operation::IntersectionCount => {
                let itself = if call.a == call.set { " itself" } else { "" };
                let common = if value == 0 { "none" } else { "some" };
                format!("{name}: {mode} with {a}{itself}, {common} in common")
            }
            Operation::Contains | Operation::IsEmpty => format!("{name}: {mode}, answers {value}"),
            _ => format!("{name}: {mode}"),
        }
    }

    fn write_cases(&self, call: &Call, step: &Step, value: u64) -> Vec<String> {
        let name = call.operation.name();
        let before = self.sets[call.set].mode.name();
        let State { mode, span, members } = &step.state;
        let after = mode.name();
        let zeros = *mode == Mode::Narrow && *span > exact_span(members);
        let zeros = if zeros { ", trailing zeros" } else { "" };
        let mut cases = vec![format!("{name}: {}, {before} to {after}{zeros}{}", step.rule, step.side())];
        if self.exactly_full(call.set, &step.state) {
            cases.push(format!("{name}: {after}, room exactly full"));
        }
        if step.words_on_the_way > self.words[call.set] {
            cases.push(format!("{name}: {after}, more words than W on the way"));
        }
        let flips = &self.sets[call.set].members ^ members;
        let keys = most_on_the_way(&self.sets[call.set].members, &flips);
        if *mode == Mode::Sparse && keys > self.keys[call.set] {
            cases.push(format!("{name}: {after}, more keys than K on the way"));
        }
        if *mode == Mode::Wide && *span > 1024 {
            cases.push(format!("{name}: wide above 1024 words"));
        }
        if *mode == Mode::Sparse && count(members) > 1024 {
            cases.push(format!("{name}: sparse above 1024 keys"));
        }
        match call.operation {
            Operation::Insert | Operation::Remove => {
                cases.push(format!("{name}: {before}, answers {value}"));
            }
            Operation::New => {
                let (words, keys) = call.lengths();
                cases = vec![format!("{name}: {words} words"), format!("{name}: {keys} keys")];
            }
            _ => {}
        }
        cases
    }

    fn combination(&self, call: &Call, step: &Step) -> Option<(String, Mode)> {
        let name = call.operation.name();
        let [before, a, b] = [call.set, call.a, call.b].map(|place| self.sets[place].mode.name());
        let with =
            match call.operation {
                Operation::Xor => a.to_string(),
                Operation::XorIntersectionInto | Operation::XorSymmetricDifferenceInto => {
                    if call.a == call.b { format!("{a} twice") } else { format!("{a} and {b}") }
                }
                _ => return None,
            };
        Some((format!("{name}: {before} with {with}"), step.state.mode))
    }
}

impl Rules for AdaptiveIndexSetRules {
    fn attempt(&mut self, call: &Call) -> Result<Served, u8> {
        if call.operation == Operation::New {
            (self.words[call.set], self.keys[call.set]) = call.lengths();
        }
        let value = self.value(call);
        let Some(step) = self.step(call) else {
            let cases = vec![self.read_case(call, value)];
            return Ok(Served { value, cases, combination: None });
        };
        self.fits(call.set, &step.state)?;
        let cases = self.write_cases(call, &step, value);
        let combination = self.combination(call, &step);
        self.sets[call.set] = step.state;
        Ok(Served { value, cases, combination })
    }

    fn members(&self, set: usize) -> &Members {
        &self.sets[set].members
    }

    fn storage(&self, set: usize) -> Storage {
        Storage::Adaptive(self.sets[set].mode, self.sets[set].span)
    }

    fn walks(&self, call: &Call) -> bool {
        let [set, a, b] = [call.set, call.a, call.b].map(|place| &self.sets[place]);
        let walked = match call.operation {
            Operation::Xor if !a.is_dense() => count(&a.members),
            Operation::XorIntersectionInto | Operation::XorSymmetricDifferenceInto
                if !a.is_dense() || !b.is_dense() =>
            {
                count(&fused(call.operation, &a.members, &b.members))
            }
            _ => 0,
        };
        set.is_dense() && walked >= 2
    }
}
