//! The adaptive set's states and the mode rules of document 01, in its order and words: each rule
//! gives the state that a call ends in.

use super::{Members, count, exact_span, flipped, fused, with, without};
use crate::format::{Mode, Operation};

const NARROW_WORDS: u64 = 32;

/// The span up to which a dense set grows to have `n` members.
pub fn limit(n: u64) -> u64 {
    NARROW_WORDS.max(2 * n)
}

/// The span up to which a dense set of `n` members stays dense.
pub fn hold(n: u64) -> u64 {
    NARROW_WORDS.max(4 * n)
}

#[derive(Clone)]
pub struct State {
    pub mode: Mode,
    /// 0 when sparse, exact when wide.
    pub span: u64,
    pub members: Members,
}

impl Default for State {
    fn default() -> Self {
        Self::narrow(0, Members::new())
    }
}

impl State {
    fn narrow(span: u64, members: Members) -> Self {
        Self { mode: Mode::Narrow, span, members }
    }

    fn wide(members: Members) -> Self {
        Self { mode: Mode::Wide, span: exact_span(&members), members }
    }

    fn sparse(members: Members) -> Self {
        Self { mode: Mode::Sparse, span: 0, members }
    }

    pub fn is_dense(&self) -> bool {
        self.mode != Mode::Sparse
    }
}

/// The state that a rule gives, with the rule's name for the table of coverage.
pub struct Step {
    pub state: State,
    pub rule: String,
    /// Words that the rule uses on its way; only the final state is measured.
    pub words_on_the_way: u64,
    /// How far the span that a rule measures lies past the rule's line, where one is measured.
    past: Option<i64>,
}

impl Step {
    fn new(rule: &str, state: State) -> Self {
        let words_on_the_way = state.span;
        Self { state, rule: rule.to_string(), words_on_the_way, past: None }
    }

    fn measured(rule: &str, span: u64, line: u64, state: State) -> Self {
        Self { past: Some(span as i64 - line as i64), ..Self::new(rule, state) }
    }

    /// The two sides of a line, which histories must both reach.
    pub fn side(&self) -> &'static str {
        match self.past {
            Some(0) => ", at the line",
            Some(1) => ", one past the line",
            _ => "",
        }
    }
}

pub fn prepare() -> Step {
    Step::new("prepares", State::default())
}

fn settle(members: Members) -> Step {
    let (t, line) = (exact_span(&members), hold(count(&members)));
    if t <= NARROW_WORDS {
        Step::new("settles", State::narrow(t, members))
    } else if t > line {
        Step::measured("settles", t, line, State::sparse(members))
    } else {
        Step::measured("settles", t, line, State::wide(members))
    }
}

pub fn insert(set: &State, index: u64) -> Step {
    insert_or_toggle(set, index, with(&set.members, index))
}

pub fn toggle(set: &State, index: u64) -> Step {
    insert_or_toggle(set, index, flipped(&set.members, index))
}

/// The rule that insert and toggle share; `members` are those after the call.
fn insert_or_toggle(set: &State, index: u64, members: Members) -> Step {
    let needed = index / 64 + 1;
    let line = limit(count(&set.members) + 1);
    if !set.is_dense() {
        Step::new("sparse stays", State::sparse(members))
    } else if set.mode == Mode::Narrow && needed <= NARROW_WORDS {
        let rule = if needed > set.span { "narrow grows" } else { "narrow stays" };
        Step::new(rule, State::narrow(set.span.max(needed), members))
    } else if needed > set.span && needed > line {
        Step::measured("grows", needed, line, State::sparse(members))
    } else if needed > set.span {
        Step::measured("grows", needed, line, State::wide(members))
    } else if members.contains(&index) {
        Step::new("bit on", State::wide(members))
    } else {
        settle(members)
    }
}

pub fn remove(set: &State, index: u64) -> Step {
    if !set.members.contains(&index) {
        return Step::new("absent", set.clone());
    }
    let members = without(&set.members, index);
    match set.mode {
        Mode::Narrow => Step::new("narrow stays", State::narrow(set.span, members)),
        Mode::Wide => settle(members),
        Mode::Sparse => Step::new("sparse stays", State::sparse(members)),
    }
}

pub fn clear(set: &State) -> Step {
    let span = if set.mode == Mode::Narrow { set.span } else { 0 };
    Step::new("clears", State::narrow(span, Members::new()))
}

/// XOR with a dense operand of span `s`: rule (a) for a sparse target, then (b) to (d).
fn xor_dense(set: &State, s: u64, operand: &Members) -> Step {
    if set.is_dense() {
        return xor_into_dense(set.span, &set.members, s, operand);
    }
    let (c, n) = (count(&set.members), count(operand));
    let o = exact_span(&set.members);
    let members = &set.members ^ operand;
    if c > n {
        let rule = if c == n + 1 { "(a) one member too many" } else { "(a) too many members" };
        return Step::new(rule, State::sparse(members));
    }
    let (span, line) = (s.max(o), limit(n - c));
    let whose = if s > o { "operand's span" } else { "own span" };
    if span > line {
        return Step::measured(&format!("(a) {whose}"), span, line, State::sparse(members));
    }
    let many = if c == n { ", as many members" } else { "" };
    let at_line = if span == line { " at the line" } else { "" };
    Step {
        rule: format!("(a) turns dense, {whose}{at_line}{many}"),
        past: None,
        ..xor_into_dense(span, &set.members, s, operand)
    }
}

/// Rules (b), (c) and (d), for a dense target of this span and these members.
fn xor_into_dense(span: u64, members: &Members, s: u64, operand: &Members) -> Step {
    let after = members ^ operand;
    let line = limit(count(members) + count(operand));
    if span <= NARROW_WORDS && s <= NARROW_WORDS {
        let rule = if s > span { "(b), span grows" } else { "(b)" };
        Step::new(rule, State::narrow(span.max(s), after))
    } else if s > span && s > line {
        Step::measured("(c)", s, line, State::sparse(after))
    } else {
        let settled = settle(after);
        // Two neighbours of (c): its line met exactly, and passed by an operand within the span.
        let (rule, past) = match (s > span, s > line) {
            (true, _) if s == line => ("(d), (c) at its line", None),
            (false, true) => ("(d), (c) but for the span", settled.past),
            _ => ("(d)", settled.past),
        };
        Step { rule: rule.to_string(), words_on_the_way: span.max(s), past, ..settled }
    }
}

/// The walk, which stands in for the source's toggling in the order of its hash.
fn walk(set: &State, walked: &Members) -> Step {
    if !set.is_dense() {
        return Step::new("walk, sparse stays", State::sparse(&set.members ^ walked));
    }
    let rule = ["walk of none", "walk of one", "walk of more"][walked.len().min(2)];
    let step = xor_into_dense(set.span, &set.members, exact_span(walked), walked);
    Step { rule: rule.to_string(), ..step }
}

pub fn xor(set: &State, operand: &State) -> Step {
    if operand.is_dense() {
        xor_dense(set, operand.span, &operand.members)
    } else {
        walk(set, &operand.members)
    }
}

pub fn xor_fused(operation: Operation, set: &State, a: &State, b: &State) -> Step {
    let operand = fused(operation, &a.members, &b.members);
    if !a.is_dense() || !b.is_dense() {
        return walk(set, &operand);
    }
    let all_narrow = [set, a, b].iter().all(|state| state.mode == Mode::Narrow);
    let s = match (all_narrow, operation) {
        (true, Operation::XorIntersectionInto) => a.span.min(b.span),
        (true, _) => a.span.max(b.span),
        (false, _) => exact_span(&operand),
    };
    xor_dense(set, s, &operand)
}
