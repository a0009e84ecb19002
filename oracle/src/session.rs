//! A history in the making: each call is judged by the rules of document 01, made on the source
//! where it is answered 0, and compared. A difference ends the program with the history so far.

use crate::format::{Call, Line, Operation, SETS, Storage};
use crate::rules::{Rules, count};
use crate::source::Source;
use crate::tally::Tally;

pub struct Session<R: Rules, S: Source> {
    pub rules: R,
    pub source: S,
    pub lines: Vec<Line>,
    pub tally: Tally,
    /// Whether modes are still compared.
    shown: bool,
}

impl<R: Rules, S: Source> Session<R, S> {
    /// Begins a history with the lengths lent to each set: words, then keys or elements.
    pub fn begin(lengths: [(u64, u64); SETS]) -> Self {
        let mut session = Self {
            rules: R::default(),
            source: S::default(),
            lines: Vec::new(),
            tally: Tally::default(),
            shown: true,
        };
        for (set, (words, keys)) in lengths.into_iter().enumerate() {
            session.offer(Call::prepare(set, words, keys));
        }
        session
    }

    /// Makes the call if document 01 answers it 0, and says whether it was made.
    pub fn offer(&mut self, call: Call) -> bool {
        self.offer_run(call, 1)
    }

    /// Makes the call for `times` numbers in a row if document 01 answers each 0.
    pub fn offer_run(&mut self, call: Call, times: u64) -> bool {
        let first_walk = self.shown && self.rules.walks(&call);
        let line = Line { call, times, shown: self.shown && !first_walk };
        assert_eq!(Line::parse(&line.to_string()), Ok(line), "a line reads back as it was written");
        let before = (times > 1).then(|| self.rules.clone());
        let mut promised = Vec::new();
        for call in line.calls() {
            match self.rules.attempt(&call) {
                Ok(served) => promised.push(served),
                Err(number) => {
                    self.tally.refuse(number);
                    if let Some(before) = before {
                        self.rules = before;
                    }
                    return false;
                }
            }
        }
        self.shown = line.shown;
        self.lines.push(line);
        for (call, served) in line.calls().zip(promised) {
            let value = self.source.serve(&call);
            if value != served.value {
                self.differ(&format!("answer {value}, by document 01 {}", served.value));
            }
            self.tally.serve(call.operation, served, line.shown);
        }
        self.compare(call.set);
        if call.operation == Operation::TakeClearing {
            self.compare(call.a);
        }
        if first_walk {
            self.tally.walk(self.source.storage(call.set), self.rules.storage(call.set));
        }
        true
    }

    /// Prints the members of every set, so that a replay compares them all.
    pub fn dump(&mut self) {
        for set in 0..SETS {
            self.offer(Call::new(Operation::Dump, set));
        }
    }

    fn compare(&self, set: usize) {
        let (found, promised) = (self.source.members(set), self.rules.members(set));
        if !found.iter().eq(promised) {
            self.differ(&format!("members {found:?}, by document 01 {promised:?}"));
        }
        let (found, promised) = (self.source.count(set), count(promised));
        if found != promised {
            self.differ(&format!("count {found}, by document 01 {promised}"));
        }
        let (found, promised) = (self.source.storage(set), self.rules.storage(set));
        let compared = self.shown || !matches!(promised, Storage::Adaptive(..));
        if compared && found != promised {
            self.differ(&format!("storage {found:?}, by document 01 {promised:?}"));
        }
    }

    fn differ(&self, what: &str) -> ! {
        for line in &self.lines {
            eprintln!("{line}");
        }
        eprintln!("the source differs after the last of these lines: {what}");
        std::process::exit(1)
    }
}
