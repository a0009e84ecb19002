//! The text of histories and answers: lines of lowercase hexadecimal digits, every field of fixed
//! width. README.md documents it for whoever writes a replay.

use std::fmt;

pub const SETS: usize = 3;
/// A history line without its newline.
const HISTORY_DIGITS: usize = 30;

macro_rules! operations {
    ($($name:ident $code:literal $text:literal,)*) => {
        #[derive(Clone, Copy, PartialEq, Eq, Debug)]
        pub enum Operation { $($name = $code,)* }

        impl Operation {
            fn from_code(code: u64) -> Option<Self> {
                match code { $($code => Some(Self::$name),)* _ => None }
            }

            pub fn name(self) -> &'static str {
                match self { $(Self::$name => $text,)* }
            }
        }
    };
}

// The codes 01 to 0a are those of the frame program.
operations! {
    New 0x00 "new",
    Insert 0x01 "insert",
    Remove 0x02 "remove",
    Toggle 0x03 "toggle",
    Contains 0x04 "contains",
    Len 0x05 "len",
    Clear 0x06 "clear",
    Xor 0x07 "xor",
    IntersectionCount 0x08 "intersection_count",
    XorIntersectionInto 0x09 "xor_intersection_into",
    XorSymmetricDifferenceInto 0x0a "xor_symmetric_difference_into",
    IsEmpty 0x0c "is_empty",
    Equality 0x0d "equality",
    Dump 0x0e "dump",
    Push 0x10 "push",
    XorAssignSlice 0x11 "xor_assign_slice",
    XorIntersectionSlice 0x12 "xor_intersection_slice",
    IntersectionCountSlice 0x13 "intersection_count_slice",
    TakeClearing 0x14 "take_clearing",
    SetSingle 0x15 "set_single",
}

/// One call on the sets of a history.
#[derive(Clone, Copy, PartialEq, Eq, Debug)]
pub struct Call {
    pub operation: Operation,
    pub set: usize,
    pub a: usize,
    pub b: usize,
    pub number: u64,
}

impl Call {
    pub fn new(operation: Operation, set: usize) -> Self {
        Self { operation, set, a: 0, b: 0, number: 0 }
    }

    pub fn with_number(self, number: u64) -> Self {
        Self { number, ..self }
    }

    pub fn with_operands(self, a: usize, b: usize) -> Self {
        Self { a, b, ..self }
    }

    /// The call that prepares a set of `words` words and `keys` keys or elements.
    pub fn prepare(set: usize, words: u64, keys: u64) -> Self {
        Self::new(Operation::New, set).with_number(words << 32 | keys)
    }

    /// Whether a call writes a set that it also reads as an operand, which the source cannot.
    fn is_its_own_operand(&self) -> bool {
        match self.operation {
            Operation::Xor | Operation::XorIntersectionSlice | Operation::TakeClearing => self.a == self.set,
            Operation::XorIntersectionInto | Operation::XorSymmetricDifferenceInto => {
                self.a == self.set || self.b == self.set
            }
            _ => false,
        }
    }

    /// The lent lengths that a call of `new` names: words, then keys or elements.
    pub fn lengths(&self) -> (u64, u64) {
        (self.number >> 32, self.number & 0xffff_ffff)
    }
}

/// A line of a history: the call, made for `times` numbers in a row.
#[derive(Clone, Copy, PartialEq, Eq, Debug)]
pub struct Line {
    pub call: Call,
    pub times: u64,
    /// Whether the answers line shows mode and span.
    pub shown: bool,
}

impl Line {
    pub fn calls(self) -> impl Iterator<Item = Call> {
        (0..self.times).map(move |i| self.call.with_number(self.call.number + i))
    }

    /// Reads a line, or says in one sentence what is wrong with it.
    pub fn parse(text: &str) -> Result<Self, String> {
        let lawful = |digit: u8| matches!(digit, b'0'..=b'9' | b'a'..=b'f');
        if text.len() != HISTORY_DIGITS || !text.bytes().all(lawful) {
            return Err(format!("not {HISTORY_DIGITS} digits of lowercase hexadecimal: {text:?}"));
        }
        let field = |from: usize, to: usize| {
            u64::from_str_radix(&text[from..to], 16).map_err(|error| error.to_string())
        };
        let operation = Operation::from_code(field(0, 2)?)
            .ok_or_else(|| format!("no such operation: {}", &text[0..2]))?;
        let sets = [field(2, 4)?, field(4, 6)?, field(6, 8)?].map(|set| set as usize);
        if sets.iter().any(|&set| set >= SETS) {
            return Err(format!("no such set in {text}"));
        }
        let call = Call { operation, set: sets[0], a: sets[1], b: sets[2], number: field(14, 30)? };
        if call.is_its_own_operand() {
            return Err(format!("the target is among its operands in {text}"));
        }
        Ok(Self { call, times: field(10, 14)?, shown: field(8, 10)? == 1 })
    }
}

impl fmt::Display for Line {
    fn fmt(&self, f: &mut fmt::Formatter<'_>) -> fmt::Result {
        let Call { operation, set, a, b, number } = self.call;
        let (shown, times) = (u8::from(self.shown), self.times);
        write!(f, "{:02x}{set:02x}{a:02x}{b:02x}{shown:02x}{times:04x}{number:016x}", operation as u8)
    }
}

#[derive(Clone, Copy, PartialEq, Eq, PartialOrd, Ord, Debug)]
pub enum Mode {
    Narrow,
    Wide,
    Sparse,
}

impl Mode {
    pub fn name(self) -> &'static str {
        match self {
            Self::Narrow => "narrow",
            Self::Wide => "wide",
            Self::Sparse => "sparse",
        }
    }
}

/// What is compared of a set's storage, besides members and count.
#[derive(Clone, Copy, PartialEq, Eq, Debug)]
pub enum Storage {
    /// SortedVecSet: nothing.
    Elements,
    /// BitSet: the span.
    Words(u64),
    /// AdaptiveIndexSet: mode and span, where they are in the domain of comparison.
    Adaptive(Mode, u64),
}

/// The answers line of one history line, without its newline.
pub fn answer(value: u64, count: u64, storage: Storage, shown: bool) -> String {
    let head = format!("{value:016x}{count:06x}");
    match storage {
        Storage::Elements => head,
        Storage::Words(span) => format!("{head}{span:04x}"),
        Storage::Adaptive(mode, span) if shown => format!("{head}{:02x}{span:04x}", mode as u8),
        Storage::Adaptive(..) => format!("{head}ffffff"),
    }
}
