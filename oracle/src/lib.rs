//! The oracle: the Rust source and document 01's rules side by side, histories that visit the
//! lines where behaviour changes, and the text in which both are recorded.

pub mod format;
pub mod histories;
pub mod random;
pub mod rules;
pub mod session;
pub mod source;
pub mod tally;
