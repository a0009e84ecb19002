//! The source's three files, compiled from the copies that `setup` checked and staged.
//! The adaptive set's copy ends with the reader of `storage_reading.rs`; nothing else is added.

pub mod index_set;
pub use index_set::IndexSet;

#[path = "../../target/staged/bitset.rs"]
pub mod bitset;

#[path = "../../target/staged/sorted_vec_set.rs"]
pub mod sorted_vec_set;

#[path = "../../target/staged/adaptive_index_set.rs"]
pub mod adaptive_index_set;
