//! `FxBuildHasher`, which the source imports and rustc-hash 1.1 lacks.
//! Only the modes after walks hang on the hash, and they are outside the domain of comparison.

pub type FxBuildHasher = std::hash::BuildHasherDefault<debian::FxHasher>;
