
// Added to the staged copy by Tramulinca: the source hides its mode, and document 01 allows one
// reader in the test copy.

/// What the storage of an [`AdaptiveIndexSet`] holds besides its members.
pub struct StorageReading {
    pub dense: bool,
    /// Words in use; 0 when sparse.
    pub span: usize,
    /// The stored count, stale in a narrow set.
    pub stored_count: usize,
    /// Words or keys allocated.
    pub capacity: usize,
}

impl AdaptiveIndexSet {
    #[must_use]
    pub fn storage_reading(&self) -> StorageReading {
        match &self.storage {
            Storage::Dense { words, len } => StorageReading {
                dense: true,
                span: words.len(),
                stored_count: *len,
                capacity: words.capacity(),
            },
            Storage::Sparse(elements) => StorageReading {
                dense: false,
                span: 0,
                stored_count: elements.len(),
                capacity: elements.capacity(),
            },
        }
    }
}
