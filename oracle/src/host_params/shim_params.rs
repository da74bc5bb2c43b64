//! `IsolationType` is the original's; `ShimParams` stands in for a larger one.

// The original never makes a `Cca`, and says so; the oracle does.
#![allow(unfulfilled_lint_expectations)]

use memory_range::MemoryRange;

include!(concat!(env!("OUT_DIR"), "/isolation_type.rs"));
include!(concat!(env!("OUT_DIR"), "/isolation_type_impl.rs"));

/// Stands in for the parameters of the shim: what selection reads of them. The imported regions come
/// from the plan, not from a page of descriptors.
pub struct ShimParams<'a> {
    pub memory_start_address: u64,
    pub memory_size: u64,
    pub isolation_type: IsolationType,
    pub imported: &'a [MemoryRange],
}

impl ShimParams<'_> {
    /// The flag, whether the region is accepted already, is not looked at.
    pub fn imported_regions(&self) -> impl Iterator<Item = (MemoryRange, bool)> + use<'_> {
        self.imported.iter().map(|range| (*range, false))
    }
}
