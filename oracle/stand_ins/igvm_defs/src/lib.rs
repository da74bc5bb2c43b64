//! Stands in for `igvm_defs`: the page size and the types of memory map entries. Only whether a type
//! is `VTL2_PROTECTABLE` is asked.

/// Bytes in a page.
pub const PAGE_SIZE_4K: u64 = 4096;

#[derive(Clone, Copy, Debug, PartialEq, Eq)]
pub struct MemoryMapEntryType(pub u16);

impl MemoryMapEntryType {
    pub const MEMORY: Self = Self(0);
    pub const PLATFORM_RESERVED: Self = Self(1);
    pub const PERSISTENT: Self = Self(2);
    pub const VTL2_PROTECTABLE: Self = Self(3);
}
