//! Stands in for `host_fdt_parser`: two of its plain types. No device tree is read.

use igvm_defs::MemoryMapEntryType;
use memory_range::MemoryRange;

/// An entry of the host's memory map.
#[derive(Clone, Copy, Debug, PartialEq, Eq)]
pub struct MemoryEntry {
    pub range: MemoryRange,
    pub mem_type: MemoryMapEntryType,
    pub vnode: u32,
}

/// Who chooses the memory of VTL2.
#[derive(Clone, Copy, Debug, PartialEq, Eq)]
pub enum MemoryAllocationMode {
    Host,
    Vtl2 {
        memory_size: Option<u64>,
        mmio_size: Option<u64>,
    },
}
