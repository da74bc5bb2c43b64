//! The three functions cut from the original, and the stages of a plan that call them as its
//! `topology_from_host_dt` does.

use super::shim_params::ShimParams;
use crate::cmdline::Vtl2GpaPoolConfig;
use crate::dma_hint::pick_private_pool_size;
use crate::host_params::MAX_NUMA_NODES;
use crate::host_params::MAX_PARTITION_RAM_RANGES;
use crate::host_params::MAX_VTL2_RAM_RANGES;
use crate::host_params::shim_params::IsolationType;
use crate::memory::AddressSpaceManager;
use crate::memory::AllocationPolicy;
use crate::memory::AllocationType;
use crate::single_threaded::OffStackRef;
use crate::single_threaded::off_stack;
use arrayvec::ArrayString;
use arrayvec::ArrayVec;
use core::cmp::max;
use core::fmt::Write;
use host_fdt_parser::MemoryAllocationMode;
use host_fdt_parser::MemoryEntry;
use hvdef::HV_PAGE_SIZE;
use igvm_defs::MemoryMapEntryType;
use memory_range::MemoryRange;
use memory_range::walk_ranges;

include!(concat!(env!("OUT_DIR"), "/allocate_private_pool.rs"));
include!(concat!(env!("OUT_DIR"), "/allocate_vtl2_ram.rs"));
include!(concat!(env!("OUT_DIR"), "/parse_host_vtl2_ram.rs"));

/// What the reader of the device tree, which is not at hand, has room for.
pub const MAX_MAP_ENTRIES: usize = MAX_PARTITION_RAM_RANGES;

pub type Vtl2Ram = ArrayVec<MemoryEntry, MAX_VTL2_RAM_RANGES>;

/// Chooses the RAM of VTL2.
#[inline(never)]
pub fn select(
    params: &ShimParams<'_>,
    memory: &[MemoryEntry],
    mode: MemoryAllocationMode,
    vtl2_ram: &mut Vtl2Ram,
) {
    vtl2_ram.clear();
    match mode {
        MemoryAllocationMode::Host => {
            vtl2_ram.try_extend_from_slice(parse_host_vtl2_ram(params, memory).as_ref())
        }
        MemoryAllocationMode::Vtl2 { memory_size, .. } => {
            vtl2_ram.try_extend_from_slice(allocate_vtl2_ram(params, memory, memory_size).as_ref())
        }
    }
    .expect("vtl2 ram should only be 64 big");
}

/// What the pool's size and place hang on, besides the RAM and the table.
pub struct PoolOptions {
    pub isolation_type: IsolationType,
    pub enable_vtl2_gpa_pool: Vtl2GpaPoolConfig,
    pub device_dma_page_count: Option<u64>,
    pub vp_count: usize,
    pub numa_split: bool,
}

/// Sizes the private pool and places it, if there is to be one.
#[inline(never)]
pub fn place_pool(
    address_space: &mut AddressSpaceManager,
    vtl2_ram: &[MemoryEntry],
    options: &PoolOptions,
) {
    if options.isolation_type != IsolationType::None {
        return;
    }
    let mem_size = vtl2_ram.iter().map(|e| e.range.len()).sum();
    if let Some(vtl2_gpa_pool_size) = pick_private_pool_size(
        options.enable_vtl2_gpa_pool,
        options.device_dma_page_count,
        options.vp_count,
        mem_size,
    ) {
        let pool_size_bytes = vtl2_gpa_pool_size * HV_PAGE_SIZE;
        allocate_private_pool(
            address_space,
            vtl2_ram,
            pool_size_bytes,
            options.numa_split,
            options.enable_vtl2_gpa_pool,
            options.device_dma_page_count,
            options.vp_count,
            mem_size,
        );
    }
}
