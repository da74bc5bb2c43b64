//! Where the original has its host parameters: the constants and functions cut from it stand here under
//! the names that it knows them by.

pub mod dt;
pub mod shim_params;

include!(concat!(env!("OUT_DIR"), "/max_numa_nodes.rs"));
include!(concat!(env!("OUT_DIR"), "/max_vtl2_ram_ranges.rs"));
include!(concat!(env!("OUT_DIR"), "/max_partition_ram_ranges.rs"));
