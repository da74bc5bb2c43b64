//! The private pool's size.

use crate::ffi;

/// Whose number of pages the private pool has.
#[derive(Clone, Copy, Debug, PartialEq, Eq)]
pub enum PoolKind {
    /// There is none.
    Off,
    /// So many.
    Pages(u64),
    /// The host's, or the hint of the release table.
    Release,
    /// The host's, or the hint of the debug table.
    Debug,
}

/// The release table's hint, in pages, for so many processors and bytes of RAM.
pub fn release_hint(vp_count: u64, mem_size: u64) -> u64 {
    ffi::bootplan_release_hint(vp_count, mem_size)
}

/// The debug table's hint, in pages.
pub fn debug_hint(vp_count: u64, mem_size: u64) -> u64 {
    ffi::bootplan_debug_hint(vp_count, mem_size)
}

/// The private pool's pages, if there is one; `mem_size` is the bytes of the chosen RAM. Only a guest
/// without isolation has a private pool: that is for the caller to see to.
pub fn pool_size(
    kind: PoolKind,
    host_pages: Option<u64>,
    vp_count: u64,
    mem_size: u64,
) -> Option<u64> {
    let (number, pages) = match kind {
        PoolKind::Off => (0, 0),
        PoolKind::Pages(pages) => (1, pages),
        PoolKind::Release => (2, 0),
        PoolKind::Debug => (3, 0),
    };
    let mut size = 0;
    let is_pool = ffi::bootplan_pool_size(
        number,
        pages,
        host_pages.is_some(),
        host_pages.unwrap_or(0),
        vp_count,
        mem_size,
        &mut size,
    );
    is_pool.then_some(size)
}
