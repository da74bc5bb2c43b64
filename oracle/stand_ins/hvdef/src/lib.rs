//! Stands in for `hvdef`: the one constant that the original uses.

/// Bytes in a page.
pub const HV_PAGE_SIZE: u64 = 4096;
