//! Stands in for `sidecar_defs`. The true number is not known; this one makes the original's own bound
//! on the entries of a table 256, which is document 01's.

pub const MAX_NODES: usize = 58;
