//! Ranges of addresses, with a node or a type.

use core::fmt;

/// A range of addresses, the end excluded.
#[repr(C)]
#[derive(Clone, Copy, Debug, Default, PartialEq, Eq)]
pub struct Range {
    /// The first address.
    pub start: u64,
    /// The address behind the last.
    pub end: u64,
}

impl Range {
    /// From a start to an end.
    pub const fn new(start: u64, end: u64) -> Range {
        Range { start, end }
    }
}

/// A range of one node: of the RAM, of the private pool, or handed out.
#[repr(C)]
#[derive(Clone, Copy, Debug, Default, PartialEq, Eq)]
pub struct NodeRange {
    /// The range.
    pub range: Range,
    /// Its node, below 2^32.
    pub node: u64,
}

/// A range of the RAM with what it is for.
#[repr(C)]
#[derive(Clone, Copy, Debug, Default, PartialEq, Eq)]
pub struct TypedRange {
    /// The range.
    pub range: Range,
    /// What it is for.
    pub range_type: RangeType,
}

const _: () = assert!(size_of::<Range>() == 2 * size_of::<u64>());
const _: () = assert!(size_of::<NodeRange>() == 3 * size_of::<u64>());
const _: () = assert!(size_of::<TypedRange>() == 3 * size_of::<u64>());

/// What a range that is reported is for. Its `Display` is the word in the plan's output.
#[repr(transparent)]
#[derive(Clone, Copy, Debug, Default, PartialEq, Eq)]
pub struct RangeType(u64);

#[allow(missing_docs)]
impl RangeType {
    pub const RAM: RangeType = RangeType(0);
    pub const CONFIG: RangeType = RangeType(1);
    pub const RESERVED: RangeType = RangeType(2);
    pub const SIDECAR_IMAGE: RangeType = RangeType(3);
    pub const SIDECAR_NODE: RangeType = RangeType(4);
    pub const POOL: RangeType = RangeType(5);
    pub const TDX_TABLES: RangeType = RangeType(6);
    pub const LOG: RangeType = RangeType(7);
    pub const STATE_HEADER: RangeType = RangeType(8);
    pub const STATE_PAYLOAD: RangeType = RangeType(9);
}

impl fmt::Display for RangeType {
    fn fmt(&self, f: &mut fmt::Formatter<'_>) -> fmt::Result {
        f.pad(match *self {
            RangeType::RAM => "ram",
            RangeType::CONFIG => "config",
            RangeType::RESERVED => "reserved",
            RangeType::SIDECAR_IMAGE => "sidecar-image",
            RangeType::SIDECAR_NODE => "sidecar-node",
            RangeType::POOL => "pool",
            RangeType::TDX_TABLES => "tdx-tables",
            RangeType::LOG => "log",
            RangeType::STATE_HEADER => "state-header",
            RangeType::STATE_PAYLOAD => "state-payload",
            _ => "",
        })
    }
}
