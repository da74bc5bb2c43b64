//! Requests made of a table, and their answers.

use crate::{NodeRange, Refusal};

/// The word for any node, and for no alignment.
const NONE: u64 = u64::MAX;

/// What a request is for.
#[derive(Clone, Copy, Debug, PartialEq, Eq)]
#[repr(u64)]
pub enum RequestType {
    /// The private pool.
    Pool = 0,
    /// A sidecar node.
    SidecarNode = 1,
    /// TDX page tables.
    TdxTables = 2,
}

/// From which end a request is met.
#[derive(Clone, Copy, Debug, PartialEq, Eq)]
#[repr(u64)]
pub enum Policy {
    /// The bottom of the first range that fits.
    Low = 0,
    /// The top of the last.
    High = 1,
}

/// A request for memory.
#[repr(C)]
#[derive(Clone, Copy, Debug, PartialEq, Eq)]
pub struct Request {
    node: u64,
    length: u64,
    request_type: RequestType,
    policy: Policy,
    alignment: u64,
}

const _: () = assert!(size_of::<Request>() == 5 * size_of::<u64>());

impl Request {
    /// So many bytes of any node, without an alignment.
    pub const fn new(length: u64, request_type: RequestType, policy: Policy) -> Request {
        Request {
            node: NONE,
            length,
            request_type,
            policy,
            alignment: NONE,
        }
    }

    /// The same of one node.
    pub const fn on_node(self, node: u32) -> Request {
        Request {
            node: node as u64,
            ..self
        }
    }

    /// The same with an alignment. One that is no power of two is refused (24).
    pub const fn aligned(self, alignment: u64) -> Request {
        // The word for none is no power of two either, and 0 is refused as it would be.
        let alignment = if alignment == NONE { 0 } else { alignment };
        Request { alignment, ..self }
    }
}

/// The answer to a request.
#[repr(C)]
#[derive(Clone, Copy, Debug, Default, PartialEq, Eq)]
pub struct Answer {
    number: u64,
    handed: NodeRange,
}

const _: () = assert!(size_of::<Answer>() == 4 * size_of::<u64>());

impl Answer {
    /// The range that is handed out, or why there is none.
    pub fn result(self) -> Result<NodeRange, Refusal> {
        match u8::try_from(self.number) {
            Ok(0) => Ok(self.handed),
            Ok(number) => Err(Refusal(number)),
            Err(_) => Err(Refusal::BAD_NUMBER),
        }
    }
}
