//! The boot memory planner, from its proved static library: the plan of a text, or step by step the
//! RAM, the table in it, the private pool and requests.
//!
//! Every number, list and table is answered or refused; nothing here panics, allocates or keeps
//! state. A refusal leaves every lent buffer and the table as found.
//!
//! ```
//! use bootplan::{plan, Refusal};
//!
//! let mut output = vec![0; bootplan::output_size(5)];
//! assert_eq!(plan(b"shape", &mut output), Err(Refusal(1)));
//! ```
#![no_std]
#![deny(unsafe_op_in_unsafe_fn)]
#![warn(missing_docs)]

pub mod ffi;
mod range;
mod refusal;
mod request;
mod selection;
mod sizing;
mod table;
mod text;

pub use range::{NodeRange, Range, RangeType, TypedRange};
pub use refusal::Refusal;
pub use request::{Answer, Policy, Request, RequestType};
pub use selection::{select_ram, Isolation, MapEntry, MapType, Mode, Selection, RAM_ROOM};
pub use sizing::{debug_hint, pool_size, release_hint, PoolKind};
pub use table::{Build, Table, TableEntry, Usage, PIECE_ROOM, RANGE_ROOM, TABLE_WORDS};
pub use text::{output_size, plan};

/// The words of 64 bits that items are laid out as. Each type that is passed so is `repr(C)` and holds
/// words alone, which its module asserts of its size.
fn words<T>(items: &[T]) -> usize {
    size_of_val(items) / size_of::<u64>()
}
