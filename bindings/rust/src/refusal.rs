//! Refusals.

use core::fmt;

/// Why something is not done: the number of a refusal, 1 to 29, or one of the three named here. Its
/// `Display` says it in words.
#[derive(Clone, Copy, Debug, PartialEq, Eq)]
pub struct Refusal(pub u8);

const TEXTS: [&str; 30] = [
    "done",
    "a line is not of its form",
    "a line is missing, stands twice or is out of order",
    "the text has more than 65,536 bytes",
    "a range ends at or below its start, or is not of whole pages",
    "the map, the imported ranges or the RAM overlap or are not in order",
    "too many entries or imported ranges, or no map in boot mode",
    "more than 64 nodes, or nodes that are not 0, 1, 2 and so on",
    "the RAM size is below the file's length",
    "a node's share, or an isolated guest's range, does not fit in 64 bits",
    "a part of the file lies in no entry of the map",
    "an imported range reaches into the file from outside",
    "a part of an imported range lies in no entry of the map",
    "a node has too little free memory for its share",
    "too many ranges of RAM, or memory is cut into too many free pieces",
    "the RAM has more than 64 ranges",
    "the table is not empty",
    "more than 20 reserved ranges",
    "two reserved ranges overlap",
    "a reserved range is not inside the used range",
    "too many pool ranges or used pieces, or a pool range overlaps another or the used range",
    "the used range or a pool range is not inside the RAM",
    "the length is 0",
    "the length is above 2^64 - 4,096",
    "the alignment is no power of two",
    "no free range is long enough, on that node, with that alignment",
    "the table would have more than 256 entries",
    "the pool has 2^52 pages or more",
    "the pool is split, and has too few pages or no node",
    "the pool is split, and a node has no free range for its piece",
];

impl Refusal {
    /// A lent buffer is too short.
    pub const NO_ROOM: Refusal = Refusal(253);
    /// A number or a length stands for nothing.
    pub const BAD_NUMBER: Refusal = Refusal(254);
    /// The words of a table stand for none.
    pub const BAD_TABLE: Refusal = Refusal(255);

    /// An answer of the library.
    pub(crate) fn unless_done(code: u8) -> Result<(), Refusal> {
        match code {
            0 => Ok(()),
            number => Err(Refusal(number)),
        }
    }
}

impl fmt::Display for Refusal {
    fn fmt(&self, f: &mut fmt::Formatter<'_>) -> fmt::Result {
        f.pad(match *self {
            Refusal::NO_ROOM => "a lent buffer is too short",
            Refusal::BAD_NUMBER => "a number or a length stands for nothing",
            Refusal::BAD_TABLE => "the words of a table stand for none",
            Refusal(number) => TEXTS.get(usize::from(number)).copied().unwrap_or(""),
        })
    }
}

impl core::error::Error for Refusal {}
