//! The table of what each byte of the RAM is for.

use crate::{ffi, words, Answer, NodeRange, Range, Refusal, Request, TypedRange};

/// The pieces that [`Table::place_pool`] asks room for.
pub const PIECE_ROOM: usize = 256;

/// The ranges that [`Table::vtl2_ranges`] asks room for.
pub const RANGE_ROOM: usize = 256;

/// The words of a table.
pub const TABLE_WORDS: usize = 2 + 4 * TABLE_ENTRIES;

const TABLE_ENTRIES: usize = 256;

/// What an entry of the table is for.
#[repr(transparent)]
#[derive(Clone, Copy, Debug, Default, PartialEq, Eq)]
pub struct Usage(u64);

#[allow(missing_docs)]
impl Usage {
    pub const FREE: Usage = Usage(0);
    pub const USED: Usage = Usage(1);
    pub const CONFIG: Usage = Usage(2);
    pub const RESERVED: Usage = Usage(3);
    pub const SIDECAR_IMAGE: Usage = Usage(4);
    pub const SIDECAR_NODE: Usage = Usage(5);
    pub const POOL: Usage = Usage(6);
    pub const TDX_TABLES: Usage = Usage(7);
    pub const LOG: Usage = Usage(8);
    pub const STATE_HEADER: Usage = Usage(9);
    pub const STATE_PAYLOAD: Usage = Usage(10);
}

impl Usage {
    /// Its number, as the words of a table have it.
    pub const fn number(self) -> u64 {
        self.0
    }
}

/// An entry of the table.
#[repr(C)]
#[derive(Clone, Copy, Debug, Default, PartialEq, Eq)]
pub struct TableEntry {
    /// Its range.
    pub range: Range,
    /// Its node.
    pub node: u64,
    /// What it is for.
    pub usage: Usage,
}

/// What a build is given.
#[derive(Clone, Copy, Debug, Default)]
pub struct Build<'a> {
    /// The RAM, as [`select_ram`](crate::select_ram) gives it.
    pub ram: &'a [NodeRange],
    /// What the boot shim uses.
    pub used: Range,
    /// The persisted state.
    pub state: Range,
    /// The reserved range.
    pub reserved: Option<Range>,
    /// The sidecar image.
    pub sidecar_image: Option<Range>,
    /// The page tables.
    pub page_tables: Option<Range>,
    /// The log buffer.
    pub log_buffer: Option<Range>,
    /// Ranges of configuration.
    pub configs: &'a [Range],
    /// Pool ranges that are there already.
    pub pools: &'a [Range],
}

impl Build<'_> {
    /// The ranges that may be absent: 0 and 0 where they are.
    fn single_ranges(&self) -> [Range; 4] {
        [
            self.reserved,
            self.sidecar_image,
            self.page_tables,
            self.log_buffer,
        ]
        .map(|range| match range {
            None => Range::new(0, 0),
            // This one is given, and has to be refused: as is every range whose end is below its start.
            Some(Range { start: 0, end: 0 }) => Range::new(1, 0),
            Some(range) => range,
        })
    }
}

/// The table: what each byte of the RAM is for.
#[repr(C)]
#[derive(Clone, Debug, PartialEq, Eq)]
pub struct Table {
    count: u64,
    has_pool: u64,
    entries: [TableEntry; TABLE_ENTRIES],
}

const _: () = assert!(size_of::<Table>() == TABLE_WORDS * size_of::<u64>());

impl Default for Table {
    fn default() -> Table {
        Table::new()
    }
}

impl Table {
    /// The empty table, which a build asks for.
    pub const fn new() -> Table {
        const NONE: TableEntry = TableEntry {
            range: Range::new(0, 0),
            node: 0,
            usage: Usage::FREE,
        };
        Table {
            count: 0,
            has_pool: 0,
            entries: [NONE; TABLE_ENTRIES],
        }
    }

    /// The table of these words: their count, the flag, and start, end, node and usage of each entry.
    /// Words that stand for no table are refused by every call.
    pub fn from_words(words: &[u64; TABLE_WORDS]) -> Table {
        let mut table = Table::new();
        let (head, rows) = words.split_at(2);
        if let &[count, has_pool] = head {
            table.count = count;
            table.has_pool = has_pool;
        }
        for (entry, row) in table.entries.iter_mut().zip(rows.chunks_exact(4)) {
            if let &[start, end, node, usage] = row {
                let range = Range { start, end };
                let usage = Usage(usage);
                *entry = TableEntry { range, node, usage };
            }
        }
        table
    }

    fn as_ptr(&self) -> *const u64 {
        core::ptr::from_ref(self).cast()
    }

    fn as_mut_ptr(&mut self) -> *mut u64 {
        core::ptr::from_mut(self).cast()
    }

    /// The entries, in order.
    pub fn entries(&self) -> core::slice::Iter<'_, TableEntry> {
        let count = usize::try_from(self.count).unwrap_or(TABLE_ENTRIES);
        self.entries.get(..count).unwrap_or(&self.entries).iter()
    }

    /// Whether a pool has been placed, or handed out to a request.
    pub fn has_pool(&self) -> bool {
        self.has_pool != 0
    }

    /// Builds the table, which has to be empty.
    pub fn build(&mut self, by: &Build<'_>) -> Result<(), Refusal> {
        let reserved = by.single_ranges();
        // SAFETY: the slices and the table are good for their lengths in words, and the table, of
        // which every word may hold anything, overlaps no slice.
        let code = unsafe {
            ffi::bootplan_build(
                by.ram.as_ptr().cast(),
                words(by.ram),
                by.used.start,
                by.used.end,
                by.state.start,
                by.state.end,
                reserved.as_ptr().cast(),
                words(&reserved),
                by.configs.as_ptr().cast(),
                words(by.configs),
                by.pools.as_ptr().cast(),
                words(by.pools),
                self.as_mut_ptr(),
                TABLE_WORDS,
            )
        };
        Refusal::unless_done(code)
    }

    /// Hands out memory to one request.
    pub fn allocate(&mut self, request: Request) -> Result<NodeRange, Refusal> {
        let mut answer = [Answer::default()];
        self.allocate_all(&[request], &mut answer)?;
        let [answer] = answer;
        answer.result()
    }

    /// Answers each request on the table that the one before left. A request that is refused leaves the
    /// table as it met it, and says so in its answer. There must be as many answers as requests; those
    /// behind are kept.
    pub fn allocate_all(
        &mut self,
        requests: &[Request],
        answers: &mut [Answer],
    ) -> Result<(), Refusal> {
        // SAFETY: as for the build; every word of the answers may hold anything too.
        let code = unsafe {
            ffi::bootplan_request(
                self.as_mut_ptr(),
                TABLE_WORDS,
                requests.as_ptr().cast(),
                words(requests),
                answers.as_mut_ptr().cast(),
                words(answers),
            )
        };
        Refusal::unless_done(code)
    }

    /// Places so many pages of private pool, and writes the pieces at the start of `pieces`, which has
    /// room for [`PIECE_ROOM`].
    pub fn place_pool<'a>(
        &mut self,
        pages: u64,
        split: bool,
        pieces: &'a mut [NodeRange],
    ) -> Result<&'a [NodeRange], Refusal> {
        let mut count = 0;
        // SAFETY: as for the build; every word of the pieces may hold anything too.
        let code = unsafe {
            ffi::bootplan_place_pool(
                self.as_mut_ptr(),
                TABLE_WORDS,
                pages,
                split,
                pieces.as_mut_ptr().cast(),
                words(pieces),
                &mut count,
            )
        };
        Refusal::unless_done(code)?;
        pieces.get(..count).ok_or(Refusal::NO_ROOM)
    }

    /// What the RAM is for, joined where ranges of one type touch, at the start of `ranges`, which has
    /// room for [`RANGE_ROOM`].
    pub fn vtl2_ranges<'a>(
        &self,
        ranges: &'a mut [TypedRange],
    ) -> Result<&'a [TypedRange], Refusal> {
        let mut count = 0;
        // SAFETY: as for the build; every word of the ranges may hold anything too.
        let code = unsafe {
            ffi::bootplan_vtl2_ranges(
                self.as_ptr(),
                TABLE_WORDS,
                ranges.as_mut_ptr().cast(),
                words(ranges),
                &mut count,
            )
        };
        Refusal::unless_done(code)?;
        ranges.get(..count).ok_or(Refusal::NO_ROOM)
    }
}
