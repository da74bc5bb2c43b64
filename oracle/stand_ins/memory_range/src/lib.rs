//! Stands in for `memory_range`, which is not at hand: written from document 01 and from how the
//! original calls it. What neither of them settles stops with a panic that says so: a list that is not
//! ascending and disjoint, an alignment that is no power of two, a split past the end.

use core::fmt;
use core::ops::Range;

const PAGE_SIZE: u64 = 4096;

/// A range of whole pages, its end excluded.
#[derive(Clone, Copy, PartialEq, Eq, PartialOrd, Ord)]
pub struct MemoryRange {
    start: u64,
    end: u64,
}

/// The ends are in the wrong order, or not both page multiples.
#[derive(Clone, Copy, Debug, PartialEq, Eq)]
pub struct InvalidRange;

impl MemoryRange {
    pub const EMPTY: Self = Self { start: 0, end: 0 };

    #[inline]
    #[track_caller]
    pub fn new(range: Range<u64>) -> Self {
        match Self::try_new(range.clone()) {
            Ok(range) => range,
            Err(_) => panic!("memory_range: invalid range {range:#x?}"),
        }
    }

    /// A range without bytes is taken.
    #[inline]
    pub fn try_new(range: Range<u64>) -> Result<Self, InvalidRange> {
        if (range.start | range.end) % PAGE_SIZE != 0 || range.start > range.end {
            return Err(InvalidRange);
        }
        Ok(Self {
            start: range.start,
            end: range.end,
        })
    }

    #[inline]
    pub const fn start(&self) -> u64 {
        self.start
    }

    #[inline]
    pub const fn end(&self) -> u64 {
        self.end
    }

    #[inline]
    pub const fn len(&self) -> u64 {
        self.end - self.start
    }

    #[inline]
    pub const fn is_empty(&self) -> bool {
        self.start == self.end
    }

    #[inline]
    pub const fn start_4k_gpn(&self) -> u64 {
        self.start / PAGE_SIZE
    }

    #[inline]
    pub const fn contains(&self, other: &Self) -> bool {
        self.start <= other.start && other.end <= self.end
    }

    #[inline]
    pub const fn overlaps(&self, other: &Self) -> bool {
        self.start < other.end && other.start < self.end
    }

    #[inline]
    #[track_caller]
    pub fn split_at_offset(&self, offset: u64) -> (Self, Self) {
        assert!(
            offset <= self.len(),
            "memory_range: split of {self:#x?} at {offset:#x}, past its end"
        );
        let middle = self.start + offset;
        (Self::new(self.start..middle), Self::new(middle..self.end))
    }

    /// The largest range inside with both ends multiples of the alignment, or `EMPTY`. A start that
    /// would be raised past 2^64 leaves nothing.
    #[inline]
    #[track_caller]
    pub fn aligned_subrange(&self, alignment: u64) -> Self {
        assert!(
            alignment.is_power_of_two(),
            "memory_range: alignment {alignment:#x} is no power of two"
        );
        let below = alignment - 1;
        let start = self.start.wrapping_add(below) & !below;
        let end = self.end & !below;
        if start < self.start || start >= end {
            return Self::EMPTY;
        }
        Self { start, end }
    }
}

impl fmt::Debug for MemoryRange {
    fn fmt(&self, f: &mut fmt::Formatter<'_>) -> fmt::Result {
        fmt::Debug::fmt(&(self.start..self.end), f)
    }
}

/// Which of the two lists hold a piece, with the values of the items that do.
#[derive(Clone, Copy, Debug, PartialEq, Eq)]
pub enum RangeWalkResult<T, U> {
    Neither,
    Left(T),
    Right(U),
    Both(T, U),
}

/// One list of a walk: its current item ends above the walk's position.
struct Side<I, T> {
    items: I,
    item: Option<(MemoryRange, T)>,
    past: u64,
}

impl<T: Clone, I: Iterator<Item = (MemoryRange, T)>> Side<I, T> {
    #[inline]
    fn new(items: I) -> Self {
        let mut side = Side {
            items,
            item: None,
            past: 0,
        };
        side.fetch();
        side
    }

    /// Goes on to the next item; those without bytes are passed over.
    #[inline]
    fn fetch(&mut self) {
        self.item = self.items.by_ref().find(|(range, _)| !range.is_empty());
        if let Some((range, _)) = &self.item {
            assert!(
                self.past <= range.start,
                "memory_range: list not ascending and disjoint at {range:#x?}"
            );
            self.past = range.end;
        }
    }

    #[inline]
    fn start(&self) -> u64 {
        self.item
            .as_ref()
            .map_or(u64::MAX, |(range, _)| range.start)
    }

    /// The current item's first end above a position; no range ends at `u64::MAX`.
    #[inline]
    fn next_end(&self, at: u64) -> u64 {
        match &self.item {
            None => u64::MAX,
            Some((range, _)) if range.start > at => range.start,
            Some((range, _)) => range.end,
        }
    }

    #[inline]
    fn value(&self, at: u64) -> Option<T> {
        match &self.item {
            Some((range, value)) if range.start <= at => Some(value.clone()),
            _ => None,
        }
    }

    #[inline]
    fn pass(&mut self, at: u64) {
        if matches!(&self.item, Some((range, _)) if range.end <= at) {
            self.fetch();
        }
    }
}

struct Walk<I, J, T, U> {
    left: Side<I, T>,
    right: Side<J, U>,
    at: u64,
}

impl<T: Clone, U: Clone, I, J> Iterator for Walk<I, J, T, U>
where
    I: Iterator<Item = (MemoryRange, T)>,
    J: Iterator<Item = (MemoryRange, U)>,
{
    type Item = (MemoryRange, RangeWalkResult<T, U>);

    #[inline]
    fn next(&mut self) -> Option<Self::Item> {
        let start = self.at;
        self.left.pass(start);
        self.right.pass(start);
        let end = self.left.next_end(start).min(self.right.next_end(start));
        if end == u64::MAX {
            return None;
        }
        let result = match (self.left.value(start), self.right.value(start)) {
            (None, None) => RangeWalkResult::Neither,
            (Some(left), None) => RangeWalkResult::Left(left),
            (None, Some(right)) => RangeWalkResult::Right(right),
            (Some(left), Some(right)) => RangeWalkResult::Both(left, right),
        };
        self.at = end;
        Some((MemoryRange { start, end }, result))
    }
}

/// The pieces of two ascending lists of disjoint ranges, cut at every end of either.
#[inline]
pub fn walk_ranges<T: Clone, U: Clone>(
    left: impl IntoIterator<Item = (MemoryRange, T)>,
    right: impl IntoIterator<Item = (MemoryRange, U)>,
) -> impl Iterator<Item = (MemoryRange, RangeWalkResult<T, U>)> {
    let left = Side::new(left.into_iter());
    let right = Side::new(right.into_iter());
    let at = left.start().min(right.start());
    Walk { left, right, at }
}

/// What the ranges on the right leave of those on the left.
#[inline]
pub fn subtract_ranges(
    left: impl IntoIterator<Item = MemoryRange>,
    right: impl IntoIterator<Item = MemoryRange>,
) -> impl Iterator<Item = MemoryRange> {
    walk_ranges(
        left.into_iter().map(|range| (range, ())),
        right.into_iter().map(|range| (range, ())),
    )
    .filter_map(|(range, result)| matches!(result, RangeWalkResult::Left(())).then_some(range))
}

/// Joins ranges that touch and have equal values.
#[inline]
pub fn merge_adjacent_ranges<T: PartialEq>(
    ranges: impl IntoIterator<Item = (MemoryRange, T)>,
) -> impl Iterator<Item = (MemoryRange, T)> {
    let mut items = ranges.into_iter().peekable();
    core::iter::from_fn(move || {
        let (mut joined, value) = items.next()?;
        while let Some((next, _)) =
            items.next_if(|(next, other)| next.start == joined.end && *other == value)
        {
            joined.end = next.end;
        }
        Some((joined, value))
    })
}
