//! Draws of small things.

use super::plan::{PAGE, Span};
use crate::random::Random;
use std::collections::BTreeSet;

impl Random {
    pub fn one_in(&mut self, n: u64) -> bool {
        self.below(n) == 0
    }

    /// Both ends can come out.
    pub fn between(&mut self, low: u64, high: u64) -> u64 {
        match (high - low).checked_add(1) {
            Some(n) => low + self.below(n),
            None => self.next(),
        }
    }

    pub fn pick<T: Copy>(&mut self, items: &[T]) -> T {
        items[self.below(items.len() as u64) as usize]
    }

    pub fn shuffle<T>(&mut self, items: &mut [T]) {
        for i in (1..items.len()).rev() {
            items.swap(i, self.below(i as u64 + 1) as usize);
        }
    }

    /// One below, at, or one above; `n` is neither 0 nor the greatest number.
    pub fn near(&mut self, n: u64) -> u64 {
        self.between(n - 1, n + 1)
    }

    /// A number of the size that a random number of bits gives.
    pub fn bits(&mut self, most: u64) -> u64 {
        let bits = self.between(1, most);
        self.next() >> (64 - bits)
    }

    /// A count that is mostly small; now and then it reaches `most`.
    pub fn few(&mut self, most: u64) -> u64 {
        let bound = match self.below(20) {
            0..=11 => 3,
            12..=17 => 10,
            18 => 40,
            _ => most,
        };
        self.between(0, bound.min(most))
    }

    /// A part of the span: the whole, its bottom, its top, its middle, or one page.
    pub fn part(&mut self, whole: Span) -> Span {
        let pages = whole.pages();
        let some = self.between(1, pages);
        let few = self.between(1, pages.min(12));
        let length = self.pick(&[pages, some, some, few, few, 1]);
        let first = match self.below(3) {
            0 => 0,
            1 => pages - length,
            _ => self.between(0, pages - length),
        };
        Span::pages_from(whole.start + first * PAGE, length)
    }

    /// Cuts the span into that many touching spans; it has at least as many pages.
    pub fn cut(&mut self, whole: Span, count: u64) -> Vec<Span> {
        let mut cuts = BTreeSet::new();
        while (cuts.len() as u64) < count - 1 {
            cuts.insert(whole.start + self.between(1, whole.pages() - 1) * PAGE);
        }
        cuts.insert(whole.end);
        let mut start = whole.start;
        let mut spans = Vec::new();
        for end in cuts {
            spans.push(Span { start, end });
            start = end;
        }
        spans
    }
}
