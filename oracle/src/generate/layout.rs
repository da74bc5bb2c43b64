//! Draws the used range, the reserved ranges in it, and the pool ranges, all inside the RAM.

use super::plan::{Entry, PAGE, Plan, Span};
use super::select::{runs, without};
use crate::random::Random;

pub fn draw(random: &mut Random, plan: &mut Plan, ram: &[Entry]) {
    plan.used = used(random, ram);
    reserve(random, plan);
    let wanted = match random.below(3) {
        0 => random.few(64),
        _ => 0,
    };
    add_pools(random, plan, ram, wanted);
}

/// Mostly a few pages, so that RAM stays free; at times over all that touches.
fn used(random: &mut Random, ram: &[Entry]) -> Span {
    let run = random.pick(&runs(ram));
    let seams = ram.iter().map(|e| e.span.end);
    let seams: Vec<u64> = seams.filter(|e| run.start < *e && *e < run.end).collect();
    if !seams.is_empty() && random.one_in(2) {
        let seam = random.pick(&seams);
        let start = seam - PAGE * random.between(1, (seam - run.start) / PAGE).min(30);
        let end = seam + PAGE * random.between(1, (run.end - seam) / PAGE).min(30);
        return Span { start, end };
    }
    let part = random.part(run);
    if part == run && random.one_in(2) {
        let half = Span::pages_from(run.start, run.pages().div_ceil(2));
        return random.part(half);
    }
    let pages = part.pages().min(random.between(1, 80));
    match random.below(4) {
        0 => part,
        1 => Span::pages_from(part.end - pages * PAGE, pages),
        _ => Span::pages_from(part.start, pages),
    }
}

/// The reserved ranges: the state, up to 16 config, and each of the four single ones or not.
fn reserve(random: &mut Random, plan: &mut Plan) {
    let single: Vec<usize> = (0..4).filter(|_| random.one_in(2)).collect();
    let config = random.few(16).min(18 - single.len() as u64);
    fill(random, plan, config, &single);
}

/// Parts of the used range for that many config lines and for the single ranges named; fewer where
/// its pages do not suffice.
pub fn fill(random: &mut Random, plan: &mut Plan, config: u64, single: &[usize]) {
    let pages = plan.used.pages();
    let config = config.min(pages - 1);
    let single = &single[..single.len().min((pages - 1 - config) as usize)];
    let mut spans = random.cut(plan.used, 1 + config + single.len() as u64);
    random.shuffle(&mut spans);
    let mut spans = spans.into_iter().map(|span| match random.below(3) {
        0 => span,
        1 => Span::pages_from(span.start, 1),
        _ => random.part(span),
    });
    plan.state = spans.next().unwrap();
    plan.single = [None; 4];
    for i in single {
        plan.single[*i] = spans.next();
    }
    plan.config = spans.collect();
}

/// The pieces that the reserved ranges cut the used range into.
pub fn used_pieces(plan: &Plan) -> u64 {
    let mut reserved = plan.reserved();
    reserved.sort_by_key(|s| s.start);
    let mut pieces = reserved.len() as u64 + u64::from(plan.state.pages() > 1);
    let mut at = plan.used.start;
    for span in reserved {
        pieces += u64::from(at < span.start);
        at = span.end;
    }
    pieces + u64::from(at < plan.used.end)
}

/// The RAM outside the used range and the pool ranges.
pub fn free(plan: &Plan, ram: &[Entry]) -> Vec<Entry> {
    let mut taken = plan.gpool.clone();
    taken.push(plan.used);
    taken.sort_by_key(|s| s.start);
    without(ram, &taken)
}

pub fn add_pools(random: &mut Random, plan: &mut Plan, ram: &[Entry], wanted: u64) {
    let runs = runs(&without(ram, &[plan.used]));
    let room = 84 - used_pieces(plan).min(84);
    for _ in 0..2 * wanted {
        if runs.is_empty() || plan.gpool.len() as u64 >= wanted.min(room) {
            break;
        }
        let run = random.pick(&runs);
        let span = random.part(run);
        let span = match random.below(4) {
            0 => span,
            _ => Span::pages_from(span.start, span.pages().min(random.between(1, 9))),
        };
        if !plan.gpool.iter().any(|s| s.overlaps(span)) {
            plan.gpool.push(span);
        }
    }
}
