//! Damage to what the builder and the pool read, each about one refusal, at its bound.

use super::calls::{least_longest, longest};
use super::layout::{add_pools, fill, free, used_pieces};
use super::plan::{Entry, PAGE, Plan, Span, TOP};
use super::select::runs;
use crate::random::Random;

pub const DAMAGES: [fn(&mut Random, &mut Plan, &[Entry]); 14] = [
    span,
    reserved_count,
    reserved_count,
    reserved_overlap,
    reserved_outside,
    pool_count,
    pool_overlap,
    pool_used,
    pieces,
    used_outside,
    pool_outside,
    pages,
    few_pages,
    no_fit,
];

/// 4: a span that is empty, turned round, or not of whole pages.
fn span(random: &mut Random, plan: &mut Plan, _: &[Entry]) {
    let mut spans = plan.spans();
    let place = random.below(spans.len() as u64) as usize;
    let Span { start, end } = &mut *spans[place];
    match random.below(5) {
        0 => *end = *start,
        1 => std::mem::swap(start, end),
        2 => *end -= random.between(1, PAGE - 1),
        3 => *start += random.between(1, PAGE - 1),
        _ => *start = *end,
    }
}

/// 17: 19 to 21 reserved ranges.
fn reserved_count(random: &mut Random, plan: &mut Plan, _: &[Entry]) {
    let single: Vec<usize> = (0..4).filter(|_| random.one_in(2)).collect();
    let count = random.near(20) - 2 - single.len() as u64;
    fill(random, plan, count, &single);
    while (plan.reserved().len() as u64) < count + 1 {
        plan.config.push(plan.used);
    }
}

/// 18: a reserved range on the first or last page of another, or touching it.
fn reserved_overlap(random: &mut Random, plan: &mut Plan, _: &[Entry]) {
    let other = random.pick(&plan.reserved());
    let start = random.pick(&[other.start, other.end - PAGE, other.end.min(TOP - PAGE)]);
    plan.config.push(Span::pages_from(start, 1));
    if plan.reserved().len() > 19 {
        plan.single = [None; 4];
    }
}

/// 19: the used range ends a page inside a reserved one, or just with it.
fn reserved_outside(random: &mut Random, plan: &mut Plan, _: &[Entry]) {
    let reserved = plan.reserved();
    let (first, last) = (plan.used.start + PAGE, plan.used.end - PAGE);
    let page = PAGE * random.below(2);
    let start = reserved.iter().map(|s| s.start).min().unwrap() + page;
    let end = reserved.iter().map(|s| s.end).max().unwrap() - page;
    match random.below(2) {
        0 => plan.used.start = start.min(last),
        _ => plan.used.end = end.max(first),
    }
}

/// 20: 63 to 65 pool ranges.
fn pool_count(random: &mut Random, plan: &mut Plan, ram: &[Entry]) {
    let Some(entry) = free(plan, ram).into_iter().max_by_key(|e| e.span.pages()) else {
        return;
    };
    let count = random.near(64);
    if entry.span.pages() >= count {
        fill(random, plan, 1, &[]);
        plan.gpool = random.cut(entry.span, count);
        random.shuffle(&mut plan.gpool);
    }
}

/// 20: a pool range on a page of another, or beside it.
fn pool_overlap(random: &mut Random, plan: &mut Plan, ram: &[Entry]) {
    if plan.gpool.is_empty() {
        add_pools(random, plan, ram, 1);
    }
    if let Some(other) = plan.gpool.first() {
        let start = random.pick(&[other.start, other.end - PAGE, other.end.min(TOP - PAGE)]);
        plan.gpool.push(Span::pages_from(start, 1));
    }
}

/// 20: a pool range on a page of the used range, or beside it.
fn pool_used(random: &mut Random, plan: &mut Plan, _: &[Entry]) {
    let Span { start, end } = plan.used;
    let below = start.saturating_sub(PAGE);
    let page = random.pick(&[start, end - PAGE, end.min(TOP - PAGE), below]);
    plan.gpool = vec![Span::pages_from(page, 1)];
}

/// 20: 83 to 85 used pieces.
fn pieces(random: &mut Random, plan: &mut Plan, ram: &[Entry]) {
    fill(random, plan, 14, &[0, 1, 2, 3]);
    let Some(entry) = free(plan, ram).into_iter().max_by_key(|e| e.span.pages()) else {
        return;
    };
    let count = random.near(84) - used_pieces(plan);
    if entry.span.pages() >= count && count <= 64 {
        plan.gpool = random.cut(entry.span, count);
    }
}

/// 21: the used range ends a page past the RAM, or with it.
fn used_outside(random: &mut Random, plan: &mut Plan, ram: &[Entry]) {
    let Some(run) = runs(ram).into_iter().find(|r| r.contains(plan.used)) else {
        return;
    };
    plan.gpool.clear();
    let page = PAGE * random.below(2);
    match random.below(2) {
        0 => plan.used.start = run.start.saturating_sub(page),
        _ => plan.used.end = run.end.min(TOP - PAGE) + page,
    }
}

/// 21: a pool range at an end of the RAM, inside or just outside.
fn pool_outside(random: &mut Random, plan: &mut Plan, ram: &[Entry]) {
    let run = random.pick(&runs(ram));
    let page = random.pick(&[run.start.saturating_sub(PAGE), run.end.min(TOP - PAGE)]);
    let page = random.pick(&[page, run.end - PAGE]);
    plan.gpool = vec![Span::pages_from(
        page,
        random.between(1, 2).min((TOP - page) / PAGE),
    )];
}

fn set_pages(random: &mut Random, plan: &mut Plan, pages: u64) {
    plan.isolation = "none";
    plan.pool.kind = random.pick(&["pages", "pages", "release", "debug"]);
    match plan.pool.kind {
        "pages" => plan.pool.pages = Some(pages),
        _ => (plan.pool.pages, plan.pool.host) = (None, Some(pages)),
    }
}

/// 27: about 2^52 pages, or more than any memory has.
fn pages(random: &mut Random, plan: &mut Plan, _: &[Entry]) {
    let near = random.near(1 << 52);
    let pages = random.pick(&[near, near, near, u64::MAX]);
    set_pages(random, plan, pages);
}

/// 28: about as many pages as nodes, or none.
fn few_pages(random: &mut Random, plan: &mut Plan, ram: &[Entry]) {
    let (_, nodes) = least_longest(&[], ram);
    let pages = random.pick(&[0, nodes - 1, nodes - 1, nodes]);
    set_pages(random, plan, pages);
    plan.pool.split = pages > 0 || random.one_in(2);
}

/// 29: what the nodes can give, or a page more; and the same for a whole pool.
fn no_fit(random: &mut Random, plan: &mut Plan, ram: &[Entry]) {
    let free = free(plan, ram);
    let (least, nodes) = least_longest(&free, ram);
    let whole = longest(&free, 0);
    let pages = random.pick(&[nodes * least, nodes * (least + 1), whole, whole + 1]);
    set_pages(random, plan, pages.max(1));
    plan.pool.split = random.one_in(2);
}
