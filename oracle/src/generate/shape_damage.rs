//! Damage to what selection reads, each about one refusal: just within its bound, at it, or beyond.

use super::map::{add_import, size_of};
use super::plan::{PAGE, Plan, STEP, Span, TOP};
use super::select::shares;
use crate::random::Random;

pub const DAMAGES: [fn(&mut Random, &mut Plan); 9] = [
    order,
    nodes,
    small_size,
    share,
    isolated_end,
    file,
    cutting_import,
    stray_import,
    need,
];

/// 5: two neighbours change places, or one reaches into the next.
fn order(random: &mut Random, plan: &mut Plan) {
    if plan.imports.len() > 1 && random.one_in(2) {
        let i = random.below(plan.imports.len() as u64 - 1) as usize;
        match random.below(2) {
            0 => plan.imports.swap(i, i + 1),
            _ => plan.imports[i].end = plan.imports[i + 1].start + PAGE * random.below(2),
        }
    } else if plan.map.len() > 1 {
        let i = random.below(plan.map.len() as u64 - 1) as usize;
        match random.below(3) {
            0 => plan.map.swap(i, i + 1),
            _ => plan.map[i].span.end = plan.map[i + 1].span.start + PAGE * random.below(2),
        }
    }
}

/// 7: a node that is not below their count, or one left out.
fn nodes(random: &mut Random, plan: &mut Plan) {
    plan.host = false;
    let count = plan.nodes();
    let node = random.pick(&[count, count + 1, 64, 0xffff_ffff]) as u32;
    if let Some(entry) = plan.map.last_mut() {
        entry.node = node;
    }
}

/// 8: the RAM size beside the file's.
fn small_size(random: &mut Random, plan: &mut Plan) {
    plan.size = Some(random.near(plan.file.bytes()));
}

/// 9: a share near the top, of one node or more.
fn share(random: &mut Random, plan: &mut Plan) {
    plan.host = false;
    if random.one_in(2) {
        plan.map.iter_mut().for_each(|e| e.node = 0);
    }
    let bound = random.pick(&[TOP, TOP - 7 * PAGE, u64::MAX - 1]);
    plan.size = Some(random.near(bound));
}

/// 9: the end of an isolated range, as long as the protectable entries, near the top.
fn isolated_end(random: &mut Random, plan: &mut Plan) {
    plan.host = true;
    plan.isolation = random.pick(&["snp", "tdx", "cca"]);
    let own = plan.map.iter().filter(|e| e.protectable);
    let pages = own.map(|e| e.span.pages()).sum::<u64>();
    let pages = random.near(pages.max(2));
    let file = random.pick(&[1, pages, pages / 2 + 1]);
    let start = TOP - PAGE * pages;
    if file <= pages {
        plan.file = Span::pages_from(start, file);
    }
}

/// 10: the file reaches past the map, or the map has a hole in it.
fn file(random: &mut Random, plan: &mut Plan) {
    plan.host = false;
    let hole = plan.map.iter().position(|e| e.span.overlaps(plan.file));
    match (hole, random.below(3)) {
        (Some(i), 0) => drop(plan.map.remove(i)),
        (Some(i), 1) => plan.file.start = plan.map[i].span.start.saturating_sub(PAGE),
        (Some(i), _) => plan.file.end = plan.map[i].span.end.min(TOP - PAGE) + PAGE,
        _ => {}
    }
    if plan.file.start >= plan.file.end {
        plan.file.start = plan.file.end - PAGE;
    }
}

/// 11: an import over an end of the file, over all of it, or just beside it.
fn cutting_import(random: &mut Random, plan: &mut Plan) {
    let Span { start, end } = plan.file;
    let (below, above) = (start.saturating_sub(PAGE), end.min(TOP - PAGE) + PAGE);
    let inner = start + PAGE * random.below(plan.file.pages());
    let span = match random.below(5) {
        0 => Span {
            start: below,
            end: inner + PAGE,
        },
        1 => Span {
            start: inner,
            end: above,
        },
        2 => Span {
            start: below,
            end: above,
        },
        3 => Span {
            start: below,
            end: start,
        },
        _ => Span {
            start: end,
            end: above,
        },
    };
    plan.imports.retain(|i| !i.overlaps(span));
    let place = plan.imports.partition_point(|i| i.start < span.start);
    if span.start < span.end {
        plan.imports.insert(place, span);
    }
}

/// 12: an import above or below an entry, or the page that only tdx may have, or more than it.
fn stray_import(random: &mut Random, plan: &mut Plan) {
    let Some(entry) = plan.map.first().map(|_| random.pick(&plan.map)) else {
        return;
    };
    let Span { start, end } = entry.span;
    let page = (1 << 32) - PAGE;
    let pages = random.between(1, 2);
    if random.one_in(2) {
        plan.isolation = "tdx";
    }
    let span = match random.below(4) {
        0 => Span {
            start: end - PAGE,
            end: end.min(TOP - PAGE) + PAGE,
        },
        1 => Span {
            start: start.saturating_sub(PAGE),
            end: start + PAGE,
        },
        2 => Span::pages_from(page, pages),
        _ => Span {
            start: page + PAGE - PAGE * pages,
            end: page + PAGE,
        },
    };
    add_import(plan, span);
}

/// 13: as much as every node can give, or one step more.
fn need(random: &mut Random, plan: &mut Plan) {
    plan.host = false;
    let (least, most) = shares(plan);
    let share = most + STEP * random.below(2);
    if least <= share && share < 1 << 56 {
        plan.size = Some(size_of(random, plan, share));
    }
}
