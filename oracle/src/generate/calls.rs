//! Draws the pool record and the requests.

use super::plan::{Entry, Get, PAGE, Plan, Pool};
use crate::ROWS;
use crate::random::Random;

fn nodes_of(ram: &[Entry]) -> Vec<u32> {
    let mut nodes: Vec<u32> = ram.iter().map(|e| e.node).collect();
    nodes.sort_unstable();
    nodes.dedup();
    nodes
}

/// Pages of the longest free entry of that node.
pub fn longest(free: &[Entry], node: u32) -> u64 {
    let own = free.iter().filter(|e| e.node == node);
    own.map(|e| e.span.pages()).max().unwrap_or(0)
}

/// Pages that each node can give, and the number of nodes.
pub fn least_longest(free: &[Entry], ram: &[Entry]) -> (u64, u64) {
    let nodes = nodes_of(ram);
    let least = nodes.iter().map(|n| longest(free, *n)).min();
    (least.unwrap_or(0), nodes.len() as u64)
}

pub fn any_pool(random: &mut Random) -> Pool {
    let kind = random.pick(&[
        "off", "pages", "pages", "pages", "release", "release", "release", "debug", "debug",
    ]);
    let row = random.pick(&ROWS).0;
    let processors = match random.below(6) {
        0..=2 => row,
        3 => row.wrapping_add(random.below(3)).wrapping_sub(1),
        4 => random.bits(16),
        _ => random.bits(64),
    };
    let some = random.bits(64);
    Pool {
        kind,
        pages: (kind == "pages").then_some(some),
        host: random.pick(&[None, None, Some(0), Some(some)]),
        processors,
        split: random.one_in(2),
    }
}

/// A pool that fits, whole or split, or none; with another isolation any.
pub fn pool(random: &mut Random, plan: &Plan, ram: &[Entry], free: &[Entry]) -> Pool {
    let mut pool = any_pool(random);
    if plan.isolation != "none" {
        return pool;
    }
    let bytes: u64 = ram.iter().map(|e| e.span.bytes()).sum();
    let whole = longest(free, 0);
    let hint = bytes >= 16 << 20 && whole * PAGE > bytes / 4;
    if hint && pool.host.unwrap_or(0) == 0 && ["release", "debug"].contains(&pool.kind) {
        let exact: Vec<u64> = ROWS
            .iter()
            .filter(|r| r.1 == bytes >> 20)
            .map(|r| r.0)
            .collect();
        if !exact.is_empty() && random.one_in(2) {
            pool.processors = random.pick(&exact);
        }
        pool.split &= random.one_in(2);
        return pool;
    }
    let Some((pages, split)) = fitting(random, whole, ram, free) else {
        return Pool {
            kind: "off",
            pages: None,
            ..pool
        };
    };
    match pool.kind {
        "pages" => pool.pages = Some(pages),
        "off" => {}
        _ => pool.host = Some(pages),
    }
    Pool { split, ..pool }
}

/// Pages that fit and whether to force the split.
fn fitting(random: &mut Random, whole: u64, ram: &[Entry], free: &[Entry]) -> Option<(u64, bool)> {
    let (least, nodes) = least_longest(free, ram);
    if least > 0 && (whole == 0 || random.one_in(2)) {
        let each = random.between(1, least);
        let each = random.pick(&[1, each, each, least]);
        let rest = longest(free, *nodes_of(ram).last().unwrap()) - each;
        let pages = nodes * each + random.between(0, rest.min(nodes - 1));
        return Some((pages, pages <= whole || random.one_in(2)));
    }
    let some = random.between(1, whole.max(1));
    let few = some.min(random.between(1, 40));
    (whole > 0).then(|| (random.pick(&[1, few, few, some, whole]), false))
}

fn length(random: &mut Random, free: &[Entry]) -> u64 {
    let near = match free {
        [] => PAGE,
        _ => random.pick(free).span.bytes(),
    };
    match random.below(24) {
        0 => 0,
        1 => u64::MAX - random.below(2 * PAGE),
        2 => random.bits(64),
        3..=4 => random.near(near),
        5..=6 => near / random.between(1, 8),
        7..=11 => PAGE * random.between(1, 20),
        12..=13 => random.between(1, 20) * PAGE + random.below(3) - 1,
        14..=17 => 1,
        _ => random.bits(16),
    }
}

fn alignment(random: &mut Random) -> Option<u64> {
    match random.below(24) {
        0..=10 => None,
        11 => Some(random.pick(&[1, 2, 0x800, 1 << 63])),
        12 => Some(random.pick(&[0, 3, 0x1800, 0x3000, u64::MAX])),
        13 => Some(1 << random.below(64)),
        14 => Some(random.pick(&[0x20_0000, 0x4000_0000])),
        _ => Some(PAGE << random.below(6)),
    }
}

fn get(random: &mut Random, ram: &[Entry], free: &[Entry]) -> Get {
    let node = match random.below(10) {
        0..=4 => None,
        5..=8 => Some(random.pick(ram).node),
        _ => Some(random.pick(&[0, 1, 64, 0xffff_ffff])),
    };
    Get {
        node,
        length: length(random, free),
        high: random.one_in(2),
        kind: random.pick(&['p', 's', 't']),
        alignment: alignment(random),
    }
}

/// Short ones that leave a rest on either side, so that the table fills.
pub fn short(random: &mut Random) -> Get {
    Get {
        node: None,
        length: random.between(1, 2 * PAGE),
        high: random.one_in(2),
        kind: random.pick(&['p', 's', 't']),
        alignment: random.pick(&[None, Some(0x2000), Some(0x4000), Some(0x8000)]),
    }
}

pub fn gets(random: &mut Random, ram: &[Entry], free: &[Entry]) -> Vec<Get> {
    let count = match random.below(200) {
        0..=39 => 0,
        40..=149 => random.between(1, 6),
        150..=193 => random.between(7, 40),
        194..=198 => random.between(100, 330),
        _ => random.between(330, 2500),
    };
    let one = |_| match count >= 100 && !random.one_in(12) {
        true => short(random),
        false => get(random, ram, free),
    };
    (0..count).map(one).collect()
}
