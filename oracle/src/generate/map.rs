//! Draws the map, the file, the imports and the RAM size.

use super::plan::{Entry, PAGE, Plan, STEP, Span, TOP};
use super::select::{bytes_of, parts, shares};
use crate::ROWS;
use crate::random::Random;

const GIB_4: u64 = 1 << 32;
const MIB: u64 = 1 << 20;

/// Lengths of the entries and of the gap before each.
fn lengths(random: &mut Random, count: u64) -> Vec<(u64, u64)> {
    let scale = random.pick(&[
        PAGE,
        PAGE,
        STEP,
        STEP,
        STEP,
        MIB,
        MIB,
        MIB,
        MIB,
        1 << 30,
        1 << 43,
    ]);
    let even = random.one_in(3);
    let gaps = random.below(3);
    let length = |random: &mut Random| {
        let length = scale * random.between(1, 40) + PAGE * random.below(9);
        if even {
            length.next_multiple_of(STEP)
        } else {
            length
        }
    };
    let gap = |random: &mut Random| match gaps {
        0 => 0,
        1 => PAGE * random.between(1, 40),
        _ => PAGE * random.below(2) * random.bits(12),
    };
    let one = |_| (gap(random), length(random));
    (0..count).map(one).collect()
}

/// Where the first gap starts, so that all lies low, around 4 GiB, or at the top.
fn base(random: &mut Random, lengths: &[(u64, u64)]) -> u64 {
    let reach = random.between(1, lengths.len() as u64) as usize;
    let sum = |part: &[(u64, u64)]| part.iter().map(|(g, l)| g + l).sum::<u64>();
    let page = PAGE * random.below(2);
    match random.below(8) {
        0..=2 => PAGE * random.bits(10),
        3 => 0,
        4 => MIB * random.bits(8),
        5..=6 => (GIB_4 - page).saturating_sub(sum(&lengths[..reach])),
        _ => TOP - sum(lengths) - page,
    }
}

fn count(random: &mut Random) -> u64 {
    match random.below(60) {
        0..=7 => 1,
        8..=39 => random.between(2, 6),
        40..=52 => random.between(6, 16),
        53..=58 => random.between(16, 64),
        _ => random.between(64, 1024),
    }
}

/// A node for each entry: in blocks, in turns, or any; 0 to `nodes` - 1 are all there.
fn nodes(random: &mut Random, count: u64, nodes: u64) -> Vec<u32> {
    let mut list: Vec<u32> = (0..count).map(|i| (i % nodes) as u32).collect();
    match random.below(5) {
        0..=1 => list.sort_unstable(),
        2 => random.shuffle(&mut list),
        3 => list.sort_unstable_by_key(|n| !n),
        _ => {}
    }
    list
}

pub fn entries(random: &mut Random, count: u64, node_count: u64) -> Vec<Entry> {
    let lengths = lengths(random, count);
    let mut at = base(random, &lengths);
    let nodes = nodes(random, count, node_count);
    let kind = random.below(6);
    let mut map = Vec::new();
    for ((gap, length), node) in lengths.into_iter().zip(nodes) {
        let start = at + gap;
        at = start + length;
        map.push(Entry {
            span: Span { start, end: at },
            node,
            protectable: kind == 0 || kind != 1 && random.one_in(2),
        });
    }
    map
}

/// From a place in one entry to a place in that one or in one that touches it.
pub fn stretch(random: &mut Random, map: &[Entry]) -> Span {
    let first = random.below(map.len() as u64) as usize;
    let mut last = first;
    while last + 1 < map.len() && map[last].span.end == map[last + 1].span.start && random.one_in(2)
    {
        last += 1;
    }
    if last == first {
        return random.part(map[first].span);
    }
    let start = random.part(map[first].span).start;
    let end = random.part(map[last].span).end;
    Span { start, end }
}

fn node_count(random: &mut Random, entries: u64) -> u64 {
    let most = match random.below(10) {
        0..=2 => 1,
        3..=5 => 2,
        6..=8 => 4,
        _ => 64,
    };
    random.between((most / 2).clamp(1, entries), most.min(entries))
}

pub fn draw(random: &mut Random) -> Plan {
    let isolation = random.pick(&["none", "none", "none", "none", "vbs", "snp", "tdx", "cca"]);
    let mut plan = Plan::new(random.one_in(3), isolation);
    let count = count(random);
    let node_count = node_count(random, count);
    plan.map = entries(random, count, node_count);
    plan.file = stretch(random, &plan.map);
    if plan.host {
        host_only(random, &mut plan);
    }
    imports(random, &mut plan);
    size(random, &mut plan);
    plan
}

/// In host mode nodes are any, and the file need not lie in the map, nor any map be there.
fn host_only(random: &mut Random, plan: &mut Plan) {
    match random.below(8) {
        0 => plan.map.iter_mut().for_each(|e| e.node ^= 0xffff_ffff),
        1 => plan.map.iter_mut().for_each(|e| e.node *= 0x123),
        2 => plan.file = Span::pages_from(PAGE * random.bits(30), random.between(1, 300)),
        3 if random.one_in(2) => plan.map.clear(),
        _ => {}
    }
}

fn imports(random: &mut Random, plan: &mut Plan) {
    if plan.map.is_empty() || random.one_in(3) {
        return;
    }
    for _ in 0..random.few(256) {
        let span = match random.below(4) {
            0 => random.part(plan.file),
            1..=2 => {
                let entry = random.pick(&plan.map);
                random.part(entry.span)
            }
            _ => stretch(random, &plan.map),
        };
        add_import(plan, span);
    }
    let page = Span::pages_from(GIB_4 - PAGE, 1);
    let clash = plan.map.iter().any(|e| e.span.overlaps(page));
    if plan.isolation == "tdx" && !clash && random.one_in(2) {
        add_import(plan, page);
    }
}

/// Adds it unless it would be refused as 5 or 11.
pub fn add_import(plan: &mut Plan, span: Span) {
    let clash = plan.imports.iter().any(|i| i.overlaps(span));
    let cuts = span.overlaps(plan.file) && !plan.file.contains(span);
    if !clash && !cuts && plan.imports.len() < 256 {
        let place = plan.imports.partition_point(|i| i.start < span.start);
        plan.imports.insert(place, span);
    }
}

/// A size whose share every node can give: the least, the most, one that ends with an entry, a row's.
fn size(random: &mut Random, plan: &mut Plan) {
    if plan.host {
        plan.size = random.one_in(4).then(|| random.bits(64));
        return;
    }
    let (least, most) = shares(plan);
    if least > most || random.one_in(5) {
        return;
    }
    let some = random.between(least / STEP, most / STEP) * STEP;
    let row = random.pick(&ROWS).1 * MIB / plan.nodes();
    let share = match random.below(6) {
        0 => least,
        1 => most,
        2 => whole_entries(random, plan),
        3 => row,
        _ => some,
    };
    let share = if share < least || share > most {
        some
    } else {
        share
    };
    plan.size = Some(size_of(random, plan, share.next_multiple_of(STEP)));
}

/// What a node gives when its topmost free entries are taken whole.
fn whole_entries(random: &mut Random, plan: &Plan) -> u64 {
    let node = random.below(plan.nodes()) as u32;
    let (inside, free) = parts(plan);
    let own: Vec<Entry> = free.into_iter().filter(|e| e.node == node).collect();
    let skip = random.below(own.len() as u64 + 1) as usize;
    bytes_of(&inside, node) + bytes_of(&own[skip..], node)
}

/// One of the sizes that give this share, a multiple of eight pages.
pub fn size_of(random: &mut Random, plan: &Plan, share: u64) -> u64 {
    let nodes = plan.nodes().max(1);
    let most = nodes * share + (nodes - 1);
    let least = (nodes * (share + 1).saturating_sub(STEP)).max(plan.file.bytes());
    match random.below(4) {
        0 => most,
        1 => least,
        2 => random.between(least, most),
        _ => (nodes * share).max(least),
    }
}
