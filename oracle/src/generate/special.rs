//! Plans that reach a bound which the ordinary ones hardly ever meet.

use super::map::entries;
use super::plan::{Entry, PAGE, Plan, Pool, STEP, Span};
use super::select::shares;
use crate::random::Random;

/// Entries of the same length with gaps between them, the nodes in turn.
fn comb(start: u64, count: u64, pages: u64, gap: u64, nodes: u64) -> Vec<Entry> {
    let one = |i| Entry {
        span: Span::pages_from(start + i * (pages + gap) * PAGE, pages),
        node: (i % nodes) as u32,
        protectable: true,
    };
    (0..count).map(one).collect()
}

/// 6: 1,023 to 1,025 entries, or 255 to 257 imports, or none.
fn counts(random: &mut Random) -> Plan {
    let mut plan = Plan::new(random.one_in(4), "none");
    match random.below(6) {
        0 => plan.map = comb(0, random.near(1024), 1, 1, 1),
        1..=3 => {
            plan.map = comb(0, 1, 1024, 0, 1);
            let imports = comb(2 * PAGE, random.near(256), 1, 1, 1);
            plan.imports = imports.iter().map(|e| e.span).collect();
        }
        _ => {}
    }
    plan.file = Span::pages_from(0, 1);
    plan
}

/// 7: 63 to 65 nodes.
fn many_nodes(random: &mut Random) -> Plan {
    let mut plan = Plan::new(false, random.pick(&["none", "vbs", "snp"]));
    let count = random.near(64);
    plan.map = entries(random, count, count);
    plan.file = random.part(plan.map[0].span);
    let (least, most) = shares(&plan);
    if least <= most {
        plan.size = Some(least * count);
    }
    plan
}

/// 14: 63 to 65 chosen pieces of eight pages, of one node or several.
fn many_chosen(random: &mut Random) -> Plan {
    let mut plan = Plan::new(random.one_in(3), random.pick(&["none", "vbs"]));
    let count = random.near(64);
    let nodes = random.between(1, 3);
    plan.map = comb(STEP, count, 8, 8 * random.below(2), nodes);
    let entry = random.pick(&plan.map);
    plan.file = random.part(entry.span);
    plan.size = Some(count / nodes * nodes * STEP);
    plan
}

/// 14: 1,023 to 1,025 free pieces, by the file or by imports.
fn many_free(random: &mut Random) -> Plan {
    let mut plan = Plan::new(false, "none");
    let imports = random.pick(&[0, 200, 255]);
    plan.map = comb(0, random.near(1024) - imports, 3, 1, 1);
    plan.file = match random.below(2) {
        0 => plan.map[0].span,
        _ => Span::pages_from(PAGE, 1),
    };
    let entries = plan.map.iter().skip(1).take(imports as usize);
    plan.imports = entries
        .map(|e| Span::pages_from(e.span.start + PAGE, 1))
        .collect();
    plan
}

/// 12: an import of the page below 4 GiB and of some beside it, with or without a map there.
fn tdx_page(random: &mut Random) -> Plan {
    let mut plan = Plan::new(false, random.pick(&["tdx", "tdx", "tdx", "snp"]));
    let (pages, gap) = (random.between(12, 40), random.below(5) / 4);
    let page = (1 << 32) - PAGE;
    plan.map = comb(page - (pages + gap) * PAGE, 1, pages, 0, 1);
    plan.map
        .extend(comb(page + PAGE, random.below(2), pages, 0, 1));
    let (below, above) = (random.below(3), random.below(2));
    plan.imports = vec![Span::pages_from(page - below * PAGE, below + 1 + above)];
    plan.file = Span::pages_from(plan.map[0].span.start, random.between(1, 8));
    plan
}

/// Plans whose selection is at a bound; the rest is drawn as for any other.
pub fn selection(random: &mut Random) -> Plan {
    match random.below(14) {
        0..=4 => counts(random),
        5..=7 => many_nodes(random),
        8..=10 => many_chosen(random),
        11..=12 => tdx_page(random),
        _ => many_free(random),
    }
}

/// 26 at a pool: many nodes, a pool range in the middle of each, a used range of many pieces, and a
/// split pool. The table then passes 256 entries, or just does not.
pub fn crowded(random: &mut Random) -> Plan {
    let mut plan = Plan::new(true, "none");
    let nodes = random.between(50, 64);
    plan.map = comb(STEP, nodes, 40, random.below(2), nodes);
    plan.file = plan.map[0].span;
    let middle = |e: &Entry| Span::pages_from(e.span.start + 30 * PAGE, 1);
    plan.gpool = plan.map.iter().map(middle).collect();
    let start = plan.map[random.below(nodes) as usize].span.start + PAGE;
    plan.used = Span::pages_from(start, 20);
    plan.state = Span::pages_from(start, random.between(1, 2));
    let config = |i| Span::pages_from(start + (3 + 2 * i) * PAGE, 1);
    plan.config = (0..random.between(6, 8)).map(config).collect();
    plan.pool = Pool {
        kind: "pages",
        pages: Some(nodes * random.between(1, 5)),
        split: true,
        ..plan.pool
    };
    plan
}
