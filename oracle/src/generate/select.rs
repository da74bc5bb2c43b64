//! A rough selection of RAM, so that what is drawn later fits. No answer rests on it.

use super::plan::{Entry, Plan, STEP, Span};

/// What `spans` leave of the entries; both ascend.
pub fn without(entries: &[Entry], spans: &[Span]) -> Vec<Entry> {
    let mut left = Vec::new();
    for entry in entries {
        let mut start = entry.span.start;
        let first = spans.partition_point(|s| s.end <= start);
        for span in &spans[first..] {
            if span.start >= entry.span.end {
                break;
            }
            push(&mut left, entry, start, span.start);
            start = span.end.min(entry.span.end);
        }
        push(&mut left, entry, start, entry.span.end);
    }
    left
}

fn push(list: &mut Vec<Entry>, entry: &Entry, start: u64, end: u64) {
    if start < end {
        list.push(Entry {
            span: Span { start, end },
            ..*entry
        });
    }
}

/// The entries with touching ones joined.
pub fn runs(entries: &[Entry]) -> Vec<Span> {
    let mut runs: Vec<Span> = Vec::new();
    for entry in entries {
        match runs.last_mut() {
            Some(last) if last.end == entry.span.start => last.end = entry.span.end,
            _ => runs.push(entry.span),
        }
    }
    runs
}

pub fn covered(entries: &[Entry], span: Span) -> bool {
    runs(entries).iter().any(|run| run.contains(span))
}

/// The map's parts inside the file, and those outside it and the imports.
pub fn parts(plan: &Plan) -> (Vec<Entry>, Vec<Entry>) {
    let outside = without(&plan.map, &[plan.file]);
    let others: Vec<Span> = outside.iter().map(|e| e.span).collect();
    let inside = without(&plan.map, &others);
    (inside, without(&outside, &plan.imports))
}

pub fn bytes_of(entries: &[Entry], node: u32) -> u64 {
    let own = entries.iter().filter(|e| e.node == node);
    own.map(|e| e.span.bytes()).sum()
}

/// The least and greatest share, multiples of eight pages, that every node can give.
pub fn shares(plan: &Plan) -> (u64, u64) {
    let (inside, free) = parts(plan);
    let nodes = plan.nodes().max(1);
    let all = |node| bytes_of(&inside, node) + bytes_of(&free, node);
    let most = (0..nodes as u32).map(all).min().unwrap_or(0);
    let least = plan.file.bytes() / nodes;
    (least.div_ceil(STEP) * STEP, most / STEP * STEP)
}

/// The chosen RAM, or none where it is refused.
pub fn ram(plan: &Plan) -> Option<Vec<Entry>> {
    let chosen = match plan.host {
        true => host_ram(plan)?,
        false => boot_ram(plan)?,
    };
    (chosen.len() <= 64).then_some(chosen)
}

fn host_ram(plan: &Plan) -> Option<Vec<Entry>> {
    let own = plan.map.iter().filter(|e| e.protectable);
    let mut chosen: Vec<Entry> = own.copied().collect();
    if chosen.is_empty() || plan.hardware_isolated() {
        let sum = chosen.iter().map(|e| e.span.bytes()).sum::<u64>();
        let start = plan.file.start;
        let end = start.checked_add(sum.max(plan.file.bytes()))?;
        chosen = vec![Entry {
            span: Span { start, end },
            node: 0,
            protectable: true,
        }];
    }
    Some(chosen)
}

fn boot_ram(plan: &Plan) -> Option<Vec<Entry>> {
    let nodes = plan.nodes();
    if nodes == 0 || nodes > 64 || plan.map.iter().any(|e| u64::from(e.node) >= nodes) {
        return None;
    }
    let size = plan.size.unwrap_or(plan.file.bytes());
    let share = (size / nodes).checked_next_multiple_of(STEP)?;
    if !covered(&plan.map, plan.file) || size < plan.file.bytes() {
        return None;
    }
    let (mut chosen, free) = parts(plan);
    for node in 0..nodes as u32 {
        let need = share.saturating_sub(bytes_of(&chosen, node));
        take(&mut chosen, &free, node, need)?;
    }
    chosen.sort_by_key(|e| e.span.start);
    Some(chosen)
}

fn take(chosen: &mut Vec<Entry>, free: &[Entry], node: u32, mut need: u64) -> Option<()> {
    for entry in free.iter().rev().filter(|e| e.node == node) {
        if need == 0 {
            break;
        }
        let end = entry.span.end;
        let bottom = (end - entry.span.bytes().min(need)) / STEP * STEP;
        let start = bottom.max(entry.span.start);
        push(chosen, entry, start, end);
        need = need.saturating_sub(end - start);
    }
    (need == 0).then_some(())
}
