//! The worked example, planned from its text and by numbers; then a refusal and a short buffer.

use bootplan::{
    Build, Isolation, MapEntry, MapType, Mode, NodeRange, Policy, PoolKind, Range, Refusal,
    Request, RequestType, Selection, Table, TypedRange,
};
use std::fmt::Write;
use std::process::ExitCode;

const TEXT: &[u8] = b"shape\tb\tnone\t-\n\
    file\t200000\t210000\n\
    mem\t0\t400000\t0\tp\n\
    used\t200000\t204000\n\
    state\t200000\t202000\n\
    pool\tpages\t2\t-\t1\tn\n\
    get\t-\t1\tl\tt\t-\n";

fn plan_by_text() -> Result<String, Refusal> {
    let mut output = vec![0; bootplan::output_size(TEXT.len())];
    let written = bootplan::plan(TEXT, &mut output)?;
    output.truncate(written);
    Ok(String::from_utf8_lossy(&output).into_owned())
}

fn line(word: &str, on: &NodeRange) -> String {
    let NodeRange { range, node } = on;
    format!("{word}\t{:x}\t{:x}\t{node:x}\n", range.start, range.end)
}

fn select(ram: &mut [NodeRange]) -> Result<&[NodeRange], Refusal> {
    let map = [MapEntry {
        range: Range::new(0, 0x400000),
        node: 0,
        map_type: MapType::Protectable,
    }];
    let selection = Selection {
        mode: Mode::Boot,
        isolation: Isolation::None,
        ram_size: None,
        file: Range::new(0x200000, 0x210000),
        map: &map,
        imports: &[],
    };
    bootplan::select_ram(&selection, ram)
}

fn plan_by_numbers(table: &mut Table) -> Result<String, Refusal> {
    let mut ram = [NodeRange::default(); bootplan::RAM_ROOM];
    let mut pieces = [NodeRange::default(); bootplan::PIECE_ROOM];
    let mut ranges = [TypedRange::default(); bootplan::RANGE_ROOM];
    let ram = select(&mut ram)?;
    table.build(&Build {
        ram,
        used: Range::new(0x200000, 0x204000),
        state: Range::new(0x200000, 0x202000),
        ..Build::default()
    })?;
    let mut lines: String = ram.iter().map(|entry| line("ram", entry)).collect();
    let bytes = ram.iter().map(|on| on.range.end - on.range.start).sum();
    if let Some(pages) = bootplan::pool_size(PoolKind::Pages(2), None, 1, bytes) {
        let pieces = table.place_pool(pages, false, &mut pieces)?;
        lines.extend(pieces.iter().map(|piece| line("pool", piece)));
    }
    let request = Request::new(1, RequestType::TdxTables, Policy::Low);
    lines += &line("got", &table.allocate(request)?);
    for TypedRange { range, range_type } in table.vtl2_ranges(&mut ranges)? {
        let _ = writeln!(
            lines,
            "map\t{:x}\t{:x}\t{range_type}",
            range.start, range.end
        );
    }
    Ok(lines)
}

fn say<T>(what: &str, result: &Result<T, Refusal>) {
    let refusal = result.as_ref().err().copied().unwrap_or(Refusal(0));
    println!("{what}: {}, {refusal}", refusal.0);
}

fn kept(is_kept: bool) -> &'static str {
    if is_kept {
        "as found"
    } else {
        "changed"
    }
}

/// What is not done leaves all as found.
fn show_refusals(table: &mut Table) {
    let large = Request::new(0x100000, RequestType::Pool, Policy::High);
    let before = table.clone();
    let handed = table.allocate(large.on_node(0).aligned(0x1000));
    say("a request for 100000 bytes", &handed);
    println!("the table is {}", kept(*table == before));
    let mut small = *b"as found........";
    say("an output of 16 bytes", &bootplan::plan(TEXT, &mut small));
    println!("the output is {}", kept(small == *b"as found........"));
}

fn main() -> ExitCode {
    let mut table = Table::new();
    let text = plan_by_text();
    say("from the text", &text);
    print!("{}", text.as_deref().unwrap_or(""));
    let numbers = plan_by_numbers(&mut table);
    say("by numbers", &numbers);
    print!("{}", numbers.as_deref().unwrap_or(""));
    let agree = text.is_ok() && text == numbers;
    println!("both {}", if agree { "agree" } else { "differ" });
    show_refusals(&mut table);
    ExitCode::from(u8::from(!agree))
}
