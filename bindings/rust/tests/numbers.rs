//! Planning by numbers.

use bootplan::*;

const MIB: u64 = 1 << 20;
const USED: Range = Range::new(0x200000, 0x204000);
const STATE: Range = Range::new(0x200000, 0x202000);

fn on(start: u64, end: u64, node: u64) -> NodeRange {
    let range = Range::new(start, end);
    NodeRange { range, node }
}

fn entry(start: u64, end: u64, node: u64) -> MapEntry {
    MapEntry {
        range: Range::new(start, end),
        node,
        map_type: MapType::Protectable,
    }
}

fn selection(map: &[MapEntry]) -> Selection<'_> {
    Selection {
        mode: Mode::Boot,
        isolation: Isolation::None,
        ram_size: None,
        file: Range::new(0x200000, 0x210000),
        map,
        imports: &[],
    }
}

fn select(by: &Selection<'_>) -> Result<Vec<NodeRange>, Refusal> {
    let mut ram = [on(1, 2, 3); RAM_ROOM];
    let chosen = select_ram(by, &mut ram).map(<[NodeRange]>::to_vec);
    let kept = chosen.as_ref().map_or(0, Vec::len);
    assert!(ram[kept..].iter().all(|&entry| entry == on(1, 2, 3)));
    chosen
}

fn built(ram: &[NodeRange]) -> Table {
    let mut table = Table::new();
    let build = Build {
        ram,
        used: USED,
        state: STATE,
        ..Build::default()
    };
    table.build(&build).unwrap();
    table
}

/// One free entry, that of P11 and P12.
fn free_table() -> Table {
    let mut words = [0; TABLE_WORDS];
    words[0] = 1;
    words[2..6].copy_from_slice(&[0x205000, 0x20e000, 0, 0]);
    Table::from_words(&words)
}

fn refused_pool(table: &mut Table, pages: u64, split: bool) -> Refusal {
    let before = table.clone();
    let mut pieces = [on(1, 2, 3); PIECE_ROOM];
    let refusal = table.place_pool(pages, split, &mut pieces).unwrap_err();
    assert!(*table == before && pieces == [on(1, 2, 3); PIECE_ROOM]);
    refusal
}

#[test]
fn worked_example() {
    let ram = select(&selection(&[entry(0, 0x400000, 0)])).unwrap();
    assert_eq!(ram, [on(0x200000, 0x210000, 0)]);
    let mut table = built(&ram);
    assert!(!table.has_pool());
    let mut pieces = [NodeRange::default(); PIECE_ROOM];
    let pieces = table.place_pool(2, false, &mut pieces).unwrap();
    assert_eq!(pieces, [on(0x20e000, 0x210000, 0)]);
    assert!(table.has_pool());
    let request = Request::new(1, RequestType::TdxTables, Policy::Low);
    assert_eq!(table.allocate(request), Ok(on(0x204000, 0x205000, 0)));
    let entries: Vec<_> = table.entries().map(|e| (e.range.start, e.usage)).collect();
    let expected = [
        (0x200000, Usage::STATE_HEADER),
        (0x201000, Usage::STATE_PAYLOAD),
        (0x202000, Usage::USED),
        (0x204000, Usage::TDX_TABLES),
        (0x205000, Usage::FREE),
        (0x20e000, Usage::POOL),
    ];
    assert_eq!(entries, expected);
    let mut ranges = [TypedRange::default(); RANGE_ROOM];
    let ranges = table.vtl2_ranges(&mut ranges).unwrap();
    let types: Vec<_> = ranges.iter().map(|r| r.range_type.to_string()).collect();
    let words = "state-header state-payload ram tdx-tables ram pool";
    assert_eq!(types.join(" "), words);
    assert_eq!(ranges[4].range, Range::new(0x205000, 0x20e000));
}

#[test]
fn selection_by_the_host() {
    let map = [entry(0, 0x400000, 0), entry(0x400000, 0x800000, 1)];
    let by = Selection {
        mode: Mode::Host,
        ..selection(&map)
    };
    let chosen = [on(0, 0x400000, 0), on(0x400000, 0x800000, 1)];
    assert_eq!(select(&by).unwrap(), chosen);
    let none = Selection { map: &[], ..by };
    assert_eq!(select(&none).unwrap(), [on(0x200000, 0x210000, 0)]);
}

#[test]
fn refused_selections() {
    let map = [entry(0, 0x400000, 0)];
    let by = selection(&map);
    let size = Selection {
        ram_size: Some(0x1000),
        ..by
    };
    let imports = Selection {
        imports: &[Range::new(0x1000, 0x1000)],
        ..by
    };
    assert_eq!(select(&selection(&[])), Err(Refusal(6)));
    assert_eq!(select(&size), Err(Refusal(8)));
    assert_eq!(select(&imports), Err(Refusal(4)));
    let node = [entry(0, 0x400000, 1 << 32)];
    assert_eq!(select(&selection(&node)), Err(Refusal::BAD_NUMBER));
    let mut short = [on(1, 2, 3); RAM_ROOM - 1];
    assert_eq!(select_ram(&by, &mut short), Err(Refusal::NO_ROOM));
    assert_eq!(short, [on(1, 2, 3); RAM_ROOM - 1]);
}

/// The refusal of a build of the empty table, which is kept.
fn refused_build(build: Build<'_>) -> Refusal {
    let mut table = Table::new();
    let refusal = table.build(&build).unwrap_err();
    assert!(table == Table::new());
    refusal
}

#[test]
fn refused_builds() {
    let ram = [on(0x200000, 0x210000, 0)];
    let build = Build {
        ram: &ram,
        used: USED,
        state: STATE,
        ..Build::default()
    };
    let log = |log_buffer| {
        refused_build(Build {
            log_buffer,
            ..build
        })
    };
    assert_eq!(log(Some(Range::new(0, 0))), Refusal(4));
    assert_eq!(log(Some(STATE)), Refusal(18));
    assert_eq!(log(Some(Range::new(0x204000, 0x205000))), Refusal(19));
    let pools = &[USED];
    assert_eq!(refused_build(Build { pools, ..build }), Refusal(20));
    assert_eq!(refused_build(Build { ram: &[], ..build }), Refusal(21));
    let ram: Vec<_> = (0..65).map(|i| on(i << 12, (i + 1) << 12, 0)).collect();
    assert_eq!(refused_build(Build { ram: &ram, ..build }), Refusal(15));
    let ram = &[on(0x200000, 0x210000, 1 << 32)];
    let refusal = refused_build(Build { ram, ..build });
    assert_eq!(refusal, Refusal::BAD_NUMBER);
}

#[test]
fn build_of_a_table_that_is_not_empty() {
    let ram = [on(0x200000, 0x210000, 0)];
    let mut table = built(&ram);
    let before = table.clone();
    let again = Build {
        ram: &ram,
        used: USED,
        state: STATE,
        ..Build::default()
    };
    assert_eq!(table.build(&again), Err(Refusal(16)));
    assert!(table == before);
}

#[test]
fn every_reserved_range() {
    let ram = [on(0x200000, 0x210000, 0)];
    let page = |i: u64| Range::new(0x200000 + (i << 12), 0x201000 + (i << 12));
    let mut table = Table::new();
    let build = Build {
        ram: &ram,
        used: Range::new(0x200000, 0x208000),
        state: STATE,
        reserved: Some(page(2)),
        sidecar_image: Some(page(3)),
        page_tables: Some(page(4)),
        log_buffer: Some(page(5)),
        configs: &[page(6)],
        pools: &[page(9)],
    };
    table.build(&build).unwrap();
    let usages: Vec<_> = table.entries().map(|e| e.usage).collect();
    let expected = [
        Usage::STATE_HEADER,
        Usage::STATE_PAYLOAD,
        Usage::RESERVED,
        Usage::SIDECAR_IMAGE,
        Usage::TDX_TABLES,
        Usage::LOG,
        Usage::CONFIG,
        Usage::USED,
        Usage::FREE,
        Usage::POOL,
        Usage::FREE,
    ];
    assert_eq!(usages, expected);
    assert!(table.has_pool());
}

#[test]
fn alignments() {
    let request = Request::new(1, RequestType::Pool, Policy::High);
    let low = Request::new(1, RequestType::Pool, Policy::Low);
    let one = |request| free_table().allocate(request);
    assert_eq!(one(request.aligned(0x4000)), Ok(on(0x20b000, 0x20c000, 0)));
    assert_eq!(one(low.aligned(0x4000)), Ok(on(0x208000, 0x209000, 0)));
    assert_eq!(one(request.aligned(0x10000)), Err(Refusal(25)));
    assert_eq!(one(request.aligned(0)), Err(Refusal(24)));
    assert_eq!(one(request.aligned(3)), Err(Refusal(24)));
    assert_eq!(one(request.aligned(u64::MAX)), Err(Refusal(24)));
    assert_eq!(one(request.on_node(1)), Err(Refusal(25)));
}

#[test]
fn many_requests() {
    let mut table = free_table();
    let requests = [
        Request::new(1, RequestType::SidecarNode, Policy::Low),
        Request::new(0, RequestType::Pool, Policy::Low),
        Request::new(u64::MAX, RequestType::Pool, Policy::Low),
        Request::new(0x1001, RequestType::Pool, Policy::High).on_node(0),
    ];
    let mut answers = [Answer::default(); 5];
    let mut short = [Answer::default(); 3];
    let refused = table.allocate_all(&requests, &mut short);
    assert_eq!(refused, Err(Refusal::NO_ROOM));
    assert!(table == free_table());
    assert_eq!(table.allocate_all(&requests, &mut answers), Ok(()));
    let results = answers.map(Answer::result);
    let expected = [
        Ok(on(0x205000, 0x206000, 0)),
        Err(Refusal(22)),
        Err(Refusal(23)),
        Ok(on(0x20c000, 0x20e000, 0)),
        Ok(NodeRange::default()),
    ];
    assert_eq!(results, expected);
    assert_eq!(table.entries().len(), 3);
    assert!(table.has_pool());
    assert_eq!(table.allocate_all(&[], &mut []), Ok(()));
}

#[test]
fn split_pool() {
    let node = |i: u64| on(0x200000 + i * 0x10000, 0x210000 + i * 0x10000, i);
    let mut table = built(&[node(0), node(1), node(2)]);
    assert_eq!(refused_pool(&mut table, 2, true), Refusal(28));
    assert_eq!(refused_pool(&mut table, 0, false), Refusal(28));
    assert_eq!(refused_pool(&mut table, 1 << 52, false), Refusal(27));
    assert_eq!(refused_pool(&mut table, 60, true), Refusal(29));
    let mut pieces = [NodeRange::default(); PIECE_ROOM];
    let pieces = table.place_pool(10, true, &mut pieces).unwrap();
    let pages = pieces.iter().map(|p| (p.range.end - p.range.start) >> 12);
    assert_eq!(pages.collect::<Vec<_>>(), [3, 3, 4]);
}

#[test]
fn short_buffers_of_a_table() {
    let mut table = free_table();
    let mut pieces = [on(1, 2, 3); PIECE_ROOM - 1];
    let refused = table.place_pool(1, false, &mut pieces);
    assert_eq!(refused, Err(Refusal::NO_ROOM));
    assert!(table == free_table() && pieces == [on(1, 2, 3); PIECE_ROOM - 1]);
    let mut ranges = [TypedRange::default(); RANGE_ROOM - 1];
    assert_eq!(table.vtl2_ranges(&mut ranges), Err(Refusal::NO_ROOM));
}

#[test]
fn bad_tables() {
    for (at, word) in [(0, 257), (0, u64::MAX), (1, 2), (4, 1 << 32), (5, 11)] {
        let mut words = [0; TABLE_WORDS];
        words[0] = 1;
        words[at] = word;
        let mut table = Table::from_words(&words);
        let request = Request::new(1, RequestType::Pool, Policy::Low);
        let mut ranges = [TypedRange::default(); RANGE_ROOM];
        assert_eq!(table.allocate(request), Err(Refusal::BAD_TABLE));
        assert_eq!(refused_pool(&mut table, 1, false), Refusal::BAD_TABLE);
        assert_eq!(table.vtl2_ranges(&mut ranges), Err(Refusal::BAD_TABLE));
        assert_eq!(table.build(&Build::default()), Err(Refusal::BAD_TABLE));
        assert!(table == Table::from_words(&words));
        assert!(table.entries().len() <= 256);
    }
}

#[test]
fn sizing() {
    assert_eq!(release_hint(2, 96 * MIB), 512);
    assert_eq!(debug_hint(4, 449 * MIB), 1_536);
    assert_eq!(pool_size(PoolKind::Off, Some(7), 2, 96 * MIB), None);
    let pages = PoolKind::Pages(3);
    assert_eq!(pool_size(pages, Some(7), 2, 96 * MIB), Some(3));
    assert_eq!(pool_size(PoolKind::Debug, Some(7), 2, 96 * MIB), Some(7));
    let release = pool_size(PoolKind::Release, Some(0), 2, 96 * MIB);
    assert_eq!(release, Some(512));
}
