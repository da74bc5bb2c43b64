//! The proved planner: the plan of a text, and the same by numbers, step by step.

use crate::host_params::shim_params::IsolationType;
use crate::memory::AllocationType;
use crate::memory::access::Entry;
use crate::plan_text::{Get, Plan};
use bootplan::{Answer, Build, Isolation, MapEntry, MapType, Mode, NodeRange, PIECE_ROOM, Policy};
use bootplan::{PoolKind, RAM_ROOM, Range, Refusal, Request, RequestType, Selection, Table};

/// The output for a text, or the refusal's number.
pub fn plan(text: &[u8], room: &mut Vec<u8>) -> Result<usize, Refusal> {
    let size = bootplan::output_size(text.len());
    if room.len() < size {
        room.resize(size, 0);
    }
    bootplan::plan(text, room)
}

fn range(ends: &std::ops::Range<u64>) -> Range {
    Range::new(ends.start, ends.end)
}

fn maybe(ends: &Option<std::ops::Range<u64>>) -> Option<Range> {
    ends.as_ref().map(range)
}

/// What a plan gives to selection and build, in the library's types.
pub struct Given {
    map: Vec<MapEntry>,
    imports: Vec<Range>,
    configs: Vec<Range>,
    pools: Vec<Range>,
    pub requests: Vec<Request>,
}

fn request(get: &Get) -> Request {
    let request_type = match get.kind {
        AllocationType::GpaPool => RequestType::Pool,
        AllocationType::SidecarNode => RequestType::SidecarNode,
        AllocationType::TdxPageTables => RequestType::TdxTables,
    };
    let policy = match get.high {
        false => Policy::Low,
        true => Policy::High,
    };
    let mut request = Request::new(get.length, request_type, policy);
    if let Some(node) = get.node {
        request = request.on_node(node);
    }
    match get.alignment {
        None => request,
        Some(alignment) => request.aligned(alignment),
    }
}

impl Given {
    pub fn new(plan: &Plan) -> Given {
        let entry = |mem: &crate::plan_text::Mem| MapEntry {
            range: range(&mem.range),
            node: mem.node.into(),
            map_type: match mem.protectable {
                false => MapType::Other,
                true => MapType::Protectable,
            },
        };
        Given {
            map: plan.mem.iter().map(entry).collect(),
            imports: plan.import.iter().map(range).collect(),
            configs: plan.config.iter().map(range).collect(),
            pools: plan.gpool.iter().map(range).collect(),
            requests: plan.get.iter().map(request).collect(),
        }
    }
}

#[inline(never)]
pub fn select<'a>(
    plan: &Plan,
    given: &Given,
    ram: &'a mut [NodeRange; RAM_ROOM],
) -> Result<&'a [NodeRange], Refusal> {
    let by = Selection {
        mode: match plan.boot {
            false => Mode::Host,
            true => Mode::Boot,
        },
        isolation: match plan.isolation {
            IsolationType::None => Isolation::None,
            IsolationType::Vbs => Isolation::Vbs,
            IsolationType::Snp => Isolation::Snp,
            IsolationType::Tdx => Isolation::Tdx,
            IsolationType::Cca => Isolation::Cca,
        },
        ram_size: plan.ram_size,
        file: range(&plan.file),
        map: &given.map,
        imports: &given.imports,
    };
    bootplan::select_ram(&by, ram)
}

#[inline(never)]
pub fn build(
    table: &mut Table,
    plan: &Plan,
    given: &Given,
    ram: &[NodeRange],
) -> Result<(), Refusal> {
    table.build(&Build {
        ram,
        used: range(&plan.used),
        state: range(&plan.state),
        reserved: maybe(&plan.keep),
        sidecar_image: maybe(&plan.side),
        page_tables: maybe(&plan.tables),
        log_buffer: maybe(&plan.log),
        configs: &given.configs,
        pools: &given.pools,
    })
}

/// Sizes the pool by the RAM's bytes and places it, if there is to be one.
#[inline(never)]
pub fn place_pool<'a>(
    table: &mut Table,
    plan: &Plan,
    ram: &[NodeRange],
    pieces: &'a mut [NodeRange; PIECE_ROOM],
) -> Result<&'a [NodeRange], Refusal> {
    if plan.isolation != IsolationType::None {
        return Ok(&[]);
    }
    let kind = match plan.pool.kind {
        crate::cmdline::Vtl2GpaPoolConfig::Off => PoolKind::Off,
        crate::cmdline::Vtl2GpaPoolConfig::Pages(pages) => PoolKind::Pages(pages),
        crate::cmdline::Vtl2GpaPoolConfig::Heuristics(table) => match table {
            crate::cmdline::Vtl2GpaPoolLookupTable::Release => PoolKind::Release,
            crate::cmdline::Vtl2GpaPoolLookupTable::Debug => PoolKind::Debug,
        },
    };
    let bytes = ram.iter().map(|x| x.range.end - x.range.start).sum();
    match bootplan::pool_size(kind, plan.pool.host_pages, plan.pool.processors, bytes) {
        None => Ok(&[]),
        Some(pages) => table.place_pool(pages, plan.pool.split, pieces),
    }
}

#[inline(never)]
pub fn requests(table: &mut Table, given: &Given, answers: &mut [Answer]) -> Result<(), Refusal> {
    table.allocate_all(&given.requests, answers)
}

/// What the steps come to by numbers.
pub struct Steps {
    pub ram: Vec<NodeRange>,
    pub pool: Vec<NodeRange>,
    pub answers: Vec<Answer>,
    pub table: Box<Table>,
}

impl Steps {
    pub fn entries(&self) -> impl Iterator<Item = Entry> + use<'_> {
        self.table.entries().map(|entry| Entry {
            start: entry.range.start,
            end: entry.range.end,
            node: u32::try_from(entry.node).expect("a node of 32 bits"),
            usage: u8::try_from(entry.usage.number()).expect("one of eleven"),
        })
    }
}

pub fn steps(plan: &Plan) -> Result<Steps, Refusal> {
    let given = Given::new(plan);
    let mut ram = [NodeRange::default(); RAM_ROOM];
    let mut pieces = [NodeRange::default(); PIECE_ROOM];
    let mut table = Box::new(Table::new());
    let ram = select(plan, &given, &mut ram)?;
    build(&mut table, plan, &given, ram)?;
    let pool = place_pool(&mut table, plan, ram, &mut pieces)?;
    let mut answers = vec![Answer::default(); plan.get.len()];
    requests(&mut table, &given, &mut answers)?;
    Ok(Steps {
        ram: ram.to_vec(),
        pool: pool.to_vec(),
        answers,
        table,
    })
}
