//! Runs the original on a plan, in the order of its `topology_from_host_dt`: selection, build, the
//! private pool; then the requests.

use crate::caught::caught;
use crate::host_params::dt::MAX_MAP_ENTRIES;
pub use crate::host_params::dt::{PoolOptions, Vtl2Ram, place_pool, select};
use crate::host_params::shim_params::{IsolationType, ShimParams};
use crate::memory::access::{Entry, POOL, entries, with_page_tables};
use crate::memory::{AddressSpaceManager, AddressSpaceManagerBuilder};
use crate::memory::{AllocatedRange, AllocationPolicy, Error};
use crate::output;
use crate::plan_text::{self, Get, Mem, Plan};
use host_fdt_parser::{MemoryAllocationMode, MemoryEntry};
use igvm_defs::MemoryMapEntryType;
use memory_range::MemoryRange;
use std::ops::Range;

/// What a plan gives to selection and build, its ranges made.
pub struct Given {
    pub file: MemoryRange,
    pub isolation: IsolationType,
    pub mode: MemoryAllocationMode,
    pub map: Vec<MemoryEntry>,
    pub imported: Vec<MemoryRange>,
    pub used: MemoryRange,
    pub state: MemoryRange,
    pub config: Vec<MemoryRange>,
    pub keep: Option<MemoryRange>,
    pub side: Option<MemoryRange>,
    pub tables: Option<MemoryRange>,
    pub log: Option<MemoryRange>,
    pub gpool: Vec<MemoryRange>,
}

fn list(ends: &[Range<u64>]) -> Vec<MemoryRange> {
    ends.iter().cloned().map(MemoryRange::new).collect()
}

fn maybe(ends: &Option<Range<u64>>) -> Option<MemoryRange> {
    ends.clone().map(MemoryRange::new)
}

fn map_entry(mem: &Mem) -> MemoryEntry {
    MemoryEntry {
        range: MemoryRange::new(mem.range.clone()),
        mem_type: match mem.protectable {
            true => MemoryMapEntryType::VTL2_PROTECTABLE,
            false => MemoryMapEntryType::MEMORY,
        },
        vnode: mem.node,
    }
}

impl Given {
    /// Panics where an end is no page multiple, a start is above its end, or the map is too long.
    #[inline(never)]
    pub fn new(plan: &Plan) -> Given {
        assert!(
            plan.mem.len() <= MAX_MAP_ENTRIES,
            "map above {MAX_MAP_ENTRIES} entries"
        );
        Given {
            file: MemoryRange::new(plan.file.clone()),
            isolation: plan.isolation,
            mode: match plan.boot {
                false => MemoryAllocationMode::Host,
                true => MemoryAllocationMode::Vtl2 {
                    memory_size: plan.ram_size,
                    mmio_size: None,
                },
            },
            map: plan.mem.iter().map(map_entry).collect(),
            imported: list(&plan.import),
            used: MemoryRange::new(plan.used.clone()),
            state: MemoryRange::new(plan.state.clone()),
            config: list(&plan.config),
            keep: maybe(&plan.keep),
            side: maybe(&plan.side),
            tables: maybe(&plan.tables),
            log: maybe(&plan.log),
            gpool: list(&plan.gpool),
        }
    }

    pub fn params(&self) -> ShimParams<'_> {
        ShimParams {
            memory_start_address: self.file.start(),
            memory_size: self.file.len(),
            isolation_type: self.isolation,
            imported: &self.imported,
        }
    }
}

pub fn pool_options(plan: &Plan) -> PoolOptions {
    PoolOptions {
        isolation_type: plan.isolation,
        enable_vtl2_gpa_pool: plan.pool.kind,
        device_dma_page_count: plan.pool.host_pages,
        vp_count: plan.pool.processors as usize,
        numa_split: plan.pool.split,
    }
}

/// Builds the table of a plan in an empty one.
#[inline(never)]
pub fn build(
    table: &mut AddressSpaceManager,
    given: &Given,
    vtl2_ram: &[MemoryEntry],
) -> Result<(), Error> {
    let mut builder = AddressSpaceManagerBuilder::new(
        table,
        vtl2_ram,
        given.used,
        given.state,
        given.config.iter().copied(),
    );
    if let Some(keep) = given.keep {
        builder = builder.with_reserved_range(keep);
    }
    if let Some(side) = given.side {
        builder = builder.with_sidecar_image(side);
    }
    if let Some(tables) = given.tables {
        builder = with_page_tables(builder, tables);
    }
    if let Some(log) = given.log {
        builder = builder.with_log_buffer(log);
    }
    builder = builder.with_pool_ranges(given.gpool.iter().copied());
    builder.init().map(|_| ())
}

#[inline(never)]
pub fn request(table: &mut AddressSpaceManager, get: &Get) -> Option<AllocatedRange> {
    let policy = match get.high {
        false => AllocationPolicy::LowMemory,
        true => AllocationPolicy::HighMemory,
    };
    match get.alignment {
        None => table.allocate(get.node, get.length, get.kind, policy),
        Some(alignment) => {
            table.allocate_aligned(get.node, get.length, get.kind, policy, alignment)
        }
    }
}

/// What the original does where it gives no plan.
pub enum What {
    Panic,
    /// The build's `Err`.
    Error,
}

/// Where it gives none: `ranges`, `selection`, `build` or `pool`.
pub struct Stop {
    pub stage: &'static str,
    pub what: What,
    pub message: String,
}

/// The original's answer to a request.
pub enum Answer {
    Range(AllocatedRange),
    /// It has no numbers: for a length of 0 document 01 has 22, else 25.
    None,
    /// With the table and the flag as the panic left them.
    Panic {
        message: String,
        table: Vec<Entry>,
        flag: bool,
    },
}

/// What the original gives for a plan.
pub struct Planned {
    pub vtl2_ram: Vtl2Ram,
    /// The pieces of the private pool, by node.
    pub pool: Vec<Entry>,
    pub answers: Vec<Answer>,
    pub table: AddressSpaceManager,
}

impl Planned {
    pub fn entries(&self) -> Vec<Entry> {
        entries(&self.table).collect()
    }

    pub fn flag(&self) -> bool {
        self.table.has_vtl2_pool()
    }
}

pub enum Outcome {
    /// The text is not one of document 01's form, and the original has no part in it.
    Form,
    Stopped(Stop),
    Planned {
        /// In document 01's format.
        output: Vec<u8>,
        plan: Box<Planned>,
    },
}

fn at<T>(stage: &'static str, run: impl FnOnce() -> T) -> Result<T, Stop> {
    let what = What::Panic;
    caught(run).map_err(|message| Stop {
        stage,
        what,
        message,
    })
}

fn pool_entries(table: &AddressSpaceManager) -> impl Iterator<Item = Entry> + use<'_> {
    entries(table).filter(|entry| entry.usage == POOL)
}

/// The pool is placed; its pieces are the pool's entries that were not there before.
pub fn placed_pool(table: &mut AddressSpaceManager, ram: &Vtl2Ram, plan: &Plan) -> Vec<Entry> {
    let before: Vec<Entry> = pool_entries(table).collect();
    place_pool(table, ram, &pool_options(plan));
    let mut pool: Vec<Entry> = pool_entries(table)
        .filter(|entry| !before.contains(entry))
        .collect();
    pool.sort_by_key(|entry| entry.node);
    pool
}

/// A panic leaves the table half changed; then it is put back as it was, so that the requests after it
/// can be compared.
fn answer(table: &mut AddressSpaceManager, get: &Get) -> Answer {
    let saved = table.clone();
    match caught(|| request(table, get)) {
        Ok(Some(range)) => Answer::Range(range),
        Ok(None) => Answer::None,
        Err(message) => {
            let half = core::mem::replace(table, saved);
            Answer::Panic {
                message,
                table: entries(&half).collect(),
                flag: half.has_vtl2_pool(),
            }
        }
    }
}

/// Runs the original on a plan that has been read.
pub fn run(plan: &Plan) -> Result<Box<Planned>, Stop> {
    let given = at("ranges", || Given::new(plan))?;
    let mut planned = Box::new(Planned {
        vtl2_ram: Vtl2Ram::new(),
        pool: Vec::new(),
        answers: Vec::with_capacity(plan.get.len()),
        table: AddressSpaceManager::new_const(),
    });
    let Planned {
        vtl2_ram, table, ..
    } = &mut *planned;
    at("selection", || {
        select(&given.params(), &given.map, given.mode, vtl2_ram)
    })?;
    at("build", || build(table, &given, vtl2_ram))?.map_err(|error| Stop {
        stage: "build",
        what: What::Error,
        message: format!("{error:x?}"),
    })?;
    let Planned {
        vtl2_ram, table, ..
    } = &mut *planned;
    planned.pool = at("pool", || placed_pool(table, vtl2_ram, plan))?;
    for get in &plan.get {
        let answer = answer(&mut planned.table, get);
        planned.answers.push(answer);
    }
    Ok(planned)
}

/// Reads a plan text and runs the original on it.
pub fn plan(text: &[u8]) -> Outcome {
    let Some(plan) = plan_text::read(text) else {
        return Outcome::Form;
    };
    match run(&plan) {
        Err(stop) => Outcome::Stopped(stop),
        Ok(planned) => Outcome::Planned {
            output: output::output(&plan, &planned),
            plan: planned,
        },
    }
}
