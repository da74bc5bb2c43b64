//! The private pool's size: the original's answer and ours, for one input.

use crate::ROWS;
use crate::cmdline::{Vtl2GpaPoolConfig, Vtl2GpaPoolLookupTable};
use crate::dma_hint;
use crate::random::Random;
use std::fmt;

pub const MIB: u64 = 1 << 20;
/// The first memory that is not looked up.
pub const BOUND: u64 = 0xFFFFFFFF00000;

#[derive(Clone, Copy)]
pub struct Input {
    pub debug: bool,
    pub vp_count: u64,
    pub mem_size: u64,
}

impl Input {
    #[inline(never)]
    pub fn original(self) -> u64 {
        let table = match self.debug {
            false => Vtl2GpaPoolLookupTable::Release,
            true => Vtl2GpaPoolLookupTable::Debug,
        };
        dma_hint::vtl2_calculate_dma_hint(table, self.vp_count as usize, self.mem_size)
    }

    #[cfg(feature = "ours")]
    #[inline(never)]
    pub fn ours(self) -> u64 {
        match self.debug {
            false => bootplan::release_hint(self.vp_count, self.mem_size),
            true => bootplan::debug_hint(self.vp_count, self.mem_size),
        }
    }

    /// Counts near the tables' and near multiples of 65,536; sizes near the rows', near the ends of
    /// what is looked up, and any.
    pub fn random(random: &mut Random) -> Input {
        let row = ROWS[random.below(ROWS.len() as u64) as usize];
        let near = random.below(3).wrapping_sub(1);
        let vp_count = match random.below(8) {
            0..=2 => row.0,
            3 => row.0.wrapping_add(near),
            4 => random.below(1200),
            5 => (random.next() << 16).wrapping_add(row.0).wrapping_add(near),
            6 => random.below(1 << 20),
            _ => random.next(),
        };
        let part = random.below(MIB);
        let step = [1, MIB][random.below(2) as usize];
        let mem_size = match random.below(10) {
            0..=1 => row.1 * MIB + part,
            2 => row.1.wrapping_add(near).wrapping_mul(MIB) + part,
            3..=4 => random.below(20_000) * MIB + part,
            5 => (row.1 + 65_536 * random.below(65_000)) * MIB + part,
            6 => BOUND - 4 * step + random.below(9) * step,
            7 => (random.below(3) * MIB).wrapping_add(near),
            8 => random.below(1 << 52),
            _ => random.next(),
        };
        Input {
            debug: random.below(2) == 1,
            vp_count,
            mem_size,
        }
    }
}

impl fmt::Display for Input {
    fn fmt(&self, f: &mut fmt::Formatter<'_>) -> fmt::Result {
        let op = if self.debug { "debug" } else { "release" };
        write!(f, "{op} {:x} {:x}", self.vp_count, self.mem_size)
    }
}

/// A pool's kind is 0 for off, 1 for pages, 2 for release, 3 for debug.
#[derive(Clone, Copy)]
pub struct PoolInput {
    pub kind: u8,
    pub pages: u64,
    pub host: Option<u64>,
    pub vp_count: u64,
    pub mem_size: u64,
}

impl PoolInput {
    pub fn original(self) -> Option<u64> {
        let config = match self.kind {
            0 => Vtl2GpaPoolConfig::Off,
            1 => Vtl2GpaPoolConfig::Pages(self.pages),
            2 => Vtl2GpaPoolConfig::Heuristics(Vtl2GpaPoolLookupTable::Release),
            _ => Vtl2GpaPoolConfig::Heuristics(Vtl2GpaPoolLookupTable::Debug),
        };
        dma_hint::pick_private_pool_size(config, self.host, self.vp_count as usize, self.mem_size)
    }

    /// The size is stored only where there is a pool.
    #[cfg(feature = "ours")]
    pub fn ours(self) -> Option<u64> {
        const FOUND: u64 = 0x5a5a_5a5a_5a5a_5a5a;
        let mut size = FOUND;
        let is_pool = bootplan::ffi::bootplan_pool_size(
            self.kind,
            self.pages,
            self.host.is_some(),
            self.host.unwrap_or(self.pages),
            self.vp_count,
            self.mem_size,
            &mut size,
        );
        if !is_pool {
            assert_eq!(size, FOUND, "no pool, and a size stored: {self}");
            return None;
        }
        Some(size)
    }

    pub fn random(random: &mut Random) -> PoolInput {
        let input = Input::random(random);
        let some = match random.below(4) {
            0 => 0,
            1 => u64::MAX,
            2 => random.below(100_000),
            _ => random.next(),
        };
        PoolInput {
            kind: random.below(4) as u8,
            pages: some ^ random.below(2),
            host: [None, Some(0), Some(some)][random.below(3) as usize],
            vp_count: input.vp_count,
            mem_size: input.mem_size,
        }
    }
}

impl fmt::Display for PoolInput {
    fn fmt(&self, f: &mut fmt::Formatter<'_>) -> fmt::Result {
        let PoolInput {
            kind,
            pages,
            vp_count,
            mem_size,
            ..
        } = self;
        let given = self.host.is_some() as u8;
        let host = self.host.unwrap_or(*pages);
        write!(
            f,
            "pool {kind:x} {pages:x} {given} {host:x} {vp_count:x} {mem_size:x}"
        )
    }
}
