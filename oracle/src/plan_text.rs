//! Reads a plan text. A text of more than 65,536 bytes, a line that breaks the form and a record that
//! is missing or out of order all give `None`.

use crate::cmdline::{Vtl2GpaPoolConfig, Vtl2GpaPoolLookupTable};
use crate::host_params::shim_params::IsolationType;
use crate::memory::AllocationType;
use std::ops::Range;

const MOST_BYTES: usize = 65_536;

pub struct Mem {
    pub range: Range<u64>,
    pub node: u32,
    pub protectable: bool,
}

pub struct Pool {
    pub kind: Vtl2GpaPoolConfig,
    pub host_pages: Option<u64>,
    pub processors: u64,
    pub split: bool,
}

pub struct Get {
    pub node: Option<u32>,
    pub length: u64,
    pub high: bool,
    pub kind: AllocationType,
    pub alignment: Option<u64>,
}

/// The records of a text, by its words.
pub struct Plan {
    pub boot: bool,
    pub isolation: IsolationType,
    pub ram_size: Option<u64>,
    pub file: Range<u64>,
    pub mem: Vec<Mem>,
    pub import: Vec<Range<u64>>,
    pub used: Range<u64>,
    pub state: Range<u64>,
    pub config: Vec<Range<u64>>,
    pub keep: Option<Range<u64>>,
    pub side: Option<Range<u64>>,
    pub tables: Option<Range<u64>>,
    pub log: Option<Range<u64>>,
    pub gpool: Vec<Range<u64>>,
    pub pool: Pool,
    pub get: Vec<Get>,
}

/// Digits of a node and of any other number.
const NODE: usize = 8;
const NUMBER: usize = 16;

struct Reader<'a> {
    rest: &'a [u8],
}

impl Reader<'_> {
    /// Goes past these bytes if they come next.
    fn take(&mut self, bytes: &[u8]) -> bool {
        match self.rest.strip_prefix(bytes) {
            Some(rest) => {
                self.rest = rest;
                true
            }
            None => false,
        }
    }

    fn must(&mut self, bytes: &[u8]) -> Option<()> {
        self.take(bytes).then_some(())
    }

    /// One of these fields, each written with the tab or newline after it.
    fn one_of<T: Copy>(&mut self, fields: &[(&str, T)]) -> Option<T> {
        let found = fields.iter().find(|(field, _)| self.take(field.as_bytes()));
        found.map(|(_, value)| *value)
    }

    /// A number and the byte after it.
    fn number(&mut self, digits: usize, after: u8) -> Option<u64> {
        let mut number = 0;
        let mut i = 0;
        let next = loop {
            let byte = *self.rest.get(i)?;
            let digit = match byte {
                b'0'..=b'9' => byte - b'0',
                b'a'..=b'f' => byte - b'a' + 10,
                _ => break byte,
            };
            number = number << 4 | u64::from(digit);
            i += 1;
            if i > digits {
                return None;
            }
        };
        if i == 0 || i > 1 && self.rest[0] == b'0' || next != after {
            return None;
        }
        self.rest = &self.rest[i + 1..];
        Some(number)
    }

    /// A number or `-`, and the byte after it.
    fn perhaps(&mut self, digits: usize, after: u8) -> Option<Option<u64>> {
        if self.take(&[b'-', after]) {
            return Some(None);
        }
        self.number(digits, after).map(Some)
    }

    /// A start and an end, with the byte after them.
    fn ends(&mut self, after: u8) -> Option<Range<u64>> {
        Some(self.number(NUMBER, b'\t')?..self.number(NUMBER, after)?)
    }

    fn one(&mut self, word: &[u8]) -> Option<Range<u64>> {
        self.must(word)?;
        self.ends(b'\n')
    }

    fn at_most_one(&mut self, word: &[u8]) -> Option<Option<Range<u64>>> {
        match self.take(word) {
            true => self.ends(b'\n').map(Some),
            false => Some(None),
        }
    }

    fn any(&mut self, word: &[u8]) -> Option<Vec<Range<u64>>> {
        let mut list = Vec::new();
        while self.take(word) {
            list.push(self.ends(b'\n')?);
        }
        Some(list)
    }

    fn shape(&mut self) -> Option<(bool, IsolationType, Option<u64>)> {
        self.must(b"shape\t")?;
        let boot = self.one_of(&[("h\t", false), ("b\t", true)])?;
        let isolation = self.one_of(&[
            ("none\t", IsolationType::None),
            ("vbs\t", IsolationType::Vbs),
            ("snp\t", IsolationType::Snp),
            ("tdx\t", IsolationType::Tdx),
            ("cca\t", IsolationType::Cca),
        ])?;
        Some((boot, isolation, self.perhaps(NUMBER, b'\n')?))
    }

    fn mems(&mut self) -> Option<Vec<Mem>> {
        let mut list = Vec::new();
        while self.take(b"mem\t") {
            list.push(Mem {
                range: self.ends(b'\t')?,
                node: self.number(NODE, b'\t')? as u32,
                protectable: self.one_of(&[("p\n", true), ("o\n", false)])?,
            });
        }
        Some(list)
    }

    fn pool(&mut self) -> Option<Pool> {
        self.must(b"pool\t")?;
        let heuristics = Vtl2GpaPoolConfig::Heuristics;
        let kind = self.one_of(&[
            ("off\t-\t", Some(Vtl2GpaPoolConfig::Off)),
            (
                "release\t-\t",
                Some(heuristics(Vtl2GpaPoolLookupTable::Release)),
            ),
            (
                "debug\t-\t",
                Some(heuristics(Vtl2GpaPoolLookupTable::Debug)),
            ),
            ("pages\t", None),
        ])?;
        Some(Pool {
            kind: match kind {
                Some(kind) => kind,
                None => Vtl2GpaPoolConfig::Pages(self.number(NUMBER, b'\t')?),
            },
            host_pages: self.perhaps(NUMBER, b'\t')?,
            processors: self.number(NUMBER, b'\t')?,
            split: self.one_of(&[("y\n", true), ("n\n", false)])?,
        })
    }

    fn gets(&mut self) -> Option<Vec<Get>> {
        let mut list = Vec::new();
        while self.take(b"get\t") {
            list.push(Get {
                node: self.perhaps(NODE, b'\t')?.map(|node| node as u32),
                length: self.number(NUMBER, b'\t')?,
                high: self.one_of(&[("l\t", false), ("h\t", true)])?,
                kind: self.one_of(&[
                    ("p\t", AllocationType::GpaPool),
                    ("s\t", AllocationType::SidecarNode),
                    ("t\t", AllocationType::TdxPageTables),
                ])?,
                alignment: self.perhaps(NUMBER, b'\n')?,
            });
        }
        Some(list)
    }
}

#[inline(never)]
pub fn read(text: &[u8]) -> Option<Plan> {
    if text.len() > MOST_BYTES {
        return None;
    }
    let mut reader = Reader { rest: text };
    let (boot, isolation, ram_size) = reader.shape()?;
    let plan = Plan {
        boot,
        isolation,
        ram_size,
        file: reader.one(b"file\t")?,
        mem: reader.mems()?,
        import: reader.any(b"import\t")?,
        used: reader.one(b"used\t")?,
        state: reader.one(b"state\t")?,
        config: reader.any(b"config\t")?,
        keep: reader.at_most_one(b"keep\t")?,
        side: reader.at_most_one(b"side\t")?,
        tables: reader.at_most_one(b"tables\t")?,
        log: reader.at_most_one(b"log\t")?,
        gpool: reader.any(b"gpool\t")?,
        pool: reader.pool()?,
        get: reader.gets()?,
    };
    reader.rest.is_empty().then_some(plan)
}
