//! Which RAM VTL2 gets.

use crate::{ffi, words, NodeRange, Range, Refusal};

/// The entries that [`select_ram`] asks room for.
pub const RAM_ROOM: usize = 64;

/// Who chooses the RAM.
#[derive(Clone, Copy, Debug, PartialEq, Eq)]
#[repr(u8)]
pub enum Mode {
    /// The host.
    Host = 0,
    /// The boot shim.
    Boot = 1,
}

/// The guest's isolation.
#[allow(missing_docs)]
#[derive(Clone, Copy, Debug, PartialEq, Eq)]
#[repr(u8)]
pub enum Isolation {
    None = 0,
    Vbs = 1,
    Snp = 2,
    Tdx = 3,
    Cca = 4,
}

/// The type of an entry of the host's map.
#[derive(Clone, Copy, Debug, PartialEq, Eq)]
#[repr(u64)]
pub enum MapType {
    /// Any other memory.
    Other = 0,
    /// Memory that the host keeps for VTL2.
    Protectable = 1,
}

/// An entry of the host's map.
#[repr(C)]
#[derive(Clone, Copy, Debug, PartialEq, Eq)]
pub struct MapEntry {
    /// Its range.
    pub range: Range,
    /// Its node; one of more than 32 bits is a bad number.
    pub node: u64,
    /// Its type.
    pub map_type: MapType,
}

const _: () = assert!(size_of::<MapEntry>() == 4 * size_of::<u64>());

/// What a selection is given.
#[derive(Clone, Copy, Debug)]
pub struct Selection<'a> {
    /// Who chooses.
    pub mode: Mode,
    /// The guest's isolation.
    pub isolation: Isolation,
    /// The bytes of RAM, where they are not the file's.
    pub ram_size: Option<u64>,
    /// The range of the loaded file.
    pub file: Range,
    /// The host's map.
    pub map: &'a [MapEntry],
    /// What is imported already.
    pub imports: &'a [Range],
}

/// The RAM that VTL2 gets, written at the start of `ram`, which has room for [`RAM_ROOM`] entries.
pub fn select_ram<'a>(
    by: &Selection<'_>,
    ram: &'a mut [NodeRange],
) -> Result<&'a [NodeRange], Refusal> {
    let mut count = 0;
    // SAFETY: the slices are good for their lengths in words (`words`), and the RAM, of which every
    // word may hold anything, overlaps no other.
    let code = unsafe {
        ffi::bootplan_select_ram(
            by.mode as u8,
            by.isolation as u8,
            by.ram_size.is_some(),
            by.ram_size.unwrap_or(0),
            by.file.start,
            by.file.end,
            by.map.as_ptr().cast(),
            words(by.map),
            by.imports.as_ptr().cast(),
            words(by.imports),
            ram.as_mut_ptr().cast(),
            words(ram),
            &mut count,
        )
    };
    Refusal::unless_done(code)?;
    ram.get(..count).ok_or(Refusal::NO_ROOM)
}
