//! What the library exports, as it is declared there.
//!
//! A slice passes as a pointer and the number of its elements. Where a call is unsafe, its pointers must
//! be good for their lengths, for writing where they are `*mut`, and aligned, and not null even for a
//! length of 0; what is written must overlap nothing else that is lent.
#![allow(missing_docs)]

unsafe extern "C" {
    pub safe fn bootplan_release_hint(vp_count: u64, mem_size: u64) -> u64;

    pub safe fn bootplan_debug_hint(vp_count: u64, mem_size: u64) -> u64;

    pub safe fn bootplan_pool_size(
        kind: u8,
        pages: u64,
        host_given: bool,
        host_pages: u64,
        vp_count: u64,
        mem_size: u64,
        size: &mut u64,
    ) -> bool;

    pub safe fn bootplan_output_size(text_len: usize) -> usize;

    pub fn bootplan_plan(
        text: *const u8,
        text_len: usize,
        output: *mut u8,
        output_len: usize,
        written: &mut usize,
    ) -> u8;

    pub fn bootplan_select_ram(
        mode: u8,
        isolation: u8,
        size_given: bool,
        ram_size: u64,
        file_start: u64,
        file_end: u64,
        map: *const u64,
        map_len: usize,
        imports: *const u64,
        imports_len: usize,
        ram: *mut u64,
        ram_len: usize,
        count: &mut usize,
    ) -> u8;

    pub fn bootplan_build(
        ram: *const u64,
        ram_len: usize,
        used_start: u64,
        used_end: u64,
        state_start: u64,
        state_end: u64,
        reserved: *const u64,
        reserved_len: usize,
        configs: *const u64,
        configs_len: usize,
        pools: *const u64,
        pools_len: usize,
        table: *mut u64,
        table_len: usize,
    ) -> u8;

    pub fn bootplan_request(
        table: *mut u64,
        table_len: usize,
        requests: *const u64,
        requests_len: usize,
        answers: *mut u64,
        answers_len: usize,
    ) -> u8;

    pub fn bootplan_place_pool(
        table: *mut u64,
        table_len: usize,
        pages: u64,
        split: bool,
        pieces: *mut u64,
        pieces_len: usize,
        count: &mut usize,
    ) -> u8;

    pub fn bootplan_vtl2_ranges(
        table: *const u64,
        table_len: usize,
        ranges: *mut u64,
        ranges_len: usize,
        count: &mut usize,
    ) -> u8;
}
