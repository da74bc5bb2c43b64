//! Numbers and lengths that the types do not let through, passed to the library itself.

use bootplan::ffi::*;

const NO_ROOM: u8 = 253;
const BAD_NUMBER: u8 = 254;
const BAD_TABLE: u8 = 255;
const ANY: u64 = u64::MAX;
const RAM: [u64; 3] = [0x200000, 0x210000, 0];

fn free_table() -> [u64; 1026] {
    let mut table = [0; 1026];
    table[0] = 1;
    table[2..6].copy_from_slice(&[0x205000, 0x20e000, 0, 0]);
    table
}

/// The answer, where the RAM and its count are kept.
fn select(mode: u8, isolation: u8, map: &[u64], imports: &[u64]) -> u8 {
    let mut ram = [7; 192];
    let mut count = 7;
    // SAFETY: all are slices and arrays of their own, passed with their lengths.
    let code = unsafe {
        bootplan_select_ram(
            mode,
            isolation,
            false,
            0,
            0x200000,
            0x210000,
            map.as_ptr(),
            map.len(),
            imports.as_ptr(),
            imports.len(),
            ram.as_mut_ptr(),
            ram.len(),
            &mut count,
        )
    };
    assert!(code == 0 || (ram == [7; 192] && count == 7));
    code
}

/// The answer, where the table is kept.
fn build(ram: &[u64], reserved: &[u64], configs: &[u64], pools: &[u64], table_len: usize) -> u8 {
    let mut table = vec![0; table_len];
    // SAFETY: as above.
    let code = unsafe {
        bootplan_build(
            ram.as_ptr(),
            ram.len(),
            0x200000,
            0x204000,
            0x200000,
            0x202000,
            reserved.as_ptr(),
            reserved.len(),
            configs.as_ptr(),
            configs.len(),
            pools.as_ptr(),
            pools.len(),
            table.as_mut_ptr(),
            table.len(),
        )
    };
    assert!(code == 0 || table.iter().all(|&word| word == 0));
    code
}

fn request(table: &mut [u64], requests: &[u64], answers: &mut [u64]) -> u8 {
    // SAFETY: as above.
    unsafe {
        bootplan_request(
            table.as_mut_ptr(),
            table.len(),
            requests.as_ptr(),
            requests.len(),
            answers.as_mut_ptr(),
            answers.len(),
        )
    }
}

#[test]
fn selection() {
    let map = [0, 0x400000, 0, 1];
    assert_eq!(select(1, 0, &map, &[]), 0);
    assert_eq!(select(2, 0, &map, &[]), BAD_NUMBER);
    assert_eq!(select(1, 5, &map, &[]), BAD_NUMBER);
    assert_eq!(select(1, 0, &[0, 0x400000, 0, 2], &[]), BAD_NUMBER);
    assert_eq!(select(1, 0, &map[..3], &[]), BAD_NUMBER);
    assert_eq!(select(1, 0, &map, &[0x1000]), BAD_NUMBER);
}

#[test]
fn builds() {
    let none = [0; 8];
    assert_eq!(build(&RAM, &none, &[], &[], 1026), 0);
    assert_eq!(build(&RAM[..2], &none, &[], &[], 1026), BAD_NUMBER);
    assert_eq!(build(&RAM, &none[..7], &[], &[], 1026), BAD_NUMBER);
    assert_eq!(build(&RAM, &none, &[0x203000], &[], 1026), BAD_NUMBER);
    assert_eq!(build(&RAM, &none, &[], &[0x205000], 1026), BAD_NUMBER);
    assert_eq!(build(&RAM, &none, &[], &[], 1025), BAD_TABLE);
}

#[test]
fn requests() {
    let good = [ANY, 1, 0, 0, ANY];
    for (at, word) in [(0, 1 << 32), (2, 3), (3, 2)] {
        let mut row = good;
        row[at] = word;
        let mut table = free_table();
        let mut answers = [7; 4];
        assert_eq!(request(&mut table, &row, &mut answers), 0);
        assert_eq!(answers, [u64::from(BAD_NUMBER), 0, 0, 0]);
        assert_eq!(table, free_table());
    }
    let mut table = free_table();
    let mut answers = [7; 4];
    let code = request(&mut table, &good[..4], &mut answers);
    assert_eq!(code, BAD_NUMBER);
    let code = request(&mut table, &good, &mut answers[..3]);
    assert_eq!(code, NO_ROOM);
    let code = request(&mut table[..1025], &good, &mut answers);
    assert_eq!(code, BAD_TABLE);
    assert!(table == free_table() && answers == [7; 4]);
    assert_eq!(request(&mut table, &good, &mut answers), 0);
    assert_eq!(answers, [0, 0x205000, 0x206000, 0]);
}

#[test]
fn kinds_of_pool() {
    let mut size = 7;
    assert!(!bootplan_pool_size(4, 1, true, 1, 2, 1 << 30, &mut size));
    assert_eq!(size, 7);
}
