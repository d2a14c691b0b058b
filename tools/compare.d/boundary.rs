//! Our side of the comparison: the static library's C functions, as include/bodlixo.h has them.
#![allow(dead_code)] // a part calls only what it compares

use oracle::Record;

#[link(name = "capi", kind = "static")]
extern "C" {
    fn bodlixo_read(edition: u32, hw1: u16, hw2: u16, address: u32, record: *mut u64) -> u32;
    fn bodlixo_write(edition: u32, record: *const u64, pair: *mut u16) -> u32;
    fn bodlixo_list(
        input: *const u8,
        len: usize,
        out: *mut u8,
        out_len: usize,
        length: *mut u64,
    ) -> u32;
}

/// The number that names edition B, and some of those that name C.
pub const B: u32 = 1;
pub const NUMBERS_OF_C: [u32; 6] = [0, 2, 3, 0x101, 0x1_0001, u32::MAX];

pub fn read(edition: u32, hw1: u16, hw2: u16, address: u32, record: &mut Record) -> u32 {
    unsafe { bodlixo_read(edition, hw1, hw2, address, record.as_mut_ptr()) }
}

pub fn write(edition: u32, record: &Record, pair: &mut [u16; 2]) -> u32 {
    unsafe { bodlixo_write(edition, record.as_ptr(), pair.as_mut_ptr()) }
}

/// The refusal's number, or 0 and the listing's length.
pub fn list(input: &[u8], out: &mut [u8]) -> (u32, u64) {
    let mut length = 0;
    let code = unsafe {
        bodlixo_list(input.as_ptr(), input.len(), out.as_mut_ptr(), out.len(), &mut length)
    };
    (code, length)
}
