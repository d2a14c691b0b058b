//! Our side: the static library's C functions for sheets, as include/bodlixo.h has them.

#[link(name = "capi", kind = "static")]
extern "C" {
    fn bodlixo_translate(sheet: *const u8, len: usize, filled: u16, out: *mut u16, out_len: usize, at: *mut u64)
        -> u32;
    fn bodlixo_run(
        code: *const u16,
        len: usize,
        start: u64,
        file: *mut u64,
        file_len: usize,
        budget: u64,
        mark: *mut u8,
        executed: *mut u64,
    ) -> u32;
    fn bodlixo_evaluate(
        sheet: *const u8,
        len: usize,
        filled: u16,
        out: *mut u16,
        out_len: usize,
        file: *mut u64,
        file_len: usize,
        budget: u64,
        mark: *mut u8,
        executed: *mut u64,
        at: *mut u64,
    ) -> u32;
}

/// What stands in a number that the call has to set.
const UNSET: u64 = 0x5555_5555_5555_5555;

/// The answer's number, and the pair count or the index.
pub fn translate(sheet: &[u8], filled: u16, out: &mut [u16]) -> (u32, u64) {
    let mut at = UNSET;
    let (bytes, halfwords) = (sheet.len(), out.len());
    let code = unsafe { bodlixo_translate(sheet.as_ptr(), bytes, filled, out.as_mut_ptr(), halfwords, &mut at) };
    (code, at)
}

/// The answer's number, the pairs executed, and the mark that comes back.
pub fn run(code: &[u16], start: u64, file: &mut [u64], budget: u64, mut mark: u8) -> (u32, u64, u8) {
    let mut executed = UNSET;
    let (halfwords, words) = (code.len(), file.len());
    let answer = unsafe {
        let (code, file) = (code.as_ptr(), file.as_mut_ptr());
        bodlixo_run(code, halfwords, start, file, words, budget, &mut mark, &mut executed)
    };
    (answer, executed, mark)
}

/// The answer's number, the pair count or the index, the pairs executed, and the mark that comes back.
pub fn evaluate(
    sheet: &[u8],
    filled: u16,
    out: &mut [u16],
    file: &mut [u64],
    budget: u64,
    mut mark: u8,
) -> (u32, u64, u64, u8) {
    let (mut at, mut executed) = (UNSET, UNSET);
    let (bytes, halfwords, words) = (sheet.len(), out.len(), file.len());
    let answer = unsafe {
        let (sheet, out, file) = (sheet.as_ptr(), out.as_mut_ptr(), file.as_mut_ptr());
        bodlixo_evaluate(sheet, bytes, filled, out, halfwords, file, words, budget, &mut mark, &mut executed, &mut at)
    };
    (answer, at, executed, mark)
}
