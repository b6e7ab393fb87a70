//! The printing program's call, for comparisons and benchmarks alone.
//!
//! The printing program keeps sets of two words: 127 names, and 8,192 words of work. Behind this
//! crate stands its call with C linkage, in a library of its own, so that both widths can be
//! compared and measured in one process. It is no part of the library that a host links: no header
//! declares it.

use nokchbem::Refusal;

extern "C" {
    fn nokchbem_narrow(
        sheet: *const u8,
        sheet_len: usize,
        tables: *mut u16,
        tables_len: usize,
        work: *mut u64,
        work_len: usize,
        answer: *mut u8,
        answer_len: usize,
    ) -> u64;
}

/// As [`nokchbem::analyze`], with the printing program's limits: a sheet has at most 127 names, and
/// `work` at least 8,192 entries.
pub fn analyze(
    sheet: &[u8],
    tables: &mut [u16],
    work: &mut [u64],
    answer: &mut [u8],
) -> Result<usize, Refusal> {
    // SAFETY: each pointer and length are one slice's, and the three written ones are exclusive.
    let result = unsafe {
        nokchbem_narrow(
            sheet.as_ptr(),
            sheet.len(),
            tables.as_mut_ptr(),
            tables.len(),
            work.as_mut_ptr(),
            work.len(),
            answer.as_mut_ptr(),
            answer.len(),
        )
    };
    match result {
        // No byte of the text is 0.
        0 => Ok(answer.iter().position(|&b| b == 0).unwrap_or(answer.len())),
        packed => Err(Refusal::unpack(packed)),
    }
}
