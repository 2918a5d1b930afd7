// The exported function, from the archive that `tests/host/build` writes. Its signature stands here alone.

extern "C" {
    fn sporeflask_check(
        question: *const u32,
        question_len: usize,
        budget: u32,
        work: *mut u32,
        work_len: usize,
        report: *mut u32,
        report_len: usize,
        numbers: *mut u32,
    ) -> u32;
}

pub fn check(question: &[u32], budget: u32, work: &mut [u32], report: &mut [u32]) -> [u32; 4] {
    let mut numbers = [0; 4];
    // SAFETY: each pointer is that of a live slice of the length beside it, and numbers has the four words that are written.
    unsafe {
        sporeflask_check(
            question.as_ptr(),
            question.len(),
            budget,
            work.as_mut_ptr(),
            work.len(),
            report.as_mut_ptr(),
            report.len(),
            numbers.as_mut_ptr(),
        );
    }
    numbers
}
