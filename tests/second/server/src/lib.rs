//! The functions of libserver.a, on slices. Every slice is lent for the call
//! alone, and no two of them overlap.

extern "C" {
    fn cezhappu_read(job: *const u8, length: usize) -> u64;
    fn cezhappu_find(
        job: *const u8,
        length: usize,
        table: *mut u16,
        numbers: usize,
        flags: *mut u8,
        bytes: usize,
        word: *mut u8,
        names: usize,
    ) -> u64;
    fn cezhappu_verdict(
        job: *const u8,
        length: usize,
        allowance: u64,
        table: *mut u16,
        numbers: usize,
        flags: *mut u8,
        bytes: usize,
        path: *mut u8,
        labels: usize,
        workspace: *mut u64,
        words: usize,
    ) -> u64;
    fn cezhappu_answer_from_links(
        job: *const u8,
        length: usize,
        recordings: u64,
        chosen: u64,
        table: *const u16,
        numbers: usize,
        start: u64,
        marks: *mut u8,
        bytes: usize,
        workspace: *mut u64,
        words: usize,
    ) -> u64;
    fn cezhappu_answer_from_lists(
        job: *const u8,
        length: usize,
        recordings: u64,
        table: *const u16,
        numbers: usize,
        start: u64,
        marks: *mut u8,
        bytes: usize,
        workspace: *mut u64,
        words: usize,
    ) -> u64;
    fn cezhappu_keep(job: *const u8, length: usize, output: *mut u8, size: usize) -> u64;
}

pub fn read(job: &[u8]) -> u64 {
    unsafe { cezhappu_read(job.as_ptr(), job.len()) }
}

pub fn find(job: &[u8], table: &mut [u16], flags: &mut [u8], word: &mut [u8]) -> u64 {
    unsafe {
        cezhappu_find(
            job.as_ptr(),
            job.len(),
            table.as_mut_ptr(),
            table.len(),
            flags.as_mut_ptr(),
            flags.len(),
            word.as_mut_ptr(),
            word.len(),
        )
    }
}

pub fn verdict(
    job: &[u8],
    allowance: u64,
    table: &mut [u16],
    flags: &mut [u8],
    path: &mut [u8],
    workspace: &mut [u64],
) -> u64 {
    unsafe {
        cezhappu_verdict(
            job.as_ptr(),
            job.len(),
            allowance,
            table.as_mut_ptr(),
            table.len(),
            flags.as_mut_ptr(),
            flags.len(),
            path.as_mut_ptr(),
            path.len(),
            workspace.as_mut_ptr(),
            workspace.len(),
        )
    }
}

pub fn links(
    job: &[u8],
    recordings: u64,
    chosen: u64,
    table: &[u16],
    start: u64,
    marks: &mut [u8],
    workspace: &mut [u64],
) -> u64 {
    unsafe {
        cezhappu_answer_from_links(
            job.as_ptr(),
            job.len(),
            recordings,
            chosen,
            table.as_ptr(),
            table.len(),
            start,
            marks.as_mut_ptr(),
            marks.len(),
            workspace.as_mut_ptr(),
            workspace.len(),
        )
    }
}

pub fn lists(job: &[u8], recordings: u64, table: &[u16], start: u64, marks: &mut [u8], workspace: &mut [u64]) -> u64 {
    unsafe {
        cezhappu_answer_from_lists(
            job.as_ptr(),
            job.len(),
            recordings,
            table.as_ptr(),
            table.len(),
            start,
            marks.as_mut_ptr(),
            marks.len(),
            workspace.as_mut_ptr(),
            workspace.len(),
        )
    }
}

pub fn keep(job: &[u8], output: &mut [u8]) -> u64 {
    let (out, size) = (output.as_mut_ptr(), output.len());
    unsafe { cezhappu_keep(job.as_ptr(), job.len(), out, size) }
}
