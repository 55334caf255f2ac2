//! The library's six calls: the C declarations and safe wrappers of them.
//! include/plt.h says what each does. The file needs nothing else of this
//! project.

unsafe extern "C" {
    fn plt_command(
        journal: *mut u8,
        journal_length: usize,
        line: *const u8,
        line_length: usize,
        reply: *mut u8,
        reply_length: usize,
    ) -> usize;

    fn plt_engine(
        journal: *mut u8,
        journal_length: usize,
        number: u32,
        hcnox: *const u32,
        hcnox_length: usize,
        co: *const u32,
        co_length: usize,
        figures: *mut u64,
        figures_length: usize,
    ) -> u8;

    fn plt_ask(
        journal: *const u8,
        journal_length: usize,
        number: u32,
        hcnox: *const u32,
        hcnox_length: usize,
        co: *const u32,
        co_length: usize,
        figures: *mut u64,
        figures_length: usize,
    ) -> u8;

    fn plt_status(
        journal: *const u8,
        journal_length: usize,
        figures: *mut u64,
        figures_length: usize,
    ) -> u8;

    fn plt_marks(
        journal: *const u8,
        journal_length: usize,
        out: *mut u8,
        out_length: usize,
        written: *mut usize,
    ) -> u8;

    fn plt_report(
        journal: *const u8,
        journal_length: usize,
        out: *mut u8,
        out_length: usize,
        written: *mut usize,
    ) -> u8;
}

/// Bytes of a journal.
pub const JOURNAL: usize = 544;

/// Bytes that a reply buffer needs.
pub const REPLY: usize = 96;

/// Bytes that hold the marks of any journal.
pub const MARKS: usize = 80;

/// Bytes of a line of the wall page, its newline included.
pub const LINE: usize = 61;

/// Bytes that hold the wall page of any journal.
pub const REPORT: usize = 41 * LINE;

/// Words that the figures need: n, verdict, nine for each pollutant.
pub const FIGURES: usize = 20;

/// What `engine`, `ask` and `status` return if there are too few words for figures.
pub const TOO_FEW: u8 = 255;

/// Carries out one key line; returns the reply's length.
pub fn command(journal: &mut [u8], line: &[u8], reply: &mut [u8]) -> usize {
    // SAFETY: each pointer and length is that of one slice, and the slices
    // do not overlap.
    unsafe {
        plt_command(
            journal.as_mut_ptr(),
            journal.len(),
            line.as_ptr(),
            line.len(),
            reply.as_mut_ptr(),
            reply.len(),
        )
    }
}

/// Enters an engine; returns 0 or the refusal.
pub fn engine(
    journal: &mut [u8],
    number: u32,
    hcnox: &[u32],
    co: &[u32],
    figures: &mut [u64],
) -> u8 {
    // SAFETY: as in `command`; the two readings are only read.
    unsafe {
        plt_engine(
            journal.as_mut_ptr(),
            journal.len(),
            number,
            hcnox.as_ptr(),
            hcnox.len(),
            co.as_ptr(),
            co.len(),
            figures.as_mut_ptr(),
            figures.len(),
        )
    }
}

/// Asks what `engine` would answer; returns 0 or the refusal.
pub fn ask(journal: &[u8], number: u32, hcnox: &[u32], co: &[u32], figures: &mut [u64]) -> u8 {
    // SAFETY: as in `engine`; the journal is only read.
    unsafe {
        plt_ask(
            journal.as_ptr(),
            journal.len(),
            number,
            hcnox.as_ptr(),
            hcnox.len(),
            co.as_ptr(),
            co.len(),
            figures.as_mut_ptr(),
            figures.len(),
        )
    }
}

/// Reads the status; returns 0 or the refusal.
pub fn status(journal: &[u8], figures: &mut [u64]) -> u8 {
    // SAFETY: as in `ask`.
    unsafe {
        plt_status(
            journal.as_ptr(),
            journal.len(),
            figures.as_mut_ptr(),
            figures.len(),
        )
    }
}

/// Writes the marks; returns 0 or the refusal, and sets `written` to the number
/// of bytes written.
pub fn marks(journal: &[u8], out: &mut [u8], written: &mut usize) -> u8 {
    // SAFETY: as in `status`; `written` is one word.
    unsafe {
        plt_marks(
            journal.as_ptr(),
            journal.len(),
            out.as_mut_ptr(),
            out.len(),
            written,
        )
    }
}

/// Writes the wall page; returns 0 or the refusal, and sets `written` to the
/// number of bytes written.
pub fn report(journal: &[u8], out: &mut [u8], written: &mut usize) -> u8 {
    // SAFETY: as in `marks`.
    unsafe {
        plt_report(
            journal.as_ptr(),
            journal.len(),
            out.as_mut_ptr(),
            out.len(),
            written,
        )
    }
}
