//! The archive's interface itself, with slices in the place of pointers and lengths.
//!
//! Each call gives the number back (0: accepted) and writes the other numbers of its answer into
//! `answer` as far as that has room; words of `answer` past them stay.

use std::os::raw::c_uchar;

mod c {
    use super::c_uchar;

    extern "C" {
        pub fn hallback_read(
            text: *const c_uchar,
            text_len: usize,
            table: *mut u32,
            table_len: usize,
            answer: *mut u64,
            answer_len: usize,
        ) -> u32;
        pub fn hallback_read_failure(
            text: *const c_uchar,
            text_len: usize,
            table: *mut u32,
            table_len: usize,
            answer: *mut u64,
            answer_len: usize,
        ) -> u32;
        pub fn hallback_write(
            table: *const u32,
            table_len: usize,
            out: *mut c_uchar,
            out_len: usize,
            answer: *mut u64,
            answer_len: usize,
        ) -> u32;
        pub fn hallback_restart(
            table: *const u32,
            table_len: usize,
            step: u64,
            set: u64,
            answer: *mut u64,
            answer_len: usize,
        ) -> u32;
        pub fn hallback_messages(
            table: *const u32,
            table_len: usize,
            step: u64,
            set: u64,
            line: *const u32,
            line_len: usize,
            run: *mut u32,
            run_len: usize,
            answer: *mut u64,
            answer_len: usize,
        ) -> u32;
        pub fn hallback_replay(
            table: *const u32,
            table_len: usize,
            step: u64,
            set: u64,
            line: *const u32,
            line_len: usize,
            order: *const u16,
            order_len: usize,
            run: *mut u32,
            run_len: usize,
            answer: *mut u64,
            answer_len: usize,
        ) -> u32;
        pub fn hallback_lowest(
            table: *const u32,
            table_len: usize,
            step: u64,
            set: u64,
            line: *const u32,
            line_len: usize,
            run: *mut u32,
            run_len: usize,
            answer: *mut u64,
            answer_len: usize,
        ) -> u32;
        pub fn hallback_report(
            text: *const c_uchar,
            text_len: usize,
            out: *mut c_uchar,
            out_len: usize,
        ) -> usize;
    }
}

// SAFETY, for every call below: each pair of pointer and length is that of a live slice, slices
// that the archive writes are borrowed mutably, so no two of a call overlap, and the archive keeps
// none of them.

/// Reads a trace text without a failure line. Answer: place.
pub fn read(text: &[u8], table: &mut [u32], answer: &mut [u64]) -> u32 {
    unsafe {
        c::hallback_read(
            text.as_ptr(),
            text.len(),
            table.as_mut_ptr(),
            table.len(),
            answer.as_mut_ptr(),
            answer.len(),
        )
    }
}

/// Reads a trace text with its failure line. Answer: place, step, set.
pub fn read_failure(text: &[u8], table: &mut [u32], answer: &mut [u64]) -> u32 {
    unsafe {
        c::hallback_read_failure(
            text.as_ptr(),
            text.len(),
            table.as_mut_ptr(),
            table.len(),
            answer.as_mut_ptr(),
            answer.len(),
        )
    }
}

/// Writes the text of the trace in a table area. Answer: place, length.
pub fn write(table: &[u32], out: &mut [u8], answer: &mut [u64]) -> u32 {
    unsafe {
        c::hallback_write(
            table.as_ptr(),
            table.len(),
            out.as_mut_ptr(),
            out.len(),
            answer.as_mut_ptr(),
            answer.len(),
        )
    }
}

/// Finds the greatest line without a lost message. Answer: place, count, back, going, 64 numbers of
/// the line, 64 epochs at the cut, 64 phases.
pub fn restart(table: &[u32], step: u64, set: u64, answer: &mut [u64]) -> u32 {
    unsafe {
        c::hallback_restart(
            table.as_ptr(),
            table.len(),
            step,
            set,
            answer.as_mut_ptr(),
            answer.len(),
        )
    }
}

/// Lists orphans, kept and lost messages of a line. Answer: place, orphans, kept, lost.
pub fn messages(
    table: &[u32],
    step: u64,
    set: u64,
    line: &[u32],
    run: &mut [u32],
    answer: &mut [u64],
) -> u32 {
    unsafe {
        c::hallback_messages(
            table.as_ptr(),
            table.len(),
            step,
            set,
            line.as_ptr(),
            line.len(),
            run.as_mut_ptr(),
            run.len(),
            answer.as_mut_ptr(),
            answer.len(),
        )
    }
}

/// Carries out an order. Answer: place, steps, complete.
pub fn replay(
    table: &[u32],
    step: u64,
    set: u64,
    line: &[u32],
    order: &[u16],
    run: &mut [u32],
    answer: &mut [u64],
) -> u32 {
    unsafe {
        c::hallback_replay(
            table.as_ptr(),
            table.len(),
            step,
            set,
            line.as_ptr(),
            line.len(),
            order.as_ptr(),
            order.len(),
            run.as_mut_ptr(),
            run.len(),
            answer.as_mut_ptr(),
            answer.len(),
        )
    }
}

/// Carries out the order that always picks the lowest allowed choice. Answer: place, steps,
/// complete.
pub fn lowest(
    table: &[u32],
    step: u64,
    set: u64,
    line: &[u32],
    run: &mut [u32],
    answer: &mut [u64],
) -> u32 {
    unsafe {
        c::hallback_lowest(
            table.as_ptr(),
            table.len(),
            step,
            set,
            line.as_ptr(),
            line.len(),
            run.as_mut_ptr(),
            run.len(),
            answer.as_mut_ptr(),
            answer.len(),
        )
    }
}

/// Writes the report on this text and gives its length.
pub fn report(text: &[u8], out: &mut [u8]) -> usize {
    unsafe { c::hallback_report(text.as_ptr(), text.len(), out.as_mut_ptr(), out.len()) }
}
