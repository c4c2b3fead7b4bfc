//! The exported functions of the proved archive. All `unsafe` of this crate stands here.

use crate::lent::{State, Step, LOG_NUMBERS};
use crate::{Verdict, Written, RECORD_NUMBERS};

/// A part of a slice, as it crosses the boundary.
#[repr(C)]
pub(crate) struct Part {
    pub(crate) start: usize,
    pub(crate) length: usize,
}

/// What comes back for a search, as it crosses the boundary: its position is 256 for none.
#[repr(C)]
pub(crate) struct Sought {
    pub(crate) position: u32,
    pub(crate) number: u32,
}

extern "C" {
    fn talazumir_verdict(octets: *const u8, length: usize, log: *mut u32) -> Verdict;
    fn talazumir_read(octets: *const u8, length: usize, record: *mut u32) -> Verdict;
    fn talazumir_data(record: *const u32, position: usize, octets: *const u8, length: usize) -> Part;
    fn talazumir_search(record: *const u32, vendor: u32, code: u32, ordinal: usize) -> Sought;
    fn talazumir_write(record: *const u32, octets: *const u8, length: usize, out: *mut u8, room: usize) -> Written;
    fn talazumir_canonical(octets: *const u8, length: usize, out: *mut u8, room: usize) -> Written;
    fn talazumir_seconds(start: u32, end: u32) -> i64;
    fn talazumir_link_fresh() -> State;
    fn talazumir_link_take(
        state: State,
        fragment: *const u8,
        length: usize,
        buffer: *mut u8,
        room: usize,
        log: *mut u32,
    ) -> Step;
}

// Each call below is sound for the same reasons. The pointers come from references or a box, so they are not null and
// live through the call; slices pass with their own lengths, arrays have the lengths of their types; `&mut` overlaps
// nothing else. The functions have no precondition on contents, are proved to read and write within these bounds, and
// keep no pointer.

pub(crate) fn verdict(octets: &[u8], log: &mut [u32; LOG_NUMBERS]) -> Verdict {
    // SAFETY: the slice is read, the log of 2,304 numbers written; see above.
    unsafe { talazumir_verdict(octets.as_ptr(), octets.len(), log.as_mut_ptr()) }
}

/// The verdict, and the numbers of the record, all 0 with a refusal. The call sets them all, so they are not cleared
/// before it.
pub(crate) fn read(octets: &[u8]) -> (Verdict, Box<[u32; RECORD_NUMBERS]>) {
    let mut record = Box::<[u32; RECORD_NUMBERS]>::new_uninit();
    // SAFETY: the slice is read, the record of 1,799 numbers written, whatever its memory holds; see above.
    let verdict = unsafe { talazumir_read(octets.as_ptr(), octets.len(), record.as_mut_ptr().cast()) };
    // SAFETY: the call is proved to leave the numbers of a record, the empty one with a refusal, in all 1,799 places.
    (verdict, unsafe { record.assume_init() })
}

pub(crate) fn data(record: &[u32; RECORD_NUMBERS], position: usize, octets: &[u8]) -> Part {
    // SAFETY: the record of 1,799 numbers and the slice are only read; see above.
    unsafe { talazumir_data(record.as_ptr(), position, octets.as_ptr(), octets.len()) }
}

pub(crate) fn search(record: &[u32; RECORD_NUMBERS], vendor: u32, code: u32, ordinal: usize) -> Sought {
    // SAFETY: the record of 1,799 numbers is only read; see above.
    unsafe { talazumir_search(record.as_ptr(), vendor, code, ordinal) }
}

pub(crate) fn write(record: &[u32; RECORD_NUMBERS], octets: &[u8], out: &mut [u8]) -> Written {
    // SAFETY: the record of 1,799 numbers and the slice are only read, the output is written; see above.
    unsafe { talazumir_write(record.as_ptr(), octets.as_ptr(), octets.len(), out.as_mut_ptr(), out.len()) }
}

pub(crate) fn canonical(octets: &[u8], out: &mut [u8]) -> Written {
    // SAFETY: the slice is only read, the output is written; see above.
    unsafe { talazumir_canonical(octets.as_ptr(), octets.len(), out.as_mut_ptr(), out.len()) }
}

pub(crate) fn seconds(start: u32, end: u32) -> i64 {
    // SAFETY: two numbers are handed over.
    unsafe { talazumir_seconds(start, end) }
}

pub(crate) fn link_fresh() -> State {
    // SAFETY: nothing is handed over.
    unsafe { talazumir_link_fresh() }
}

pub(crate) fn link_take(state: State, fragment: &[u8], buffer: &mut [u8], log: &mut [u32; LOG_NUMBERS]) -> Step {
    let (room, log) = (buffer.len(), log.as_mut_ptr());
    // SAFETY: the fragment is only read, the buffer and the log of 2,304 numbers are written; see above.
    unsafe { talazumir_link_take(state, fragment.as_ptr(), fragment.len(), buffer.as_mut_ptr(), room, log) }
}
