//! The functions of the static library, as `bindings/ravokimpy.h` declares them, each behind one of the same name that is
//! safe. There is no other `unsafe` block in the repository.

use crate::refusal::Refusal;

mod declared {
    unsafe extern "C" {
        pub fn ravokimpy_room(text: *const u8, text_length: usize) -> usize;
        pub fn ravokimpy_output(
            text: *const u8,
            text_length: usize,
            out: *mut u8,
            out_length: usize,
            written: *mut usize,
        ) -> u8;
        pub fn ravokimpy_output_overwritten(
            text: *const u8,
            text_length: usize,
            place: usize,
            rows: *const u8,
            rows_length: usize,
            out: *mut u8,
            out_length: usize,
            written: *mut usize,
        ) -> u8;
        pub fn ravokimpy_judge(
            text: *const u8,
            text_length: usize,
            rule: u8,
            times: u32,
            verdict: *mut u8,
            verdict_length: usize,
            written: *mut usize,
        ) -> u8;
        pub fn ravokimpy_rebuild(
            text: *const u8,
            text_length: usize,
            out: *mut u8,
            out_length: usize,
            written: *mut usize,
        ) -> u8;
    }
}

// SAFETY, of every call below: the pointers and lengths are those of slices, and of a number, which are borrowed for as
// long as the call runs, for reading or for writing as the function does. The library reads and writes nothing else, and
// keeps no pointer.

pub fn room(text: &[u8]) -> usize {
    unsafe { declared::ravokimpy_room(text.as_ptr(), text.len()) }
}

pub fn output(text: &[u8], out: &mut [u8]) -> Result<usize, Refusal> {
    let mut written = 0;
    let status =
        unsafe { declared::ravokimpy_output(text.as_ptr(), text.len(), out.as_mut_ptr(), out.len(), &mut written) };
    granted(status, written)
}

pub fn output_overwritten(text: &[u8], place: usize, rows: &[u8], out: &mut [u8]) -> Result<usize, Refusal> {
    let mut written = 0;
    let status = unsafe {
        declared::ravokimpy_output_overwritten(
            text.as_ptr(),
            text.len(),
            place,
            rows.as_ptr(),
            rows.len(),
            out.as_mut_ptr(),
            out.len(),
            &mut written,
        )
    };
    granted(status, written)
}

pub fn judge(text: &[u8], rule: u8, times: u32, verdict: &mut [u8]) -> Result<usize, Refusal> {
    let mut written = 0;
    let status = unsafe {
        declared::ravokimpy_judge(
            text.as_ptr(),
            text.len(),
            rule,
            times,
            verdict.as_mut_ptr(),
            verdict.len(),
            &mut written,
        )
    };
    granted(status, written)
}

pub fn rebuild(text: &[u8], out: &mut [u8]) -> Result<usize, Refusal> {
    let mut written = 0;
    let status =
        unsafe { declared::ravokimpy_rebuild(text.as_ptr(), text.len(), out.as_mut_ptr(), out.len(), &mut written) };
    granted(status, written)
}

/// What a call answers.
fn granted(status: u8, written: usize) -> Result<usize, Refusal> {
    match Refusal::of_status(status) {
        Some(refusal) => Err(refusal),
        None => Ok(written),
    }
}
