//! The proved codec, called safely. An event is 20 numbers, its kind and then
//! its row: the values of its fields in frame order, and zeros after them.

use crate::rows::{Row, NUMBERS};

#[allow(unsafe_code)]
mod library {
    extern "C" {
        fn complex_book_judge(frame: *const u8, length: usize) -> u32;
        fn complex_book_read(
            frame: *const u8,
            length: usize,
            values: *mut u32,
            count: usize,
        ) -> u32;
        fn complex_book_write(
            values: *const u32,
            count: usize,
            space: *mut u8,
            length: usize,
        ) -> u32;
    }

    // Each function reads its first slice only, and writes its second only
    // where it is a `&mut`, up to the length that is passed. It keeps neither.

    /// 0, 2 or 3, for any bytes.
    pub fn judged(frame: &[u8]) -> u32 {
        unsafe { complex_book_judge(frame.as_ptr(), frame.len()) }
    }

    /// 0, and the first 20 values are the event's; or 1, 2 or 3.
    pub fn read_into(frame: &[u8], values: &mut [u32]) -> u32 {
        unsafe {
            complex_book_read(
                frame.as_ptr(),
                frame.len(),
                values.as_mut_ptr(),
                values.len(),
            )
        }
    }

    /// The length of the frame that is now at the start of the space; or 1 or 3.
    pub fn write_from(values: &[u32], space: &mut [u8]) -> u32 {
        unsafe {
            complex_book_write(
                values.as_ptr(),
                values.len(),
                space.as_mut_ptr(),
                space.len(),
            )
        }
    }
}

pub use library::{judged as judge, read_into, write_from};

/// The event of a frame, or the refusal.
pub fn read(frame: &[u8]) -> Result<Row, u32> {
    let mut row = [0; NUMBERS];
    match read_into(frame, &mut row) {
        0 => Ok(row),
        refusal => Err(refusal),
    }
}

/// The length of the frame that is now at the start of the space, or the
/// refusal. No frame is shorter than 4 bytes.
pub fn write(row: &Row, space: &mut [u8]) -> Result<usize, u32> {
    match write_from(row, space) {
        refusal if refusal < 4 => Err(refusal),
        length => Ok(length as usize),
    }
}
