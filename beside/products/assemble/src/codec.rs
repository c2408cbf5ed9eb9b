//! The proved writer and reader, called safely. An event is 20 numbers: its
//! kind, the values of its fields in frame order, then zeros. In the place of a
//! limit stands the limit and 10,000,000 more.

/// A kind and the values of 19 fields.
pub const NUMBERS: usize = 20;

pub type Row = [u32; NUMBERS];

/// The length of the longest frame that is written: six legs.
pub const LONGEST: usize = 23;

#[allow(unsafe_code)]
mod library {
    extern "C" {
        fn complex_book_read(
            frame: *const u8,
            length: usize,
            values: *mut u32,
            count: usize,
        ) -> u32;
        fn complex_book_write(
            values: *const u32,
            count: usize,
            space: *mut u8,
            length: usize,
        ) -> u32;
    }

    // Each function reads its first slice only, and writes its second only
    // where it is a `&mut`, up to the length that is passed. It keeps neither.

    /// 0, and the first 20 values are the event's; or 1, 2 or 3.
    pub fn read_into(frame: &[u8], values: &mut [u32]) -> u32 {
        unsafe {
            complex_book_read(
                frame.as_ptr(),
                frame.len(),
                values.as_mut_ptr(),
                values.len(),
            )
        }
    }

    /// The length of the frame that is now at the start of the space; or 1 or 3.
    pub fn write_from(values: &[u32], space: &mut [u8]) -> u32 {
        unsafe {
            complex_book_write(
                values.as_ptr(),
                values.len(),
                space.as_mut_ptr(),
                space.len(),
            )
        }
    }
}

/// The frame of an event, or the refusal. No frame is shorter than 4 bytes.
pub fn write(row: &Row) -> Result<Vec<u8>, u32> {
    let mut space = [0; LONGEST];
    match library::write_from(row, &mut space) {
        refusal if refusal < 4 => Err(refusal),
        length => Ok(space[..length as usize].to_vec()),
    }
}

/// The event of a frame, or the refusal.
pub fn read(frame: &[u8]) -> Result<Row, u32> {
    let mut row = [0; NUMBERS];
    match library::read_into(frame, &mut row) {
        0 => Ok(row),
        refusal => Err(refusal),
    }
}
