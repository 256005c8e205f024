//! The calls of include/yirvagul.h on Rust's slices. A slice is never null, and a `&mut` overlaps nothing else, as that header asks of its callers.

/// An answer's words: number, count, line, record, at, kind, given, magnitude.
pub type Answer = [u64; 8];

/// A layout's words: class, size, order, offset, precision, lsb, msb, sign.
pub type Words = [u32; 8];

mod c {
    extern "C" {
        pub fn yirvagul_convert_copying(
            source_sheet: *const u8,
            source_sheet_len: usize,
            destination_sheet: *const u8,
            destination_sheet_len: usize,
            count: u64,
            handling: u32,
            source: *const u8,
            source_len: usize,
            destination: *mut u8,
            destination_len: usize,
            table: *mut u32,
            table_len: usize,
            answer: *mut u64,
        ) -> u32;
        pub fn yirvagul_convert_copying_plain(
            source_sheet: *const u8,
            source_sheet_len: usize,
            destination_sheet: *const u8,
            destination_sheet_len: usize,
            count: u64,
            source: *const u8,
            source_len: usize,
            destination: *mut u8,
            destination_len: usize,
            table: *mut u32,
            table_len: usize,
            answer: *mut u64,
        ) -> u32;
        pub fn yirvagul_convert_in_place(
            source_sheet: *const u8,
            source_sheet_len: usize,
            destination_sheet: *const u8,
            destination_sheet_len: usize,
            count: u64,
            handling: u32,
            buffer: *mut u8,
            buffer_len: usize,
            background: *const u8,
            background_len: usize,
            table: *mut u32,
            table_len: usize,
            answer: *mut u64,
        ) -> u32;
        pub fn yirvagul_convert_in_place_plain(
            source_sheet: *const u8,
            source_sheet_len: usize,
            destination_sheet: *const u8,
            destination_sheet_len: usize,
            count: u64,
            buffer: *mut u8,
            buffer_len: usize,
            background: *const u8,
            background_len: usize,
            table: *mut u32,
            table_len: usize,
            answer: *mut u64,
        ) -> u32;
        pub fn yirvagul_report(
            source_sheet: *const u8,
            source_sheet_len: usize,
            reader_sheet: *const u8,
            reader_sheet_len: usize,
            count: u64,
            log: *mut u8,
            log_len: usize,
            background: *const u8,
            background_len: usize,
            memory: *mut i64,
            memory_len: usize,
            output: *mut u8,
            output_len: usize,
            table: *mut u32,
            table_len: usize,
            answer: *mut u64,
        ) -> u32;
        pub fn yirvagul_compare(
            first_sheet: *const u8,
            first_sheet_len: usize,
            second_sheet: *const u8,
            second_sheet_len: usize,
            count: u64,
            first: *const u8,
            first_len: usize,
            second: *const u8,
            second_len: usize,
            list: *mut u8,
            list_len: usize,
            table: *mut u32,
            table_len: usize,
            answer: *mut u64,
        ) -> u32;
        pub fn yirvagul_reach(
            source_sheet: *const u8,
            source_sheet_len: usize,
            destination_sheet: *const u8,
            destination_sheet_len: usize,
            mask: *mut u8,
            mask_len: usize,
            table: *mut u32,
            table_len: usize,
            answer: *mut u64,
        ) -> u32;
        pub fn yirvagul_leaf_list(
            sheet: *const u8,
            sheet_len: usize,
            list: *mut u8,
            list_len: usize,
            table: *mut u32,
            table_len: usize,
            answer: *mut u64,
        ) -> u32;
        pub fn yirvagul_record_size(
            sheet: *const u8,
            sheet_len: usize,
            table: *mut u32,
            table_len: usize,
            answer: *mut u64,
        ) -> u32;
        pub fn yirvagul_set_size(layout: *mut u32, size: u32) -> u32;
        pub fn yirvagul_set_order(layout: *mut u32, order: u32) -> u32;
        pub fn yirvagul_set_field(layout: *mut u32, offset: u32, precision: u32) -> u32;
        pub fn yirvagul_set_pads(layout: *mut u32, lsb: u32, msb: u32) -> u32;
        pub fn yirvagul_set_sign(layout: *mut u32, sign: u32) -> u32;
    }
}

/// The two sheets and the count of a call that has two.
pub struct Sheets<'a> {
    pub source: &'a [u8],
    pub destination: &'a [u8],
    pub count: u64,
}

pub fn convert_copying(
    sheets: &Sheets,
    handling: u32,
    source: &[u8],
    destination: &mut [u8],
    table: &mut [u32],
) -> Answer {
    let mut answer = [0; 8];
    // SAFETY: each pointer is a slice's, with that slice's length.
    unsafe {
        c::yirvagul_convert_copying(
            sheets.source.as_ptr(),
            sheets.source.len(),
            sheets.destination.as_ptr(),
            sheets.destination.len(),
            sheets.count,
            handling,
            source.as_ptr(),
            source.len(),
            destination.as_mut_ptr(),
            destination.len(),
            table.as_mut_ptr(),
            table.len(),
            answer.as_mut_ptr(),
        );
    }
    answer
}

pub fn convert_copying_plain(
    sheets: &Sheets,
    source: &[u8],
    destination: &mut [u8],
    table: &mut [u32],
) -> Answer {
    let mut answer = [0; 8];
    // SAFETY: each pointer is a slice's, with that slice's length.
    unsafe {
        c::yirvagul_convert_copying_plain(
            sheets.source.as_ptr(),
            sheets.source.len(),
            sheets.destination.as_ptr(),
            sheets.destination.len(),
            sheets.count,
            source.as_ptr(),
            source.len(),
            destination.as_mut_ptr(),
            destination.len(),
            table.as_mut_ptr(),
            table.len(),
            answer.as_mut_ptr(),
        );
    }
    answer
}

pub fn convert_in_place(
    sheets: &Sheets,
    handling: u32,
    buffer: &mut [u8],
    background: &[u8],
    table: &mut [u32],
) -> Answer {
    let mut answer = [0; 8];
    // SAFETY: each pointer is a slice's, with that slice's length.
    unsafe {
        c::yirvagul_convert_in_place(
            sheets.source.as_ptr(),
            sheets.source.len(),
            sheets.destination.as_ptr(),
            sheets.destination.len(),
            sheets.count,
            handling,
            buffer.as_mut_ptr(),
            buffer.len(),
            background.as_ptr(),
            background.len(),
            table.as_mut_ptr(),
            table.len(),
            answer.as_mut_ptr(),
        );
    }
    answer
}

pub fn convert_in_place_plain(
    sheets: &Sheets,
    buffer: &mut [u8],
    background: &[u8],
    table: &mut [u32],
) -> Answer {
    let mut answer = [0; 8];
    // SAFETY: each pointer is a slice's, with that slice's length.
    unsafe {
        c::yirvagul_convert_in_place_plain(
            sheets.source.as_ptr(),
            sheets.source.len(),
            sheets.destination.as_ptr(),
            sheets.destination.len(),
            sheets.count,
            buffer.as_mut_ptr(),
            buffer.len(),
            background.as_ptr(),
            background.len(),
            table.as_mut_ptr(),
            table.len(),
            answer.as_mut_ptr(),
        );
    }
    answer
}

/// The destination sheet is the reader's.
pub fn report(
    sheets: &Sheets,
    log: &mut [u8],
    background: &[u8],
    memory: &mut [i64],
    output: &mut [u8],
    table: &mut [u32],
) -> Answer {
    let mut answer = [0; 8];
    // SAFETY: each pointer is a slice's, with that slice's length.
    unsafe {
        c::yirvagul_report(
            sheets.source.as_ptr(),
            sheets.source.len(),
            sheets.destination.as_ptr(),
            sheets.destination.len(),
            sheets.count,
            log.as_mut_ptr(),
            log.len(),
            background.as_ptr(),
            background.len(),
            memory.as_mut_ptr(),
            memory.len(),
            output.as_mut_ptr(),
            output.len(),
            table.as_mut_ptr(),
            table.len(),
            answer.as_mut_ptr(),
        );
    }
    answer
}

/// The source sheet is the first log's, the destination sheet the second's.
pub fn compare(
    sheets: &Sheets,
    first: &[u8],
    second: &[u8],
    list: &mut [u8],
    table: &mut [u32],
) -> Answer {
    let mut answer = [0; 8];
    // SAFETY: each pointer is a slice's, with that slice's length.
    unsafe {
        c::yirvagul_compare(
            sheets.source.as_ptr(),
            sheets.source.len(),
            sheets.destination.as_ptr(),
            sheets.destination.len(),
            sheets.count,
            first.as_ptr(),
            first.len(),
            second.as_ptr(),
            second.len(),
            list.as_mut_ptr(),
            list.len(),
            table.as_mut_ptr(),
            table.len(),
            answer.as_mut_ptr(),
        );
    }
    answer
}

/// The count is not looked at.
pub fn reach(sheets: &Sheets, mask: &mut [u8], table: &mut [u32]) -> Answer {
    let mut answer = [0; 8];
    // SAFETY: each pointer is a slice's, with that slice's length.
    unsafe {
        c::yirvagul_reach(
            sheets.source.as_ptr(),
            sheets.source.len(),
            sheets.destination.as_ptr(),
            sheets.destination.len(),
            mask.as_mut_ptr(),
            mask.len(),
            table.as_mut_ptr(),
            table.len(),
            answer.as_mut_ptr(),
        );
    }
    answer
}

pub fn leaf_list(sheet: &[u8], list: &mut [u8], table: &mut [u32]) -> Answer {
    let mut answer = [0; 8];
    // SAFETY: each pointer is a slice's, with that slice's length.
    unsafe {
        c::yirvagul_leaf_list(
            sheet.as_ptr(),
            sheet.len(),
            list.as_mut_ptr(),
            list.len(),
            table.as_mut_ptr(),
            table.len(),
            answer.as_mut_ptr(),
        );
    }
    answer
}

pub fn record_size(sheet: &[u8], table: &mut [u32]) -> Answer {
    let mut answer = [0; 8];
    // SAFETY: each pointer is a slice's, with that slice's length.
    unsafe {
        c::yirvagul_record_size(
            sheet.as_ptr(),
            sheet.len(),
            table.as_mut_ptr(),
            table.len(),
            answer.as_mut_ptr(),
        );
    }
    answer
}

// SAFETY, of the setters: the pointer is that of eight words.

pub fn set_size(layout: &mut Words, size: u32) -> u32 {
    unsafe { c::yirvagul_set_size(layout.as_mut_ptr(), size) }
}

pub fn set_order(layout: &mut Words, order: u32) -> u32 {
    unsafe { c::yirvagul_set_order(layout.as_mut_ptr(), order) }
}

pub fn set_field(layout: &mut Words, offset: u32, precision: u32) -> u32 {
    unsafe { c::yirvagul_set_field(layout.as_mut_ptr(), offset, precision) }
}

pub fn set_pads(layout: &mut Words, lsb: u32, msb: u32) -> u32 {
    unsafe { c::yirvagul_set_pads(layout.as_mut_ptr(), lsb, msb) }
}

pub fn set_sign(layout: &mut Words, sign: u32) -> u32 {
    unsafe { c::yirvagul_set_sign(layout.as_mut_ptr(), sign) }
}
