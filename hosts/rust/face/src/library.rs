//! The C face as safe functions. A slice carries pointer and length together, is never null, and one that is `&mut` shares no byte with
//! another: all that the header asks of a host the types see to.

/// Rows and columns.
pub type Size = (u64, u64);

mod c {
    extern "C" {
        pub fn nyuzolamba_check(rows: u64, columns: u64, a: *const u8, a_bytes: usize) -> u64;
        pub fn nyuzolamba_combination(
            a_rows: u64,
            a_columns: u64,
            b_rows: u64,
            b_columns: u64,
            digit: u64,
            a: *const u8,
            a_bytes: usize,
            b: *const u8,
            b_bytes: usize,
            out: *mut u8,
            out_bytes: usize,
        ) -> u64;
        pub fn nyuzolamba_negation(rows: u64, columns: u64, a: *const u8, a_bytes: usize, out: *mut u8, out_bytes: usize) -> u64;
        pub fn nyuzolamba_product(
            a_rows: u64,
            a_columns: u64,
            b_rows: u64,
            b_columns: u64,
            a: *const u8,
            a_bytes: usize,
            b: *const u8,
            b_bytes: usize,
            product: *mut u8,
            product_bytes: usize,
        ) -> u64;
        pub fn nyuzolamba_width(a_rows: u64, a_columns: u64, width: u64, meant: *mut u8, meant_bytes: usize) -> u64;
        pub fn nyuzolamba_quote(a_rows: u64, a_columns: u64, width: u64, steps: *mut u8, steps_bytes: usize) -> u64;
        pub fn nyuzolamba_open(
            a_rows: u64,
            a_columns: u64,
            b_rows: u64,
            b_columns: u64,
            width: u64,
            record: *mut u8,
            record_bytes: usize,
            a: *const u8,
            a_bytes: usize,
            b: *const u8,
            b_bytes: usize,
            table: *mut u8,
            table_bytes: usize,
            product: *mut u8,
            product_bytes: usize,
        ) -> u64;
        pub fn nyuzolamba_turn(
            record: *mut u8,
            record_bytes: usize,
            a: *const u8,
            a_bytes: usize,
            b: *const u8,
            b_bytes: usize,
            table: *mut u8,
            table_bytes: usize,
            product: *mut u8,
            product_bytes: usize,
            budget: u32,
        ) -> u64;
    }
}

pub fn check(size: Size, a: &[u8]) -> u64 {
    unsafe { c::nyuzolamba_check(size.0, size.1, a.as_ptr(), a.len()) }
}

pub fn combination(x: Size, y: Size, digit: u64, a: &[u8], b: &[u8], out: &mut [u8]) -> u64 {
    unsafe { c::nyuzolamba_combination(x.0, x.1, y.0, y.1, digit, a.as_ptr(), a.len(), b.as_ptr(), b.len(), out.as_mut_ptr(), out.len()) }
}

pub fn negation(size: Size, a: &[u8], out: &mut [u8]) -> u64 {
    unsafe { c::nyuzolamba_negation(size.0, size.1, a.as_ptr(), a.len(), out.as_mut_ptr(), out.len()) }
}

pub fn product(x: Size, y: Size, a: &[u8], b: &[u8], out: &mut [u8]) -> u64 {
    unsafe { c::nyuzolamba_product(x.0, x.1, y.0, y.1, a.as_ptr(), a.len(), b.as_ptr(), b.len(), out.as_mut_ptr(), out.len()) }
}

pub fn width(x: Size, width: u64, meant: &mut [u8]) -> u64 {
    unsafe { c::nyuzolamba_width(x.0, x.1, width, meant.as_mut_ptr(), meant.len()) }
}

pub fn quote(x: Size, width: u64, steps: &mut [u8]) -> u64 {
    unsafe { c::nyuzolamba_quote(x.0, x.1, width, steps.as_mut_ptr(), steps.len()) }
}

/// What an opening or a turn writes.
pub struct Job<'a> {
    pub record: &'a mut [u8],
    pub table: &'a mut [u8],
    pub product: &'a mut [u8],
}

pub fn open(x: Size, y: Size, width: u64, a: &[u8], b: &[u8], job: Job) -> u64 {
    unsafe {
        c::nyuzolamba_open(
            x.0,
            x.1,
            y.0,
            y.1,
            width,
            job.record.as_mut_ptr(),
            job.record.len(),
            a.as_ptr(),
            a.len(),
            b.as_ptr(),
            b.len(),
            job.table.as_mut_ptr(),
            job.table.len(),
            job.product.as_mut_ptr(),
            job.product.len(),
        )
    }
}

pub fn turn(a: &[u8], b: &[u8], job: Job, budget: u32) -> u64 {
    unsafe {
        c::nyuzolamba_turn(
            job.record.as_mut_ptr(),
            job.record.len(),
            a.as_ptr(),
            a.len(),
            b.as_ptr(),
            b.len(),
            job.table.as_mut_ptr(),
            job.table.len(),
            job.product.as_mut_ptr(),
            job.product.len(),
            budget,
        )
    }
}
