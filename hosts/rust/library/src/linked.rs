//! The fourteen calls of the archive as safe functions. A slice carries pointer and length together, is never null, and one that is `&mut`
//! shares no word with another. What comes back beside the answer is an array of its own behind a plain pointer.

/// Rows and columns.
pub type Size = (u64, u64);

mod c {
    extern "C" {
        pub fn call_check(rows: u64, columns: u64, a: *const u64, a_words: usize) -> u64;
        pub fn call_pack(rows: u64, columns: u64, cells: *const u8, cells_bytes: usize, out: *mut u64, out_words: usize) -> u64;
        pub fn call_unpack(rows: u64, columns: u64, a: *const u64, a_words: usize, cells: *mut u8, cells_bytes: usize) -> u64;
        pub fn call_combination(
            a_rows: u64,
            a_columns: u64,
            b_rows: u64,
            b_columns: u64,
            digit: u8,
            a: *const u64,
            a_words: usize,
            b: *const u64,
            b_words: usize,
            out: *mut u64,
            out_words: usize,
        ) -> u64;
        pub fn call_negation(rows: u64, columns: u64, a: *const u64, a_words: usize, out: *mut u64, out_words: usize) -> u64;
        pub fn call_scaling(rows: u64, columns: u64, digit: u8, a: *const u64, a_words: usize, out: *mut u64, out_words: usize) -> u64;
        pub fn call_transpose(rows: u64, columns: u64, a: *const u64, a_words: usize, out: *mut u64, out_words: usize) -> u64;
        pub fn call_tally(columns: u64, a: *const u64, a_words: usize, counts: &mut [u64; 4]) -> u64;
        pub fn call_width(rows: u64, columns: u64, width: u64, meant: &mut u64) -> u64;
        pub fn call_quote(rows: u64, columns: u64, width: u64, steps: &mut u64) -> u64;
        pub fn call_total(rows: u64, columns: u64, width: u64, a: *const u64, a_words: usize, steps: &mut u64) -> u64;
        pub fn call_opening(
            a_rows: u64,
            a_columns: u64,
            b_rows: u64,
            b_columns: u64,
            width: u64,
            a: *const u64,
            a_words: usize,
            b: *const u64,
            b_words: usize,
            table: *mut u64,
            table_words: usize,
            product: *mut u64,
            product_words: usize,
            record: &mut [u64; 7],
        ) -> u64;
        pub fn call_turn(
            record: &mut [u64; 7],
            a: *const u64,
            a_words: usize,
            b: *const u64,
            b_words: usize,
            table: *mut u64,
            table_words: usize,
            product: *mut u64,
            product_words: usize,
            budget: u32,
        ) -> u64;
        pub fn call_product(
            a_rows: u64,
            a_columns: u64,
            b_rows: u64,
            b_columns: u64,
            width: u64,
            a: *const u64,
            a_words: usize,
            b: *const u64,
            b_words: usize,
            table: *mut u64,
            table_words: usize,
            product: *mut u64,
            product_words: usize,
        ) -> u64;
    }
}

pub fn check(size: Size, a: &[u64]) -> u64 {
    unsafe { c::call_check(size.0, size.1, a.as_ptr(), a.len()) }
}

pub fn pack(size: Size, cells: &[u8], out: &mut [u64]) -> u64 {
    unsafe { c::call_pack(size.0, size.1, cells.as_ptr(), cells.len(), out.as_mut_ptr(), out.len()) }
}

pub fn unpack(size: Size, a: &[u64], cells: &mut [u8]) -> u64 {
    unsafe { c::call_unpack(size.0, size.1, a.as_ptr(), a.len(), cells.as_mut_ptr(), cells.len()) }
}

pub fn combination(x: Size, y: Size, digit: u8, a: &[u64], b: &[u64], out: &mut [u64]) -> u64 {
    unsafe { c::call_combination(x.0, x.1, y.0, y.1, digit, a.as_ptr(), a.len(), b.as_ptr(), b.len(), out.as_mut_ptr(), out.len()) }
}

pub fn negation(size: Size, a: &[u64], out: &mut [u64]) -> u64 {
    unsafe { c::call_negation(size.0, size.1, a.as_ptr(), a.len(), out.as_mut_ptr(), out.len()) }
}

pub fn scaling(size: Size, digit: u8, a: &[u64], out: &mut [u64]) -> u64 {
    unsafe { c::call_scaling(size.0, size.1, digit, a.as_ptr(), a.len(), out.as_mut_ptr(), out.len()) }
}

pub fn transpose(size: Size, a: &[u64], out: &mut [u64]) -> u64 {
    unsafe { c::call_transpose(size.0, size.1, a.as_ptr(), a.len(), out.as_mut_ptr(), out.len()) }
}

pub fn tally(columns: u64, a: &[u64], counts: &mut [u64; 4]) -> u64 {
    unsafe { c::call_tally(columns, a.as_ptr(), a.len(), counts) }
}

pub fn width(size: Size, width: u64, meant: &mut u64) -> u64 {
    unsafe { c::call_width(size.0, size.1, width, meant) }
}

pub fn quote(size: Size, width: u64, steps: &mut u64) -> u64 {
    unsafe { c::call_quote(size.0, size.1, width, steps) }
}

pub fn total(size: Size, width: u64, a: &[u64], steps: &mut u64) -> u64 {
    unsafe { c::call_total(size.0, size.1, width, a.as_ptr(), a.len(), steps) }
}

/// What a product reads, in one turn or many.
pub struct Factors<'a> {
    pub a: &'a [u64],
    pub b: &'a [u64],
}

/// What it writes.
pub struct Made<'a> {
    pub table: &'a mut [u64],
    pub product: &'a mut [u64],
}

pub fn opening(x: Size, y: Size, width: u64, f: Factors, made: Made, record: &mut [u64; 7]) -> u64 {
    unsafe {
        c::call_opening(
            x.0,
            x.1,
            y.0,
            y.1,
            width,
            f.a.as_ptr(),
            f.a.len(),
            f.b.as_ptr(),
            f.b.len(),
            made.table.as_mut_ptr(),
            made.table.len(),
            made.product.as_mut_ptr(),
            made.product.len(),
            record,
        )
    }
}

pub fn turn(record: &mut [u64; 7], f: Factors, made: Made, budget: u32) -> u64 {
    unsafe {
        c::call_turn(
            record,
            f.a.as_ptr(),
            f.a.len(),
            f.b.as_ptr(),
            f.b.len(),
            made.table.as_mut_ptr(),
            made.table.len(),
            made.product.as_mut_ptr(),
            made.product.len(),
            budget,
        )
    }
}

pub fn product(x: Size, y: Size, width: u64, f: Factors, made: Made) -> u64 {
    unsafe {
        c::call_product(
            x.0,
            x.1,
            y.0,
            y.1,
            width,
            f.a.as_ptr(),
            f.a.len(),
            f.b.as_ptr(),
            f.b.len(),
            made.table.as_mut_ptr(),
            made.table.len(),
            made.product.as_mut_ptr(),
            made.product.len(),
        )
    }
}
