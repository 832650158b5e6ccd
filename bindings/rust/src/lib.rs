//! The park bill for Rust: safe calls over the library's exported ones.

#![no_std]

/// consumption, tg (thousandths, up to 99,999), settled, cut, generation, Pc, Pg, P2, P3, total,
/// reason.
pub type Bill = [u64; 11];

/// The rule that refuses a file, a list or a call, and the site, line or generator it speaks of, or 0.
#[derive(Clone, Copy, Debug, PartialEq, Eq)]
pub struct Refusal {
    pub number: u64,
    pub place: u64,
}

/// Whether a file keeps the rules.
pub fn check(file: &[u8]) -> Result<(), Refusal> {
    let mut place = 0;
    // SAFETY: the length is the slice's own, and the place lives as long as the call.
    let number = unsafe { c::park_check(file.as_ptr(), file.len(), &mut place) };
    answer(number, place, ())
}

/// The bill of one site, counted from 1.
pub fn bill_site(file: &[u8], site: u64) -> Result<Bill, Refusal> {
    bill_site_with(c::park_bill_site, file, site)
}

/// The same, with the surcharge by the operators' table.
pub fn bill_site_by_table(file: &[u8], site: u64) -> Result<Bill, Refusal> {
    bill_site_with(c::park_bill_site_by_table, file, site)
}

fn bill_site_with(call: c::BillSite, file: &[u8], site: u64) -> Result<Bill, Refusal> {
    let (mut bill, mut place) = ([0; 11], 0);
    // SAFETY: as in `check`; the bill is eleven numbers.
    let number = unsafe { call(file.as_ptr(), file.len(), &mut bill, site, &mut place) };
    answer(number, place, bill)
}

/// Writes the bill of every site, one after the other, at the start of the list, and gives how many
/// sites there are. A refusal leaves the list as it was.
pub fn bill_park(file: &[u8], list: &mut [u64]) -> Result<u64, Refusal> {
    bill_park_with(c::park_bill_park, file, list)
}

/// The same, with the surcharge by the operators' table.
pub fn bill_park_by_table(file: &[u8], list: &mut [u64]) -> Result<u64, Refusal> {
    bill_park_with(c::park_bill_park_by_table, file, list)
}

fn bill_park_with(call: c::BillPark, file: &[u8], list: &mut [u64]) -> Result<u64, Refusal> {
    let (mut place, mut sites) = (0, 0);
    let (list_ptr, list_len) = (list.as_mut_ptr(), list.len());
    // SAFETY: as in `check`; the list's length is the slice's own.
    let number =
        unsafe { call(file.as_ptr(), file.len(), list_ptr, list_len, &mut place, &mut sites) };
    answer(number, place, sites)
}

/// Makes a park file of version 1, at the start of the buffer, from its numbers: month, s, n, T and
/// t, then five of each site and eight of each line, in the order of the file. Gives the file's
/// length; the bytes after it stay, and after a refusal all of them.
pub fn encode(numbers: &[u32], file: &mut [u8]) -> Result<u64, Refusal> {
    let (mut place, mut size) = (0, 0);
    let (file_ptr, file_len) = (file.as_mut_ptr(), file.len());
    // SAFETY: as in `check`; both lengths are the slices' own.
    let number = unsafe {
        let numbers_ptr = numbers.as_ptr();
        c::park_encode(numbers_ptr, numbers.len(), file_ptr, file_len, &mut place, &mut size)
    };
    answer(number, place, size)
}

fn answer<T>(number: u64, place: u64, value: T) -> Result<T, Refusal> {
    if number == 0 {
        Ok(value)
    } else {
        Err(Refusal { number, place })
    }
}

/// The exported calls as they are. Each returns a refusal's number, or 0, and writes its place, or 0.
pub mod c {
    use super::Bill;

    /// One site billed, by either way to the surcharge.
    pub type BillSite = unsafe extern "C" fn(*const u8, usize, *mut Bill, u64, *mut u64) -> u64;

    /// The park billed, by either way to the surcharge.
    pub type BillPark =
        unsafe extern "C" fn(*const u8, usize, *mut u64, usize, *mut u64, *mut u64) -> u64;

    extern "C" {
        pub fn park_check(file_ptr: *const u8, file_len: usize, place: *mut u64) -> u64;

        pub fn park_bill_site(
            file_ptr: *const u8,
            file_len: usize,
            bill: *mut Bill,
            site: u64,
            place: *mut u64,
        ) -> u64;

        pub fn park_bill_site_by_table(
            file_ptr: *const u8,
            file_len: usize,
            bill: *mut Bill,
            site: u64,
            place: *mut u64,
        ) -> u64;

        pub fn park_bill_park(
            file_ptr: *const u8,
            file_len: usize,
            list_ptr: *mut u64,
            list_len: usize,
            place: *mut u64,
            sites: *mut u64,
        ) -> u64;

        pub fn park_bill_park_by_table(
            file_ptr: *const u8,
            file_len: usize,
            list_ptr: *mut u64,
            list_len: usize,
            place: *mut u64,
            sites: *mut u64,
        ) -> u64;

        pub fn park_encode(
            numbers_ptr: *const u32,
            numbers_len: usize,
            file_ptr: *mut u8,
            file_len: usize,
            place: *mut u64,
            size: *mut u64,
        ) -> u64;
    }
}
