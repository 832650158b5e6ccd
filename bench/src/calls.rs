//! The four calls behind one trait: of the product, by each way to the surcharge, and in plain Rust.

use park::c;

use crate::{encode, plain};

pub use crate::plain::Bill;

/// Each call gives a refusal's number, or 0, and writes its place, or 0.
pub trait Calls {
    fn check(file: &[u8], place: &mut u64) -> u64;

    /// Bills one site into `bill`, which a refusal leaves as it was.
    fn bill_site(file: &[u8], bill: &mut Bill, site: u64, place: &mut u64) -> u64;

    /// Bills the park into `list`, which a refusal leaves as it was; also gives the site count.
    fn bill_park(file: &[u8], list: &mut [u64], place: &mut u64, sites: &mut u64) -> u64;

    /// Makes a file of `numbers` in a buffer, which a refusal leaves as it was; also gives its
    /// length.
    fn encode(numbers: &[u32], file: &mut [u8], place: &mut u64, size: &mut u64) -> u64;
}

/// plain.rs and encode.rs.
pub struct Plain;

impl Calls for Plain {
    fn check(file: &[u8], place: &mut u64) -> u64 {
        plain::check(file, place)
    }

    fn bill_site(file: &[u8], bill: &mut Bill, site: u64, place: &mut u64) -> u64 {
        plain::bill_site(file, bill, site, place)
    }

    fn bill_park(file: &[u8], list: &mut [u64], place: &mut u64, sites: &mut u64) -> u64 {
        plain::bill_park(file, list, place, sites)
    }

    fn encode(numbers: &[u32], file: &mut [u8], place: &mut u64, size: &mut u64) -> u64 {
        encode::encode(numbers, file, place, size)
    }
}

/// The linked library.
pub struct Product;

impl Calls for Product {
    fn check(file: &[u8], place: &mut u64) -> u64 {
        // SAFETY: the pointers are to live values, and the length is the slice's own.
        unsafe { c::park_check(file.as_ptr(), file.len(), place) }
    }

    fn bill_site(file: &[u8], bill: &mut Bill, site: u64, place: &mut u64) -> u64 {
        bill_site_with(c::park_bill_site, file, bill, site, place)
    }

    fn bill_park(file: &[u8], list: &mut [u64], place: &mut u64, sites: &mut u64) -> u64 {
        bill_park_with(c::park_bill_park, file, list, place, sites)
    }

    fn encode(numbers: &[u32], file: &mut [u8], place: &mut u64, size: &mut u64) -> u64 {
        let (file_ptr, file_len) = (file.as_mut_ptr(), file.len());
        // SAFETY: as in `check`; both lengths are the slices' own.
        unsafe { c::park_encode(numbers.as_ptr(), numbers.len(), file_ptr, file_len, place, size) }
    }
}

/// The linked library, which bills by the table of the surcharge's factors.
pub struct ByTable;

impl Calls for ByTable {
    fn check(file: &[u8], place: &mut u64) -> u64 {
        Product::check(file, place)
    }

    fn bill_site(file: &[u8], bill: &mut Bill, site: u64, place: &mut u64) -> u64 {
        bill_site_with(c::park_bill_site_by_table, file, bill, site, place)
    }

    fn bill_park(file: &[u8], list: &mut [u64], place: &mut u64, sites: &mut u64) -> u64 {
        bill_park_with(c::park_bill_park_by_table, file, list, place, sites)
    }

    fn encode(numbers: &[u32], file: &mut [u8], place: &mut u64, size: &mut u64) -> u64 {
        Product::encode(numbers, file, place, size)
    }
}

#[inline(always)]
fn bill_site_with(
    call: c::BillSite,
    file: &[u8],
    bill: &mut Bill,
    site: u64,
    place: &mut u64,
) -> u64 {
    // SAFETY: as in `check`; the bill is eleven numbers.
    unsafe { call(file.as_ptr(), file.len(), bill, site, place) }
}

#[inline(always)]
fn bill_park_with(
    call: c::BillPark,
    file: &[u8],
    list: &mut [u64],
    place: &mut u64,
    sites: &mut u64,
) -> u64 {
    let (list_ptr, list_len) = (list.as_mut_ptr(), list.len());
    // SAFETY: as in `check`; the list's length is the slice's own.
    unsafe { call(file.as_ptr(), file.len(), list_ptr, list_len, place, sites) }
}
