//! The product under test, behind a trait: its six exported C calls, two of which bill by the
//! formula and two by the table of the surcharge (02, R-6), and its program parkbill.
//!
//! Every place that a call should write holds `UNWRITTEN` before it, so that a place it leaves
//! alone is seen.

use std::fmt::{self, Display, Formatter};
use std::io::{self, Write};
use std::path::{Path, PathBuf};
use std::process::{Command, Stdio};

use park::c;

use crate::steps::Bill;

/// What a reply's place, site count and size hold before the call.
pub const UNWRITTEN: u64 = 0x5EED_5EED_5EED_5EED;

/// The number that a call returns (0 if it refuses nothing), and the place it writes.
#[derive(Clone, Copy, Debug, PartialEq, Eq)]
pub struct Reply {
    pub number: u64,
    pub place: u64,
}

/// The way to the surcharge: its factor worked out, or read from the table (02, R-6).
#[derive(Clone, Copy, Debug, PartialEq, Eq)]
pub enum Way {
    Formula,
    Table,
}

pub const WAYS: [Way; 2] = [Way::Formula, Way::Table];

impl Display for Way {
    fn fmt(&self, text: &mut Formatter) -> fmt::Result {
        text.write_str(match self {
            Way::Formula => "by formula",
            Way::Table => "by table",
        })
    }
}

pub trait Product {
    fn check(&self, file: &[u8]) -> Reply;

    /// Bills one site into `bill`, which a refusal leaves as it was.
    fn bill_site(&self, way: Way, file: &[u8], bill: &mut Bill, site: u64) -> Reply;

    /// Bills the park into `list`, which a refusal leaves as it was; also gives the site count.
    fn bill_park(&self, way: Way, file: &[u8], list: &mut [u64]) -> (Reply, u64);

    /// Makes the file of a list of numbers in `file`, which a refusal leaves as it was; also gives
    /// the file's length.
    fn encode(&self, numbers: &[u32], file: &mut [u8]) -> (Reply, u64);

    /// What the program prints for this file on its standard input.
    fn printed(&self, file: &[u8]) -> io::Result<Vec<u8>>;
}

/// The static library, and the program at a path.
pub struct Linked {
    pub program: PathBuf,
}

impl Product for Linked {
    fn check(&self, file: &[u8]) -> Reply {
        let mut place = UNWRITTEN;
        // SAFETY: the pointers are to live values, and the length is the slice's own.
        let number = unsafe { c::park_check(file.as_ptr(), file.len(), &mut place) };
        Reply { number, place }
    }

    fn bill_site(&self, way: Way, file: &[u8], bill: &mut Bill, site: u64) -> Reply {
        let call: c::BillSite = match way {
            Way::Formula => c::park_bill_site,
            Way::Table => c::park_bill_site_by_table,
        };
        let mut place = UNWRITTEN;
        // SAFETY: as in `check`; the bill is eleven numbers.
        let number = unsafe { call(file.as_ptr(), file.len(), bill, site, &mut place) };
        Reply { number, place }
    }

    fn bill_park(&self, way: Way, file: &[u8], list: &mut [u64]) -> (Reply, u64) {
        let call: c::BillPark = match way {
            Way::Formula => c::park_bill_park,
            Way::Table => c::park_bill_park_by_table,
        };
        let (mut place, mut sites) = (UNWRITTEN, UNWRITTEN);
        let (list_ptr, list_len) = (list.as_mut_ptr(), list.len());
        // SAFETY: as in `check`; the list's length is the slice's own.
        let number =
            unsafe { call(file.as_ptr(), file.len(), list_ptr, list_len, &mut place, &mut sites) };
        (Reply { number, place }, sites)
    }

    fn encode(&self, numbers: &[u32], file: &mut [u8]) -> (Reply, u64) {
        let (mut place, mut size) = (UNWRITTEN, UNWRITTEN);
        let (file_ptr, file_len) = (file.as_mut_ptr(), file.len());
        // SAFETY: as in `check`; both lengths are the slices' own.
        let number = unsafe {
            let numbers_ptr = numbers.as_ptr();
            c::park_encode(numbers_ptr, numbers.len(), file_ptr, file_len, &mut place, &mut size)
        };
        (Reply { number, place }, size)
    }

    fn printed(&self, file: &[u8]) -> io::Result<Vec<u8>> {
        run_program(&self.program, file)
    }
}

/// Runs a program on a file; a program ended by a signal is an error, its exit code is not looked
/// at, and one that stops reading early is let be.
fn run_program(path: &Path, file: &[u8]) -> io::Result<Vec<u8>> {
    let mut child = Command::new(path)
        .stdin(Stdio::piped())
        .stdout(Stdio::piped())
        .stderr(Stdio::null())
        .spawn()?;
    let mut input = child.stdin.take().expect("the input is piped");
    let written = input.write_all(file);
    drop(input);
    let output = child.wait_with_output()?;
    match written {
        Err(error) if error.kind() != io::ErrorKind::BrokenPipe => return Err(error),
        _ => {}
    }
    if output.status.code().is_none() {
        return Err(io::Error::other(format!("ended by {}", output.status)));
    }
    Ok(output.stdout)
}
