//! One file, asked of the calculator and of the product: whether it is accepted, its bills by both
//! ways to the surcharge (bill_compare.rs), what the program prints, and the file made anew from
//! its numbers. Lists of numbers are compared in list_compare.rs.

use std::fmt::{Arguments, Debug};

use crate::calculator::{self, Bill, Refusal};
use crate::coverage::Coverage;
use crate::failures::{Case, Failures};
use crate::former;
use crate::former_due;
use crate::former_stations;
use crate::former_tangents;
use crate::park::Park;
use crate::product::{Product, Reply, WAYS};
use crate::rules::accepted_park;
use crate::steps::work_out;

pub struct Tester<'p> {
    pub product: &'p dyn Product,
    failures: Failures,
    /// Holds each file in turn; behind a file stands what a longer one before it left.
    memory: Vec<u8>,
    /// The same for lists of a park's numbers.
    pub number_memory: Vec<u32>,
    pub coverage: Coverage,
    pub checks: u64,
    pub files: u64,
    /// Lists of a park's numbers.
    pub lists: u64,
    /// Files and lists with a difference.
    pub failed: u64,
    /// Differences in the file or list at hand.
    notes: Vec<String>,
}

/// What the calculator says of an accepted file.
pub struct Accepted {
    pub park: Park,
    pub bills: Vec<Bill>,
    /// The bills of before R-4.
    pub before_tangents: Vec<Bill>,
    /// The bills of before R-7.
    pub before_due: Vec<Bill>,
    /// The bills of before R-8, without marks.
    pub before_stations: Vec<Bill>,
}

pub fn reply_to<T>(answer: &Result<T, Refusal>) -> Reply {
    match answer {
        Ok(_) => Reply { number: 0, place: 0 },
        Err(refusal) => Reply { number: refusal.number, place: refusal.place },
    }
}

impl<'p> Tester<'p> {
    pub fn new(product: &'p dyn Product, failures: Failures) -> Tester<'p> {
        Tester {
            product,
            failures,
            memory: Vec::new(),
            number_memory: Vec::new(),
            coverage: Coverage::new(),
            checks: 0,
            files: 0,
            lists: 0,
            failed: 0,
            notes: Vec::new(),
        }
    }

    /// Compares everything about a file but what is printed.
    pub fn file(&mut self, name: &str, file: &[u8]) {
        self.files += 1;
        let mut memory = std::mem::take(&mut self.memory);
        memory.resize(memory.len().max(file.len() + 2_000), 0xA5);
        memory[..file.len()].copy_from_slice(file);
        let lent = &memory[..file.len()];
        let expected = self.expect(file);
        self.compare_check(lent, &expected);
        for way in WAYS {
            self.compare_bills(way, lent, &expected);
        }
        self.compare_remade(lent, expected.err());
        self.same(format_args!("the file is left as it was"), true, lent == file);
        self.memory = memory;
        self.finish(name, Case::File(file));
    }

    /// Compares what the program prints for a file.
    pub fn print(&mut self, name: &str, file: &[u8]) {
        self.print_as(name, file, calculator::printed(file));
    }

    /// Compares what the program prints for a file with what is expected.
    pub fn print_as(&mut self, name: &str, file: &[u8], expected: String) {
        match self.product.printed(file) {
            Ok(bytes) => {
                let got = String::from_utf8_lossy(&bytes).into_owned();
                self.same(format_args!("printed"), expected, got);
            }
            Err(error) => self.note(format_args!("the program did not run: {error}")),
        }
        self.finish(name, Case::File(file));
    }

    /// Compares two answers; `what` names them.
    pub fn same<T: PartialEq + Debug>(&mut self, what: Arguments, expected: T, got: T) {
        self.checks += 1;
        if expected != got {
            self.note(format_args!("{what}\n  expected {expected:?}\n  got      {got:?}"));
        }
    }

    /// Notes a difference; its text only if it will be told.
    pub fn note(&mut self, text: Arguments) {
        let told = !matches!(self.failures, Failures::Counted);
        self.notes.push(if told { text.to_string() } else { String::new() });
    }

    fn expect(&mut self, file: &[u8]) -> Result<Accepted, Refusal> {
        let park = accepted_park(file).inspect_err(|refusal| {
            self.coverage.reply(refusal.number);
            if refusal.place != 0 {
                self.coverage.ends.refused(&Park::from_file(file), *refusal);
            }
        })?;
        self.coverage.reply(0);
        self.coverage.ends.accepted(&park);
        self.coverage.shape(&park);
        self.coverage.limits(&park);
        let mut bills = Vec::new();
        for site in 1..=park.sites.len() {
            let working = work_out(&park, site);
            self.coverage.site(&park, &working);
            bills.push(working.bill());
        }
        let before_tangents = former_tangents::bills(&park);
        let before_due = former_due::bills(&park);
        let before_stations = former_stations::bills(&park);
        Ok(Accepted { park, bills, before_tangents, before_due, before_stations })
    }

    fn compare_check(&mut self, file: &[u8], expected: &Result<Accepted, Refusal>) {
        let reply = self.product.check(file);
        self.same(format_args!("check"), reply_to(expected), reply);
        self.same_as_before(former::of_file(file), reply);
        self.same_reply_without_marks(former_stations::of_file(file), reply);
        self.same_reply_turned(file, reply);
    }

    /// Ends the work on a file or list: one with differences is counted, and told of.
    pub fn finish(&mut self, name: &str, case: Case) {
        if !self.notes.is_empty() {
            self.failed += 1;
            self.failures.tell(name, case, &std::mem::take(&mut self.notes), self.failed);
        }
    }
}
