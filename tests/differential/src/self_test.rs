//! The self-test of the test program: the mock without a mistake must pass, and every mistake it
//! can make, some of them by one way to the surcharge alone too, must be found.

use std::thread;

use crate::compare::Tester;
use crate::failures::Failures;
use crate::layout::Version;
use crate::mistakes::{Mistake, ALL};
use crate::mock::Mock;
use crate::mock_one_way::{OneWay, BY_ONE_WAY};
use crate::product::{Product, Way};
use crate::{generated_run, list_limits, list_refusals, list_run};
use crate::{named, named_lists, named_marks, refusals, sweeps};

/// Files of each version generated for each mistake.
const FILES: u64 = 5_000;
/// Lists generated for each mistake.
const LISTS: u64 = 3_000;

/// The parts of the tests: five for files, four for lists, one for both.
const PARTS: [fn(&mut Tester, u64); 10] = [
    |tester, _| named::run(tester),
    |tester, _| refusals::run(tester),
    |tester, _| sweeps::run(tester),
    |tester, seed| generated_run::run(tester, Version::One, seed, FILES, 300),
    |tester, seed| generated_run::run(tester, Version::Two, seed, FILES, 300),
    |tester, _| named_lists::run(tester),
    |tester, _| list_refusals::run(tester),
    |tester, _| list_limits::run(tester),
    |tester, seed| list_run::run(tester, seed, LISTS, 30),
    |tester, _| named_marks::run(tester),
];

/// A mistake, and the way to the surcharge if it is made by one alone.
type Made = (Mistake, Option<Way>);

/// The mock that makes a mistake.
fn mistaken((mistake, way): Made) -> Box<dyn Product> {
    match way {
        Some(way) => Box::new(OneWay::new(mistake, way)),
        None => Box::new(Mock::new(Some(mistake))),
    }
}

/// In how many files and lists each part of the tests finds a difference.
fn differences(product: &dyn Product, seed: u64) -> [u64; PARTS.len()] {
    PARTS.map(|run| {
        let mut tester = Tester::new(product, Failures::Counted);
        run(&mut tester, seed);
        tester.failed
    })
}

/// The differences for each of some mistakes, worked out at the same time.
fn differences_of(mistakes: &[Made], seed: u64) -> Vec<[u64; PARTS.len()]> {
    thread::scope(|scope| {
        let start = |made: &Made| {
            let made = *made;
            scope.spawn(move || differences(&*mistaken(made), seed))
        };
        let started: Vec<_> = mistakes.iter().map(start).collect();
        started.into_iter().map(|one| one.join().expect("no panic")).collect()
    })
}

/// Whether the test program passes its own test.
pub fn run(seed: u64) -> bool {
    println!("files with differences in the named cases, refusals, sweeps and generated files of");
    println!("versions 1 and 2,");
    println!("lists with differences in the named lists, refusals, limits and generated lists,");
    println!("and files and lists with differences in the named marks");
    let sound = differences(&Mock::new(None), seed);
    println!("{sound:>6?}  no mistake");
    let mut unfound = 0;
    let by_both = ALL.iter().map(|mistake| (*mistake, None));
    let by_one = BY_ONE_WAY.iter().map(|(mistake, way)| (*mistake, Some(*way)));
    let all: Vec<Made> = by_both.chain(by_one).collect();
    let processors = thread::available_parallelism().map_or(1, usize::from);
    for mistakes in all.chunks(processors) {
        for ((mistake, way), found) in mistakes.iter().zip(differences_of(mistakes, seed)) {
            let way = way.map_or(String::new(), |way| format!(" {way} alone"));
            println!("{found:>6?}  {mistake:?}{way}");
            unfound += (found == [0; PARTS.len()]) as u32;
        }
    }
    println!("self-test: {} mistakes, {unfound} not found", all.len());
    sound == [0; PARTS.len()] && unfound == 0
}
