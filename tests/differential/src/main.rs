//! The differential test program of the park bill: a calculator written from papers 01 and 02 (R-1
//! to R-8) alone, held against the product's six calls and its program parkbill. Every file is
//! billed by both ways to the surcharge; the calculator works it out by the formula.
//!
//! - `park_tests` runs the named cases, the example files, the refusals, the sweeps and the generated
//!   files, and for lists of a park's numbers the named ones, refusals, limits and generated ones,
//!   and for both the named marks;
//! - `park_tests self-test` holds this program to finding injected mistakes;
//! - `park_tests file PATH ...` compares given files, such as those of ./failures;
//! - `park_tests list PATH ...` compares given lists, such as those of ./failures.
//!
//! Settings from the environment: PARK_SEED, PARK_FILES and PARK_LISTS (the generated files of
//! version 1, half as many of version 2, and lists), PARK_SAMPLE (how many of the files are printed
//! too, and a tenth as many of those made from lists), PARKBILL (the program, by default
//! ../../crates/parkbill/out/parkbill seen from this package). Exit code: 0 if all agree and every
//! branch was reached, else 1.

mod balance;
mod bill_compare;
mod branches;
mod breaches;
mod calculator;
mod compare;
mod coverage;
mod damage;
mod due;
mod due_branches;
mod due_coverage;
mod due_sweeps;
mod ends_coverage;
mod examples;
mod expect;
mod failures;
mod fields;
mod former;
mod former_due;
mod former_generators;
mod former_stations;
mod former_tangents;
mod generate;
mod generate_due;
mod generate_generators;
mod generate_stations;
mod generated_run;
mod generator_branches;
mod generator_breaches;
mod generator_damage;
mod generator_parks;
mod generator_sweeps;
mod generators_coverage;
mod kinds_coverage;
mod layout;
mod list;
mod list_breaches;
mod list_compare;
mod list_coverage;
mod list_damage;
mod list_limits;
mod list_refusals;
mod list_run;
mod marks_coverage;
mod mistakes;
mod mock;
mod mock_active;
mod mock_calls;
mod mock_due;
mod mock_encode;
mod mock_ends;
mod mock_flags;
mod mock_generators;
mod mock_last;
mod mock_layout;
mod mock_marks;
mod mock_one_way;
mod mock_stations;
mod mock_steps;
mod mock_surcharge;
mod mock_tangents;
mod named;
mod named_due;
mod named_ends;
mod named_flags;
mod named_generators;
mod named_lists;
mod named_marks;
mod named_second;
mod named_second_marks;
mod named_stations;
mod named_struck;
mod named_tangents;
mod park;
mod parks;
mod product;
mod random;
mod refusals;
mod refused_coverage;
mod rules;
mod self_test;
mod shape_coverage;
mod shapes;
mod station_branches;
mod station_damage;
mod station_sweeps;
mod stations_coverage;
mod stations_refused;
mod stations_table;
mod steps;
mod sweeps;
mod table_sweeps;
mod tangents_coverage;
mod touching;
mod turned_marks;

use std::env;
use std::fs;
use std::path::{Path, PathBuf};
use std::process::ExitCode;
use std::time::Instant;

use crate::compare::Tester;
use crate::failures::Failures;
use crate::layout::Version;
use crate::product::Product;

const DEFAULT_SEED: u64 = 87;
const DEFAULT_FILES: u64 = 200_000;
const DEFAULT_LISTS: u64 = 60_000;
const DEFAULT_SAMPLE: u64 = 300;

fn main() -> ExitCode {
    let arguments: Vec<String> = env::args().skip(1).collect();
    let words: Vec<&str> = arguments.iter().map(String::as_str).collect();
    let good = match words[..] {
        [] => run_tests(),
        ["self-test"] => self_test::run(setting("PARK_SEED", DEFAULT_SEED)),
        ["file", _, ..] => compare_files(&words[1..]),
        ["list", _, ..] => compare_lists(&words[1..]),
        _ => {
            println!("usage: park_tests [self-test | file PATH ... | list PATH ...]");
            false
        }
    };
    if good {
        ExitCode::SUCCESS
    } else {
        ExitCode::FAILURE
    }
}

/// A number from the environment, or what it is by default.
fn setting(name: &str, default: u64) -> u64 {
    match env::var(name) {
        Ok(text) => text.parse().unwrap_or_else(|_| panic!("{name} is not a number: {text}")),
        Err(_) => default,
    }
}

fn in_package(path: &str) -> PathBuf {
    Path::new(env!("CARGO_MANIFEST_DIR")).join(path)
}

fn product() -> impl Product {
    let named = env::var_os("PARKBILL").map(PathBuf::from);
    let program = named.unwrap_or_else(|| in_package("../../crates/parkbill/out/parkbill"));
    if !program.is_file() {
        println!("no program parkbill at {}", program.display());
        std::process::exit(1);
    }
    product::Linked { program }
}

fn run_tests() -> bool {
    let seed = setting("PARK_SEED", DEFAULT_SEED);
    let files = setting("PARK_FILES", DEFAULT_FILES);
    let lists = setting("PARK_LISTS", DEFAULT_LISTS);
    let sample = setting("PARK_SAMPLE", DEFAULT_SAMPLE);
    println!("seed {seed}, {files} generated files, about {sample} of them printed");
    println!("{} generated files of version 2, about {} of them printed", files / 2, sample / 2);
    println!("{lists} generated lists, about {} of the files made printed", sample / 10);
    let product = product();
    let mut tester = Tester::new(&product, Failures::Saved(in_package("failures")));
    timed("named cases", &mut tester, named::run);
    timed("named lists", &mut tester, named_lists::run);
    timed("named marks", &mut tester, named_marks::run);
    timed("examples", &mut tester, run_examples);
    timed("refusals", &mut tester, refusals::run);
    timed("refusals of lists", &mut tester, list_refusals::run);
    timed("sweeps", &mut tester, sweeps::run);
    timed("limits of lists", &mut tester, list_limits::run);
    timed("generated files", &mut tester, |t| {
        generated_run::run(t, Version::One, seed, files, sample)
    });
    timed("generated files of version 2", &mut tester, |t| {
        generated_run::run(t, Version::Two, seed, files / 2, sample / 2)
    });
    timed("generated lists", &mut tester, |t| list_run::run(t, seed, lists, sample / 10));
    let missing = tester.coverage.print();
    for name in &missing {
        println!("never reached: {name}");
    }
    let Tester { checks, files, lists, failed, .. } = tester;
    let cases = format!("{files} files and {lists} lists");
    println!("tests: {checks} checks on {cases}, seed {seed}, {failed} differences");
    failed == 0 && missing.is_empty()
}

/// Runs a part, and prints what it did and how long it took.
fn timed(name: &str, tester: &mut Tester, part: impl FnOnce(&mut Tester)) {
    let (files, lists, failed) = (tester.files, tester.lists, tester.failed);
    let start = Instant::now();
    part(tester);
    let seconds = start.elapsed().as_secs_f64();
    let (files, lists, failed) =
        (tester.files - files, tester.lists - lists, tester.failed - failed);
    println!("{name}: {files} files, {lists} lists, {failed} differences, {seconds:.1} s");
}

fn run_examples(tester: &mut Tester) {
    let folder = in_package("../../examples");
    examples::run(tester, &folder).unwrap_or_else(|error| panic!("{}: {error}", folder.display()));
}

fn compare_files(paths: &[&str]) -> bool {
    let product = product();
    let mut tester = Tester::new(&product, Failures::Printed);
    for path in paths {
        let file = match fs::read(path) {
            Ok(file) => file,
            Err(error) => {
                println!("{path}: {error}");
                return false;
            }
        };
        println!("{path}, as the calculator prints it:");
        print!("{}", calculator::printed(&file));
        tester.file(path, &file);
        tester.print(path, &file);
    }
    println!("{} checks, {} differences", tester.checks, tester.failed);
    tester.failed == 0
}

fn compare_lists(paths: &[&str]) -> bool {
    let product = product();
    let mut tester = Tester::new(&product, Failures::Printed);
    for path in paths {
        let numbers = match failures::read_list(path) {
            Ok(numbers) => numbers,
            Err(error) => {
                println!("{path}: {error}");
                return false;
            }
        };
        let made = calculator::encode(&numbers, usize::MAX);
        println!("{path}, as the calculator makes it: {made:?}");
        tester.list(path, &numbers);
        if made.is_ok() {
            tester.print_made(path, &numbers);
        }
    }
    println!("{} checks, {} differences", tester.checks, tester.failed);
    tester.failed == 0
}
