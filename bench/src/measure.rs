//! Times of two kinds of calls over sets of files, taken in turns.
//!
//! What is timed touches no heap: the list, the bill and the buffer stand on the stack, the files
//! and the lists of their numbers were made before.

use std::hint::black_box;
use std::time::Instant;

use crate::calls::{Bill, Calls};
use crate::files::Files;

/// Every case is looked at in so many sweeps over all cases, so that a slow moment of the machine
/// falls on one sweep of each; odd, as the rounds are, so that one round is the median.
const SWEEPS: usize = 31;

/// Rounds over a set of files in one sweep.
const ROUNDS: usize = 21;

/// Which of the four calls is timed.
#[derive(Clone, Copy)]
pub enum Call {
    Check,
    /// The last site.
    BillSite,
    BillPark,
    /// Of the lists of the files' numbers.
    Encode,
}

/// Medians over the rounds: nanoseconds a park, and what the first takes for 1 of the second's.
pub struct Times {
    pub first: f64,
    pub second: f64,
    pub ratio: f64,
}

/// Times two kinds of calls over sets of files, each in as many rounds.
pub fn measure<A: Calls, B: Calls>(cases: &[(&Files, Call)]) -> Vec<Times> {
    let mut rounds = vec![Vec::new(); cases.len()];
    for sweep in 0..SWEEPS {
        deeper(sweep, &mut || {
            for ((files, call), rounds) in cases.iter().zip(&mut rounds) {
                add_sweep::<A, B>(files, *call, rounds);
            }
        });
    }
    rounds.iter().map(|rounds| times(rounds)).collect()
}

/// Runs something so many frames of 256 bytes and more further down the stack: where the stack
/// begins is another place in every run, and with it what the calls keep there.
#[inline(never)]
fn deeper(frames: usize, run: &mut dyn FnMut()) {
    let frame = [0u8; 256];
    black_box(&frame);
    match frames {
        0 => run(),
        _ => deeper(frames - 1, run),
    }
    black_box(&frame);
}

/// Adds the rounds of one sweep, in each of them both kinds one after the other, each first in turn.
fn add_sweep<A: Calls, B: Calls>(files: &Files, call: Call, rounds: &mut Vec<(f64, f64)>) {
    round::<A>(files, call);
    round::<B>(files, call);
    for turn in 0..ROUNDS {
        rounds.push(if turn % 2 == 0 {
            let first = round::<A>(files, call);
            (first, round::<B>(files, call))
        } else {
            let second = round::<B>(files, call);
            (round::<A>(files, call), second)
        });
    }
}

fn times(rounds: &[(f64, f64)]) -> Times {
    Times {
        first: median(rounds.iter().map(|(first, _)| *first)),
        second: median(rounds.iter().map(|(_, second)| *second)),
        ratio: median(rounds.iter().map(|(first, second)| first / second)),
    }
}

fn median(values: impl Iterator<Item = f64>) -> f64 {
    let mut values: Vec<f64> = values.collect();
    values.sort_by(f64::total_cmp);
    values[values.len() / 2]
}

/// One round over all files: nanoseconds a park.
fn round<C: Calls>(files: &Files, call: Call) -> f64 {
    let start = Instant::now();
    match call {
        Call::Check => check_all::<C>(files),
        Call::BillSite => bill_last_sites::<C>(files),
        Call::BillPark => bill_parks::<C>(files),
        Call::Encode => encode_all::<C>(files),
    }
    start.elapsed().as_nanos() as f64 / files.count() as f64
}

fn check_all<C: Calls>(files: &Files) {
    let mut place = 0;
    for file in files.iter() {
        black_box(C::check(black_box(file), &mut place));
        black_box(&mut place);
    }
}

fn bill_last_sites<C: Calls>(files: &Files) {
    let (mut place, mut bill): (u64, Bill) = (0, [0; 11]);
    for file in files.iter() {
        black_box(C::bill_site(black_box(file), &mut bill, black_box(files.sites), &mut place));
        black_box((&mut place, &mut bill));
    }
}

fn bill_parks<C: Calls>(files: &Files) {
    let (mut place, mut sites, mut list) = (0, 0, [0; 11 * 16]);
    for file in files.iter() {
        black_box(C::bill_park(black_box(file), &mut list, &mut place, &mut sites));
        black_box((&mut place, &mut sites, &mut list));
    }
}

/// Not inlined, so that its buffer is no part of the stack of the other calls.
#[inline(never)]
fn encode_all<C: Calls>(files: &Files) {
    let (mut place, mut size, mut file) = (0, 0, [0; 2_048]);
    for numbers in files.lists() {
        black_box(C::encode(black_box(numbers), &mut file, &mut place, &mut size));
        black_box((&mut place, &mut size, &mut file));
    }
}
