//! Compares the time of the product's four calls with plain Rust that was written to be fast, and of
//! its billing calls by the two ways to the surcharge with each other.
//!
//! How it is made fair:
//! - Both get the same files in the same run, in rounds that take turns, and each is first in every
//!   second round, so that both see the same state of the machine. The rounds are spread over the
//!   whole of a table and over places of the stack, on which the times of short calls depend.
//! - The library is compiled by LLVM at -O3 for any x86-64, and so is the plain Rust (opt-level 3,
//!   one codegen unit, no target-cpu). Neither is inlined into the loop that times it.
//! - Both make the same checks: every file is first put to both, as it is, with bytes changed, cut
//!   short and too long, and they must leave the same numbers in every call; so must files with all
//!   numbers, or tangents, or what is due, at their limits. The lists of the files' numbers are put to both in the
//!   same way, also with numbers too large for their fields, and both must make the same files.
//!   Every refusal must be among the answers. Files of both versions are put to both.
//! - The plain Rust is safe Rust, written to be fast: one quick test of a line, with the rules by
//!   number for a bad file alone; the lines of one site picked out as a set of bits; sums of 32 bits
//!   and what follows from a meter mark looked up; a second walk over the unmetered transits alone,
//!   a tangent without integer division and a bill without branches; the counts of a site in one
//!   number; losses by generation as floating-point numbers, which are exact here; rows of totals
//!   that need no aligned stack, and fewer of them to clear in a small park; code of its own for
//!   each version, so that version 1 pays nothing for version 2. How it makes a file is told in
//!   encode.rs.
//!
//! A ratio is the median of the rounds' ratios: what the product takes for 1 of plain's time. The
//! table of four calls on three parks is printed last, with version 2 of the same parks beside
//! version 1; encode makes version 1 alone. The smallest park and Alder then have one generator,
//! the largest has 32. Below it is `ratio` with that of bill_park on the largest park in version 1.
//! The three calls on a file are timed together, encode after them. Before it stands what the billing
//! calls take by the surcharge's table for 1 of their time by its formula.

mod agree;
mod agree_2;
mod agree_lists;
mod calls;
mod encode;
mod files;
mod files_2;
mod measure;
mod plain;
mod random;
mod records;
mod refusals;
mod rules;
mod totals;

use calls::{ByTable, Plain, Product};
use files::Files;
use measure::{measure, Call, Times};
use random::Random;
use records::MOST_GENERATORS;

const SEED: u64 = 20_240_411;

const FILE_CALLS: [(Call, &str); 3] =
    [(Call::Check, "check"), (Call::BillSite, "bill_site"), (Call::BillPark, "bill_park")];

const BILLING_CALLS: [(Call, &str); 2] =
    [(Call::BillSite, "bill_site"), (Call::BillPark, "bill_park")];

/// One shape of park, in both versions.
struct Park {
    name: &'static str,
    version_1: Files,
    version_2: Files,
}

fn main() {
    let of_shape = |seed, sites, lines| Files::of_shape(Random::new(seed), sites, lines);
    let parks = [
        Park::new("smallest", of_shape(SEED, 1, 1), 1),
        Park::new("Alder", Files::of_alder(Random::new(SEED + 1)), 1),
        Park::new("largest", of_shape(SEED + 2, 16, 64), MOST_GENERATORS),
    ];
    let by_lines = [1, 2, 4, 8, 16, 32, 64].map(|lines| of_shape(SEED + 3, 1, lines));
    let by_sites = [1, 2, 4, 8, 16].map(|sites| of_shape(SEED + 4, sites, 64));
    let of_parks = parks.iter().flat_map(|park| [&park.version_1, &park.version_2]);
    let timed = of_parks.chain(&by_lines).chain(&by_sites);
    assert_agree(&timed.collect::<Vec<_>>());

    print_growth("one site", &by_lines);
    print_growth("64 lines", &by_sites);
    print_ways(&parks);
    let ratio = print_calls(&parks);
    println!("ratio {ratio:.2}");
}

impl Park {
    /// Version 2 has so many generators.
    fn new(name: &'static str, version_1: Files, generators: u8) -> Park {
        let version_2 = Files::of_version_2(&version_1, Random::new(SEED + 8), generators);
        Park { name, version_1, version_2 }
    }
}

/// Panics unless product and plain answer alike for the files to be timed, and for others with
/// numbers at their limits, and unless every refusal was among the answers.
fn assert_agree(timed: &[&Files]) {
    agree::assert_alder();
    agree_2::assert_alder();
    agree_lists::assert_alder();
    let at_limits = [(1, 1), (1, 64), (2, 8), (3, 64), (16, 16), (16, 64)]
        .map(|(sites, lines)| Files::of_shape(Random::to_the_limits(SEED + 5), sites, lines));
    let (most, tangents, limits) = (Files::of_most(), Files::of_tangents(), Files::of_limits());
    let of_version_1: Vec<_> = at_limits.iter().chain([&most, &tangents, &limits]).collect();
    let mut of_version_2 = vec![Files::of_most_active(&most)];
    for (files, generators) in of_version_1.iter().zip([1, 32, 0, 5, 32, 8, 32, 2, 1]) {
        let random = Random::to_the_limits(SEED + 9);
        of_version_2.push(Files::of_version_2(files, random, generators));
    }
    let (mut count, mut of_files, mut of_lists) = (0, 0, 0);
    for files in timed.iter().copied().chain(of_version_1).chain(&of_version_2) {
        count += files.count();
        of_files |= agree::assert_agree(files, SEED + 6);
        of_lists |= agree_lists::assert_agree(files, SEED + 7);
    }
    // Bits 0 to 27: accepted, and the refusals.
    let all_but = |others: &[u32]| others.iter().fold((1 << 28) - 1, |bits, n| bits & !(1 << n));
    assert_eq!(of_files, all_but(&[22]), "accepted, and the refusals of a file");
    let of_list = all_but(&[2, 3, 20, 21, 25, 26, 27]);
    assert_eq!(of_lists, of_list, "accepted, and the refusals of a list");
    println!("product and plain agree on {count} files of both versions, on the lists of those");
    println!("of version 1, and on each one damaged in four ways; each of the 27 refusals was");
    println!("among the answers\n");
}

/// Prints how the time of bill_park grows over sets of growing shape.
fn print_growth(name: &str, sets: &[Files]) {
    println!("{:<10} {name:<10} {NAMES}", "bill_park");
    let cases: Vec<_> = sets.iter().map(|files| (files, Call::BillPark)).collect();
    for (files, times) in sets.iter().zip(measure::<Product, Plain>(&cases)) {
        let shape = (format!("{} sites", files.sites), format!("{} lines", files.lines));
        println!("{:<10} {:<10} {}", shape.0, shape.1, numbers(&times));
    }
    println!();
}

/// Calls on the files of each park, in version 1 and in version 2.
fn cases_of<'p>(parks: &'p [Park], calls: &[(Call, &str)]) -> Vec<(&'p Files, Call)> {
    let of_park = |park: &'p Park| {
        let of_call =
            |(call, _): &(Call, &str)| [(&park.version_1, *call), (&park.version_2, *call)];
        calls.iter().flat_map(of_call).collect::<Vec<_>>()
    };
    parks.iter().flat_map(of_park).collect()
}

/// Prints the billing calls by the table of the surcharge's factors and by its formula for each park,
/// version 2 beside version 1.
fn print_ways(parks: &[Park]) {
    let names = "  table ns   formula  ratio";
    let times = measure::<ByTable, Product>(&cases_of(parks, &BILLING_CALLS));
    println!("{:<21} {:<28}   version 2", "", "version 1");
    println!("{:<10} {:<10} {names}   {names}", "park", "call");
    let (both, _) = times.as_chunks();
    for (park, both) in parks.iter().zip(both.chunks_exact(BILLING_CALLS.len())) {
        print_both(park, &BILLING_CALLS, both);
    }
    println!();
}

/// Prints the four calls for each park, version 2 beside version 1, and gives the ratio of
/// bill_park on the last park, the largest, in version 1.
fn print_calls(parks: &[Park]) -> f64 {
    let of_files = measure::<Product, Plain>(&cases_of(parks, &FILE_CALLS));
    let cases: Vec<_> = parks.iter().map(|park| (&park.version_1, Call::Encode)).collect();
    let of_lists = measure::<Product, Plain>(&cases);

    println!("{:<21} {:<28}   version 2", "", "version 1");
    println!("{:<10} {:<10} {NAMES}   {NAMES}", "park", "call");
    let (both, _) = of_files.as_chunks();
    for ((park, both), of_list) in
        parks.iter().zip(both.chunks_exact(FILE_CALLS.len())).zip(&of_lists)
    {
        print_both(park, &FILE_CALLS, both);
        println!("{:<10} {:<10} {}", park.name, "encode", numbers(of_list));
    }
    println!();
    both[both.len() - 1][0].ratio
}

/// Prints the times of calls for a park, each in both versions.
fn print_both(park: &Park, calls: &[(Call, &str)], both: &[[Times; 2]]) {
    for ((_, call), [of_1, of_2]) in calls.iter().zip(both) {
        println!("{:<10} {call:<10} {}   {}", park.name, numbers(of_1), numbers(of_2));
    }
}

/// The names of what `numbers` gives of product and plain.
const NAMES: &str = "product ns  plain ns  ratio";

fn numbers(times: &Times) -> String {
    let Times { first, second, ratio } = times;
    format!("{first:>10.1} {second:>9.1} {ratio:>6.2}")
}
