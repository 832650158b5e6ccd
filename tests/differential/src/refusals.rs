//! Every refusal of the table at first, middle and last places, and two at once, in either version.
//! What a breach must be refused with is known from how it was made, and is held against the
//! calculator as well as against the product.

use crate::breaches::{of_header, of_inputs, of_line, of_site, Breach, FILE_RULES};
use crate::calculator::{check, Refusal};
use crate::compare::Tester;
use crate::generator_breaches::of_generator;
use crate::generator_parks::{five_with_generators, largest_with_generators};
use crate::park::Park;
use crate::parks::{five_sites, largest_park, places};
use crate::product::Reply;

pub fn run(tester: &mut Tester) {
    for (name, park) in [("five sites", five_sites()), ("the largest park", largest_park())] {
        let breaches = all_breaches(&park);
        for breach in &breaches {
            expect_breach(tester, name, &park, &[breach]);
        }
        pairs(tester, name, &park, breaches);
        cuts(tester, name, &park);
    }
    let five = ("five sites with generators", five_with_generators());
    let largest = ("the largest park with generators", largest_with_generators());
    for (name, park) in [&five, &largest] {
        for breach in &all_breaches(park) {
            expect_breach(tester, name, park, &[breach]);
        }
        cuts(tester, name, park);
    }
    pairs(tester, five.0, &five.1, all_breaches(&five.1));
    printed_refusals(tester);
}

/// Breaches of every rule, at first, middle and last places.
pub fn all_breaches(park: &Park) -> Vec<Breach> {
    let mut breaches = of_header(park);
    for place in places(park.sites.len()) {
        breaches.extend(of_site(park, place));
        breaches.push(of_inputs(park, place));
    }
    for place in places(park.lines.len()) {
        breaches.extend(of_line(park, place));
    }
    if !park.generators.is_empty() {
        let places = places(park.generators.len());
        breaches.extend(places.into_iter().flat_map(|place| of_generator(park, place)));
    }
    breaches
}

/// Applies breaches to a park's file, and holds the first in the order of checking against both.
fn expect_breach(tester: &mut Tester, name: &str, park: &Park, breaches: &[&Breach]) {
    let mut file = park.to_file();
    for breach in breaches.iter().filter(|breach| breach.length.is_none()) {
        breach.apply(&mut file);
    }
    for breach in breaches.iter().filter(|breach| breach.length.is_some()) {
        breach.apply(&mut file);
    }
    let first = breaches.iter().min_by_key(|breach| breach.order()).expect("a breach");
    let (number, place) = (first.number, first.place);
    tester.same(format_args!("calculator, check"), Err(Refusal { number, place }), check(&file));
    let reply = tester.product.check(&file);
    tester.same(format_args!("product, check"), Reply { number, place }, reply);
    tester.file(&format!("{name}, {breaches:?}"), &file);
}

/// Every two breaches that leave each other standing; the longest files are left out.
fn pairs(tester: &mut Tester, name: &str, park: &Park, mut breaches: Vec<Breach>) {
    breaches.retain(|breach| breach.length.is_none_or(|length| length < 10_000));
    for (index, one) in breaches.iter().enumerate() {
        for two in &breaches[index + 1..] {
            if !one.clashes_with(two) {
                expect_breach(tester, name, park, &[one, two]);
            }
        }
    }
}

/// The file cut to every length, the longest first, so that the bytes cut off still stand behind
/// it in memory.
fn cuts(tester: &mut Tester, name: &str, park: &Park) {
    let file = park.to_file();
    for length in (0..=file.len()).rev() {
        tester.file(&format!("{name}, cut to {length} bytes"), &file[..length]);
    }
}

/// What is printed for one breach of each rule that a version has.
fn printed_refusals(tester: &mut Tester) {
    for park in [five_sites(), five_with_generators()] {
        let breaches = all_breaches(&park);
        for number in FILE_RULES {
            let of_number = breaches.iter().rfind(|breach| breach.number == number);
            let Some(breach) = of_number else { continue };
            let mut file = park.to_file();
            breach.apply(&mut file);
            tester.print(&format!("printed, {breach:?}"), &file);
        }
    }
}
