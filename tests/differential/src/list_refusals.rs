//! Every refusal of a list (02, R-1) at first, middle and last places, and two at once. What a
//! breach must be refused with is known from how it was made, and is held against the calculator
//! as well as against the product.

use crate::calculator::{encode, Refusal};
use crate::compare::Tester;
use crate::failures::Case;
use crate::former;
use crate::list_breaches::{all_list_breaches, ListBreach};
use crate::park::Park;
use crate::parks::{five_sites, largest_park};
use crate::product::Reply;

/// Longer than any file.
const BUFFER: usize = 1_600;

pub fn run(tester: &mut Tester) {
    for (name, park) in [("five sites", five_sites()), ("the largest park", largest_park())] {
        for breach in &all_list_breaches(&park) {
            let numbers = expect_breach(tester, &park, &[breach]);
            tester.list(&format!("list of {name}, {breach:?}"), &numbers);
        }
        counts(tester, name, &park);
    }
    pairs(tester, "five sites", &five_sites());
}

/// Applies breaches to a park's list, and holds the first in the order of checking against both,
/// for a buffer that is long enough and for one that rule 22 would refuse; returns the list.
fn expect_breach(tester: &mut Tester, park: &Park, breaches: &[&ListBreach]) -> Vec<u32> {
    let mut numbers = park.to_list();
    for breach in breaches.iter().filter(|breach| breach.count.is_none()) {
        breach.apply(&mut numbers);
    }
    for breach in breaches.iter().filter(|breach| breach.count.is_some()) {
        breach.apply(&mut numbers);
    }
    let first = breaches.iter().min_by_key(|breach| breach.order()).expect("a breach");
    let (number, place) = (first.number, first.place);
    for length in [BUFFER, 0] {
        let mut buffer = [0x99; BUFFER];
        let answer = encode(&numbers, length);
        tester.same(format_args!("calculator, encode"), Err(Refusal { number, place }), answer);
        let reply = tester.product.encode(&numbers, &mut buffer[..length]);
        tester.same(format_args!("product, encode"), (Reply { number, place }, 0), reply);
        tester.same_as_before(former::of_list(&numbers), reply.0);
        tester.same(format_args!("product, buffer kept"), true, buffer == [0x99; BUFFER]);
    }
    numbers
}

/// Every two breaches that leave each other standing; the longest lists are left out.
fn pairs(tester: &mut Tester, name: &str, park: &Park) {
    let mut breaches = all_list_breaches(park);
    breaches.retain(|breach| breach.count.is_none_or(|count| count < 1_000));
    for (index, one) in breaches.iter().enumerate() {
        for two in breaches[index + 1..].iter().filter(|two| !one.clashes_with(two)) {
            let numbers = expect_breach(tester, park, &[one, two]);
            tester.lists += 1;
            tester.finish(&format!("list of {name}, {one:?}, {two:?}"), Case::List(&numbers));
        }
    }
}

/// The list of every count up to a few too many, the longest first, so that the numbers cut off
/// still stand behind it in memory.
fn counts(tester: &mut Tester, name: &str, park: &Park) {
    let mut numbers = park.to_list();
    let again = numbers.clone();
    numbers.extend(&again[5..20]);
    while !numbers.is_empty() {
        tester.list(&format!("list of {name}, {} numbers", numbers.len()), &numbers);
        numbers.pop();
    }
    tester.list(&format!("list of {name}, no numbers"), &numbers);
}
