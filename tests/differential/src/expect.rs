//! Expected answers written by hand, held against the calculator as well as against the product.

use crate::balance::balance;
use crate::calculator::{bill_park, bill_site, bills, check, printed, Bill, Refusal};
use crate::compare::Tester;
use crate::park::Park;
use crate::product::{Reply, UNWRITTEN, WAYS};

// Places of the eleven numbers.
pub const CONSUMPTION: usize = 0;
pub const TANGENT: usize = 1;
pub const SETTLED: usize = 2;
pub const CUT: usize = 3;
pub const GENERATION: usize = 4;
pub const PC: usize = 5;
pub const PG: usize = 6;
pub const P2: usize = 7;
pub const P3: usize = 8;
pub const TOTAL: usize = 9;
pub const REASON: usize = 10;

/// Holds a site's numbers, named by their places, against both, the product by both ways to the
/// surcharge; then everything about the file.
pub fn expect_numbers(
    tester: &mut Tester,
    name: &str,
    park: &Park,
    site: u64,
    numbers: &[(usize, u64)],
) {
    let file = park.to_file();
    let bill = bill_site(&file, site).expect("a named case is accepted");
    let bills = bill_park(&file, 11 * park.sites.len()).expect("a named case is accepted");
    for (place, value) in numbers {
        tester.same(format_args!("calculator, number {place}"), *value, bill[*place]);
        let in_park = bills[site as usize - 1][*place];
        tester.same(format_args!("calculator, number {place} in the park"), *value, in_park);
    }
    for way in WAYS {
        let mut bill = [UNWRITTEN; 11];
        tester.product.bill_site(way, &file, &mut bill, site);
        let mut list = vec![UNWRITTEN; 11 * park.sites.len()];
        tester.product.bill_park(way, &file, &mut list);
        for (place, value) in numbers {
            tester.same(format_args!("product {way}, number {place}"), *value, bill[*place]);
            let in_park = list[11 * (site as usize - 1) + *place];
            let what = format_args!("product {way}, number {place} in the park");
            tester.same(what, *value, in_park);
        }
    }
    tester.file(name, &file);
    tester.print(name, &file);
}

/// Holds the whole bill of a park's first site against both; then everything about the file.
pub fn expect_bill(tester: &mut Tester, name: &str, park: &Park, bill: &Bill) {
    let numbers: Vec<(usize, u64)> = bill.iter().copied().enumerate().collect();
    expect_numbers(tester, name, park, 1, &numbers);
}

/// Holds what is printed for a park, and every number in it, against both; then everything about the
/// file.
pub fn expect_printed(tester: &mut Tester, name: &str, park: &Park, text: &str) {
    let file = park.to_file();
    tester.same(format_args!("calculator, printed"), text, &printed(&file));
    let bytes = tester.product.printed(&file).unwrap_or_default();
    tester.same(format_args!("product, printed"), text.as_bytes(), &bytes);
    for row in text.lines().skip(1) {
        let numbers = row.split(',').map(|number| number.parse().expect("a number"));
        let numbers: Vec<u64> = numbers.collect();
        let places: Vec<(usize, u64)> = numbers[1..].iter().copied().enumerate().collect();
        expect_numbers(tester, name, park, numbers[0], &places);
    }
}

/// Holds the reply to a check against both, `None` for accepted; then everything about the file but
/// what is printed.
pub fn expect_check(tester: &mut Tester, name: &str, file: &[u8], refusal: Option<(u64, u64)>) {
    let right = match refusal {
        Some((number, place)) => Err(Refusal { number, place }),
        None => Ok(()),
    };
    tester.same(format_args!("calculator, check"), right, check(file));
    let (number, place) = refusal.unwrap_or((0, 0));
    let reply = tester.product.check(file);
    tester.same(format_args!("product, check"), Reply { number, place }, reply);
    tester.file(name, file);
}

/// The same, and what is printed.
pub fn expect_reply(tester: &mut Tester, name: &str, file: &[u8], refusal: Option<(u64, u64)>) {
    expect_check(tester, name, file, refusal);
    tester.print(name, file);
}

/// Compares what demand 3 comes to in a park of two sites: by the calculator, and by the product's bills
/// either way. Expected are the energy, both settled and at the network, whether the charges are asked
/// for, and how far they are from its price, in ten-millionths of a kopeck.
pub fn expect_balance(tester: &mut Tester, name: &str, park: &Park, expected: (i128, bool, i128)) {
    let (energy, asked, difference) = expected;
    let right = Some((energy, energy, asked, difference));
    let got = |bills: &[Bill]| {
        balance(park, bills)
            .map(|one| (one.settled, one.network, one.charges_asked, one.difference))
    };
    tester.same(format_args!("{name}, calculator"), right, got(&bills(park)));
    let file = park.to_file();
    for way in WAYS {
        let mut list = [UNWRITTEN; 22];
        tester.product.bill_park(way, &file, &mut list);
        tester.same(format_args!("{name} {way}"), right, got(list.as_chunks().0));
    }
    tester.file(name, &file);
}
