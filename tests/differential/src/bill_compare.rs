//! The bills of one file by one way to the surcharge (02, R-6), asked of the calculator and of the
//! product: the two billing calls with sites and list lengths on both sides of what is right, the
//! loss balance, the bills of before, and those with every station's mark turned.
//! The calculator knows the formula alone.

use crate::balance::balance;
use crate::calculator::{Bill, Refusal};
use crate::compare::{reply_to, Accepted, Tester};
use crate::product::Way;

/// Numbers kept free on both sides of a list, which no call may touch.
const GUARD: usize = 16;

const NO_SUCH_SITE: Refusal = Refusal { number: 20, place: 0 };
const LIST_TOO_SHORT: Refusal = Refusal { number: 21, place: 0 };

/// A number that no bill holds, other for every place and salt.
fn filler(salt: usize, place: usize) -> u64 {
    !((salt as u64) << 32 | place as u64)
}

/// The numbers as they are before a call: fillers in every place.
fn filled(salt: usize, length: usize) -> Vec<u64> {
    (0..length).map(|place| filler(salt, place)).collect()
}

impl Tester<'_> {
    pub fn compare_bills(&mut self, way: Way, file: &[u8], expected: &Result<Accepted, Refusal>) {
        let one_by_one = self.compare_sites(way, file, expected);
        let at_once = self.compare_lists(way, file, expected);
        let Ok(accepted) = expected else { return };
        for bills in [&one_by_one, &at_once] {
            self.compare_balance(way, accepted, bills);
            self.same_bills_as_before(way, &accepted.before_tangents, bills);
            self.same_but_not_due(way, &accepted.before_due, bills);
            self.same_but_stations(way, &accepted.park, &accepted.before_stations, bills);
        }
        self.same_without_generators(way, &accepted.park, &at_once);
        self.same_bills_turned(way, file, &accepted.park, &at_once);
        self.coverage.balance(balance(&accepted.park, &at_once));
    }

    /// Bills sites there are and sites there are not; returns the bills of sites 1 to s.
    fn compare_sites(
        &mut self,
        way: Way,
        file: &[u8],
        expected: &Result<Accepted, Refusal>,
    ) -> Vec<Bill> {
        let sites = expected.as_ref().map_or(1, |accepted| accepted.bills.len() as u64);
        let strange = [0, sites + 1, 255, 256, 257, 256 + sites, (1 << 32) + 1, u64::MAX];
        let mut bills = Vec::new();
        for site in (1..=sites).chain(strange) {
            let answer = match expected {
                Err(refusal) => Err(*refusal),
                Ok(accepted) if (1..=sites).contains(&site) => {
                    Ok(accepted.bills[site as usize - 1])
                }
                Ok(_) => Err(NO_SUCH_SITE),
            };
            let before: Bill = std::array::from_fn(|place| filler(site as usize & 0xFFFF, place));
            let mut bill = before;
            let reply = self.product.bill_site(way, file, &mut bill, site);
            self.same(format_args!("bill_site {way}, {site}"), reply_to(&answer), reply);
            let right = answer.unwrap_or(before);
            self.same(format_args!("bill_site {way}, {site}, bill"), right, bill);
            if answer == Err(NO_SUCH_SITE) {
                self.coverage.reply(20);
            }
            if (1..=sites).contains(&site) {
                bills.push(bill);
            }
        }
        bills
    }

    /// Bills the park into lists too short, just long enough and longer; returns the bills that
    /// the list just long enough held.
    fn compare_lists(
        &mut self,
        way: Way,
        file: &[u8],
        expected: &Result<Accepted, Refusal>,
    ) -> Vec<Bill> {
        let least = match expected {
            Ok(accepted) => 11 * accepted.bills.len(),
            Err(_) => 11 * file.get(6).map_or(1, |sites| (*sites as usize).clamp(1, 16)),
        };
        let mut bills = Vec::new();
        for length in [0, 1, least - 1, least, least + 1, least + 11, 11 * 16, 11 * 16 + 300] {
            let answer = match expected {
                Err(refusal) => Err(*refusal),
                Ok(_) if length < least => Err(LIST_TOO_SHORT),
                Ok(accepted) => Ok(&accepted.bills),
            };
            let list = self.compare_list(way, file, length, answer);
            if length == least {
                bills =
                    list.chunks_exact(11).map(|bill| bill.try_into().expect("eleven")).collect();
            }
        }
        bills
    }

    /// Bills the park into one list, and returns it.
    fn compare_list(
        &mut self,
        way: Way,
        file: &[u8],
        length: usize,
        answer: Result<&Vec<Bill>, Refusal>,
    ) -> Vec<u64> {
        let mut right = filled(length, length + 2 * GUARD);
        let mut list = right.clone();
        let (reply, sites) = self.product.bill_park(way, file, &mut list[GUARD..GUARD + length]);
        let mut right_sites = 0;
        if let Ok(bills) = answer {
            right_sites = bills.len() as u64;
            right[GUARD..GUARD + 11 * bills.len()].copy_from_slice(bills.as_flattened());
        }
        self.same(format_args!("bill_park {way}, {length}"), reply_to(&answer), reply);
        self.same(format_args!("bill_park {way}, {length}, sites"), right_sites, sites);
        self.checks += 1;
        if let Some(place) = (0..list.len()).find(|place| list[*place] != right[*place]) {
            let (expected, got) = (right[place], list[place]);
            let place = place as i64 - GUARD as i64;
            let what = format_args!("bill_park {way}, {length}, list place {place}");
            self.note(format_args!("{what}\n  expected {expected}\n  got      {got}"));
        }
        if answer == Err(LIST_TOO_SHORT) {
            self.coverage.reply(21);
        }
        list[GUARD..GUARD + length].to_vec()
    }

    /// The loss balance, where its condition is met.
    fn compare_balance(&mut self, way: Way, accepted: &Accepted, bills: &[Bill]) {
        if let Some(balance) = balance(&accepted.park, bills) {
            self.checks += 1;
            if !balance.holds() {
                self.note(format_args!("the loss balance does not hold {way}: {balance:?}"));
            }
        }
    }
}
