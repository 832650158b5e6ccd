//! Files of version 2 with the mark of a station turned at every site (02, R-8), so that each site is
//! a station in one of the two files: the product must reply to both alike, and leave each site its
//! energies, its tangent, its Pc and its reason. Only the product is asked.

use crate::compare::Tester;
use crate::expect::{P2, P3, PC, PG, TOTAL};
use crate::former_stations::flag_offsets;
use crate::park::{Park, STATION};
use crate::product::{Reply, Way, UNWRITTEN};
use crate::steps::Bill;

/// The file with every mark turned. A flag above 3 stays so.
fn turned(file: &[u8]) -> Vec<u8> {
    let mut turned = file.to_vec();
    for offset in flag_offsets(file) {
        turned[offset] ^= STATION as u8;
    }
    turned
}

impl Tester<'_> {
    /// Compares the reply to a check with that to the file with its marks turned.
    pub fn same_reply_turned(&mut self, file: &[u8], reply: Reply) {
        let turned = turned(file);
        if turned != file {
            let got = self.product.check(&turned);
            self.same(format_args!("check, marks turned"), reply, got);
        }
    }

    /// Compares the product's bills of an accepted park by a way with those with its marks turned.
    pub fn same_bills_turned(&mut self, way: Way, file: &[u8], park: &Park, bills: &[Bill]) {
        let turned = turned(file);
        if turned == file {
            return;
        }
        let mut list = vec![UNWRITTEN; 11 * bills.len()];
        let reply = self.product.bill_park(way, &turned, &mut list);
        let accepted = (Reply { number: 0, place: 0 }, bills.len() as u64);
        self.same(format_args!("bill_park {way}, marks turned"), accepted, reply);
        for ((site, bill), other) in park.sites.iter().zip(bills).zip(list.as_chunks().0) {
            match site.is_station() {
                true => self.twins(way, bill, other),
                false => self.twins(way, other, bill),
            }
        }
    }

    /// Compares the bill of a station with that of the same site without the mark.
    fn twins(&mut self, way: Way, station: &Bill, site: &Bill) {
        let mut right = *site;
        (right[PG], right[P2], right[P3]) = (0, 0, station[P3]);
        right[TOTAL] = right[PC].wrapping_sub(right[P3]);
        self.same(format_args!("station {way} beside the same site"), right, *station);
        let no_more = station[P3] <= site[P3];
        self.same(format_args!("P3 of a station {way} not above the site's"), true, no_more);
    }
}
