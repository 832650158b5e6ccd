//! The bills of before R-4 (02), by 01's own steps: step 2 limits tg to 2,000, and step 10 has no limit;
//! WP0 and step 7 are those of now.
//! Every site must be billed as then, but that a tg of 2,000 may stand for a larger one.

use crate::compare::Tester;
use crate::park::Park;
use crate::product::Way;
use crate::steps::{round, work_out_by, Bill, ChangedSteps, STEPS};

const TANGENT_STEPS: ChangedSteps = ChangedSteps { tangent, surcharge, ..STEPS };

/// The former step 2.
fn tangent(reactive: i128, active: i128) -> i128 {
    match active {
        0 => 800,
        _ if reactive > 2 * active => 2_000,
        _ => round(1_000 * reactive, active),
    }
}

/// The former step 10.
fn surcharge(charge: i128, tangent: i128) -> i128 {
    match tangent {
        0..=250 => 0,
        _ => round(charge * (tangent - 250) * (tangent - 250), 1_000_000),
    }
}

/// The bills that all sites of an accepted park had.
pub fn bills(park: &Park) -> Vec<Bill> {
    (1..=park.sites.len()).map(|site| work_out_by(park, site, &TANGENT_STEPS).bill()).collect()
}

impl Tester<'_> {
    /// Compares bills of the product by a way with those of before, the tangents limited as then.
    pub fn same_bills_as_before(&mut self, way: Way, former: &[Bill], bills: &[Bill]) {
        for (former, bill) in former.iter().zip(bills) {
            let mut limited = *bill;
            limited[1] = limited[1].min(2_000);
            self.same(format_args!("bill {way} as before R-4"), *former, limited);
        }
    }
}
