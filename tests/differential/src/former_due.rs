//! The bills of before R-7 (02), by 01's step 7: where the reason was 0 both charges were due; the
//! other steps are those of now. Every site must be billed as then, but that a charge below the
//! limit of its own is 0, and that P3 and the total are taken from what remains.

use crate::compare::Tester;
use crate::due::Due;
use crate::expect::{CONSUMPTION, GENERATION, P2, P3, PC, PG, REASON, TOTAL};
use crate::park::Park;
use crate::product::Way;
use crate::steps::{work_out_by, Bill, ChangedSteps, STEPS};

const DUE_STEPS: ChangedSteps = ChangedSteps { due, ..STEPS };

/// The former step 7.
fn due(power: u32, consumption: i128, generation: i128) -> Due {
    let reason = match power {
        0..=15 => 1,
        _ if consumption < 1_000 && generation < 10_000 => 2,
        _ => 0,
    };
    Due { consumption: reason == 0, generation: reason == 0, reason }
}

/// The bills that all sites of an accepted park had.
pub fn bills(park: &Park) -> Vec<Bill> {
    (1..=park.sites.len()).map(|site| work_out_by(park, site, &DUE_STEPS).bill()).collect()
}

/// What is left of a former bill when P3 is now this.
fn left(former: &Bill, discount: u64) -> Bill {
    let (used, made) = (former[CONSUMPTION] >= 1_000, former[GENERATION] >= 10_000);
    let struck: &[usize] = match (former[REASON], used, made) {
        (0, true, false) => &[PG],
        (0, false, true) => &[PC, P2],
        _ => return *former,
    };
    let mut left = *former;
    for place in struck {
        left[*place] = 0;
    }
    left[P3] = discount;
    left[TOTAL] = (left[PC] + left[PG] + left[P2]).wrapping_sub(discount);
    left
}

impl Tester<'_> {
    /// Compares bills of the product by a way with what is left of those of before.
    pub fn same_but_not_due(&mut self, way: Way, former: &[Bill], bills: &[Bill]) {
        for (former, bill) in former.iter().zip(bills) {
            let right = left(former, bill[P3]);
            self.same(format_args!("bill {way} as before R-7"), right, *bill);
            self.same(
                format_args!("P3 {way} not above that of before R-7"),
                true,
                bill[P3] <= former[P3],
            );
        }
    }
}
