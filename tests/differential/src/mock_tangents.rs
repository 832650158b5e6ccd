//! The second path's tangent (02, R-4): what step 2 makes it, what steps 3 and 10 take of it, and how
//! it is shown.

use crate::mistakes::Mistake;
use crate::mock::Mock;
use crate::product::Way;
use crate::steps::Bill;

impl Mock {
    /// Step 2, with WQ0 and WP0 before their cuts.
    pub fn tangent(&self, reactive: i64, active: i64) -> i64 {
        if active <= 0 {
            return if self.makes(Mistake::TangentZeroOfNothing) { 0 } else { 800 };
        }
        let tangent = self.round(1_000 * reactive.max(0), active);
        match self.0 {
            Some(Mistake::TangentTakenAsFourBytes) => (tangent as u32).min(99_999) as i64,
            Some(Mistake::TangentZeroAboveLimit) if tangent > 99_999 => 0,
            Some(Mistake::TangentLimitOneLower) => tangent.min(99_998),
            Some(Mistake::TangentLimitOneHigher) => tangent.min(100_000),
            Some(Mistake::TangentUnlimited | Mistake::TangentRefusedAboveLimit) => tangent,
            _ => tangent.min(99_999),
        }
    }

    /// What step 3 takes of a tangent.
    pub fn transit_tangent(&self, tangent: i64) -> i64 {
        match self.0 {
            Some(Mistake::TransitEstimatedByNorm) => 800,
            Some(Mistake::TransitLimitOfTwo) => tangent.min(2_000),
            Some(Mistake::TransitUnlimited) => tangent,
            _ => tangent.min(800),
        }
    }

    /// What step 10 takes of a tangent.
    pub fn surcharge_tangent(&self, tangent: i64) -> i64 {
        match self.0 {
            Some(Mistake::SurchargeLimitOneLower) => tangent.min(1_999),
            Some(Mistake::SurchargeLimitOneHigher) => tangent.min(2_001),
            Some(Mistake::SurchargeUnlimited) => tangent,
            _ => tangent.min(2_000),
        }
    }

    /// How the bill of a site with this WP0 before its cut and this reason shows a tangent.
    pub fn shown_tangent(&self, tangent: i64, active: i64, reason: i64) -> i64 {
        match self.0 {
            Some(Mistake::FormerTangent) => tangent.min(2_000),
            Some(Mistake::FormerTangentIfNothingDue) if reason != 0 => tangent.min(2_000),
            Some(Mistake::TangentTakenAsTwoBytes) => tangent as u16 as i64,
            Some(Mistake::TangentMostOfNothing) if active <= 0 => 99_999,
            _ => tangent,
        }
    }

    /// A bill, its tangent limited as before R-4 if this mistake is made.
    pub fn former_tangent_if(&self, mistake: Mistake, mut bill: Bill) -> Bill {
        if self.makes(mistake) {
            bill[1] = bill[1].min(2_000);
        }
        bill
    }

    /// A bill as it is printed.
    pub fn printed_bill(&self, mut bill: Bill) -> Bill {
        if self.makes(Mistake::TangentPrintedInFourDigits) {
            bill[1] %= 10_000;
        }
        self.former_tangent_if(Mistake::FormerTangentPrinted, bill)
    }

    /// The refusal of an accepted file in which a tangent is above this limit; 0 and 0 if none is.
    pub fn tangent_refusal(&self, file: &[u8], most: u64) -> (u64, u64) {
        let above = self.bills(Way::Formula, file).iter().position(|bill| bill[1] > most);
        above.map_or((0, 0), |index| (17, index as u64 + 1))
    }
}
