//! The second path with a mistake that it makes by one way to the surcharge alone (02, R-6):
//! whoever bills the other way, or does not bill, meets none.

use std::io;

use crate::mistakes::Mistake;
use crate::mock::Mock;
use crate::product::{Product, Reply, Way};
use crate::steps::Bill;

/// Mistakes that are made by both ways, and here by one of them.
pub const BY_ONE_WAY: &[(Mistake, Way)] = &[
    // Refusing.
    (Mistake::LinesBeforeSites, Way::Table),
    (Mistake::FormerEndsBilled, Way::Table),
    (Mistake::VersionTwoRefused, Way::Table),
    (Mistake::FormerFlags, Way::Table),
    // The calls.
    (Mistake::PlaceLeftUnwritten, Way::Table),
    (Mistake::SiteTakenAsByte, Way::Table),
    (Mistake::SiteTakenAsByte, Way::Formula),
    (Mistake::BillWrittenOnRefusal, Way::Table),
    (Mistake::ListWrittenOnRefusal, Way::Table),
    (Mistake::ListWrittenOnRefusal, Way::Formula),
    (Mistake::WritesPastTheBills, Way::Table),
    (Mistake::LongerListRefused, Way::Table),
    (Mistake::ShortListAccepted, Way::Table),
    (Mistake::SitesFromListLength, Way::Table),
    (Mistake::FirstBillRepeated, Way::Table),
    // The steps.
    (Mistake::MoneyWithoutReason, Way::Table),
    (Mistake::FormerDue, Way::Table),
    (Mistake::FormerDue, Way::Formula),
    (Mistake::PgDueByConsumption, Way::Table),
    (Mistake::PcDueByGeneration, Way::Formula),
    (Mistake::SurchargeOfStruckPc, Way::Table),
    (Mistake::SurchargeOfStruckPc, Way::Formula),
    (Mistake::DiscountOfStruckPc, Way::Table),
    (Mistake::NoDiscountWithoutPc, Way::Formula),
    (Mistake::ReasonTwoIfEither, Way::Table),
    (Mistake::MarkIgnored, Way::Table),
    (Mistake::MarkIgnored, Way::Formula),
    (Mistake::StationPgKept, Way::Table),
    (Mistake::StationSurchargeKept, Way::Table),
    (Mistake::StationSurchargeKept, Way::Formula),
    (Mistake::StationDiscountOfStruckPg, Way::Table),
    (Mistake::StationReasonTwoWithoutPc, Way::Formula),
    (Mistake::SurchargeOfBothCharges, Way::Table),
    (Mistake::SurchargeOfBothCharges, Way::Formula),
    (Mistake::SurchargeByFormerActive, Way::Table),
    (Mistake::FormerTangent, Way::Table),
    (Mistake::SurchargeLimitOneLower, Way::Table),
    (Mistake::SurchargeLimitOneLower, Way::Formula),
    (Mistake::SurchargeLimitOneHigher, Way::Table),
    (Mistake::SurchargeLimitOneHigher, Way::Formula),
    (Mistake::SurchargeUnlimited, Way::Table),
    (Mistake::SurchargeUnlimited, Way::Formula),
];

pub struct OneWay {
    way: Way,
    mistaken: Mock,
    sound: Mock,
}

impl OneWay {
    pub fn new(mistake: Mistake, way: Way) -> OneWay {
        OneWay { way, mistaken: Mock::new(Some(mistake)), sound: Mock::new(None) }
    }

    fn by(&self, way: Way) -> &Mock {
        match way == self.way {
            true => &self.mistaken,
            false => &self.sound,
        }
    }
}

impl Product for OneWay {
    fn check(&self, file: &[u8]) -> Reply {
        self.sound.check(file)
    }

    fn bill_site(&self, way: Way, file: &[u8], bill: &mut Bill, site: u64) -> Reply {
        self.by(way).bill_site(way, file, bill, site)
    }

    fn bill_park(&self, way: Way, file: &[u8], list: &mut [u64]) -> (Reply, u64) {
        self.by(way).bill_park(way, file, list)
    }

    fn encode(&self, numbers: &[u32], file: &mut [u8]) -> (Reply, u64) {
        self.sound.encode(numbers, file)
    }

    fn printed(&self, file: &[u8]) -> io::Result<Vec<u8>> {
        self.sound.printed(file)
    }
}
