//! The second path's rules for the flag of a site (02, R-8): it lists what each flag says.

use crate::mistakes::Mistake;
use crate::mock::{at, Mock};

impl Mock {
    /// Whether a flag breaks rule 11, in version 2 or in version 1.
    pub fn flag_breached(&self, flag: u8, second: bool) -> bool {
        match (self.0, flag) {
            (Some(Mistake::FlagTwoAcceptedInVersionOne), 2) if !second => false,
            (Some(Mistake::FlagThreeAcceptedInVersionOne), 3) if !second => false,
            (Some(Mistake::FlagsOfVersionTwoInOne), 2 | 3) => false,
            (Some(Mistake::FormerFlags), 2 | 3) => true,
            (Some(Mistake::FlagTwoRefused), 2) => true,
            (Some(Mistake::FlagThreeRefused), 3) => true,
            (Some(Mistake::FlagFourAccepted), 4) => !second,
            (Some(Mistake::FlagsAboveThreeAccepted), 4..) => !second,
            (Some(Mistake::FlagByLowestDigits), 4..) => !second || flag % 16 > 3,
            (Some(Mistake::StationMarkOfFour), 2..=5) => !second || flag < 4,
            (_, 0 | 1) => false,
            (_, 2 | 3) => !second,
            _ => true,
        }
    }

    /// Whether Q and P of a site break rule 12.
    pub fn devices_breached(&self, site: &[u8]) -> bool {
        let (flag, compensation, motors) = (site[4], at(site, 5, 2), at(site, 7, 2));
        let has_devices = match self.0 {
            Some(Mistake::DevicesByWholeFlag) => flag != 0,
            Some(Mistake::DevicesAtFlagOneAlone) => flag == 1,
            _ => flag % 2 == 1,
        };
        let installed = match self.0 {
            Some(Mistake::DevicesRefusedOnlyTogether) if !has_devices => compensation.min(motors),
            Some(Mistake::CompensationOfStationAccepted) if flag == 2 => motors,
            Some(Mistake::MotorsOfStationAccepted) if flag == 2 => compensation,
            Some(Mistake::DevicesOfStationUnlimited) if flag == 3 => 0,
            _ => compensation.max(motors),
        };
        installed > if has_devices { 20_000 } else { 0 }
    }

    /// Whether rule 26 refuses a generator at a site with this flag.
    pub fn refuses_generators(&self, flag: u8) -> bool {
        match self.0 {
            Some(Mistake::GeneratorByWholeFlag) => flag == 0,
            Some(Mistake::GeneratorAtFlagOneAlone) => flag != 1,
            _ => flag % 2 == 0,
        }
    }

    /// Whether step 6 looks for generation at a site with this flag.
    pub fn generates(&self, flag: u8) -> bool {
        match self.0 {
            Some(Mistake::GenerationDespiteFlag) => true,
            Some(Mistake::GenerationByWholeFlag | Mistake::StationGenerationCharged) => flag != 0,
            Some(Mistake::GenerationAtFlagOneAlone) => flag == 1,
            _ => flag % 2 == 1,
        }
    }

    /// Whether rule 19 is mistaken not to ask for an input line of this site, counted from 1.
    pub fn feeds_itself(&self, file: &[u8], site: u8) -> bool {
        let mut sites = self.sites(file);
        let flag = sites.nth(site as usize - 1).map_or(0, |site| site[4]);
        self.makes(Mistake::UnfedStationAccepted) && flag & 2 != 0
    }

    /// The refusal of the file of a list, of which some flags are mistaken for others.
    pub fn refusal_made(&self, file: &[u8]) -> (u64, u64) {
        match self.0 {
            Some(Mistake::FlagTwoMade) => {
                Mock::new(Some(Mistake::FlagTwoAcceptedInVersionOne)).refusal(file)
            }
            Some(Mistake::FlagThreeMade) => {
                Mock::new(Some(Mistake::FlagThreeAcceptedInVersionOne)).refusal(file)
            }
            Some(Mistake::MarkMade | Mistake::MarkDropped) => {
                Mock::new(Some(Mistake::FlagsOfVersionTwoInOne)).refusal(file)
            }
            _ => self.refusal(file),
        }
    }
}
