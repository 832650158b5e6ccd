//! The second path's rules for generators and for the active generation of lines (02, R-5).

use crate::mistakes::Mistake;
use crate::mock::{at, Mock};

impl Mock {
    /// Whether rule 25 is broken.
    pub fn too_many_generators(&self, file: &[u8]) -> bool {
        let most = match self.0 {
            Some(Mistake::ThirtyThreeGeneratorsAccepted) => 33,
            Some(Mistake::ThirtyTwoGeneratorsRefused) => 31,
            _ => 32,
        };
        if self.makes(Mistake::CountCheckedInVersionOne) && file.len() > 14 {
            return file[14] > most;
        }
        self.generator_count(file) > most as usize
    }

    /// Orders the rows of the header, from 2 on, as a mistake does with that of rule 25.
    pub fn misplace_count(&self, rows: &mut [(u64, bool); 9]) {
        match self.0 {
            Some(Mistake::CountAfterLength) => rows.swap(7, 8),
            Some(Mistake::CountBeforeHours) => rows.swap(6, 7),
            Some(Mistake::CountBeforeMonth) => rows[2..8].rotate_right(1),
            _ => {}
        }
    }

    /// Whether the active generation of a line breaks rules 17 and 18.
    pub fn active_generation_breached(&self, line: &[u8]) -> [bool; 2] {
        let reading = self.active_generated(line);
        let most = 10_000_000 + self.makes(Mistake::ActiveGenerationLimitOneHigher) as i64;
        [
            reading > most && !self.makes(Mistake::ActiveGenerationAboveAccepted),
            reading != 0
                && line[2] & 8 == 0
                && !self.makes(Mistake::ActiveGenerationWithoutMeterAccepted),
        ]
    }

    /// When a generator's rule is looked at: after the lines (4), before rule 19 (7).
    pub fn generator_stage(&self, number: u64) -> u64 {
        match (self.0, number) {
            (Some(Mistake::GeneratorsBeforeSiteRules), _) => 1,
            (Some(Mistake::GeneratorsBeforeLineRules), _) => 3,
            (Some(Mistake::GeneratorsAfterInputs), _) => 8,
            (Some(Mistake::ReadingsOfGeneratorsLast), 27) => 8,
            (Some(Mistake::SitesOfGeneratorsFirst), 27) => 6,
            _ => 5,
        }
    }

    pub fn generator_breaches(&self, file: &[u8], generator: &[u8]) -> impl Iterator<Item = u64> {
        let last = file[6] as usize;
        let number = generator[0] as usize;
        let site = self.sites(file).nth(number.max(1) - 1);
        let flagless = site.is_some_and(|site| self.refuses_generators(site[4]));
        let wrong_site = match self.0 {
            Some(Mistake::GeneratorOfNetworkAccepted) if number == 0 => false,
            Some(Mistake::GeneratorAboveSitesAccepted) if number == last + 1 => false,
            Some(Mistake::GeneratorFarAboveAccepted) if number > last + 1 => false,
            Some(Mistake::GeneratorAtLastSiteRefused) if number == last => true,
            Some(Mistake::GeneratorWithoutDevicesAccepted) => number == 0 || number > last,
            _ => number == 0 || number > last || flagless,
        };
        let output = match self.0 {
            Some(Mistake::OutputTakenAsThreeBytes) => at(generator, 1, 3),
            _ => at(generator, 1, 4),
        };
        let most = match self.0 {
            Some(Mistake::OutputLimitOneHigher) => 10_000_001,
            Some(Mistake::OutputLimitOneLower) => 9_999_999,
            Some(Mistake::OutputUnlimited) => i64::MAX,
            _ => 10_000_000,
        };
        let mut rows = [(26, wrong_site), (27, output > most)];
        let at_station = site.is_some_and(|site| site[4] == 2);
        if self.makes(Mistake::GeneratorOfStationTwentySeven) && at_station {
            rows[0].0 = 27;
        }
        if self.makes(Mistake::OutputBeforeSite) {
            rows.swap(0, 1);
        }
        rows.into_iter().filter(|(_, breached)| *breached).map(|(number, _)| number)
    }

    /// The place of a refused generator, counted from 1.
    pub fn generator_place(&self, file: &[u8], place: usize) -> u64 {
        let place = match self.0 {
            Some(Mistake::GeneratorPlaceFromZero) => place - 1,
            Some(Mistake::GeneratorPlaceLost) => 0,
            Some(Mistake::GeneratorPlaceAfterLines) => place + file[7] as usize,
            Some(Mistake::GeneratorPlaceIsSite) => {
                let generator = self.generators(file).nth(place - 1);
                generator.map_or(0, |generator| generator[0] as usize)
            }
            _ => place,
        };
        place as u64
    }
}
