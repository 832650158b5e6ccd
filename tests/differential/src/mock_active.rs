//! The second path's WP0 (02, R-5): what a site with generators has besides the WP0 of 01.

use crate::mistakes::Mistake;
use crate::mock::{at, Mock};
use crate::mock_steps::Tally;

impl Mock {
    /// Adds a line's part at one of its ends.
    pub fn add_own(&self, tally: &mut Tally, line: &[u8], input: bool) {
        let (generated, metered) = (self.active_generated(line), line[2] & 1 != 0);
        tally.own += match (self.0, input) {
            (Some(Mistake::InputGenerationAdded), true) => generated,
            (Some(Mistake::InputGenerationIgnored), true) => 0,
            (Some(Mistake::InputGenerationOfReactiveMeters), true) if !metered => 0,
            (_, true) => -generated,
            (Some(Mistake::TransitGenerationTakenOff), false) => -generated,
            (Some(Mistake::TransitGenerationIgnored), false) => 0,
            (Some(Mistake::TransitGenerationOfReactiveMeters), false) if !metered => 0,
            (Some(Mistake::TransitGenerationToSitesIgnored), false) if line[1] != 0 => 0,
            (Some(Mistake::UnmeteredTransitTakenOff), false) if !metered => {
                generated - self.readings(line)[0]
            }
            (_, false) => generated,
        };
    }

    /// Adds the generators, after the lines.
    pub fn add_generators(&self, tallies: &mut [Tally; 17], file: &[u8]) {
        match self.0 {
            Some(Mistake::ActiveCutBeforeOutput) => {
                for tally in tallies.iter_mut() {
                    tally.own = tally.own.max(-tally.active);
                }
            }
            Some(Mistake::ActiveCutBeforeGeneration) => {
                for tally in tallies.iter_mut() {
                    tally.active = tally.active.max(0);
                }
            }
            _ => {}
        }
        let count = self.generator_count(file);
        for (index, generator) in self.generators(file).enumerate() {
            let (site, output) = (generator[0] as usize, at(generator, 1, 4));
            if self.makes(Mistake::OutputOfOtherSitesCounted) {
                tallies.iter_mut().for_each(|tally| tally.own += output);
            }
            let Some(tally) = tallies.get_mut(site) else { continue };
            let none = self.makes(Mistake::NoGeneratorIfZero) && output == 0;
            let counted = match self.0 {
                Some(Mistake::OutputIgnored | Mistake::OutputOfOtherSitesCounted) => 0,
                Some(Mistake::OutputTakenOff) => -output,
                Some(Mistake::FirstGeneratorOfSiteOnly) if tally.generators > 0 => 0,
                Some(Mistake::FirstGeneratorOnly) if index > 0 => 0,
                Some(Mistake::LastGeneratorLeftOut) if index + 1 == count => 0,
                Some(Mistake::OutputAsTwoBytes) => output & 0xFFFF,
                Some(Mistake::StationOutputIgnored) if self.is_station(file, site) => 0,
                _ => output,
            };
            tally.generators += !none as i64;
            tally.own += counted;
            if self.makes(Mistake::OutputCountedAsReactive) {
                tally.reactive += output;
            }
        }
        if self.makes(Mistake::GeneratorsForFlaggedSites) {
            for (site, record) in (1..).zip(self.sites(file)) {
                tallies[site].generators += (record[4] % 2) as i64;
            }
        }
    }

    /// WP0 before its cut.
    pub fn active(&self, tally: &Tally) -> i64 {
        let has = match self.0 {
            Some(Mistake::FormerActive) => false,
            Some(Mistake::GeneratorsForAllSites) => true,
            Some(Mistake::GeneratorsForMeasuredSites) => tally.generators > 0 || tally.own > 0,
            _ => tally.generators > 0,
        };
        tally.active + if has { tally.own } else { 0 }
    }

    /// A tangent, or with this mistake that of the WP0 of 01.
    pub fn active_mistaken(&self, mistake: Mistake, tally: &Tally, tangent: i64) -> i64 {
        match self.makes(mistake) {
            true => self.tangent(tally.reactive, tally.active),
            false => tangent,
        }
    }

    /// The active energy by which an unmetered input is estimated.
    pub fn estimated_by(&self, line: &[u8]) -> i64 {
        let active = self.readings(line)[0];
        match self.0 {
            Some(Mistake::FlowLessActiveGeneration) => {
                (active - self.active_generated(line)).max(0)
            }
            _ => active,
        }
    }

    /// A line's mark as the steps see it.
    pub fn mark_seen(&self, line: &[u8]) -> u8 {
        match (self.0, line[2]) {
            (Some(Mistake::MarkEightHidesReactive), mark @ 8..) => mark & 6,
            (Some(Mistake::MarkEightHidesNight), mark @ 8..) => mark & 3,
            (_, mark) => mark,
        }
    }
}
