//! How often the generated files and lists met the tangents around 2,000 and above it (02, R-4), in
//! each step that has a limit of its own for them; in version 2 only sites with a generator (02, R-5)
//! count, and for step 10 only those that are no power station. The named cases and the sweeps
//! do not count here: the generated cases have to meet all of them by themselves.

use crate::branches::{Tangents, TANGENTS_NAMES};
use crate::kinds_coverage::Counts;
use crate::layout::Version;
use crate::park::Park;
use crate::steps::{half, round, work_out, Working, MOST_TANGENT};

#[derive(Default)]
pub struct TangentCounts([u64; TANGENTS_NAMES.len()]);

impl Counts for TangentCounts {
    const SECOND: &'static str = "file, site with a generator";

    const NAMES: &'static [&'static str] = TANGENTS_NAMES;

    fn park(&mut self, park: &Park) {
        for site in 1..=park.sites.len() {
            let working = work_out(park, site);
            if park.version == Version::One || !working.lines.generators.is_empty() {
                self.tangent(&working);
                self.limits(&working);
            }
        }
    }

    fn counts(&self) -> &[u64] {
        &self.0
    }
}

impl TangentCounts {
    fn count(&mut self, tangents: Tangents, met: bool) {
        self.0[tangents as usize] += met as u64;
    }

    /// Step 2.
    fn tangent(&mut self, work: &Working) {
        let (reactive, active) = (work.consumption.reactive.max(0), work.consumption.active);
        if active <= 0 {
            return self.count(Tangents::OfNothing, reactive > 0);
        }
        let unlimited = round(1_000 * reactive, active);
        let high_half = unlimited > 2_000 && half(1_000 * reactive, active);
        self.count(Tangents::BelowTwo, unlimited == 1_999);
        self.count(Tangents::Two, unlimited == 2_000);
        self.count(Tangents::AboveTwo, unlimited == 2_001);
        self.count(Tangents::BelowTwoBytes, (2_002..=65_535).contains(&unlimited));
        self.count(Tangents::AboveTwoBytes, (65_536..=99_997).contains(&unlimited));
        self.count(Tangents::BelowMost, unlimited == 99_998);
        self.count(Tangents::Most, unlimited == 99_999);
        self.count(Tangents::JustLimited, unlimited == 100_000);
        self.count(Tangents::Limited, unlimited > 100_000);
        self.count(Tangents::HighHalf, high_half && unlimited <= MOST_TANGENT);
    }

    /// Steps 3, 5, 7 and 10.
    fn limits(&mut self, work: &Working) {
        let tangent = work.consumption.tangent;
        let (above, most) = (tangent > 2_000, tangent == MOST_TANGENT);
        let estimated = work.lines.transits.iter().any(|line| !line.measures_reactive());
        let charged = work.charges.consumption > 0 && !work.site.is_station();
        self.count(Tangents::HighTransit, estimated && above && !most);
        self.count(Tangents::MostTransit, estimated && most);
        self.count(Tangents::HighCut, above && work.consumption.losses < 0);
        self.count(Tangents::HighPower, above && work.due.reason == 1);
        self.count(Tangents::HighLow, above && work.due.reason == 2);
        self.count(Tangents::TwoSurcharge, charged && tangent == 2_000);
        self.count(Tangents::HighSurcharge, charged && above && !most);
        self.count(Tangents::MostSurcharge, charged && most);
    }
}
