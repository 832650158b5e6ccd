//! How often the generated files met generators (02, R-5): what a run has to show of the accepted
//! ones is here, of the refused ones in refused_coverage.rs. The named cases and the sweeps do not
//! count: the generated cases have to meet all of it by themselves.

use crate::due::Due;
use crate::generator_branches::{Generators, GENERATORS_NAMES};
use crate::layout::Version;
use crate::park::{Generator, Line, Park};
use crate::refused_coverage::RefusedCoverage;
use crate::rules::Refusal;
use crate::steps::{transit_flow, work_out, Source, Working};
use crate::touching::Lines;

pub struct GeneratorsCoverage {
    accepted: [u64; GENERATORS_NAMES.len()],
    refused: RefusedCoverage,
}

impl Default for GeneratorsCoverage {
    fn default() -> GeneratorsCoverage {
        let accepted = [0; GENERATORS_NAMES.len()];
        GeneratorsCoverage { accepted, refused: RefusedCoverage::default() }
    }
}

impl GeneratorsCoverage {
    /// Counts a file with what the calculator says of it.
    pub fn file(&mut self, file: &[u8], answer: &Result<Park, Refusal>) {
        match answer {
            Ok(park) if park.version == Version::Two => self.park(park),
            Ok(_) => {}
            Err(refusal) => self.refused.file(file, *refusal),
        }
    }

    fn count(&mut self, generators: Generators, met: bool) {
        self.accepted[generators as usize] += met as u64;
    }

    fn park(&mut self, park: &Park) {
        let (sites, count) = (park.sites.len(), park.generators.len());
        let mut neighbours = park.generators.windows(2);
        let at = |site| park.generators.iter().any(|one| one.site == site);
        self.count(Generators::CountNone, count == 0);
        self.count(Generators::CountOne, count == 1);
        self.count(Generators::CountSome, (2..=31).contains(&count));
        self.count(Generators::CountMost, count == 32);
        self.count(Generators::Largest, sites == 16 && park.lines.len() == 64 && count == 32);
        self.count(Generators::NotInOrder, neighbours.any(|pair| pair[0].site > pair[1].site));
        self.count(Generators::AtLastSite, at(sites as u32));
        self.count(Generators::AtSiteSixteen, at(16));
        let most = park.generators.iter().any(|one| one.output == 10_000_000);
        self.count(Generators::OutputMost, most);
        for line in park.lines.iter().filter(|line| line.measures_active_generated()) {
            self.count(Generators::ReadingZero, line.active_generated == 0);
            self.count(Generators::ReadingMost, line.active_generated == 10_000_000);
        }
        let all: Vec<Working> = (1..=sites).map(|site| work_out(park, site)).collect();
        let former = Park { generators: Vec::new(), ..park.clone() };
        let with = all.iter().filter(|work| !work.lines.generators.is_empty()).count();
        self.count(Generators::AtSeveralSites, with > 1);
        for (index, work) in all.iter().enumerate() {
            if work.lines.generators.is_empty() {
                self.other_site(park, index + 1, work);
            } else {
                self.generators_of(&work.lines);
                self.readings(&work.lines);
                self.active(&work.lines);
                self.differences(work, &work_out(&former, index + 1));
                self.balance(park, &work.lines);
            }
        }
    }

    fn generators_of(&mut self, lines: &Lines) {
        let zeros = lines.generators.iter().filter(|one| one.output == 0).count();
        let count = lines.generators.len();
        self.count(Generators::SeveralAtSite, count > 1);
        self.count(Generators::OutputZero, (1..count).contains(&zeros));
        self.count(Generators::OutputsZero, zeros == count);
    }

    fn readings(&mut self, lines: &Lines) {
        for line in lines.inputs.iter().filter(|line| line.active_generated != 0) {
            self.count(Generators::InputMetered, line.measures_reactive());
            self.count(Generators::InputUnmetered, !line.measures_reactive());
        }
        for line in &lines.transits {
            let (generates, metered) = (line.active_generated != 0, line.measures_reactive());
            self.count(Generators::TransitMetered, generates && metered);
            self.count(Generators::TransitUnmetered, generates && !metered);
            self.count(Generators::TransitLeftOut, line.active != 0 && !metered);
        }
    }

    /// Step 2: what WP0 would be without a part of its sum.
    fn active(&mut self, lines: &Lines) {
        let active = lines.active();
        let generated = |line: &Line| line.active_generated as i128;
        let of_inputs = lines.net(generated, |_| 0);
        let of_transits = -lines.net(|_| 0, generated);
        let output: i128 = lines.generators.iter().map(|one| one.output as i128).sum();
        self.count(Generators::Cut, active < 0);
        self.count(Generators::CutByInputs, active < 0 && active + of_inputs > 0);
        self.count(Generators::AboveByTransits, active > 0 && active - of_transits < 0);
        self.count(Generators::AboveByOutput, active > 0 && active - output < 0);
        self.count(Generators::Nothing, active == 0);
    }

    /// What a site with generators has otherwise than the same site without them.
    fn differences(&mut self, work: &Working, former: &Working) {
        let (tangent, before) = (work.consumption.tangent, former.consumption.tangent);
        let flow = |line: &&Line| transit_flow(line, tangent) != transit_flow(line, before);
        let at_night = work.generation.source == Source::MeteredAtNight;
        let mut lines = work.lines.inputs.iter().chain(&work.lines.transits);
        self.count(Generators::TangentLower, tangent < before);
        self.count(Generators::TangentHigher, tangent > before);
        self.count(Generators::Estimated, work.lines.transits.iter().any(flow));
        let metered = lines.any(|line| line.measures_active_generated());
        self.count(Generators::MeteredAtNight, at_night && metered);
        let Due { consumption, generation, .. } = work.due;
        let site = !work.site.is_station();
        self.count(Generators::DueConsumption, site && consumption && !generation);
        self.count(Generators::DueGeneration, site && generation && !consumption);
        self.count(Generators::Surcharge, work.charges.surcharge != former.charges.surcharge);
    }

    /// A site without generators whose tangent one that reads 0 would change.
    fn other_site(&mut self, park: &Park, number: usize, work: &Working) {
        let flag = work.site.flag;
        let mut with = park.clone();
        with.generators.push(Generator { site: number as u32, output: 0 });
        let other = work_out(&with, number).consumption.tangent != work.consumption.tangent;
        self.count(Generators::OtherSite, other && flag == 0);
        self.count(Generators::OtherFlaggedSite, other && flag == 1);
    }

    /// Whether the loss balance is asked for.
    fn balance(&mut self, park: &Park, lines: &Lines) {
        let mut inner = park.lines.iter().filter(|line| line.joins_two_sites());
        let met = inner.all(|line| line.measures_reactive());
        let back = |line: &&Line| line.to == 0 && !line.measures_reactive();
        self.count(Generators::Balance, met);
        self.count(Generators::BalanceBack, met && lines.transits.iter().any(back));
    }

    /// Every count with its name.
    pub fn counts(&self) -> impl Iterator<Item = (String, u64)> + '_ {
        let name = |name| format!("generated file of version 2: accepted, {name}");
        GENERATORS_NAMES.iter().map(name).zip(self.accepted).chain(self.refused.counts())
    }
}
