//! How often the generated files of version 2 met power stations (02, R-8) in accepted parks; of refused
//! ones that is in stations_refused.rs, and in which combinations in stations_table.rs. The named cases
//! and the sweeps do not count: the generated cases have to meet all of it by themselves.

use crate::balance::balance;
use crate::layout::Version;
use crate::park::{Line, Park, Site};
use crate::rules::Refusal;
use crate::station_branches::{Stations, STATIONS_NAMES};
use crate::stations_refused::FlagsCoverage;
use crate::stations_table::StationsTable;
use crate::steps::{half, work_out, work_out_by, ChangedSteps, Charges, Source, Working, STEPS};

/// Steps by which no site is a station.
const UNMARKED: ChangedSteps = ChangedSteps { station: |_| false, ..STEPS };

pub struct StationsCoverage {
    accepted: [u64; STATIONS_NAMES.len()],
    table: StationsTable,
    pub refused: FlagsCoverage,
}

impl Default for StationsCoverage {
    fn default() -> StationsCoverage {
        StationsCoverage {
            accepted: [0; STATIONS_NAMES.len()],
            table: StationsTable::default(),
            refused: FlagsCoverage::default(),
        }
    }
}

impl StationsCoverage {
    /// Counts a file with what the calculator says of it.
    pub fn file(&mut self, file: &[u8], answer: &Result<Park, Refusal>) {
        match answer {
            Ok(park) => {
                let works: Vec<_> = (1..=park.sites.len()).map(|one| work_out(park, one)).collect();
                works.iter().for_each(|work| self.table.site(park.version, work));
                if park.version == Version::Two {
                    self.park(park, &works);
                }
            }
            Err(refusal) => self.refused.file(file, *refusal),
        }
    }

    fn count(&mut self, stations: Stations, met: bool) {
        self.accepted[stations as usize] += met as u64;
    }

    fn park(&mut self, park: &Park, works: &[Working]) {
        self.sites(&park.sites);
        park.lines.iter().for_each(|line| self.line(park, line));
        for (index, work) in works.iter().enumerate().filter(|(_, work)| work.site.is_station()) {
            let whole = &work_out_by(park, index + 1, &UNMARKED).charges;
            self.generation(work);
            self.limits(work, whole, park.month <= 3);
            self.struck(work, whole);
            self.discount(work, whole);
            self.generators(work);
        }
        if works.iter().any(|work| work.site.is_station()) {
            self.balance(park, works);
        }
    }

    fn sites(&mut self, sites: &[Site]) {
        let (all, marked) = (sites.len(), sites.iter().filter(|site| site.is_station()).count());
        let has = |flag: u32| sites.iter().any(|site| site.flag == flag);
        self.count(Stations::NoStation, marked == 0);
        self.count(Stations::OneSite, all == 1 && marked == 1);
        self.count(Stations::OneOfSeveral, all > 1 && marked == 1);
        self.count(Stations::SeveralAndOthers, all > marked && marked > 1);
        self.count(Stations::All, all > 1 && marked == all);
        self.count(Stations::AllSixteen, marked == 16);
        self.count(Stations::OnlyFirst, all > 1 && marked == 1 && sites[0].is_station());
        self.count(Stations::OnlyLast, all > 1 && marked == 1 && sites[all - 1].is_station());
        self.count(Stations::BothFlags, has(2) && has(3));
        self.count(Stations::AllFlags, (0..=3).all(has));
    }

    fn line(&mut self, park: &Park, line: &Line) {
        let [from, to] = [line.from, line.to].map(|end| park.site(end).map(Site::is_station));
        self.count(Stations::FromStation, (from, to) == (Some(true), Some(false)));
        self.count(Stations::ToStation, (from, to) == (Some(false), Some(true)));
        self.count(Stations::BetweenStations, (from, to) == (Some(true), Some(true)));
        self.count(Stations::BackFromStation, (from, to) == (Some(true), None));
    }

    /// Step 6 at a station.
    fn generation(&mut self, work: &Working) {
        let (lines, source) = (&work.lines, work.generation.source);
        let mut all = lines.inputs.iter().chain(&lines.transits);
        let reads = lines.inputs.iter().all(|line| line.generated != 0);
        let at_night = all.all(|line| line.night != 0);
        let metered = matches!(source, Source::Metered | Source::MeteredAtNight);
        let computed = source == Source::Computed;
        let none = work.site.compensation == 0 && work.site.motors == 0;
        self.count(Stations::FlagTwoReadings, source == Source::Nothing && reads);
        self.count(Stations::FlagTwoNight, source == Source::Nothing && at_night);
        self.count(Stations::Metered, source == Source::Metered);
        self.count(Stations::MeteredAtNight, source == Source::MeteredAtNight);
        self.count(Stations::MeteredCut, metered && work.generation.energy < 0);
        self.count(Stations::Computed, computed && !none);
        self.count(Stations::NoDevices, computed && none);
    }

    /// Steps 5, 7 and 8 at a station.
    fn limits(&mut self, work: &Working, whole: &Charges, early: bool) {
        let (used, made) = (work.consumption.energy.max(0), work.generation.energy.max(0));
        let charged = work.charges.consumption > 0;
        let made_alone = work.due.reason == 0 && !work.due.consumption;
        let (weak, payable) = (work.site.power == 15, work.due.reason != 1);
        let losses = work.consumption.losses;
        self.count(Stations::Early, charged && early);
        self.count(Stations::Later, charged && !early);
        self.count(Stations::PowerEnough, charged && work.site.power == 16);
        self.count(Stations::UsedJust, charged && used == 1_000);
        self.count(Stations::JustBoth, payable && used == 1_000 && made == 10_000);
        self.count(Stations::JustUsed, payable && used == 1_000 && made == 9_999);
        self.count(Stations::JustMade, made_alone && used == 999 && made == 10_000);
        self.count(Stations::JustNeither, payable && used == 999 && made == 9_999);
        let struck = whole.generation > 0;
        self.count(Stations::MadeLosses, made_alone && struck && losses > 0);
        self.count(Stations::MadeNothingUsed, made_alone && used == 0);
        self.count(Stations::UsedNoMoney, work.due.consumption && !charged);
        self.count(Stations::PowerBoth, weak && used >= 1_000 && made >= 10_000);
        self.count(Stations::PowerNeither, weak && used < 1_000 && made < 10_000);
        self.count(Stations::SiteCut, losses < 0);
        self.count(Stations::SiteCutDue, losses < 0 && work.due.consumption);
    }

    /// Steps 9 and 10 at a station.
    fn struck(&mut self, work: &Working, whole: &Charges) {
        let (source, used) = (work.generation.source, &work.consumption);
        let (pg, p2) = (whole.generation > 0, whole.surcharge > 0);
        let nothing = work.charges.consumption > 0 && !pg && !p2;
        self.count(Stations::StruckBoth, pg && p2);
        self.count(Stations::StruckMetered, pg && source == Source::Metered);
        self.count(Stations::StruckAtNight, pg && source == Source::MeteredAtNight);
        self.count(Stations::StruckComputed, pg && source == Source::Computed);
        self.count(Stations::StruckSurcharge, p2 && work.site.flag == 2);
        self.count(Stations::StruckSurchargeDevices, p2 && work.site.flag == 3);
        self.count(Stations::StruckSurchargeHigh, p2 && used.tangent > 2_000);
        self.count(Stations::StruckSurchargeMost, p2 && used.tangent == 99_999);
        self.count(Stations::StruckSurchargeNothing, p2 && used.active <= 0);
        self.count(Stations::NothingStruck, nothing);
    }

    /// Step 11 at a station.
    fn discount(&mut self, work: &Working, whole: &Charges) {
        let (charge, discount) = (work.charges.consumption, work.charges.discount);
        let (charged, thousandths) = (charge > 0, work.site.discount as i128);
        self.count(Stations::Discount, discount > 0 && discount == whole.discount);
        self.count(Stations::DiscountLess, discount > 0 && discount < whole.discount);
        self.count(Stations::DiscountSmall, charged && discount == 0 && thousandths != 0);
        self.count(Stations::DiscountHalf, half(charge * thousandths, 1_000));
        self.count(Stations::DiscountWhole, charged && thousandths == 1_000);
        self.count(Stations::DiscountNone, charged && thousandths == 0);
    }

    /// Steps 2 and 3 at a station, and its generators.
    fn generators(&mut self, work: &Working) {
        let lines = &work.lines;
        let estimated = lines.transits.iter().any(|line| !line.measures_reactive());
        let others = lines.active_without_generators() != lines.active();
        self.count(Stations::TransitEstimated, estimated && work.consumption.tangent < 800);
        self.count(Stations::Generators, lines.generators.len() > 1);
        self.count(Stations::GeneratorTangent, !lines.generators.is_empty() && others);
    }

    /// Demand 3 of a park with a station.
    fn balance(&mut self, park: &Park, works: &[Working]) {
        let bills: Vec<_> = works.iter().map(Working::bill).collect();
        let Some(balance) = balance(park, &bills) else { return };
        let stations: Vec<_> = works.iter().filter(|work| work.site.is_station()).collect();
        let all = stations.len() == works.len();
        let estimated = |line: &&Line| line.to == 0 && !line.measures_reactive();
        let back = |work: &&Working| work.lines.transits.iter().any(estimated);
        let asked = balance.charges_asked;
        let struck = stations.iter().any(|work| work.due.generation);
        self.count(Stations::Balance, true);
        self.count(Stations::BalanceAll, all);
        self.count(Stations::BalanceCut, stations.iter().any(|work| work.consumption.losses < 0));
        self.count(Stations::BalanceBack, stations.iter().any(back));
        self.count(Stations::ChargesAsked, asked);
        self.count(Stations::ChargesAskedAll, asked && all);
        self.count(Stations::ChargesAskedStruck, asked && struck);
        let made_alone = |work: &Working| work.site.is_station() && work.due.reason == 0;
        let owes = |work: &Working| work.due.consumption || made_alone(work);
        let not_asked = !asked && !balance.some_cut && works.iter().all(owes);
        self.count(Stations::ChargesNotAsked, not_asked);
        self.count(Stations::ChargesFar, not_asked && balance.difference > balance.most);
    }

    /// Every count with its name.
    pub fn counts(&self) -> impl Iterator<Item = (String, u64)> + '_ {
        let name = |name| format!("generated file of version 2: stations, {name}");
        let accepted = STATIONS_NAMES.iter().map(name).zip(self.accepted);
        accepted.chain(self.table.counts()).chain(self.refused.counts())
    }
}
