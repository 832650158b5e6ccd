//! How often each refusal of a file and each branch of 01's steps was reached; shape_coverage.rs
//! counts for shapes and limits, list_coverage.rs for the lists of 02, ends_coverage.rs for the ends
//! of lines, marks_coverage.rs for their marks, tangents_coverage.rs for high tangents,
//! generators_coverage.rs for generators, due_coverage.rs for what is due, and stations_coverage.rs for
//! power stations. A run in which one was never reached has shown too little, and fails.

use crate::balance::Balance;
use crate::branches::{Branch, NAMES};
use crate::due::Due;
use crate::due_coverage::DueCounts;
use crate::ends_coverage::EndsCoverage;
use crate::generators_coverage::GeneratorsCoverage;
use crate::kinds_coverage::ByKind;
use crate::list_coverage::ListCoverage;
use crate::marks_coverage::MarksCoverage;
use crate::park::{Line, Park};
use crate::rules::accepted_park;
use crate::stations_coverage::StationsCoverage;
use crate::steps::{excess, half, Consumption, Generation, Source, Working, MOST_TANGENT};
use crate::tangents_coverage::TangentCounts;
use crate::touching::Lines;

/// The refusals that a file can meet, in the order of the table; 0 stands for an accepted one.
const FILE_REPLIES: [u64; 27] = [
    0, 1, 2, 3, 4, 5, 6, 7, 8, 25, 9, 10, 11, 12, 13, 14, 23, 24, 15, 16, 17, 18, 26, 27, 19, 20,
    21,
];

pub struct Coverage {
    /// By refusal number.
    refusals: [u64; 28],
    branches: Vec<u64>,
    /// Ends of lines in files.
    pub ends: EndsCoverage,
    pub lists: ListCoverage,
    /// Marks in generated files and lists.
    marks: MarksCoverage,
    /// High tangents in generated files and lists.
    tangents: ByKind<TangentCounts>,
    /// Generators in generated files.
    generators: GeneratorsCoverage,
    /// What is due in generated files and lists.
    due: ByKind<DueCounts>,
    /// Power stations in generated files, and flags in generated lists.
    stations: StationsCoverage,
}

impl Coverage {
    pub fn new() -> Coverage {
        Coverage {
            refusals: [0; 28],
            branches: vec![0; NAMES.len()],
            ends: EndsCoverage::default(),
            lists: ListCoverage::default(),
            marks: MarksCoverage::new(),
            tangents: ByKind::default(),
            generators: GeneratorsCoverage::default(),
            due: ByKind::default(),
            stations: StationsCoverage::default(),
        }
    }

    /// Counts a reply: 0 for an accepted file.
    pub fn reply(&mut self, number: u64) {
        self.refusals[number as usize] += 1;
    }

    pub fn count(&mut self, branch: Branch, reached: bool) {
        self.branches[branch as usize] += reached as u64;
    }

    /// Counts a generated file.
    pub fn generated(&mut self, file: &[u8]) {
        let answer = accepted_park(file);
        self.marks.file(file, &answer);
        self.tangents.file(&answer);
        self.generators.file(file, &answer);
        self.due.file(&answer);
        self.stations.file(file, &answer);
    }

    /// Counts a generated list.
    pub fn generated_list(&mut self, numbers: &[u32]) {
        self.marks.list(numbers);
        self.tangents.list(numbers);
        self.due.list(numbers);
        self.stations.refused.list(numbers);
    }

    pub fn site(&mut self, park: &Park, work: &Working) {
        self.tangent(&work.consumption);
        self.flows(&work.lines, &work.consumption);
        self.generation(&work.lines, &work.generation);
        self.reason(work);
        let station = work.site.is_station();
        if work.due.generation && !station {
            self.generation_charge(work, park.price as i128);
        }
        if work.due.consumption {
            self.consumption_charge(work, park.price as i128);
        }
        if work.due.consumption && !station {
            self.surcharge(work);
        }
        self.discount(work);
    }

    fn tangent(&mut self, used: &Consumption) {
        let (active, reactive, tangent) = (used.active, used.reactive, used.tangent);
        self.count(Branch::ActiveCut, active < 0);
        self.count(Branch::ReactiveCut, reactive < 0);
        self.count(Branch::BothCut, active < 0 && reactive < 0);
        self.count(Branch::TangentOfNothing, active <= 0);
        if active > 0 {
            let half = half(1_000 * reactive.max(0), active);
            self.count(Branch::TangentZero, tangent == 0);
            self.count(Branch::TangentLow, (1..=250).contains(&tangent));
            self.count(Branch::TangentMiddle, (251..=800).contains(&tangent));
            self.count(Branch::TangentHigh, (801..=1_999).contains(&tangent));
            self.count(Branch::TangentHalf, half && tangent < MOST_TANGENT);
        }
    }

    fn flows(&mut self, lines: &Lines, used: &Consumption) {
        for line in &lines.inputs {
            self.count(Branch::InputMetered, line.measures_reactive());
            self.count(Branch::InputEstimated, !line.measures_reactive());
        }
        for line in &lines.transits {
            let estimated = !line.measures_reactive();
            let product = line.active as i128 * used.tangent.min(800);
            self.count(Branch::TransitMetered, !estimated);
            self.count(Branch::TransitEstimated, estimated && used.tangent < 800);
            self.count(Branch::TransitEstimatedLimited, estimated && used.tangent > 800);
            self.count(Branch::TransitHalf, estimated && half(product, 1_000));
        }
        self.count(Branch::ConsumptionCut, used.energy < 0);
        self.count(Branch::LossesCut, used.losses < 0);
        self.count(Branch::LossesCutOnly, used.losses < 0 && used.energy > 0);
        self.count(Branch::ConsumptionCutOnly, used.energy < 0 && used.losses > 0);
    }

    fn generation(&mut self, lines: &Lines, made: &Generation) {
        let nothing = made.source == Source::Nothing;
        let by_day = made.source == Source::Metered;
        let at_night = made.source == Source::MeteredAtNight;
        let computed = made.source == Source::Computed;
        let reads = |line: &&Line| line.generated != 0;
        let inputs_at_night = lines.inputs.iter().all(|line| line.measures_night());
        let transit_left_out = lines.transits.iter().any(|line| !line.measures_generated());
        self.count(Branch::FlagZero, nothing);
        self.count(Branch::FlagZeroMetered, nothing && lines.inputs.iter().all(reads));
        self.count(Branch::Metered, by_day);
        self.count(Branch::MeteredAtNight, at_night);
        self.count(Branch::MeteredCut, (by_day || at_night) && made.energy < 0);
        self.count(Branch::NightNotOnTransit, by_day && inputs_at_night);
        self.count(Branch::TransitLeftOut, by_day && transit_left_out);
        self.count(Branch::Computed, computed);
        self.count(Branch::ComputedDespiteMeters, computed && lines.inputs.iter().any(reads));
    }

    fn reason(&mut self, work: &Working) {
        let (little_used, little_made) =
            (work.consumption.energy < 1_000, work.generation.energy < 10_000);
        let Due { consumption, generation, reason } = work.due;
        self.count(Branch::DueBoth, consumption && generation);
        self.count(Branch::DueConsumption, consumption && !generation);
        self.count(Branch::DueGeneration, generation && !consumption);
        self.count(Branch::ReasonPower, reason == 1);
        self.count(Branch::ReasonPowerBeforeTwo, reason == 1 && little_used && little_made);
        self.count(Branch::ReasonLow, reason == 2);
    }

    /// Step 9, where Pg is due.
    fn generation_charge(&mut self, work: &Working, price: i128) {
        let made = &work.generation;
        let charged = work.charges.generation > 0;
        if matches!(made.source, Source::Metered | Source::MeteredAtNight) {
            let half = half(made.losses.max(0) * price, 10_000_000);
            self.count(Branch::GenerationMetered, charged);
            self.count(Branch::GenerationMeteredCut, made.losses < 0);
            self.count(Branch::GenerationMeteredHalf, half);
        }
        if made.source == Source::Computed {
            let inputs = &work.lines.inputs;
            let eerps: i128 = inputs.iter().map(|line| line.eerp as i128).sum();
            let product = made.energy * made.mean_eerp * price;
            self.count(Branch::GenerationComputed, charged);
            self.count(Branch::GenerationComputedHalf, half(product, 100_000_000));
            self.count(Branch::MeanHalf, charged && half(eerps, inputs.len() as i128));
        }
    }

    /// Step 8, where Pc is due.
    fn consumption_charge(&mut self, work: &Working, price: i128) {
        self.count(Branch::ChargeHalf, half(work.consumption.losses.max(0) * price, 10_000_000));
    }

    /// Step 10, where P2 is due.
    fn surcharge(&mut self, work: &Working) {
        let money = &work.charges;
        let charged = money.consumption > 0;
        let excess = excess(work.consumption.tangent);
        let surcharge = money.consumption * excess * excess;
        self.count(Branch::SurchargeNone, excess == 0 && charged);
        self.count(Branch::Surcharge, money.surcharge > 0);
        self.count(Branch::SurchargeHalf, excess > 0 && half(surcharge, 1_000_000));
    }

    /// Step 11.
    fn discount(&mut self, work: &Working) {
        let money = &work.charges;
        let charged = money.consumption + money.generation;
        let discount = work.site.discount as i128;
        self.count(Branch::DiscountNone, discount == 0 && charged > 0);
        self.count(Branch::Discount, money.discount > 0);
        self.count(Branch::DiscountHalf, half(charged * discount, 1_000));
    }

    pub fn balance(&mut self, balance: Option<Balance>) {
        self.count(Branch::BalanceNotMet, balance.is_none());
        let Some(balance) = balance else { return };
        self.count(Branch::BalanceUncut, !balance.some_cut);
        self.count(Branch::BalanceCut, balance.some_cut);
        self.count(Branch::BalanceNegative, balance.network < 0);
        let exact = balance.difference == balance.most;
        self.count(Branch::BalanceCharge, balance.charges_asked);
        self.count(Branch::BalanceChargeExact, balance.charges_asked && exact);
    }

    /// Prints every count, and returns the names of those that are 0.
    pub fn print(&self) -> Vec<String> {
        let refusals = FILE_REPLIES.iter().map(|number| match number {
            0 => ("accepted".to_string(), self.refusals[0]),
            _ => (format!("refusal {number}"), self.refusals[*number as usize]),
        });
        let branches = NAMES.iter().map(|name| name.to_string()).zip(self.branches.iter().copied());
        let mut missing = Vec::new();
        let lines = self.ends.counts("file").chain(self.lists.counts()).chain(self.marks.counts());
        let later = self.tangents.counts().chain(self.generators.counts()).chain(self.due.counts());
        let later = later.chain(self.stations.counts());
        for (name, count) in refusals.chain(branches).chain(lines).chain(later) {
            println!("{count:>10}  {name}");
            if count == 0 {
                missing.push(name);
            }
        }
        missing
    }
}
