//! How often the generated files of each version and the generated lists met what is due by step 7
//! (02, R-7), and the clause of demand 3 that asks for it. A power station owes less, and counts
//! for that clause alone. The named cases and the sweeps do not count here: the generated cases have
//! to meet all of them by themselves.

use crate::balance::balance;
use crate::due::Due;
use crate::due_branches::{Dues, DUES_NAMES};
use crate::expect::CONSUMPTION;
use crate::kinds_coverage::Counts;
use crate::park::Park;
use crate::steps::{work_out, work_out_by, Bill, ChangedSteps, Charges, Source, Working, STEPS};

/// Steps by which every charge is due.
const ALL_DUE: ChangedSteps =
    ChangedSteps { due: |_, _, _| Due { consumption: true, generation: true, reason: 0 }, ..STEPS };

/// A site, what a struck charge would come to, and the month.
struct Met<'a> {
    work: &'a Working<'a>,
    whole: &'a Charges,
    early: bool,
    /// Consumption and generation, both cut at 0.
    used: i128,
    made: i128,
}

pub struct DueCounts([u64; DUES_NAMES.len()]);

impl Default for DueCounts {
    fn default() -> DueCounts {
        DueCounts([0; DUES_NAMES.len()])
    }
}

impl Counts for DueCounts {
    const SECOND: &'static str = "file of version 2";

    const NAMES: &'static [&'static str] = DUES_NAMES;

    fn park(&mut self, park: &Park) {
        let mut bills = Vec::new();
        let mut all = Vec::new();
        for number in 1..=park.sites.len() {
            let work = work_out(park, number);
            let used = work.consumption.energy.max(0);
            let made = work.generation.energy.max(0);
            let whole = &work_out_by(park, number, &ALL_DUE).charges;
            let met = Met { work: &work, whole, early: park.month <= 3, used, made };
            match work.due {
                _ if work.site.is_station() => {}
                Due { reason: 1, .. } => self.weak(&met),
                Due { consumption: false, generation: false, .. } => self.neither(&met),
                Due { consumption: true, generation: true, .. } => self.both(&met),
                Due { consumption: true, generation: false, .. } => self.consumption_alone(&met),
                Due { consumption: false, generation: true, .. } => self.generation_alone(&met),
            }
            bills.push(work.bill());
            all.push(work.due);
        }
        self.charges(park, &bills, &all);
    }

    fn counts(&self) -> &[u64] {
        &self.0
    }
}

impl DueCounts {
    fn count(&mut self, dues: Dues, met: bool) {
        self.0[dues as usize] += met as u64;
    }

    fn weak(&mut self, met: &Met) {
        let (used, made) = (met.used >= 1_000, met.made >= 10_000);
        let just = met.work.site.power == 15;
        self.count(Dues::WeakBoth, just && used && made);
        self.count(Dues::WeakConsumption, just && used && !made);
        self.count(Dues::WeakGeneration, just && !used && made);
    }

    fn neither(&mut self, met: &Met) {
        let source = met.work.generation.source;
        let struck = met.whole.consumption > 0 && met.whole.generation > 0;
        self.count(Dues::Neither, met.used == 999 && met.made == 9_999);
        let metered = met.made == 9_990 && source == Source::Metered;
        self.count(Dues::NeitherMetered, met.used == 999 && metered);
        self.count(Dues::NeitherStruck, struck);
    }

    fn both(&mut self, met: &Met) {
        self.count(Dues::BothStrong, met.work.site.power == 16);
        self.count(Dues::BothJust, met.used == 1_000 && met.made == 10_000);
        self.count(Dues::BothEarly, met.early);
        self.count(Dues::BothLater, !met.early);
    }

    /// Pc alone is due.
    fn consumption_alone(&mut self, met: &Met) {
        let (work, money) = (met.work, &met.work.charges);
        let (made, source) = (met.made, met.work.generation.source);
        let just_below = made == 9_990;
        let struck = met.whole.generation > 0;
        let by_day = work.lines.net(|line| line.generated as i128, |line| line.generated as i128);
        let at_night = source == Source::MeteredAtNight;
        self.count(Dues::UsedStrong, work.site.power == 16);
        self.count(Dues::UsedJust, met.used == 1_000);
        self.count(Dues::UsedNothingMade, made == 0 && work.site.flag == 1);
        self.count(Dues::UsedFlagless, work.site.flag == 0);
        self.count(Dues::UsedJustBelow, made == 9_999);
        self.count(Dues::UsedJustBelowMetered, just_below && source == Source::Metered);
        self.count(Dues::UsedJustBelowAtNight, just_below && at_night);
        self.count(Dues::UsedBetweenBoth, met.used == 1_000 && made == 9_999);
        self.count(Dues::UsedByNightAlone, at_night && by_day >= 1_000);
        self.count(Dues::UsedStruckMetered, struck && source == Source::Metered);
        self.count(Dues::UsedStruckAtNight, struck && at_night);
        self.count(Dues::UsedStruckComputed, struck && source == Source::Computed);
        self.count(Dues::UsedGenerationCut, struck && work.generation.energy < 0);
        self.count(Dues::UsedDiscount, money.discount < met.whole.discount);
        self.count(Dues::UsedSurcharge, money.surcharge > 0);
        self.count(Dues::UsedNoMoney, money.consumption == 0);
        self.count(Dues::UsedSiteCut, work.consumption.losses < 0);
        self.count(Dues::UsedEarly, met.early);
        self.count(Dues::UsedLater, !met.early);
    }

    /// Pg alone is due.
    fn generation_alone(&mut self, met: &Met) {
        let (work, money) = (met.work, &met.work.charges);
        let (used, source) = (&work.consumption, work.generation.source);
        let (just, above) = (met.made == 10_000, met.made > 10_000);
        let discounted = money.discount > 0 && money.discount < met.whole.discount;
        self.count(Dues::MadeStrong, work.site.power == 16);
        self.count(Dues::MadeJustBelow, met.used == 999);
        self.count(Dues::MadeFarBelow, (1..=998).contains(&met.used));
        self.count(Dues::MadeNothingUsed, used.energy == 0);
        self.count(Dues::MadeConsumptionCut, used.energy < 0 && used.losses > 0);
        self.count(Dues::MadeSiteCut, used.losses < 0);
        self.count(Dues::MadeByReactive, used.reactive >= 1_000);
        self.count(Dues::MadeJustMetered, just && source == Source::Metered);
        self.count(Dues::MadeJustAtNight, just && source == Source::MeteredAtNight);
        self.count(Dues::MadeJustComputed, just && source == Source::Computed);
        self.count(Dues::MadeMetered, above && source == Source::Metered);
        self.count(Dues::MadeAtNight, above && source == Source::MeteredAtNight);
        self.count(Dues::MadeComputed, above && source == Source::Computed);
        self.count(Dues::MadeBetweenBoth, met.used == 999 && just);
        self.count(Dues::MadeStruck, met.whole.consumption > 0);
        self.count(Dues::MadeStruckSurcharge, met.whole.surcharge > 0);
        self.count(Dues::MadeDiscount, discounted);
        self.count(Dues::MadeNoMoney, money.generation == 0);
        self.count(Dues::MadeEarly, met.early);
        self.count(Dues::MadeLater, !met.early);
    }

    /// Demand 3.
    fn charges(&mut self, park: &Park, bills: &[Bill], all: &[Due]) {
        let Some(balance) = balance(park, bills) else { return };
        let every_pg = all.iter().all(|due| due.generation);
        let just = bills.iter().any(|bill| bill[CONSUMPTION] == 1_000);
        self.count(Dues::ChargesAsked, balance.charges_asked && !every_pg);
        self.count(Dues::ChargesAskedBoth, balance.charges_asked && every_pg);
        self.count(Dues::ChargesAskedJust, balance.charges_asked && just);
        let all_reasons = all.iter().all(|due| due.reason == 0);
        let not_asked = all_reasons && !balance.some_cut && !balance.charges_asked;
        self.count(Dues::ChargesNotAsked, not_asked);
        self.count(Dues::ChargesFar, not_asked && balance.difference > balance.most);
    }
}
