//! How often each shape of a park and each limit of the table was reached, in accepted files.

use crate::branches::Branch;
use crate::coverage::Coverage;
use crate::park::{Line, Park, MONTH_HOURS};

impl Coverage {
    pub fn shape(&mut self, park: &Park) {
        let (sites, lines) = (park.sites.len(), &park.lines);
        let same_ends = |one: &Line, two: &Line| one.from == two.from && one.to == two.to;
        let parallel =
            (1..lines.len()).any(|i| lines[..i].iter().any(|line| same_ends(line, &lines[i])));
        let inner_unmetered = |line: &Line| line.joins_two_sites() && !line.measures_reactive();
        self.count(Branch::OneSiteOneLine, sites == 1 && lines.len() == 1);
        self.count(Branch::SixteenDeep, depth(park) == 16);
        self.count(Branch::SixtyFourLines, lines.len() == 64);
        self.count(Branch::Parallel, parallel);
        self.count(Branch::InnerUnmetered, lines.iter().any(inner_unmetered));
        let back = |metered| lines.iter().any(|l| l.to == 0 && l.measures_reactive() == metered);
        self.count(Branch::BackMetered, back(true));
        self.count(Branch::BackEstimated, back(false));
    }

    /// Values on a limit of the table, in an accepted park.
    pub fn limits(&mut self, park: &Park) {
        self.count(Branch::LimitPriceLeast, park.price == 1);
        self.count(Branch::LimitPriceMost, park.price == 2_000_000);
        self.count(Branch::LimitHoursLeast, park.hours == 0);
        self.count(Branch::LimitHoursMost, park.hours == MONTH_HOURS[park.month as usize - 1]);
        for site in &park.sites {
            self.count(Branch::LimitPowerLeast, site.power == 1);
            self.count(Branch::LimitPowerLow, site.power == 15);
            self.count(Branch::LimitPowerEnough, site.power == 16);
            self.count(Branch::LimitPowerMost, site.power == 1_000_000);
            self.count(Branch::LimitCompensation, site.compensation == 20_000);
            self.count(Branch::LimitMotors, site.motors == 20_000);
            self.count(Branch::LimitDiscount, site.discount == 1_000);
        }
        for line in &park.lines {
            let readings = [line.active, line.reactive, line.generated, line.night];
            let most = readings.map(|reading| reading == 10_000_000);
            self.count(Branch::LimitReadings, readings == [0; 4]);
            self.count(Branch::LimitActive, most[0]);
            self.count(Branch::LimitReactive, most[1]);
            self.count(Branch::LimitGenerated, most[2]);
            self.count(Branch::LimitNight, most[3]);
            self.count(Branch::LimitEerpLeast, line.eerp == 1);
            self.count(Branch::LimitEerpMost, line.eerp == 5_000);
        }
    }
}

/// The most sites on a way along the lines; a line between sites goes upwards.
fn depth(park: &Park) -> usize {
    let mut depths = vec![1; park.sites.len() + 1];
    for site in 1..=park.sites.len() {
        for line in park.lines.iter().filter(|line| line.to as usize == site && line.from != 0) {
            depths[site] = depths[site].max(depths[line.from as usize] + 1);
        }
    }
    *depths.iter().max().expect("there is a site")
}
