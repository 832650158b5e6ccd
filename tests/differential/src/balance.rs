//! The loss balance (01, demand 3, as its paragraph and step 5 describe it), worked out from the
//! product's own numbers.
//!
//! It is asked for when every line between two sites measures reactive consumption: any other
//! such line has two flows, one for each end. Then the settled losses of all sites less their
//! cuts are the energy at the network, what comes in less what goes back. If besides no
//! site is cut at zero and every site's consumption charge is due (02, R-7), the printed consumption
//! charges differ from the exact price of that energy by half a kopeck per site at most. Power
//! stations (02, R-8) are sites like the others here.

use crate::due::due;
use crate::expect::{CONSUMPTION, CUT, GENERATION, PC, SETTLED, TANGENT};
use crate::park::{Line, Park, Site};
use crate::steps::{input_flow, transit_flow, Bill};

/// What the balance of a park came to.
#[derive(Clone, Copy, Debug)]
pub struct Balance {
    /// Settled losses less cuts.
    pub settled: i128,
    /// Losses coming in from the network less those going back.
    pub network: i128,
    pub some_cut: bool,
    /// Whether no site is cut and every consumption charge is due.
    pub charges_asked: bool,
    /// The difference of charges and price in ten-millionths of a kopeck, and the most that it may
    /// be if it is asked for.
    pub difference: i128,
    pub most: i128,
}

/// The balance of a park with these bills; none if it does not meet the condition.
pub fn balance(park: &Park, bills: &[Bill]) -> Option<Balance> {
    let inner = |line: &&Line| line.joins_two_sites();
    if !park.lines.iter().filter(inner).all(|line| line.measures_reactive()) {
        return None;
    }
    let total = |field: usize| -> i128 { bills.iter().map(|bill| bill[field] as i128).sum() };
    let network: i128 = park.lines.iter().map(|line| network_losses(line, bills)).sum();
    let some_cut = bills.iter().any(|bill| bill[CUT] != 0);
    let all_due = park.sites.iter().zip(bills).all(|(site, bill)| consumption_due(site, bill));
    Some(Balance {
        settled: total(SETTLED) - total(CUT),
        network,
        some_cut,
        charges_asked: !some_cut && all_due,
        difference: (total(PC) * 10_000_000 - network * park.price as i128).abs(),
        most: 5_000_000 * bills.len() as i128,
    })
}

/// Whether Pc of a site with this bill is due.
fn consumption_due(site: &Site, bill: &Bill) -> bool {
    due(site.power, bill[CONSUMPTION] as i128, bill[GENERATION] as i128).consumption
}

/// A line's share of the energy at the network: D times its flow of step 1 if it comes from
/// there, less D times that of step 3 if it goes back, with the tangent that was billed.
fn network_losses(line: &Line, bills: &[Bill]) -> i128 {
    let eerp = line.eerp as i128;
    if line.from == 0 {
        eerp * input_flow(line)
    } else if line.to == 0 {
        -eerp * transit_flow(line, bills[line.from as usize - 1][TANGENT] as i128)
    } else {
        0
    }
}

impl Balance {
    pub fn holds(&self) -> bool {
        self.settled == self.network && (!self.charges_asked || self.difference <= self.most)
    }
}
