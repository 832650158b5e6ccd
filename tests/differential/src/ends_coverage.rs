//! How often the ends of lines were met in each way that may mislead in telling 14, 23 and 24 apart,
//! or in their order (02, R-2); of files and of lists each.

use crate::branches::{Ends, ENDS_NAMES};
use crate::layout::Version;
use crate::park::{Line, Park};
use crate::rules::{wrong_mark, Refusal};

#[derive(Default)]
pub struct EndsCoverage([u64; ENDS_NAMES.len()]);

fn both_network(line: &Line) -> bool {
    line.from == 0 && line.to == 0
}

fn out_of_order(line: &Line) -> bool {
    line.joins_two_sites() && line.from >= line.to
}

impl EndsCoverage {
    /// Every count with its name, which begins with whether files or lists are meant.
    pub fn counts(&self, kind: &'static str) -> impl Iterator<Item = (String, u64)> + '_ {
        ENDS_NAMES.iter().zip(self.0).map(move |(name, count)| (format!("{kind}: {name}"), count))
    }

    fn count(&mut self, ends: Ends, met: bool) {
        self.0[ends as usize] += met as u64;
    }

    pub fn accepted(&mut self, park: &Park) {
        let next = |line: &Line| line.from != 0 && line.from + 1 == line.to;
        self.count(Ends::LineBack, park.lines.iter().any(|line| line.to == 0));
        self.count(Ends::NextSite, park.lines.iter().any(next));
    }

    /// Counts a park that is refused at a site or line.
    pub fn refused(&mut self, park: &Park, refusal: Refusal) {
        let lines = park.lines.get(refusal.place as usize - 1..).unwrap_or_default();
        let Some((line, later)) = lines.split_first() else { return };
        let sites = park.sites.len() as u32;
        let above = |line: &Line| line.from.max(line.to) > sites;
        let then_above = later.iter().any(above);
        let then_network = later.iter().any(both_network);
        let then_out_of_order = later.iter().any(|line| out_of_order(line) && !above(line));
        match refusal.number {
            14 => {
                self.above(line, sites, park.version);
                self.count(Ends::AboveThenNetwork, then_network);
                self.count(Ends::AboveThenOutOfOrder, then_out_of_order);
            }
            23 => {
                self.count(Ends::NetworkWrongMark, wrong_mark(line, park.version));
                self.count(Ends::NetworkThenAbove, then_above);
                self.count(Ends::NetworkThenOutOfOrder, then_out_of_order);
            }
            24 => {
                self.out_of_order(line, sites, park.version);
                self.count(Ends::OutOfOrderThenAbove, then_above);
                self.count(Ends::OutOfOrderThenNetwork, then_network);
            }
            15 => {
                self.count(Ends::MarkThenAbove, then_above);
                self.count(Ends::MarkThenNetwork, then_network);
                self.count(Ends::MarkThenOutOfOrder, then_out_of_order);
            }
            _ => {}
        }
    }

    /// A line refused by 14.
    fn above(&mut self, line: &Line, sites: u32, version: Version) {
        let (from, to) = (line.from, line.to);
        let (from_site, to_site) = ((1..=sites).contains(&from), (1..=sites).contains(&to));
        let both = from > sites && to > sites;
        self.count(Ends::NetworkToAbove, from == 0);
        self.count(Ends::AboveToNetwork, to == 0);
        self.count(Ends::SiteToAbove, from_site);
        self.count(Ends::AboveToSite, to_site);
        self.count(Ends::AboveInOrder, both && from < to);
        self.count(Ends::AboveOutOfOrder, both && from > to);
        self.count(Ends::AboveEqual, both && from == to);
        self.count(Ends::AboveByOne, from.max(to) == sites + 1);
        self.count(Ends::AboveWrongMark, wrong_mark(line, version));
    }

    /// A line refused by 24.
    fn out_of_order(&mut self, line: &Line, sites: u32, version: Version) {
        let (from, to) = (line.from, line.to);
        self.count(Ends::SameSite, from == to);
        self.count(Ends::SameLastSite, from == to && to == sites);
        self.count(Ends::JustOutOfOrder, from == to + 1);
        self.count(Ends::FarOutOfOrder, from > to + 1);
        self.count(Ends::OutOfOrderWrongMark, wrong_mark(line, version));
    }
}
