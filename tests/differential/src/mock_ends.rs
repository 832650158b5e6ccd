//! The second path's rules for the ends of a line (02, R-2): it tells lines apart by which of their
//! ends are the network.

use crate::mistakes::Mistake;
use crate::mock::Mock;

impl Mock {
    /// Whether the ends of a line break rules 14, 23 and 24.
    pub fn ends_breached(&self, from: u8, to: u8, sites: u8) -> [bool; 3] {
        let [network, out_of_order] = match (from, to) {
            (0, 0) => [true, false],
            (0, _) => [self.makes(Mistake::NetworkToSiteRefused), false],
            (_, 0) => [false, self.makes(Mistake::LineBackOutOfOrder)],
            _ if from == to => [false, !self.makes(Mistake::SameSiteAccepted)],
            _ => [false, from > to],
        };
        let above = match self.0 {
            Some(Mistake::LineBackRefused) if to == 0 => true,
            Some(Mistake::SameSiteFourteen) if from == to && from != 0 => true,
            Some(Mistake::FromAboveOutOfOrder) if to != 0 => to > sites,
            Some(Mistake::BothAboveOutOfOrder) if from >= to => from > sites && to <= sites,
            _ => from.max(to) > sites,
        };
        [above, network, out_of_order]
    }

    /// Numbers and orders the rows of a line, from 14 on, as a mistake does.
    pub fn misplace_ends(&self, rows: &mut [(u64, bool); 7]) {
        match self.0 {
            Some(Mistake::EndsExchanged) => (rows[1].0, rows[2].0) = (24, 23),
            Some(Mistake::FormerEnds) => (rows[1].0, rows[2].0) = (14, 14),
            Some(Mistake::OutOfOrderBeforeAbove) => rows.swap(0, 2),
            Some(Mistake::OutOfOrderAfterMark) => rows.swap(2, 3),
            Some(Mistake::NetworkAfterMark) => rows[1..4].rotate_left(1),
            _ => {}
        }
    }

    /// The refusal with its number of before R-2, if this mistake is made.
    pub fn former_if(&self, mistake: Mistake, (number, place): (u64, u64)) -> (u64, u64) {
        let former = self.makes(mistake) && [23, 24].contains(&number);
        (if former { 14 } else { number }, place)
    }
}
