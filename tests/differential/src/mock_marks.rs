//! The second path's rule for the meter mark (02, R-3 and R-5): it lists those that may be.

use crate::mistakes::Mistake;
use crate::mock::Mock;

impl Mock {
    /// Whether a mark breaks rule 15, in version 2 or in version 1.
    pub fn mark_breached(&self, mark: u8, second: bool) -> bool {
        match self.0 {
            Some(Mistake::MarkEightAcceptedInVersionOne) if mark == 8 => false,
            Some(Mistake::MarksOfVersionTwoInOne) => self.second_mark_breached(mark),
            Some(Mistake::MarksOfVersionOneInTwo) => self.first_mark_breached(mark),
            _ if second => self.second_mark_breached(mark),
            _ => self.first_mark_breached(mark),
        }
    }

    fn second_mark_breached(&self, mark: u8) -> bool {
        match self.0 {
            Some(Mistake::MarkTwelveAccepted) if mark == 12 => false,
            Some(Mistake::MarkThirteenAccepted) if mark == 13 => false,
            Some(Mistake::MarkSixteenAccepted) if mark == 16 => false,
            Some(Mistake::MarkFourteenRefused) if mark == 14 => true,
            Some(Mistake::MarkEightOnlyWithReactive) if mark & 9 == 8 => true,
            _ if (8..16).contains(&mark) => self.first_mark_breached(mark - 8),
            _ => self.first_mark_breached(mark),
        }
    }

    fn first_mark_breached(&self, mark: u8) -> bool {
        match self.0 {
            Some(Mistake::MarkFourAccepted) if mark == 4 => false,
            Some(Mistake::MarkFiveAccepted) if mark == 5 => false,
            Some(Mistake::MarksAboveSevenAccepted) if mark > 7 => false,
            Some(Mistake::MarkTwoRefused) if mark == 2 => true,
            Some(Mistake::MarkSixRefused) if mark == 6 => true,
            Some(Mistake::MarkByLowestDigits) => matches!(mark & 7, 4 | 5),
            _ => !matches!(mark, 0 | 1 | 2 | 3 | 6 | 7),
        }
    }

    /// Orders the rows of a line, from 14 on, as a mistake does with that of the mark.
    pub fn misplace_mark(&self, rows: &mut [(u64, bool); 7]) {
        if self.makes(Mistake::MarkAfterReadings) {
            rows[3..].rotate_left(1);
        }
    }
}
