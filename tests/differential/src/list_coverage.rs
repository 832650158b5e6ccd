//! How often each refusal of a list was reached (02, R-1), each field that is too wide, and the ends
//! of lines in lists (02, R-2).

use crate::branches::Branch;
use crate::coverage::Coverage;
use crate::ends_coverage::EndsCoverage;
use crate::fields::{field_at, FIELDS};
use crate::list::HEADER_NUMBERS;
use crate::park::{Header, Line, Park};
use crate::rules::{listed_park, Refusal};

/// The refusals that a list can meet, in the order of the table; 0 stands for an accepted one.
const LIST_REPLIES: [u64; 21] =
    [0, 1, 4, 5, 6, 7, 8, 9, 10, 11, 12, 13, 14, 23, 24, 15, 16, 17, 18, 19, 22];

#[derive(Default)]
pub struct ListCoverage {
    /// By refusal number.
    refusals: [u64; 25],
    /// By field.
    narrowed: [u64; FIELDS.len()],
    ends: EndsCoverage,
}

impl ListCoverage {
    /// Every count with its name.
    pub fn counts(&self) -> impl Iterator<Item = (String, u64)> + '_ {
        let replies = LIST_REPLIES.iter().map(|number| match number {
            0 => ("list: accepted".to_string(), self.refusals[0]),
            _ => (format!("list: refusal {number}"), self.refusals[*number as usize]),
        });
        let narrow = FIELDS.iter().zip(self.narrowed).filter(|(field, _)| field.width < 4);
        let narrowed = narrow.map(|(field, count)| {
            (format!("list: refused, accepted if {} narrowed", field.name), count)
        });
        replies.chain(narrowed).chain(self.ends.counts("list"))
    }
}

/// The one field that is too wide in a list which would be accepted with that field narrowed to
/// its width; none if there is no such field.
fn too_wide(numbers: &[u32]) -> Option<usize> {
    let sites = FIELDS[1].narrowed(*numbers.get(1)?) as usize;
    let field = |place: usize| field_at(place, sites);
    let mut wide = (0..numbers.len()).filter(|place| !FIELDS[field(*place)].fits(numbers[*place]));
    let (place, None) = (wide.next()?, wide.next()) else { return None };
    let mut narrowed = numbers.to_vec();
    narrowed[place] = FIELDS[field(place)].narrowed(numbers[place]);
    listed_park(&narrowed).is_ok().then_some(field(place))
}

impl Coverage {
    /// Counts a reply: 0 for an accepted list.
    pub fn list_reply(&mut self, number: u64) {
        self.lists.refusals[number as usize] += 1;
    }

    /// Counts a list with what the calculator says of it.
    pub fn list(&mut self, numbers: &[u32], expected: &Result<Park, Refusal>) {
        match expected {
            Ok(park) => {
                let (sites, lines) = (park.sites.len(), park.lines.len());
                self.list_reply(0);
                self.lists.ends.accepted(park);
                self.count(Branch::SmallestMade, sites == 1 && lines == 1);
                self.count(Branch::LargestMade, sites == 16 && lines == 64);
            }
            Err(refusal) => {
                self.list_reply(refusal.number);
                if refusal.place != 0 {
                    self.refused_record(&Park::from_list(numbers), *refusal);
                }
                let wrong_count = refusal.number == 9;
                let longer = wrong_count && numbers.len() > Header::of_list(numbers).list_numbers();
                self.count(Branch::ListTooLong, wrong_count && longer);
                self.count(Branch::ListTooShort, wrong_count && !longer);
                self.count(Branch::HeaderAlone, wrong_count && numbers.len() == HEADER_NUMBERS);
                if let Some(field) = too_wide(numbers) {
                    self.lists.narrowed[field] += 1;
                }
            }
        }
    }

    /// Counts a list that is refused at a site or line.
    fn refused_record(&mut self, park: &Park, refusal: Refusal) {
        self.lists.ends.refused(park, refusal);
        if refusal.number == 14 {
            let line = &park.lines[refusal.place as usize - 1];
            self.wide_ends(line, park.sites.len() as u32);
        }
    }

    /// Ends of a line refused by 14 that a byte would not hold.
    fn wide_ends(&mut self, line: &Line, sites: u32) {
        let [wide_from, wide_to] = [line.from, line.to].map(|end| end > 255);
        let [from, to] = [line.from, line.to].map(|end| end & 255);
        let [from_site, to_site] = [from, to].map(|end| (1..=sites).contains(&end));
        let wide = wide_from || wide_to;
        self.count(Branch::WideFromNetwork, wide_from && from == 0);
        self.count(Branch::WideFromSite, wide_from && from_site);
        self.count(Branch::WideToNetwork, wide_to && to == 0);
        self.count(Branch::WideToSite, wide_to && to_site);
        self.count(Branch::WideBothNetwork, wide && from == 0 && to == 0);
        self.count(Branch::WideOutOfOrder, wide && from_site && to_site && from >= to);
    }
}
