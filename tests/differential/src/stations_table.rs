//! In which combinations the generated files of each version met sites: power stations (02, R-8) and
//! others, by their devices and generation, by what is due without the mark, by h, by whether they are
//! cut at zero, and by whether they have generators.

use crate::layout::Version;
use crate::steps::{Source, Working};

/// The versions, and in version 2 whether the site is a station.
const KINDS: [&str; 3] = ["version 1, a site", "version 2, a site", "version 2, a station"];

/// Where generation comes from, if there is any.
const GENERATIONS: [&str; 4] =
    ["no devices", "generation 0", "generation metered", "generation computed"];

/// Reason 1, reason 2, and what is due where the reason is 0.
const DUES: [&str; 5] = ["reason 1", "reason 2", "Pc due", "Pg due", "Pc and Pg due"];

const DISCOUNTS: [&str; 2] = ["h 0", "h not 0"];
const CUTS: [&str; 2] = ["not cut", "cut"];
const GENERATORS: [&str; 2] = ["", ", a generator"];

/// A place in each of these, in their order.
type Combination = [usize; 6];

const SIZES: Combination =
    [KINDS.len(), GENERATIONS.len(), DUES.len(), DISCOUNTS.len(), CUTS.len(), GENERATORS.len()];

const ALL: usize = SIZES[0] * SIZES[1] * SIZES[2] * SIZES[3] * SIZES[4] * SIZES[5];

/// How often each combination was met.
pub struct StationsTable([u64; ALL]);

impl Default for StationsTable {
    fn default() -> StationsTable {
        StationsTable([0; ALL])
    }
}

/// The index of a combination, and back.
fn index(combination: Combination) -> usize {
    combination.iter().zip(SIZES).fold(0, |index, (place, size)| index * size + place)
}

fn combination(mut index: usize) -> Combination {
    let mut places = [0; 6];
    for (place, size) in places.iter_mut().zip(SIZES).rev() {
        *place = index % size;
        index /= size;
    }
    places
}

/// Whether there is such a site: nothing generated leaves Pg not due, and generators are in version 2
/// at sites with devices alone.
fn possible([kind, generation, due, _, _, generators]: Combination) -> bool {
    let generates = generation >= 2;
    let has_generators = generators == 1;
    (generates || due < 3) && !(has_generators && (kind == 0 || generation == 0))
}

impl StationsTable {
    /// Counts a site of an accepted park.
    pub fn site(&mut self, version: Version, work: &Working) {
        let kind = match version {
            Version::One => 0,
            Version::Two => 1 + work.site.is_station() as usize,
        };
        let generation = match work.generation.source {
            Source::Nothing => 0,
            _ if work.generation.energy <= 0 => 1,
            Source::Metered | Source::MeteredAtNight => 2,
            Source::Computed => 3,
        };
        let due = match (work.due.reason, work.due.consumption, work.due.generation) {
            (1, ..) => 0,
            (2, ..) => 1,
            (_, true, false) => 2,
            (_, false, _) => 3,
            (_, true, true) => 4,
        };
        let discount = (work.site.discount != 0) as usize;
        let cut = (work.consumption.losses < 0) as usize;
        let generators = !work.lines.generators.is_empty() as usize;
        self.0[index([kind, generation, due, discount, cut, generators])] += 1;
    }

    /// Every count with its name.
    pub fn counts(&self) -> impl Iterator<Item = (String, u64)> + '_ {
        let of = |index| (combination(index), self.0[index]);
        let met = (0..ALL).map(of).filter(|(places, _)| possible(*places));
        met.map(|([kind, generation, due, discount, cut, generators], count)| {
            let [kind, generation, due] = [KINDS[kind], GENERATIONS[generation], DUES[due]];
            let [discount, cut] = [DISCOUNTS[discount], CUTS[cut]];
            let generators = GENERATORS[generators];
            let name = format!("{kind}, {generation}, {due}, {discount}, {cut}{generators}");
            (format!("generated file of {name}"), count)
        })
    }
}
