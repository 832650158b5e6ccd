//! How often the generated files of each version and the generated lists met each listed mark (02,
//! ) on an accepted input and on an accepted transit, and each kind of other mark as
//! refusal 15. The named marks do not count here: the generated cases have to meet all of them by
//! themselves.

use std::ops::RangeInclusive;

use crate::layout::Version;
use crate::park::Park;
use crate::rules::{listed_park, Refusal};

const LISTED: &[u32] = &[0, 1, 2, 3, 6, 7];
const LISTED_IN_TWO: &[u32] = &[0, 1, 2, 3, 6, 7, 8, 9, 10, 11, 14, 15];

/// Other marks, in kinds that may go wrong apart.
type Kinds = &'static [(&'static str, RangeInclusive<u32>)];

const OTHERS: Kinds =
    &[("4", 4..=4), ("5", 5..=5), ("8 to 15", 8..=15), ("above 15", 16..=u32::MAX)];
const OTHERS_IN_TWO: Kinds = &[
    ("4", 4..=4),
    ("5", 5..=5),
    ("12", 12..=12),
    ("13", 13..=13),
    ("16", 16..=16),
    ("above 16", 17..=u32::MAX),
];

struct Counts {
    kind: &'static str,
    listed: &'static [u32],
    others: Kinds,
    /// Lines to a site, by mark.
    inputs: Vec<u64>,
    /// Lines from a site, by mark.
    transits: Vec<u64>,
    /// By kind of mark.
    refused: Vec<u64>,
}

pub struct MarksCoverage {
    files: Counts,
    files_of_two: Counts,
    lists: Counts,
}

impl Counts {
    fn new(kind: &'static str, listed: &'static [u32], others: Kinds) -> Counts {
        let none = vec![0; listed.len()];
        let refused = vec![0; others.len()];
        Counts { kind, listed, others, inputs: none.clone(), transits: none, refused }
    }

    /// Counts what the calculator says; `park` reads the park of a refused line.
    fn count(&mut self, answer: &Result<Park, Refusal>, park: impl FnOnce() -> Park) {
        match answer {
            Ok(park) => self.accepted(park),
            Err(Refusal { number: 15, place }) => {
                let mark = park().lines[*place as usize - 1].meters;
                for ((_, marks), count) in self.others.iter().zip(&mut self.refused) {
                    *count += marks.contains(&mark) as u64;
                }
            }
            Err(_) => {}
        }
    }

    fn accepted(&mut self, park: &Park) {
        for line in &park.lines {
            for (index, mark) in self.listed.iter().enumerate() {
                self.inputs[index] += (line.meters == *mark && line.to != 0) as u64;
                self.transits[index] += (line.meters == *mark && line.from != 0) as u64;
            }
        }
    }

    fn named(&self) -> impl Iterator<Item = (String, u64)> + '_ {
        let kind = self.kind;
        let accepted = move |line, counts: &'_ [u64]| {
            let name = move |mark| format!("generated {kind}: accepted, mark {mark} on {line}");
            self.listed.iter().map(name).zip(counts.to_vec())
        };
        let name = move |marks| format!("generated {kind}: refusal 15, mark {marks}");
        let refused = self.others.iter().map(move |(marks, _)| name(marks));
        accepted("an input", &self.inputs)
            .chain(accepted("a transit", &self.transits))
            .chain(refused.zip(self.refused.clone()))
    }
}

impl MarksCoverage {
    pub fn new() -> MarksCoverage {
        MarksCoverage {
            files: Counts::new("file", LISTED, OTHERS),
            files_of_two: Counts::new("file of version 2", LISTED_IN_TWO, OTHERS_IN_TWO),
            lists: Counts::new("list", LISTED, OTHERS),
        }
    }

    /// Counts a file with what the calculator says of it.
    pub fn file(&mut self, file: &[u8], answer: &Result<Park, Refusal>) {
        let counts = match Version::of_file(file) {
            Some(Version::Two) => &mut self.files_of_two,
            _ => &mut self.files,
        };
        counts.count(answer, || Park::from_file(file));
    }

    pub fn list(&mut self, numbers: &[u32]) {
        self.lists.count(&listed_park(numbers), || Park::from_list(numbers));
    }

    /// Every count with its name.
    pub fn counts(&self) -> impl Iterator<Item = (String, u64)> + '_ {
        self.files.named().chain(self.files_of_two.named()).chain(self.lists.named())
    }
}
