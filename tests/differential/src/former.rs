//! The replies of before R-2 (02), when rule 14 alone refused the ends of a line; the other rules are
//! those of now. Every file and list must be replied to as then, the place included, but that 23 and
//! 24 stood as 14.

use crate::calculator::Refusal;
use crate::compare::{reply_to, Tester};
use crate::park::Line;
use crate::product::Reply;
use crate::rules::{park_of_file, park_of_list, refuse_if, ChangedRules, RULES};

const END_RULES: ChangedRules = ChangedRules { ends: check_ends, ..RULES };

/// The former rule 14: a line goes upwards or back to the network, and no end is above s.
fn check_ends(line: &Line, place: usize, sites: usize) -> Result<(), Refusal> {
    let (from, to) = (line.from as usize, line.to as usize);
    let upwards = from < to && to <= sites;
    let back = to == 0 && (1..=sites).contains(&from);
    refuse_if(!upwards && !back, 14, place)
}

/// What was said of a file.
pub fn of_file(file: &[u8]) -> Result<(), Refusal> {
    park_of_file(file, &END_RULES).map(|_| ())
}

/// What was said of a list, for a buffer that is long enough.
pub fn of_list(numbers: &[u32]) -> Result<(), Refusal> {
    park_of_list(numbers, &END_RULES).map(|_| ())
}

impl Tester<'_> {
    /// Compares a reply of the product with what was said before.
    pub fn same_as_before(&mut self, former: Result<(), Refusal>, reply: Reply) {
        let number = if [23, 24].contains(&reply.number) { 14 } else { reply.number };
        self.same(format_args!("as before R-2"), reply_to(&former), Reply { number, ..reply });
    }
}
