//! What touches a site: its lines and its generators, sums over its lines, and WP0.

use crate::park::{Generator, Line, Park};

/// The lines touching a site, and its generators.
#[derive(Debug)]
pub struct Lines<'a> {
    pub inputs: Vec<&'a Line>,
    pub transits: Vec<&'a Line>,
    pub generators: Vec<&'a Generator>,
}

/// A reading of a transit that counts only with a meter of reactive consumption.
pub fn if_metered(line: &Line, reading: u32) -> i128 {
    match line.measures_reactive() {
        true => reading as i128,
        false => 0,
    }
}

impl Lines<'_> {
    /// Those of a site counted from 1.
    pub fn of(park: &Park, number: usize) -> Lines<'_> {
        let of_site = |site: u32| site as usize == number;
        Lines {
            inputs: park.lines.iter().filter(|line| of_site(line.to)).collect(),
            transits: park.lines.iter().filter(|line| of_site(line.from)).collect(),
            generators: park.generators.iter().filter(|one| of_site(one.site)).collect(),
        }
    }

    /// A value summed over the inputs, less another summed over the transits.
    pub fn net(&self, input: impl Fn(&Line) -> i128, transit: impl Fn(&Line) -> i128) -> i128 {
        let added: i128 = self.inputs.iter().map(|line| input(line)).sum();
        let taken_off: i128 = self.transits.iter().map(|line| transit(line)).sum();
        added - taken_off
    }

    /// Step 2: WP0 before its cut; with a generator it is that of annex 18 (02, R-5).
    pub fn active(&self) -> i128 {
        if self.generators.is_empty() {
            return self.active_without_generators();
        }
        let output: i128 = self.generators.iter().map(|one| one.output as i128).sum();
        let input = |line: &Line| line.active as i128 - line.active_generated as i128;
        let transit = |line: &Line| if_metered(line, line.active) - line.active_generated as i128;
        self.net(input, transit) + output
    }

    /// WP0 before its cut, as 01 has it.
    pub fn active_without_generators(&self) -> i128 {
        self.net(|line| line.active as i128, |line| if_metered(line, line.active))
    }
}
