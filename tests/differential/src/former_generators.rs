//! The bills of before R-5 (02), by 01's own park: the version 1 of a park of version 2, without the
//! marks of stations, with the steps of now. Every site without a generator must be billed as
//! then, but that a station owes less.

use crate::compare::Tester;
use crate::former_stations::{left, unmarked};
use crate::layout::Version;
use crate::park::{Park, ACTIVE_GENERATED_METER};
use crate::product::Way;
use crate::rules::accepted_park;
use crate::steps::{work_out, Bill};

/// The park as version 1 can hold it.
fn first(park: &Park) -> Park {
    let mut park = Park { version: Version::One, generators: Vec::new(), ..unmarked(park) };
    for line in &mut park.lines {
        line.meters &= !ACTIVE_GENERATED_METER;
        line.active_generated = 0;
    }
    park
}

impl Tester<'_> {
    /// Compares bills of the product by a way for an accepted park with those of its version 1.
    pub fn same_without_generators(&mut self, way: Way, park: &Park, bills: &[Bill]) {
        if park.version == Version::One {
            return;
        }
        let file = first(park).to_file();
        let former = accepted_park(&file);
        self.same(format_args!("version 1 accepted"), true, former.is_ok());
        let Ok(former) = former else { return };
        for (site, bill) in (1..).zip(bills) {
            if park.generators.iter().all(|generator| generator.site as usize != site) {
                let right = left(&park.sites[site - 1], &work_out(&former, site).bill());
                self.same(format_args!("bill {way} as before R-5"), right, *bill);
            }
        }
    }
}
