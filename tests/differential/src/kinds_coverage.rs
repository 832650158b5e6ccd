//! Counts of what the generated files of each version and the generated lists met, each kind for
//! itself.

use crate::layout::Version;
use crate::park::Park;
use crate::rules::{listed_park, Refusal};

/// What is counted of the parks of one kind.
pub trait Counts: Default {
    /// What the parks of version 2 are called here, of which it may pass sites over.
    const SECOND: &'static str;

    const NAMES: &'static [&'static str];

    fn park(&mut self, park: &Park);

    fn counts(&self) -> &[u64];
}

#[derive(Default)]
pub struct ByKind<C> {
    files: C,
    files_of_two: C,
    lists: C,
}

impl<C: Counts> ByKind<C> {
    /// Counts what the calculator says of a file, if it is a park.
    pub fn file(&mut self, answer: &Result<Park, Refusal>) {
        match answer {
            Ok(park) if park.version == Version::Two => self.files_of_two.park(park),
            Ok(park) => self.files.park(park),
            Err(_) => {}
        }
    }

    pub fn list(&mut self, numbers: &[u32]) {
        if let Ok(park) = listed_park(numbers) {
            self.lists.park(&park);
        }
    }

    /// Every count with its name.
    pub fn counts(&self) -> impl Iterator<Item = (String, u64)> + '_ {
        let kinds = [("file", &self.files), (C::SECOND, &self.files_of_two), ("list", &self.lists)];
        kinds.into_iter().flat_map(|(kind, counts)| {
            let name = move |name| format!("generated {kind}: {name}");
            C::NAMES.iter().map(name).zip(counts.counts().iter().copied())
        })
    }
}
