//! Where the second path finds the records of a file of either version (02, R-5).

use crate::mistakes::Mistake;
use crate::mock::{at, Mock};

impl Mock {
    pub fn version(&self, file: &[u8]) -> i64 {
        at(file, 3, if self.makes(Mistake::VersionByLowestByte) { 1 } else { 2 })
    }

    /// What rule 3 admits.
    pub fn is_version(&self, version: i64) -> bool {
        match self.0 {
            Some(Mistake::VersionTwoRefused) => version == 1,
            Some(Mistake::VersionThreeAccepted) => (1..=3).contains(&version),
            _ => version == 1 || version == 2,
        }
    }

    pub fn is_second(&self, file: &[u8]) -> bool {
        self.version(file) != 1
    }

    /// What rule 1 asks for.
    pub fn least_bytes(&self, file: &[u8]) -> usize {
        let fifteen = self.makes(Mistake::FourteenBytesTooShort) && file.get(3) == Some(&2);
        14 + fifteen as usize
    }

    /// The number of generators; 0 in version 1.
    pub fn generator_count(&self, file: &[u8]) -> usize {
        let missing = if self.makes(Mistake::MissingCountTooLarge) { 255 } else { 0 };
        match self.0 {
            _ if !self.is_second(file) => 0,
            Some(Mistake::CountAtAnotherByte) => file[13] as usize,
            _ => file.get(14).map_or(missing, |count| *count as usize),
        }
    }

    /// How long a header is, and how long a line.
    fn lengths(&self, file: &[u8]) -> (usize, usize) {
        match self.0 {
            _ if !self.is_second(file) => (14, 21),
            Some(Mistake::HeaderOfFourteenBytes) => (14, 25),
            Some(Mistake::LineOfTwentyOneBytes) => (15, 21),
            _ => (15, 25),
        }
    }

    /// What rule 9 asks for.
    pub fn length(&self, file: &[u8]) -> usize {
        let (header, line) = self.lengths(file);
        let lines = header + 11 * file[6] as usize + line * file[7] as usize;
        match self.0 {
            Some(Mistake::GeneratorsLeftOutOfLength) => lines,
            _ => lines + 5 * self.generator_count(file),
        }
    }

    /// The records after the header, which begin a byte too early with a mistake.
    fn records<'a>(&self, file: &'a [u8]) -> &'a [u8] {
        let early = self.is_second(file) && self.makes(Mistake::RecordsFromByteFourteen);
        &file[self.lengths(file).0 - early as usize..]
    }

    pub fn sites<'a>(&self, file: &'a [u8]) -> impl Iterator<Item = &'a [u8]> {
        self.records(file).chunks_exact(11).take(file[6] as usize)
    }

    /// How long a line is taken for when it is read.
    fn line_bytes(&self, file: &[u8]) -> usize {
        match self.0 {
            Some(Mistake::LinesReadAsTwentyOneBytes) => 21,
            _ => self.lengths(file).1,
        }
    }

    /// The lines and the generators.
    fn after_sites<'a>(&self, file: &'a [u8]) -> (&'a [u8], &'a [u8]) {
        let after = &self.records(file)[11 * file[6] as usize..];
        if self.makes(Mistake::GeneratorsBeforeLines) {
            let (generators, lines) = after.split_at(5 * self.generator_count(file));
            return (lines, generators);
        }
        after.split_at(self.line_bytes(file) * file[7] as usize)
    }

    pub fn lines<'a>(&self, file: &'a [u8]) -> impl Iterator<Item = &'a [u8]> {
        self.after_sites(file).0.chunks_exact(self.line_bytes(file)).take(file[7] as usize)
    }

    pub fn generators<'a>(&self, file: &'a [u8]) -> impl Iterator<Item = &'a [u8]> {
        self.after_sites(file).1.chunks_exact(5).take(self.generator_count(file))
    }

    /// WP, WQ, WG and WN of a line.
    pub fn readings(&self, line: &[u8]) -> [i64; 4] {
        let first = line.len() > 21 && self.makes(Mistake::ActiveGenerationReadFirst);
        [5, 9, 13, 17].map(|offset| at(line, offset + 4 * first as usize, 4))
    }

    /// The fifth reading of a line; 0 in version 1.
    pub fn active_generated(&self, line: &[u8]) -> i64 {
        match line.len() {
            21 => 0,
            _ if self.makes(Mistake::ActiveGenerationReadFirst) => at(line, 5, 4),
            _ => at(line, 21, 4),
        }
    }

    /// What the program has read of a file before it answers.
    pub fn bytes_read<'a>(&self, file: &'a [u8]) -> &'a [u8] {
        let most = match self.0 {
            Some(Mistake::PrintedFromBytesOfVersionOne) => 1_535,
            Some(Mistake::PrintedFromLongestFile) => 1_951,
            _ => usize::MAX,
        };
        &file[..most.min(file.len())]
    }
}
