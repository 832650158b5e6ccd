//! How each version lays out the park file (01, "The park file"; 02, R-5 and R-8): the lengths of
//! its records, where they begin, and the marks and flags it has. Sites, lines and generators are
//! counted from 1.

/// A file of either version has so many bytes at least (rule 1).
pub const LEAST_BYTES: usize = 14;
pub const SITE_BYTES: usize = 11;
pub const GENERATOR_BYTES: usize = 5;

/// Where the number of generators stands in a file of version 2.
pub const GENERATORS_OFFSET: usize = 14;
/// Where the active generation stands in a line of version 2.
pub const ACTIVE_GENERATED_OFFSET: usize = 21;

#[derive(Clone, Copy, Debug, PartialEq, Eq)]
pub enum Version {
    One,
    Two,
}

impl Version {
    /// The version that bytes 3 and 4 of a file state; none if there is no such version.
    pub fn of_file(file: &[u8]) -> Option<Version> {
        match file.get(3..5)? {
            [1, 0] => Some(Version::One),
            [2, 0] => Some(Version::Two),
            _ => None,
        }
    }

    pub fn number(self) -> u32 {
        match self {
            Version::One => 1,
            Version::Two => 2,
        }
    }

    pub fn header_bytes(self) -> usize {
        match self {
            Version::One => 14,
            Version::Two => 15,
        }
    }

    pub fn line_bytes(self) -> usize {
        match self {
            Version::One => 21,
            Version::Two => 25,
        }
    }

    /// The sum of all meters that a line may have.
    pub fn most_mark(self) -> u32 {
        match self {
            Version::One => 7,
            Version::Two => 15,
        }
    }

    /// The largest flag that a site may have (02, R-8).
    pub fn most_flag(self) -> u32 {
        match self {
            Version::One => 1,
            Version::Two => 3,
        }
    }

    /// Where the record of a site begins.
    pub fn site_offset(self, site: usize) -> usize {
        self.header_bytes() + SITE_BYTES * (site - 1)
    }

    /// Where the record of a line begins, in a file of `sites` sites.
    pub fn line_offset(self, sites: usize, line: usize) -> usize {
        self.site_offset(sites + 1) + self.line_bytes() * (line - 1)
    }

    /// Where the record of a generator begins, in a file of so many sites and lines.
    pub fn generator_offset(self, sites: usize, lines: usize, generator: usize) -> usize {
        self.line_offset(sites, lines + 1) + GENERATOR_BYTES * (generator - 1)
    }

    /// The length of a file with so many records; version 1 has no generators.
    pub fn file_bytes(self, sites: usize, lines: usize, generators: usize) -> usize {
        self.generator_offset(sites, lines, generators + 1)
    }
}
