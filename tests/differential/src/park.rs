//! The park file (01, "The park file"; 02, R-5 and R-8): its four records, writing them and reading
//! them.
//!
//! All numbers are unsigned, lowest byte first. A field is kept in 32 bits, whatever its width in
//! the file: a list (02, R-1) may hold any such number, and the table must see it whole.

use crate::layout::{Version, ACTIVE_GENERATED_OFFSET, GENERATORS_OFFSET};

/// Meters of a line; the meter mark is the sum of those it has.
pub const REACTIVE_METER: u32 = 1;
pub const GENERATED_METER: u32 = 2;
pub const NIGHT_METER: u32 = 4;
/// In version 2 only.
pub const ACTIVE_GENERATED_METER: u32 = 8;

/// What the flag of a site is the sum of: that devices exist, and the mark of a power station.
pub const DEVICES: u32 = 1;
/// In version 2 only.
pub const STATION: u32 = 2;

/// Most hours a month may state, January to December.
pub const MONTH_HOURS: [u32; 12] = [744, 696, 743, 720, 744, 720, 744, 744, 720, 745, 720, 744];

/// The header, after its letters.
#[derive(Clone, Copy, Debug)]
pub struct Header {
    pub version: Version,
    pub month: u32,
    /// s.
    pub sites: u32,
    /// n.
    pub lines: u32,
    /// T, kopecks per MWh.
    pub price: u32,
    /// t, hours for the computed generation.
    pub hours: u32,
    /// g; 0 in version 1, and in a file that ends before it.
    pub generators: u32,
}

#[derive(Clone, Debug)]
pub struct Park {
    pub version: Version,
    pub month: u32,
    /// T, kopecks per MWh.
    pub price: u32,
    /// t, hours for the computed generation.
    pub hours: u32,
    pub sites: Vec<Site>,
    pub lines: Vec<Line>,
    /// None in version 1.
    pub generators: Vec<Generator>,
}

#[derive(Clone, Copy, Debug)]
pub struct Site {
    /// Permitted power, kW.
    pub power: u32,
    /// 1 if compensation or generating devices exist, else 0; in version 2 and 2 if it is a power
    /// station.
    pub flag: u32,
    /// Q, installed compensation, kVAr.
    pub compensation: u32,
    /// P, high-voltage synchronous motors, kW.
    pub motors: u32,
    /// h, thousandths.
    pub discount: u32,
}

#[derive(Clone, Copy, Debug)]
pub struct Line {
    /// The end it comes from; 0 is the network.
    pub from: u32,
    /// The end it goes to; 0 is the network.
    pub to: u32,
    /// The meter mark.
    pub meters: u32,
    /// D, the economic equivalent of reactive power, ten-thousandths of kW/kVAr.
    pub eerp: u32,
    /// WP, kWh.
    pub active: u32,
    /// WQ, kVArh.
    pub reactive: u32,
    /// WG, kVArh.
    pub generated: u32,
    /// WN, kVArh.
    pub night: u32,
    /// Active generation, kWh; 0 in version 1.
    pub active_generated: u32,
}

/// A generator behind the meter of a site.
#[derive(Clone, Copy, Debug)]
pub struct Generator {
    pub site: u32,
    /// Active generation, kWh.
    pub output: u32,
}

impl Site {
    pub fn has_devices(&self) -> bool {
        self.flag & DEVICES != 0
    }

    pub fn is_station(&self) -> bool {
        self.flag & STATION != 0
    }
}

impl Line {
    pub fn measures_reactive(&self) -> bool {
        self.meters & REACTIVE_METER != 0
    }

    pub fn measures_generated(&self) -> bool {
        self.meters & GENERATED_METER != 0
    }

    pub fn measures_night(&self) -> bool {
        self.meters & NIGHT_METER != 0
    }

    pub fn measures_active_generated(&self) -> bool {
        self.meters & ACTIVE_GENERATED_METER != 0
    }

    pub fn joins_two_sites(&self) -> bool {
        self.from != 0 && self.to != 0
    }
}

/// The number that `width` bytes from `offset` on stand for.
pub fn number_at(file: &[u8], offset: usize, width: usize) -> u32 {
    file[offset..offset + width].iter().rev().fold(0, |number, byte| number << 8 | *byte as u32)
}

/// Adds values of so many bytes each; one that does not fit panics.
fn put<const COUNT: usize>(file: &mut Vec<u8>, values: [(usize, u32); COUNT]) {
    for (width, value) in values {
        let bytes = value.to_le_bytes();
        let (written, left) = bytes.split_at(width);
        assert!(left.iter().all(|byte| *byte == 0), "{value} does not fit {width} bytes");
        file.extend(written);
    }
}

impl Header {
    /// The header of a file of this version that has the least bytes.
    pub fn of_file(file: &[u8], version: Version) -> Header {
        let last = file.get(GENERATORS_OFFSET).filter(|_| version == Version::Two);
        Header {
            version,
            month: number_at(file, 5, 1),
            sites: number_at(file, 6, 1),
            lines: number_at(file, 7, 1),
            price: number_at(file, 8, 4),
            hours: number_at(file, 12, 2),
            generators: last.map_or(0, |byte| *byte as u32),
        }
    }

    /// The length of a file with this header.
    pub fn file_bytes(&self) -> usize {
        let counts = [self.sites, self.lines, self.generators];
        let [sites, lines, generators] = counts.map(|count| count as usize);
        self.version.file_bytes(sites, lines, generators)
    }
}

impl Park {
    /// The site of this number; none for the network, and for one that there is not.
    pub fn site(&self, number: u32) -> Option<&Site> {
        let index = number.checked_sub(1)?;
        self.sites.get(index as usize)
    }

    /// Where the record of a line begins in this park's file.
    pub fn line_offset(&self, line: usize) -> usize {
        self.version.line_offset(self.sites.len(), line)
    }

    /// Where the record of a generator begins in this park's file.
    pub fn generator_offset(&self, generator: usize) -> usize {
        self.version.generator_offset(self.sites.len(), self.lines.len(), generator)
    }

    /// The file of this park; its counts are the lengths of the three lists.
    pub fn to_file(&self) -> Vec<u8> {
        let second = self.version == Version::Two;
        let mut file = b"PRK".to_vec();
        put(&mut file, [(2, self.version.number()), (1, self.month)]);
        put(&mut file, [(1, self.sites.len() as u32), (1, self.lines.len() as u32)]);
        put(&mut file, [(4, self.price), (2, self.hours)]);
        if second {
            put(&mut file, [(1, self.generators.len() as u32)]);
        }
        for site in &self.sites {
            put(&mut file, [(4, site.power), (1, site.flag)]);
            put(&mut file, [(2, site.compensation), (2, site.motors), (2, site.discount)]);
        }
        for line in &self.lines {
            put(&mut file, [(1, line.from), (1, line.to), (1, line.meters), (2, line.eerp)]);
            let readings = [line.active, line.reactive, line.generated, line.night];
            put(&mut file, readings.map(|reading| (4, reading)));
            if second {
                put(&mut file, [(4, line.active_generated)]);
            }
        }
        for generator in &self.generators {
            put(&mut file, [(1, generator.site), (4, generator.output)]);
        }
        file
    }

    /// The park of a file whose length fits its version and its counts; any other panics.
    pub fn from_file(file: &[u8]) -> Park {
        let version = Version::of_file(file).expect("a version");
        let header = Header::of_file(file, version);
        assert_eq!(file.len(), header.file_bytes());
        let (sites, lines) = (header.sites as usize, header.lines as usize);
        let line = |line| Line::at(file, version.line_offset(sites, line), version);
        let generator = |one| Generator::at(file, version.generator_offset(sites, lines, one));
        Park {
            version,
            month: header.month,
            price: header.price,
            hours: header.hours,
            sites: (1..=sites).map(|site| Site::at(file, version.site_offset(site))).collect(),
            lines: (1..=lines).map(line).collect(),
            generators: (1..=header.generators as usize).map(generator).collect(),
        }
    }
}

impl Site {
    fn at(file: &[u8], offset: usize) -> Site {
        Site {
            power: number_at(file, offset, 4),
            flag: number_at(file, offset + 4, 1),
            compensation: number_at(file, offset + 5, 2),
            motors: number_at(file, offset + 7, 2),
            discount: number_at(file, offset + 9, 2),
        }
    }
}

impl Line {
    fn at(file: &[u8], offset: usize, version: Version) -> Line {
        Line {
            from: number_at(file, offset, 1),
            to: number_at(file, offset + 1, 1),
            meters: number_at(file, offset + 2, 1),
            eerp: number_at(file, offset + 3, 2),
            active: number_at(file, offset + 5, 4),
            reactive: number_at(file, offset + 9, 4),
            generated: number_at(file, offset + 13, 4),
            night: number_at(file, offset + 17, 4),
            active_generated: match version {
                Version::One => 0,
                Version::Two => number_at(file, offset + ACTIVE_GENERATED_OFFSET, 4),
            },
        }
    }
}

impl Generator {
    fn at(file: &[u8], offset: usize) -> Generator {
        Generator { site: number_at(file, offset, 1), output: number_at(file, offset + 1, 4) }
    }
}
