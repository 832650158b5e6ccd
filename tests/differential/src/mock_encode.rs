//! The second path's making of a file (02, R-1): it writes down whatever list it gets, a number too
//! large for its field as the field's largest, which the table refuses alike, and checks the file
//! that comes out.

use crate::mistakes::Mistake;
use crate::mock::Mock;
use crate::product::{Reply, UNWRITTEN};

/// The widths of a header's numbers, of a site's and of a line's.
const WIDTHS: [&[usize]; 3] = [&[1, 1, 1, 4, 2], &[4, 1, 2, 2, 2], &[1, 1, 1, 2, 4, 4, 4, 4]];

/// Which record and which field of it each number of a list belongs to, lines without end.
fn fields(sites: usize) -> impl Iterator<Item = (usize, usize)> {
    let of = |record: usize| (0..WIDTHS[record].len()).map(move |field| (record, field));
    of(0).chain((0..sites).flat_map(move |_| of(1))).chain(of(2).cycle())
}

impl Mock {
    /// The field that is narrowed before its check, by its record and its place there.
    fn narrowed(&self) -> Option<(usize, usize)> {
        let field = match self.0? {
            Mistake::MonthNarrowed => (0, 0),
            Mistake::SitesNarrowed => (0, 1),
            Mistake::LinesNarrowed => (0, 2),
            Mistake::HoursNarrowed => (0, 4),
            Mistake::FlagNarrowed => (1, 1),
            Mistake::CompensationNarrowed => (1, 2),
            Mistake::MotorsNarrowed => (1, 3),
            Mistake::DiscountNarrowed => (1, 4),
            Mistake::FromNarrowed => (2, 0),
            Mistake::ToNarrowed => (2, 1),
            Mistake::MarkNarrowed => (2, 2),
            Mistake::EerpNarrowed => (2, 3),
            _ => return None,
        };
        Some(field)
    }

    /// A number as its field takes it.
    fn fitted(&self, number: u32, field: (usize, usize)) -> u32 {
        let most = u32::MAX >> (32 - 8 * WIDTHS[field.0][field.1]);
        match (self.0, field) {
            (Some(Mistake::PriceTakenAsThreeBytes), (0, 3)) => number & 0xFF_FFFF,
            (Some(Mistake::EndsTakenAsTwoBytes), (2, 0 | 1)) => (number & 0xFFFF).min(most),
            (Some(Mistake::MarkTakenAsTwoBytes), (2, 2)) => (number & 0xFFFF).min(most),
            (Some(Mistake::ReadingsTakenAsSigned), (2, 4..)) => (number as i32).max(0) as u32,
            _ if self.narrowed() == Some(field) => number & most,
            _ => number.min(most),
        }
    }

    fn site_count(&self, numbers: &[u32]) -> usize {
        numbers.get(1).map_or(0, |sites| self.fitted(*sites, (0, 1)) as usize)
    }

    /// How many numbers the counts of a list ask for.
    fn right_count(&self, numbers: &[u32]) -> usize {
        let lines = numbers.get(2).map_or(0, |lines| self.fitted(*lines, (0, 2)) as usize);
        5 + 5 * self.site_count(numbers) + 8 * lines
    }

    /// The bytes of a list, of whatever length it is.
    fn written(&self, numbers: &[u32]) -> Vec<u8> {
        let mut file = b"PRK\x01\x00".to_vec();
        for (number, field) in numbers.iter().zip(fields(self.site_count(numbers))) {
            let bytes = self.fitted(*number, field).to_le_bytes();
            file.extend(&bytes[..WIDTHS[field.0][field.1]]);
        }
        file
    }

    /// The list without the numbers that a mistake overlooks at its end.
    fn looked_at<'a>(&self, numbers: &'a [u32]) -> &'a [u32] {
        let (count, right) = (numbers.len(), self.right_count(numbers));
        let longer = self.makes(Mistake::LongerNumbersAccepted) && count > right;
        let narrowed = self.makes(Mistake::CountNarrowed) && count & 0xFFFF == right;
        if count >= 5 && (longer || narrowed) {
            return &numbers[..right];
        }
        numbers
    }

    /// The refusal of a list that makes this file, for a buffer of this length.
    fn list_refusal(&self, numbers: &[u32], file: &[u8], length: usize) -> (u64, u64) {
        let refusal = match self.makes(Mistake::MarksOfVersionTwoMade) {
            true => Mock::new(Some(Mistake::MarksOfVersionTwoInOne)).refusal(file),
            false => self.former_if(Mistake::FormerEndsMade, self.refusal_made(file)),
        };
        let wrong_count = numbers.len() != self.right_count(numbers);
        let mut short = length < file.len();
        match self.0 {
            Some(Mistake::ExactBufferRefused) => short = length <= file.len(),
            Some(Mistake::BufferOneShortAccepted) => short = length + 1 < file.len(),
            _ => {}
        }
        match (refusal, self.0) {
            ((1, _), Some(Mistake::FewNumbersAreNine)) => (9, 0),
            ((4..=8, _), Some(Mistake::CountBeforeHeader)) if wrong_count => (9, 0),
            ((19, _), Some(Mistake::UnfedSiteMade)) => (if short { 22 } else { 0 }, 0),
            ((19, _), Some(Mistake::ShortBufferBeforePark)) if short => (22, 0),
            ((2.., _), Some(Mistake::ShortBufferFirst)) if short => (22, 0),
            ((10.., _), Some(Mistake::MadePlaceLost)) => (refusal.0, 0),
            ((0, _), _) if short => (22, 0),
            _ => refusal,
        }
    }

    /// Writes the wrong bytes that a mistake does into an accepted file.
    fn spoil(&self, file: &mut [u8]) {
        let sites = 11 * file[6] as usize;
        let (site_records, line_records) = file[14..].split_at_mut(sites);
        for site in site_records.chunks_exact_mut(11) {
            match self.0 {
                Some(Mistake::MotorsBeforeCompensation) => site[5..9].rotate_left(2),
                Some(Mistake::MarkDropped) => site[4] %= 2,
                _ => {}
            }
        }
        for line in line_records.chunks_exact_mut(21) {
            match self.0 {
                Some(Mistake::EerpBytesSwapped) => line[3..5].reverse(),
                Some(Mistake::NightBeforeGenerated) => line[13..21].rotate_left(4),
                _ => {}
            }
        }
        match self.0 {
            Some(Mistake::VersionTwoWritten) => file[3] = 2,
            Some(Mistake::VersionBytesSwapped) => file[3..5].reverse(),
            Some(Mistake::LinesWrittenFirst) => file[14..].rotate_left(sites),
            _ => {}
        }
    }

    /// What a mistake leaves in the buffer of a refused list.
    fn write_on_refusal(&self, number: u64, file: &[u8], buffer: &mut [u8]) {
        let most = match self.0 {
            Some(Mistake::BufferWrittenOnRefusal) if number != 22 => 1,
            Some(Mistake::HeaderWrittenOnRefusal) if matches!(number, 10..=19 | 23 | 24) => 14,
            Some(Mistake::ShortBufferFilled) if number == 22 => file.len(),
            _ => 0,
        };
        let count = most.min(file.len()).min(buffer.len());
        buffer[..count].copy_from_slice(&file[..count]);
    }

    fn write(&self, file: &[u8], buffer: &mut [u8]) {
        let length = file.len().min(buffer.len());
        let price_top = buffer[11];
        match self.0 {
            Some(Mistake::NothingWritten) => {}
            Some(Mistake::RestCleared) => buffer.fill(0),
            Some(Mistake::WritesPastTheFile) if buffer.len() > length => buffer[length] = 0,
            _ => {}
        }
        if !self.makes(Mistake::NothingWritten) {
            buffer[..length].copy_from_slice(&file[..length]);
        }
        if self.makes(Mistake::PriceTopByteKept) {
            buffer[11] = price_top;
        }
    }

    /// Makes the file of a list in a buffer; gives its length as well.
    pub fn make(&self, numbers: &[u32], buffer: &mut [u8]) -> (Reply, u64) {
        let numbers = self.looked_at(numbers);
        let mut file = self.written(numbers);
        let (number, place) = self.list_refusal(numbers, &file, buffer.len());
        let mut reply = self.reply((number, place));
        if self.makes(Mistake::MadePlaceUnwritten) {
            reply.place = UNWRITTEN;
        }
        if number != 0 {
            self.write_on_refusal(number, &file, buffer);
            let size = match self.0 {
                Some(Mistake::SizeUnwrittenOnRefusal) => UNWRITTEN,
                Some(Mistake::SizeOfShortBuffer) if number == 22 => file.len() as u64,
                _ => 0,
            };
            return (reply, size);
        }
        self.spoil(&mut file);
        self.write(&file, buffer);
        let size = match self.0 {
            Some(Mistake::SizeOneMore) => file.len() + 1,
            Some(Mistake::SizeOfBuffer) => buffer.len(),
            _ => file.len(),
        };
        (reply, size as u64)
    }
}
