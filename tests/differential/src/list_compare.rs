//! One list of a park's numbers (02, R-1), asked of the calculator and of the product: the file
//! made of it in buffers on both sides of the right length, what that file says when it is read
//! back, and for a refused list the file so written, where there is one.

use crate::branches::Branch;
use crate::calculator::{self, Bill, Refusal};
use crate::compare::{reply_to, Tester};
use crate::failures::Case;
use crate::fields::all_fit;
use crate::former;
use crate::former_tangents;
use crate::layout::Version;
use crate::list::{list_of_file, HEADER_NUMBERS};
use crate::park::{Header, Park};
use crate::product::{Reply, Way, UNWRITTEN, WAYS};
use crate::rules::listed_park;

/// Bytes kept free on both sides of a buffer, which no call may touch.
const GUARD: usize = 16;
/// How much longer than needed the longest buffer is.
const MUCH: usize = 300;

const BUFFER_TOO_SHORT: Refusal = Refusal { number: 22, place: 0 };

/// The bytes as they are before a call, other for neighbouring places; all bits are turned where
/// asked for, so that of two buffers one shows any byte written.
fn patterned(length: usize, turned: bool) -> Vec<u8> {
    let turn = if turned { 0xFF } else { 0 };
    (0..length).map(|place| (place as u8).wrapping_mul(29).wrapping_add(0x5B) ^ turn).collect()
}

/// The length of the file that the counts of a refused list ask for, or of one with the nearest
/// counts there may be.
fn nearest_length(numbers: &[u32]) -> usize {
    if numbers.len() < HEADER_NUMBERS {
        return Version::One.file_bytes(1, 1, 0);
    }
    let header = Header::of_list(numbers);
    let (sites, lines) = (header.sites.clamp(1, 16), header.lines.clamp(1, 64));
    Version::One.file_bytes(sites as usize, lines as usize, 0)
}

impl Tester<'_> {
    /// Compares everything about a list but what is printed.
    pub fn list(&mut self, name: &str, numbers: &[u32]) {
        self.lists += 1;
        let mut memory = std::mem::take(&mut self.number_memory);
        memory.resize(memory.len().max(numbers.len() + 1_000), 0xA5A5_A5A5);
        memory[..numbers.len()].copy_from_slice(numbers);
        let lent = &memory[..numbers.len()];
        let expected = listed_park(numbers);
        self.coverage.list(numbers, &expected);
        let made = self.compare_buffers(lent, &expected);
        match &expected {
            Ok(park) => self.compare_made(numbers, park, &made),
            Err(refusal) => self.compare_written(numbers, *refusal),
        }
        self.same(format_args!("the list is left as it was"), true, lent == numbers);
        self.number_memory = memory;
        self.finish(name, Case::List(numbers));
    }

    /// Compares what the program prints for the file that the product makes of an accepted list
    /// with what it has to print for the calculator's own.
    pub fn print_made(&mut self, name: &str, numbers: &[u32]) {
        let right = calculator::encode(numbers, usize::MAX).expect("the list is accepted");
        let mut file = patterned(Version::One.file_bytes(16, 64, 0), false);
        let (_, size) = self.product.encode(numbers, &mut file);
        file.truncate(size as usize);
        self.coverage.count(Branch::MadePrinted, true);
        self.print_as(name, &file, calculator::printed(&right));
    }

    /// Makes a file that has the form of version 1 anew from its own numbers: an accepted one
    /// comes out byte by byte, and the list of a refused one is refused alike.
    pub fn compare_remade(&mut self, file: &[u8], refusal: Option<Refusal>) {
        let Some(numbers) = list_of_file(file) else { return };
        self.coverage.count(Branch::FileRemade, refusal.is_none());
        self.coverage.count(Branch::FileRefusedAsList, refusal.is_some());
        let answer = refusal.map_or(Ok(file), Err);
        self.compare_buffer(&numbers, file.len(), self.files.is_multiple_of(2), answer);
    }

    /// Makes the file in buffers too short, just long enough and longer; returns what the one just
    /// long enough held.
    fn compare_buffers(&mut self, numbers: &[u32], expected: &Result<Park, Refusal>) -> Vec<u8> {
        let file = expected.as_ref().map(Park::to_file).map_err(|refusal| *refusal);
        let least = file.as_ref().map_or_else(|_| nearest_length(numbers), Vec::len);
        let buffers = [
            (0, Branch::BufferEmpty, Branch::RefusedBufferEmpty),
            (least - 1, Branch::BufferOneShort, Branch::RefusedBufferOneShort),
            (least, Branch::BufferExact, Branch::RefusedBufferExact),
            (least + 1, Branch::BufferOneMore, Branch::RefusedBufferOneMore),
            (least + MUCH, Branch::BufferMuchMore, Branch::RefusedBufferMuchMore),
        ];
        let mut made = Vec::new();
        for (index, (length, accepted, refused)) in buffers.into_iter().enumerate() {
            let answer = match &file {
                Err(refusal) => Err(*refusal),
                Ok(_) if length < least => Err(BUFFER_TOO_SHORT),
                Ok(file) => Ok(&file[..]),
            };
            let held = self.compare_buffer(numbers, length, index % 2 == 0, answer);
            self.coverage.count(if file.is_ok() { accepted } else { refused }, true);
            if length == least {
                made = held;
            }
        }
        made
    }

    /// Makes the file in one buffer, and returns it.
    fn compare_buffer(
        &mut self,
        numbers: &[u32],
        length: usize,
        turned: bool,
        answer: Result<&[u8], Refusal>,
    ) -> Vec<u8> {
        let mut right = patterned(length + 2 * GUARD, turned);
        let mut buffer = right.clone();
        let (reply, size) = self.product.encode(numbers, &mut buffer[GUARD..GUARD + length]);
        let mut right_size = 0;
        if let Ok(file) = answer {
            right_size = file.len() as u64;
            right[GUARD..GUARD + file.len()].copy_from_slice(file);
        }
        self.same(format_args!("encode, {length}"), reply_to(&answer), reply);
        self.same_as_before(former::of_list(numbers).and(answer.map(|_| ())), reply);
        self.same(format_args!("encode, {length}, size"), right_size, size);
        let differing = (0..buffer.len()).find(|place| buffer[*place] != right[*place]);
        let got = differing.map(|place| (place as i64 - GUARD as i64, buffer[place]));
        let expected = differing.map(|place| (place as i64 - GUARD as i64, right[place]));
        self.same(format_args!("encode, {length}, first differing byte"), expected, got);
        if answer == Err(BUFFER_TOO_SHORT) {
            self.coverage.list_reply(22);
        }
        buffer[GUARD..GUARD + length].to_vec()
    }

    /// The file that the product made of an accepted list: it is accepted, reads back as the same
    /// list, and is billed as the list's park by both ways.
    fn compare_made(&mut self, numbers: &[u32], park: &Park, made: &[u8]) {
        let accepted = Reply { number: 0, place: 0 };
        self.same(format_args!("check of the file made"), accepted, self.product.check(made));
        let read_back = calculator::decode(made);
        self.same(format_args!("the file made, read back"), Ok(numbers.to_vec()), read_back);
        let (bills, former_bills) = (calculator::bills(park), former_tangents::bills(park));
        for way in WAYS {
            self.compare_made_bills(way, made, &bills, &former_bills);
        }
    }

    /// The bills of a file made, of the park and of its last site.
    fn compare_made_bills(&mut self, way: Way, made: &[u8], bills: &[Bill], former: &[Bill]) {
        let accepted = Reply { number: 0, place: 0 };
        let mut list = vec![UNWRITTEN; 11 * bills.len()];
        let reply = self.product.bill_park(way, made, &mut list);
        self.same(format_args!("the park made {way}"), (accepted, bills.len() as u64), reply);
        self.same(format_args!("the park made {way}, bills"), bills.as_flattened(), &list);
        self.same_bills_as_before(way, former, list.as_chunks().0);
        let mut bill = [UNWRITTEN; 11];
        let reply = self.product.bill_site(way, made, &mut bill, bills.len() as u64);
        self.same(format_args!("last site made {way}"), accepted, reply);
        self.same(format_args!("last site made {way}, bill"), bills.last(), Some(&bill));
        self.same_bills_as_before(way, &former[bills.len() - 1..], &[bill]);
    }

    /// A refused list that can be written as a file: the file is refused alike.
    fn compare_written(&mut self, numbers: &[u32], refusal: Refusal) {
        let written = numbers.len() >= HEADER_NUMBERS
            && numbers.len() == Header::of_list(numbers).list_numbers()
            && all_fit(numbers);
        self.coverage.count(Branch::ListRefusedAsFile, written);
        if written {
            let file = Park::from_list(numbers).to_file();
            let of_file = calculator::check(&file);
            self.same(format_args!("calculator, the list as a file"), Err(refusal), of_file);
            let reply = self.product.check(&file);
            self.same(format_args!("check of the list as a file"), reply_to(&of_file), reply);
            self.same_as_before(former::of_file(&file), reply);
        }
    }
}
