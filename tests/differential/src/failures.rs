//! What is done about a difference: it is counted, printed or saved.

use std::fs;
use std::io;
use std::path::{Path, PathBuf};

/// At most so many failing cases are saved.
const MOST_SAVED: u64 = 100;

/// What was compared: a file, or a list of a park's numbers.
#[derive(Clone, Copy)]
pub enum Case<'a> {
    File(&'a [u8]),
    List(&'a [u32]),
}

/// What is done about a case with differences.
pub enum Failures {
    Counted,
    Printed,
    /// Saved in this folder, with both answers beside it.
    Saved(PathBuf),
}

impl Failures {
    /// Tells of the differences in a case, the so-manyth that has some.
    pub fn tell(&self, name: &str, case: Case, notes: &[String], failed: u64) {
        match self {
            Failures::Printed => println!("{}", notes.join("\n")),
            Failures::Saved(folder) if failed <= MOST_SAVED => {
                println!("difference: {name}: {}", notes[0]);
                match save(folder, case, &format!("{name}\n{}\n", notes.join("\n"))) {
                    Ok(path) => println!("saved as {}", path.display()),
                    Err(error) => println!("not saved: {error}"),
                }
            }
            _ => {}
        }
    }
}

/// Saves a file as NNN.prk or a list as NNN.list and a text as NNN.txt, under the first number that
/// is free.
fn save(folder: &Path, case: Case, text: &str) -> io::Result<PathBuf> {
    fs::create_dir_all(folder)?;
    let mut paths = (1..).map(|number| folder.join(format!("{number:03}.txt")));
    let text_path = paths.find(|path| !path.exists()).expect("some number is free");
    fs::write(&text_path, text)?;
    let (kind, bytes) = match case {
        Case::File(file) => ("prk", file.to_vec()),
        Case::List(numbers) => ("list", list_text(numbers).into_bytes()),
    };
    let path = text_path.with_extension(kind);
    fs::write(&path, bytes)?;
    Ok(path)
}

/// A list as it is saved: its numbers, one to a line.
fn list_text(numbers: &[u32]) -> String {
    numbers.iter().map(|number| format!("{number}\n")).collect()
}

/// The list that was saved so.
pub fn read_list(path: &str) -> io::Result<Vec<u32>> {
    let text = fs::read_to_string(path)?;
    let numbers: Result<_, _> = text.split_whitespace().map(str::parse).collect();
    numbers.map_err(io::Error::other)
}
