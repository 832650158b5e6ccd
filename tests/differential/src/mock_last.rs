//! What the second path worked out last: every file is asked about many times in a row.

use std::cell::RefCell;

/// An answer, and the file it is for.
#[derive(Default)]
pub struct Last<T>(RefCell<Option<(Vec<u8>, T)>>);

impl<T: Clone> Last<T> {
    /// The answer for this file, worked out unless it is the last one.
    pub fn answer(&self, file: &[u8], work_out: impl FnOnce() -> T) -> T {
        if let Some((last, answer)) = &*self.0.borrow() {
            if last == file {
                return answer.clone();
            }
        }
        let answer = work_out();
        *self.0.borrow_mut() = Some((file.to_vec(), answer.clone()));
        answer
    }
}
