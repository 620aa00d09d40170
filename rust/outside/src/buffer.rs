//! A buffer that is lent to a call: its content between guards, which no call may touch.

use std::fmt::Debug;

/// Elements on each side of a lent buffer. The number is odd, so that bytes begin at odd addresses.
const GUARD: usize = 31;

pub struct Lent<T> {
    cells: Vec<T>,
    before: Vec<T>,
}

impl<T: Copy + PartialEq + Debug + From<u8>> Lent<T> {
    pub fn new(content: &[T]) -> Lent<T> {
        let guard = |mask: u8| (0..GUARD as u8).map(move |i| T::from(mask ^ i));
        let cells: Vec<T> = guard(0xa5)
            .chain(content.iter().copied())
            .chain(guard(0x5a))
            .collect();
        let before = cells.clone();
        Lent { cells, before }
    }

    pub fn shared(&self) -> &[T] {
        &self.cells[GUARD..self.cells.len() - GUARD]
    }

    pub fn mutable(&mut self) -> &mut [T] {
        let end = self.cells.len() - GUARD;
        &mut self.cells[GUARD..end]
    }

    /// That the content begins with `front`, and that all else, guards included, is as it was lent.
    pub fn holds(&self, what: &str, front: &[T]) -> Result<(), String> {
        let mut expected = self.before.clone();
        expected[GUARD..GUARD + front.len()].copy_from_slice(front);
        match (0..expected.len()).find(|&i| expected[i] != self.cells[i]) {
            None => Ok(()),
            Some(i) => Err(format!(
                "{what}: element {} is {:?}, expected {:?}",
                i as isize - GUARD as isize,
                self.cells[i],
                expected[i]
            )),
        }
    }
}
