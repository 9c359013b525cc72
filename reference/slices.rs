//! A buffer of any length of which a part is lent to a run, with guard cells
//! around it.
use crate::draw::Random;

/// The fewest guard cells on each side.
const GUARD: usize = 6;

/// A cell of a buffer. Doubles are held as bits, so that a NaN keeps its pattern.
pub trait Cell: Copy + PartialEq + std::fmt::LowerHex {
    /// What cell i holds ahead of the call; neighbours differ.
    fn filling(i: usize) -> Self;
}

impl Cell for u64 {
    /// Quiet and signalling NaN, positive, negative.
    fn filling(i: usize) -> u64 {
        match i % 4 {
            0 => 0x7ff8_0000_0000_1000 + i as u64,
            1 => 0xfff0_0000_0000_1000 + i as u64,
            2 => (100.0 + i as f64).to_bits(),
            _ => (-100.0 - i as f64).to_bits(),
        }
    }
}

impl Cell for u8 {
    /// Nothing that a run writes.
    fn filling(i: usize) -> u8 {
        100 + (i % 156) as u8
    }
}

pub struct Slice<T> {
    pub name: &'static str,
    pub first: usize,
    pub len: usize,
    pub before: Vec<T>,
    pub cells: Vec<T>,
}

impl<T: Cell> Slice<T> {
    pub fn filled(name: &'static str, len: usize, random: &mut Random) -> Slice<T> {
        let first = GUARD + random.below(4);
        let salt = random.below(4);
        let before: Vec<T> = (salt..salt + first + len + GUARD).map(T::filling).collect();
        Slice {
            name,
            first,
            len,
            cells: before.clone(),
            before,
        }
    }

    pub fn holding(name: &'static str, values: &[T], random: &mut Random) -> Slice<T> {
        let mut slice = Slice::filled(name, values.len(), random);
        slice.before[slice.first..slice.first + slice.len].copy_from_slice(values);
        slice.cells.copy_from_slice(&slice.before);
        slice
    }

    pub fn lend(&self) -> *const T {
        self.cells[self.first..].as_ptr()
    }

    pub fn lend_mut(&mut self) -> *mut T {
        self.cells[self.first..].as_mut_ptr()
    }

    /// The first cell that is not as it must be: the answer in the first lent
    /// cells, all other cells as before. Its place counts from the first lent cell.
    pub fn differs(&self, answer: &[T]) -> Option<(i64, T, T)> {
        let wanted = |i: usize| match i.checked_sub(self.first).and_then(|at| answer.get(at)) {
            Some(v) => *v,
            None => self.before[i],
        };
        (0..self.cells.len())
            .find(|&i| self.cells[i] != wanted(i))
            .map(|i| (i as i64 - self.first as i64, wanted(i), self.cells[i]))
    }
}

/// The bits of doubles.
pub fn bits(values: &[f64]) -> Vec<u64> {
    values.iter().map(|v| v.to_bits()).collect()
}
