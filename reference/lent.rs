//! A buffer of which a part is lent to a call, with guard cells around it.
use crate::draw::Random;

/// Cells of a buffer.
pub const SPAN: usize = 48;

/// Cells are held as bits, so that a NaN keeps its pattern.
pub struct Lent {
    pub name: &'static str,
    pub first: usize,
    pub len: usize,
    pub before: [u64; SPAN],
    pub cells: [u64; SPAN],
}

impl Lent {
    /// Each cell distinct: quiet and signalling NaN, positive, negative.
    pub fn filled(name: &'static str, len: usize, random: &mut Random) -> Lent {
        let first = 6 + random.below(4);
        assert!(first + len + 6 <= SPAN);
        let salt = random.below(4);
        let mut before = [0; SPAN];
        for (i, cell) in before.iter_mut().enumerate() {
            *cell = match (i + salt) % 4 {
                0 => 0x7ff8_0000_0000_1000 + i as u64,
                1 => 0xfff0_0000_0000_1000 + i as u64,
                2 => (1000.0 + i as f64).to_bits(),
                _ => (-1000.0 - i as f64).to_bits(),
            };
        }
        Lent {
            name,
            first,
            len,
            before,
            cells: before,
        }
    }

    pub fn holding(name: &'static str, values: &[f64], random: &mut Random) -> Lent {
        let mut lent = Lent::filled(name, values.len(), random);
        for (i, v) in values.iter().enumerate() {
            lent.before[lent.first + i] = v.to_bits();
        }
        lent.cells = lent.before;
        lent
    }

    pub fn lend(&self) -> *const f64 {
        self.cells[self.first..].as_ptr().cast()
    }

    pub fn lend_mut(&mut self) -> *mut f64 {
        self.cells[self.first..].as_mut_ptr().cast()
    }

    /// Whether the buffer holds the answer in the first lent cells, where any
    /// NaN stands for any other, and all other cells to the bit as before.
    pub fn holds(&self, answer: &[f64]) -> bool {
        (0..SPAN).all(
            |i| match i.checked_sub(self.first).and_then(|at| answer.get(at)) {
                Some(v) if v.is_nan() => f64::from_bits(self.cells[i]).is_nan(),
                Some(v) => self.cells[i] == v.to_bits(),
                None => self.cells[i] == self.before[i],
            },
        )
    }

    /// The lent part of some cells, in hexadecimal.
    pub fn part(&self, cells: &[u64; SPAN]) -> String {
        let lent = &cells[self.first..self.first + self.len];
        let words: Vec<_> = lent.iter().map(|bits| format!("{bits:016x}")).collect();
        words.join(" ")
    }
}
