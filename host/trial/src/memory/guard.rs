//! Memory to lend, with guard cells around it, so that every cell can be accounted for.

use std::fmt::Display;

/// Cells on either side of the lent ones.
const GUARD: usize = 8;

/// A cell of lent memory.
pub trait Cell: Copy + Display + PartialEq {
    /// What it holds before anybody writes: no two near ones hold the same, so that a cell copied to
    /// its neighbour shows.
    ///
    /// ```
    /// use chronicle_trial::guard::Cell;
    ///
    /// assert_ne!(u64::former(1), u64::former(2));
    /// ```
    fn former(place: usize) -> Self;
}

impl Cell for u8 {
    fn former(place: usize) -> u8 {
        (place as u8).wrapping_mul(157) ^ 0xa5
    }
}

impl Cell for u32 {
    fn former(place: usize) -> u32 {
        (place as u32).wrapping_mul(2_654_435_769) ^ 0xa5a5_a5a5
    }
}

impl Cell for u64 {
    fn former(place: usize) -> u64 {
        (place as u64 + 1).wrapping_mul(0x9e37_79b9_7f4a_7c15)
    }
}

/// Lent cells and their guards, each with a content of its own until somebody writes.
///
/// ```
/// use chronicle_trial::guard::Lent;
///
/// let mut lent: Lent = Lent::new(3);
/// assert_eq!(lent.holds(&[]), Ok(()));
/// lent.slice()[..2].copy_from_slice(&[7, 9]);
/// assert_eq!(lent.holds(&[7, 9]), Ok(()));
/// assert!(lent.holds(&[7]).is_err());
/// ```
#[derive(Clone, Debug)]
pub struct Lent<T = u32> {
    cells: Vec<T>,
}

impl<T: Cell> Lent<T> {
    /// So many cells to lend.
    ///
    /// ```
    /// use chronicle_trial::guard::Lent;
    ///
    /// assert_eq!(Lent::<u32>::new(5).slice().len(), 5);
    /// ```
    pub fn new(length: usize) -> Lent<T> {
        Lent { cells: (0..length + 2 * GUARD).map(T::former).collect() }
    }

    /// What is lent: everything but the guards.
    ///
    /// ```
    /// use chronicle_trial::guard::Lent;
    ///
    /// let mut lent: Lent = Lent::new(1);
    /// lent.slice()[0] = 7;
    /// assert_eq!(lent.slice(), [7]);
    /// ```
    pub fn slice(&mut self) -> &mut [T] {
        let end = self.cells.len() - GUARD;
        &mut self.cells[GUARD..end]
    }

    /// Whether the lent cells begin with the answer, and every other cell has its former content;
    /// if not, where that fails first.
    ///
    /// ```
    /// use chronicle_trial::guard::Lent;
    ///
    /// let mut lent: Lent = Lent::new(1);
    /// lent.slice()[0] = 7;
    /// assert_eq!(lent.holds(&[7]), Ok(()));
    /// assert_eq!(lent.holds(&[8]), Err("cell 0 holds 7 and not 8".to_string()));
    /// ```
    pub fn holds(&self, answer: &[T]) -> Result<(), String> {
        for (place, &found) in self.cells.iter().enumerate() {
            let answered = place.checked_sub(GUARD).and_then(|cell| answer.get(cell));
            let expected = answered.copied().unwrap_or_else(|| T::former(place));
            if found != expected {
                let cell = place as isize - GUARD as isize;
                return Err(format!("cell {cell} holds {found} and not {expected}"));
            }
        }
        Ok(())
    }
}
