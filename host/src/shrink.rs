//! A difference made small: fewer calls, fewer entries and clues, fewer candidates gone; fewer and lower bytes.

use crate::cases::Case;

/// A thing with one thing less, in every way, the greatest steps first.
pub trait Smaller: Clone {
    fn smaller(&self) -> impl Iterator<Item = Self>;
}

/// The smallest case that still fails by dropping one thing after the other, with what it shows.
pub fn shrunk<T: Smaller>(case: T, fault: &dyn Fn(&T) -> Option<String>) -> (T, String) {
    let mut smallest = case;
    let mut shows = fault(&smallest).expect("a case that fails");
    loop {
        let found = smallest.smaller().find_map(|case| fault(&case).map(|shows| (case, shows)));
        let Some(less) = found else { return (smallest, shows) };
        (smallest, shows) = less;
    }
}

impl Smaller for Case {
    fn smaller(&self) -> impl Iterator<Item = Self> {
        let calls = (0..self.calls.len()).map(|at| changed(self, |less| _ = less.calls.remove(at)));
        let others = (0..self.others.len()).map(|at| changed(self, |less| _ = less.others.remove(at)));
        let numbers = (0..self.numbers.len()).map(|at| changed(self, |less| _ = less.numbers.remove(at)));
        let entered = (0..self.entered.len()).map(|at| changed(self, |less| _ = less.entered.remove(at)));
        let masks = (0..self.masks.len()).map(|at| changed(self, |less| _ = less.masks.remove(at)));
        let entries = (0..81).filter(|&cell| self.entries[cell] != 0).map(|cell| changed(self, |less| less.entries[cell] = 0));
        let clues = (0..81).filter(|&cell| self.clues[cell] != 0).map(|cell| changed(self, |less| less.clues[cell] = 0));
        let kept = (0..81).filter(|&cell| self.kept[cell] != 511).map(|cell| changed(self, |less| less.kept[cell] = 511));
        let digits = (0..81).flat_map(|cell| (0..9).map(move |place| (cell, 1 << place)));
        let digits = digits.filter(|&(cell, digit)| self.kept[cell] & digit == 0).map(|(cell, digit)| changed(self, |less| less.kept[cell] |= digit));
        calls.chain(others).chain(numbers).chain(entered).chain(masks).chain(entries).chain(clues).chain(kept).chain(digits)
    }
}

pub fn changed<T: Clone>(case: &T, change: impl FnOnce(&mut T)) -> T {
    let mut less = case.clone();
    change(&mut less);
    less
}
