//! Sets of digits.

use std::fmt;

use crate::calls::{self, SetAnswer, SetCall};
use crate::{unrefused, Digit};

/// What [`CandidateSet::single_candidate`] says of a set.
#[derive(Clone, Copy, Debug, PartialEq, Eq, Hash)]
pub enum SingleCandidate<D = Digit> {
    /// It holds this digit alone.
    Digit(D),
    /// It is empty.
    Empty,
    /// It holds two digits or more.
    Several,
}

/// The candidates of a cell: a set of digits.
///
/// ```
/// use sudoku::{CandidateSet, Digit, SingleCandidate};
///
/// let mut set: CandidateSet = Digit::ALL[..3].iter().copied().collect();
/// assert_eq!((set.len(), set.to_string().as_str()), (3, "123"));
/// assert!(set.remove(Digit::ALL[0]) && set.remove(Digit::ALL[2]));
/// assert_eq!(set.single_candidate(), SingleCandidate::Digit(Digit::ALL[1]));
/// ```
#[derive(Clone, Copy, Debug, PartialEq, Eq, Hash)]
pub struct CandidateSet {
    mask: u16,
}

impl CandidateSet {
    /// The empty set.
    pub fn new() -> Self {
        CandidateSet { mask: 0 }.after(SetCall::New)
    }

    /// All nine digits.
    pub fn full() -> Self {
        CandidateSet { mask: 0 }.after(SetCall::Full)
    }

    /// One digit alone.
    pub fn single(digit: Digit) -> Self {
        CandidateSet { mask: 0 }.answer(SetCall::Single, digit.into()).1
    }

    /// The set of a mask, where bit d - 1 says that it holds digit d; bits above the ninth stand for nothing.
    pub fn from_mask(mask: u16) -> Self {
        CandidateSet { mask: mask & 0x1ff }
    }

    /// Its mask.
    pub fn mask(self) -> u16 {
        self.mask
    }

    /// Whether it holds a digit.
    pub fn contains(self, digit: Digit) -> bool {
        self.answer(SetCall::Contains, digit.into()).0 == 1
    }

    /// Takes a digit in.
    pub fn insert(&mut self, digit: Digit) {
        *self = self.answer(SetCall::Insert, digit.into()).1;
    }

    /// Takes a digit out, and says whether it was there.
    pub fn remove(&mut self, digit: Digit) -> bool {
        let (was_there, left) = self.answer(SetCall::Remove, digit.into());
        *self = left;
        was_there == 1
    }

    /// Takes all digits out.
    pub fn clear(&mut self) {
        *self = self.after(SetCall::Clear);
    }

    /// How many digits it holds.
    pub fn len(self) -> usize {
        self.answer(SetCall::Len, 0).0 as usize
    }

    /// Whether it holds none.
    pub fn is_empty(self) -> bool {
        self.answer(SetCall::IsEmpty, 0).0 == 1
    }

    /// Whether it holds one digit, none or several.
    pub fn single_candidate(self) -> SingleCandidate {
        match calls::single_candidate(self.mask) {
            SingleCandidate::Digit(digit) => SingleCandidate::Digit(unrefused(Digit::try_from(digit))),
            SingleCandidate::Empty => SingleCandidate::Empty,
            SingleCandidate::Several => SingleCandidate::Several,
        }
    }

    /// Its digits, rising.
    pub fn iter(self) -> Digits {
        Digits { mask: self.after(SetCall::Iter).mask, place: 0 }
    }

    /// The value of a call and the set that it leaves.
    fn answer(self, call: SetCall, digit: i32) -> (i64, Self) {
        let SetAnswer { answer, mask } = calls::set(call, self.mask, digit);
        (unrefused(answer), CandidateSet { mask })
    }

    /// The set that a call without a digit leaves.
    fn after(self, call: SetCall) -> Self {
        self.answer(call, 0).1
    }
}

impl Default for CandidateSet {
    fn default() -> Self {
        CandidateSet::new()
    }
}

impl Extend<Digit> for CandidateSet {
    fn extend<T: IntoIterator<Item = Digit>>(&mut self, digits: T) {
        digits.into_iter().for_each(|digit| self.insert(digit));
    }
}

impl FromIterator<Digit> for CandidateSet {
    fn from_iter<T: IntoIterator<Item = Digit>>(digits: T) -> Self {
        let mut set = CandidateSet::new();
        set.extend(digits);
        set
    }
}

impl IntoIterator for CandidateSet {
    type Item = Digit;
    type IntoIter = Digits;

    fn into_iter(self) -> Digits {
        self.iter()
    }
}

/// The digits one after the other, as pencil marks are written.
impl fmt::Display for CandidateSet {
    fn fmt(&self, f: &mut fmt::Formatter<'_>) -> fmt::Result {
        f.pad(&self.iter().map(|digit| digit.to_string()).collect::<String>())
    }
}

/// The digits of a set, rising.
#[derive(Clone, Debug)]
pub struct Digits {
    mask: u16,
    place: u8,
}

impl Iterator for Digits {
    type Item = Digit;

    fn next(&mut self) -> Option<Digit> {
        let (digit, mask, place) = calls::next(self.mask, self.place)?;
        (self.mask, self.place) = (mask, place);
        Some(unrefused(Digit::try_from(digit)))
    }
}
