//! Digits.

use std::fmt;

use crate::Stop;

/// A digit from 1 to 9.
///
/// ```
/// use sudoku::{Digit, Stop};
///
/// let seven = Digit::try_from(7)?;
/// assert_eq!((seven.get(), seven.to_string().as_str()), (7, "7"));
/// assert_eq!(Digit::try_from(0), Err(Stop::BadDigit(0)));
/// # Ok::<(), Stop>(())
/// ```
#[derive(Clone, Copy, Debug, PartialEq, Eq, PartialOrd, Ord, Hash)]
pub struct Digit(u8);

impl Digit {
    /// The nine digits, rising.
    pub const ALL: [Digit; 9] = [Digit(1), Digit(2), Digit(3), Digit(4), Digit(5), Digit(6), Digit(7), Digit(8), Digit(9)];

    /// The digit as a number.
    pub fn get(self) -> u8 {
        self.0
    }
}

/// Any other number is [`Stop::BadDigit`].
impl TryFrom<i32> for Digit {
    type Error = Stop;

    fn try_from(number: i32) -> Result<Self, Stop> {
        match u8::try_from(number) {
            Ok(digit @ 1..=9) => Ok(Digit(digit)),
            _ => Err(Stop::BadDigit(number)),
        }
    }
}

impl From<Digit> for u8 {
    fn from(digit: Digit) -> u8 {
        digit.0
    }
}

impl From<Digit> for i32 {
    fn from(digit: Digit) -> i32 {
        digit.0.into()
    }
}

impl fmt::Display for Digit {
    fn fmt(&self, f: &mut fmt::Formatter<'_>) -> fmt::Result {
        self.0.fmt(f)
    }
}
