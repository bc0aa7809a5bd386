//! An id and a slot: both small numbers, and never one for the other.

use core::fmt;
use core::num::ParseIntError;
use core::str::FromStr;

/// What data files carry: a column's number for ever. Any 32 bits are an id.
#[derive(Clone, Copy, Debug, Default, PartialEq, Eq, PartialOrd, Ord, Hash)]
pub struct FieldId(pub i32);

/// A place in today's list of records, counted from 0. It means nothing in tomorrow's.
#[derive(Clone, Copy, Debug, Default, PartialEq, Eq, PartialOrd, Ord, Hash)]
pub struct Slot(pub u32);

/// What one of them has in common with the number in it. There is no way from one to the other.
macro_rules! number {
    ($name:ident, $number:ty) => {
        impl fmt::Display for $name {
            fn fmt(&self, f: &mut fmt::Formatter<'_>) -> fmt::Result {
                self.0.fmt(f)
            }
        }

        impl FromStr for $name {
            type Err = ParseIntError;

            /// The number in decimal digits.
            fn from_str(text: &str) -> Result<$name, ParseIntError> {
                text.parse().map($name)
            }
        }

        impl From<$number> for $name {
            fn from(number: $number) -> $name {
                $name(number)
            }
        }

        impl From<$name> for $number {
            fn from(number: $name) -> $number {
                number.0
            }
        }
    };
}

number!(FieldId, i32);
number!(Slot, u32);
