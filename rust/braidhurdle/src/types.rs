//! The types of primitives, their codes, and the steps by which a format version widens them.

use alloc::format;
use alloc::string::ToString;
use core::fmt;
use core::str::FromStr;

/// The format version of a table, whose steps an update goes by. Later versions may have more of
/// them.
///
/// ```
/// use braidhurdle::Version;
///
/// assert_eq!(Version::default(), Version::V2);
/// assert_eq!(Version::try_from(3), Ok(Version::V3));
/// let unknown = Version::try_from(4).unwrap_err();
/// assert_eq!(unknown.to_string(), "4 is no format version, which is 2 or 3");
/// ```
#[derive(Clone, Copy, Debug, Default, PartialEq, Eq, PartialOrd, Ord, Hash)]
#[non_exhaustive]
pub enum Version {
    /// int to long, float to double, a decimal to a higher precision with equal scale.
    #[default]
    V2,
    /// The steps of version 2, and date to timestamp and to timestamp_ns.
    V3,
}

impl Version {
    /// Its number.
    #[must_use]
    pub fn number(self) -> u32 {
        match self {
            Version::V2 => 2,
            Version::V3 => 3,
        }
    }
}

impl TryFrom<u32> for Version {
    type Error = NoVersion;

    fn try_from(number: u32) -> Result<Version, NoVersion> {
        let mut all = [Version::V2, Version::V3].into_iter();
        all.find(|version| version.number() == number).ok_or(NoVersion(number))
    }
}

impl fmt::Display for Version {
    /// Its number.
    fn fmt(&self, f: &mut fmt::Formatter<'_>) -> fmt::Result {
        self.number().fmt(f)
    }
}

/// A number that is no format version's. An update that names it gets refusal 25.
#[derive(Clone, Copy, Debug, PartialEq, Eq, PartialOrd, Ord, Hash)]
pub struct NoVersion(pub u32);

impl fmt::Display for NoVersion {
    fn fmt(&self, f: &mut fmt::Formatter<'_>) -> fmt::Result {
        write!(f, "{} is no format version, which is 2 or 3", self.0)
    }
}

impl core::error::Error for NoVersion {}

/// What gives a primitive its type: a [`Type`], or any code. A code that no type has is a number
/// that the host knows; such a column is never widened.
pub trait TypeCode {
    /// The code, as bytes 16-19 of a record hold it.
    fn type_code(self) -> u32;
}

/// Of all integers this one alone, so that a number in a program needs no suffix.
impl TypeCode for u32 {
    fn type_code(self) -> u32 {
        self
    }
}

impl TypeCode for Type {
    fn type_code(self) -> u32 {
        self.code()
    }
}

impl From<Type> for u32 {
    fn from(of: Type) -> u32 {
        of.code()
    }
}

/// The types: each with its code and the name that the table specification has for it, and
/// decimals, whose digits are in their code and in their name.
macro_rules! types {
    ($($variant:ident = $code:literal: $name:literal,)+) => {
        /// The type of a primitive, as the table of codes has it. Later versions may have more.
        ///
        /// ```
        /// use braidhurdle::Type;
        ///
        /// const PRICE: Type = Type::decimal(9, 2).unwrap();
        /// assert_eq!((Type::Int.code(), PRICE.code()), (2, 65_536 + 256 * 9 + 2));
        /// assert_eq!((Type::of_code(8), Type::of_code(10)), (Some(Type::TimestampNs), None));
        ///
        /// // For people a type is its name, which reads back.
        /// assert_eq!(format!("{} {PRICE}", Type::TimestampNs), "timestamp_ns decimal(9,2)");
        /// assert_eq!("decimal(9, 2)".parse(), Ok(PRICE));
        /// let wrong = "integer".parse::<Type>().unwrap_err();
        /// assert!(wrong.to_string().starts_with("no type has this name: there are boolean,"));
        /// ```
        #[derive(Clone, Copy, Debug, PartialEq, Eq, PartialOrd, Ord, Hash)]
        #[non_exhaustive]
        pub enum Type {
            $(#[doc = concat!("`", $name, "`: code ", $code, ".")] $variant,)+
            /// `decimal(P,S)`: code 65,536 + 256 x P + S. [`Type::decimal`] makes one.
            Decimal(Decimal),
        }

        impl Type {
            /// Its code.
            #[must_use]
            pub fn code(self) -> u32 {
                match self {
                    $(Type::$variant => $code,)+
                    Type::Decimal(Decimal { precision, scale }) => {
                        u32::from_le_bytes([scale, precision, 1, 0])
                    }
                }
            }

            /// The type of a code; none where no type has it.
            #[must_use]
            pub fn of_code(code: u32) -> Option<Type> {
                match (code, code.to_le_bytes()) {
                    $(($code, _) => Some(Type::$variant),)+
                    (_, [scale, precision, 1, 0]) => Type::decimal(precision, scale),
                    _ => None,
                }
            }
        }

        impl fmt::Display for Type {
            /// Its name; of a decimal `decimal(9,2)`, without a space.
            fn fmt(&self, f: &mut fmt::Formatter<'_>) -> fmt::Result {
                match self {
                    $(Type::$variant => f.pad($name),)+
                    Type::Decimal(Decimal { precision, scale }) => {
                        f.pad(&format!("decimal({precision},{scale})"))
                    }
                }
            }
        }

        impl FromStr for Type {
            type Err = NoType;

            /// The type of a name. Behind a decimal's comma one space may stand.
            fn from_str(name: &str) -> Result<Type, NoType> {
                match name {
                    $($name => Ok(Type::$variant),)+
                    _ if name.starts_with("decimal") => decimal(name).ok_or(NoType::Decimal),
                    _ => Err(NoType::Name),
                }
            }
        }

        impl fmt::Display for NoType {
            fn fmt(&self, f: &mut fmt::Formatter<'_>) -> fmt::Result {
                f.pad(match self {
                    NoType::Name => concat!(
                        "no type has this name: there are ", $($name, ", ",)+ "and decimal(P,S)"
                    ),
                    NoType::Decimal => "a decimal is decimal(P,S), its precision P from 1 to 38, \
                        its scale S from 0 to P",
                })
            }
        }
    };
}

types! {
    Boolean = 1: "boolean",
    Int = 2: "int",
    Long = 3: "long",
    Date = 4: "date",
    Float = 5: "float",
    Double = 6: "double",
    Timestamp = 7: "timestamp",
    TimestampNs = 8: "timestamp_ns",
    String = 9: "string",
}

/// The digits of a decimal: its precision is from 1 to 38, its scale from 0 to the precision.
#[derive(Clone, Copy, Debug, PartialEq, Eq, PartialOrd, Ord, Hash)]
pub struct Decimal {
    precision: u8,
    scale: u8,
}

impl Decimal {
    /// How many digits it has.
    #[must_use]
    pub fn precision(self) -> u8 {
        self.precision
    }

    /// How many of them stand behind the point.
    #[must_use]
    pub fn scale(self) -> u8 {
        self.scale
    }
}

/// Why a text is no type's name.
#[derive(Clone, Copy, Debug, PartialEq, Eq, PartialOrd, Ord, Hash)]
pub enum NoType {
    /// No type is named so.
    Name,
    /// It begins as a decimal's name does, and is none.
    Decimal,
}

impl core::error::Error for NoType {}

/// The steps from one type to another, each with the version that brought it. Those of decimals
/// are a rule beside it.
const STEPS: [(Version, Type, Type); 4] = [
    (Version::V2, Type::Int, Type::Long),
    (Version::V2, Type::Float, Type::Double),
    (Version::V3, Type::Date, Type::Timestamp),
    (Version::V3, Type::Date, Type::TimestampNs),
];

impl Type {
    /// The decimal of this precision and scale; none where there is no such one.
    #[must_use]
    pub const fn decimal(precision: u8, scale: u8) -> Option<Type> {
        if 1 <= precision && precision <= 38 && scale <= precision {
            Some(Type::Decimal(Decimal { precision, scale }))
        } else {
            None
        }
    }

    /// The types to which a version widens it.
    ///
    /// ```
    /// use braidhurdle::{Type, Version};
    ///
    /// assert!(Type::Int.steps(Version::V2).eq([Type::Long]));
    /// assert_eq!(Type::Date.steps(Version::V2).next(), None);
    /// assert!(Type::Date.steps(Version::V3).eq([Type::Timestamp, Type::TimestampNs]));
    /// ```
    pub fn steps(self, version: Version) -> impl Iterator<Item = Type> {
        let brought = move |&(by, from, _): &_| by <= version && from == self;
        let named = STEPS.into_iter().filter(brought).map(|(_, _, to)| to);
        let digits = match self {
            Type::Decimal(digits) => Some(digits),
            _ => None,
        };
        let more = |Decimal { precision, scale }| {
            (precision + 1..=38).filter_map(move |precision| Type::decimal(precision, scale))
        };
        named.chain(digits.into_iter().flat_map(more))
    }
}

/// The decimal of a name.
fn decimal(name: &str) -> Option<Type> {
    let digits = name.strip_prefix("decimal(")?.strip_suffix(')')?;
    let (precision, scale) = digits.split_once(',')?;
    let scale = scale.strip_prefix(' ').unwrap_or(scale);
    let read = Type::decimal(precision.parse().ok()?, scale.parse().ok()?)?;
    // no sign and no zero in front: what is read is what is shown
    (read.to_string() == format!("decimal({precision},{scale})")).then_some(read)
}
