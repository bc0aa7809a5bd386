//! Why a request is turned down.

use core::fmt;

use crate::c;

/// Why a request is turned down: a number of 01 or 02, the list it speaks of, and the lowest place
/// in that list at which the fault stands. Nothing was changed.
///
/// ```
/// use braidhurdle::{FieldId, RefusalKind, RefusalList, Tree};
///
/// let refusal = Tree::new(vec![0; 23], vec![]).find_id(FieldId(1)).unwrap_err();
/// assert_eq!((refusal.number, refusal.list, refusal.place), (2, 0, 0));
/// assert_eq!(refusal.kind(), Some(RefusalKind::PastLimit));
/// assert_eq!(refusal.in_list(), Some(RefusalList::Base));
/// assert_eq!(
///     refusal.to_string(),
///     "refused 2 at 0 0: a limit on an input count, length or name sum is passed, or a list is \
///      no whole number of records (base, place 0)"
/// );
/// ```
#[derive(Clone, Copy, Debug, PartialEq, Eq, PartialOrd, Ord, Hash)]
pub struct Refusal {
    /// What it says: [`RefusalKind`] has all numbers.
    pub number: u32,
    /// The list's number: [`RefusalList`] has them all.
    pub list: u32,
    /// A slot in a tree, or a place in a list of entries or ids, counted from 0.
    pub place: u32,
}

/// An enum of numbers, each with the words of the definitions.
macro_rules! numbered {
    (
        $(#[$doc:meta])*
        $name:ident { $($variant:ident = $number:literal: $words:literal,)+ }
    ) => {
        $(#[$doc])*
        #[derive(Clone, Copy, Debug, PartialEq, Eq, PartialOrd, Ord, Hash)]
        #[non_exhaustive]
        pub enum $name {
            $(#[doc = concat!($number, ": ", $words, ".")] $variant = $number,)+
        }

        impl $name {
            /// All of them, by number.
            pub const ALL: &'static [$name] = &[$($name::$variant,)+];

            /// Its number.
            #[must_use]
            pub fn number(self) -> u32 {
                self as u32
            }

            /// The one of a number; none where no one has it.
            #[must_use]
            pub fn from_number(number: u32) -> Option<$name> {
                match number {
                    $($number => Some($name::$variant),)+
                    _ => None,
                }
            }

            /// Its words.
            #[must_use]
            pub fn words(self) -> &'static str {
                match self {
                    $($name::$variant => $words,)+
                }
            }
        }

        impl fmt::Display for $name {
            fn fmt(&self, f: &mut fmt::Formatter<'_>) -> fmt::Result {
                f.pad(self.words())
            }
        }
    };
}

numbered! {
    /// What a refusal says. Later versions may have more of them.
    ///
    /// ```
    /// use braidhurdle::{FieldId, RefusalKind, Request, Tree};
    ///
    /// let request = Request::new(FieldId(0)).drop("floor")?;
    /// match Tree::default().update(&request).map_err(|refusal| refusal.kind()) {
    ///     Err(Some(RefusalKind::NoSuchColumn)) => println!("it was dropped before"),
    ///     other => panic!("{other:?}"),
    /// }
    /// # Ok::<(), braidhurdle::Overlong>(())
    /// ```
    RefusalKind {
        SmallBuffer = 1: "an output buffer is below its size",
        PastLimit = 2: "a limit on an input count, length or name sum is passed, or a list is no \
            whole number of records",
        BrokenByte = 3: "a byte rule of a record or entry is broken",
        OutsidePool = 4: "a name or path has offset + length above its pool's length",
        BadShape = 5: "level 17 is reached, or counts need records past the end",
        BadLabel = 6: "an element, key or value is named otherwise",
        IdTwice = 7: "an id equals an earlier one",
        NameTwice = 8: "a full name equals an earlier one",
        UnknownIdentifier = 9: "an identifier id is not in the tree; or its column, or what stands \
            above that, breaks a condition",
        UnmatchedRoots = 10: "roots of the additions tree differ from additions",
        NoSuchColumn = 11: "a deletion finds no column",
        DropsIdentifier = 12: "a deletion finds an identifier",
        DottedName = 13: "the added column's own name has a dot; or the new name of a rename has \
            one",
        NoDefault = 14: "the added column is required, without initial default",
        NoSuchParent = 15: "the parent path finds nothing",
        NoStruct = 16: "the parent leads to no struct",
        NameTaken = 17: "the name is taken",
        NoIdsLeft = 18: "an id would pass 2,147,483,647",
        RebuiltPastLimit = 19: "the rebuilt tree passes a limit on trees (records, levels or name \
            sum)",
        ListOrMapChosen = 20: "pruning meets a list or map chosen directly, not in full mode",
        Ambiguous = 21: "two columns match at the same level where case is forgotten",
        ParentGone = 22: "the receiving struct, or a record above it, is dropped as a member \
            of a struct or of the root",
        NoSurvivingColumn = 23: "an edit finds no column that stays",
        EditNotAllowed = 24: "an edit that its column's role forbids, or a second rename or \
            widening of a column",
        UnknownVersion = 25: "the format version is unknown",
        StepNotAllowed = 26: "a widening of what is no primitive, or by a step that the version \
            does not allow",
    }
}

numbered! {
    /// The list that a refusal speaks of. Later versions may have more of them.
    RefusalList {
        Base = 0: "base",
        AdditionsTree = 1: "additions tree",
        Deletions = 2: "deletions",
        Additions = 3: "additions",
        RebuiltTree = 4: "rebuilt tree",
        Identifiers = 5: "identifiers",
        Edits = 6: "edits",
    }
}

impl Refusal {
    /// What the number says; none where no refusal has it.
    #[must_use]
    pub fn kind(self) -> Option<RefusalKind> {
        RefusalKind::from_number(self.number)
    }

    /// The list; none where no list has its number.
    #[must_use]
    pub fn in_list(self) -> Option<RefusalList> {
        RefusalList::from_number(self.list)
    }

    /// What the number says, in words.
    #[must_use]
    pub fn meaning(self) -> &'static str {
        self.kind().map_or("a number that no refusal has", RefusalKind::words)
    }

    /// The list's name.
    #[must_use]
    pub fn list_name(self) -> &'static str {
        self.in_list().map_or("a number that no list has", RefusalList::words)
    }

    fn none_or(number: u32, list: u32, place: u32) -> Result<(), Refusal> {
        if number == 0 { Ok(()) } else { Err(Refusal { number, list, place }) }
    }
}

impl fmt::Display for Refusal {
    /// The lister's form, then the same in words.
    fn fmt(&self, f: &mut fmt::Formatter<'_>) -> fmt::Result {
        let Refusal { number, list, place } = self;
        write!(f, "refused {number} at {list} {place}: ")?;
        write!(f, "{} ({}, place {place})", self.meaning(), self.list_name())
    }
}

impl core::error::Error for Refusal {}

/// An answer of the C functions, unless it is refused.
macro_rules! refusable {
    ($($answer:ident)+) => {
        $(impl c::$answer {
            /// The numbers of an answer that is not refused.
            ///
            /// # Errors
            ///
            /// Why it was refused.
            pub fn accepted(self) -> Result<c::$answer, Refusal> {
                Refusal::none_or(self.refusal, self.list, self.place).map(|()| self)
            }
        })+
    };
}

refusable!(Changed Found Searched);
