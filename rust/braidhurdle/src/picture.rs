//! A tree as an indented picture, for people.

use core::fmt;

use crate::names::shown;
use crate::{Column, Kind, Tree, TreeRef, Type};

impl fmt::Display for Tree {
    /// The picture, as [`TreeRef`] has it.
    fn fmt(&self, f: &mut fmt::Formatter<'_>) -> fmt::Result {
        self.lent().fmt(f)
    }
}

impl fmt::Display for TreeRef<'_> {
    /// The picture: a line for each column, two spaces for each level above it. Of a tree that is
    /// refused, one line with the refusal in words.
    fn fmt(&self, f: &mut fmt::Formatter<'_>) -> fmt::Result {
        match self.columns() {
            Err(refusal) => writeln!(f, "{refusal}"),
            Ok(mut columns) => columns.try_for_each(|column| {
                let indent = 2 * (column.level - 1);
                writeln!(f, "{:indent$}{column}", "")
            }),
        }
    }
}

impl fmt::Display for Column<'_> {
    /// Its line of the picture, without what stands before and behind: id, name and kind, and what
    /// is set of required, default and attribute. A primitive's kind is its type, or `primitive`
    /// with its type code where no type has that.
    fn fmt(&self, f: &mut fmt::Formatter<'_>) -> fmt::Result {
        write!(f, "{} {}: ", self.id, shown(self.name))?;
        match (self.kind, Type::of_code(self.type_code)) {
            (Kind::Primitive, Some(of)) => write!(f, "{of}"),
            (Kind::Primitive, None) => write!(f, "{} {}", self.kind, self.type_code),
            _ => write!(f, "{}", self.kind),
        }?;
        if self.required {
            f.write_str(" required")?;
        }
        if self.default {
            f.write_str(" default")?;
        }
        if self.attribute != 0 {
            write!(f, " attribute {}", self.attribute)?;
        }
        Ok(())
    }
}
