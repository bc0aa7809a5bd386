//! Types as people say them, by name or by code; and why one is not widened to another: refusal 26.

use braidhurdle::{Type, Version};

/// The code of a type that goes by its name, or the code itself.
pub fn code(text: &str) -> Result<u32, String> {
    let by_name = |_| text.parse::<Type>().map(Type::code);
    text.parse().or_else(by_name).map_err(|why| format!("{why}; a code is a number below 2^32"))
}

/// A type's name; a code that has none as a number.
pub fn named(code: u32) -> String {
    match Type::of_code(code) {
        Some(of) => of.to_string(),
        None => format!("type code {code}"),
    }
}

/// Why a version has no step from one code to another, with the steps that it has.
pub fn no_step(version: Version, old: u32, new: u32) -> String {
    if old == new {
        return format!("it is {} already", named(old));
    }
    let steps = |version| Type::of_code(old).into_iter().flat_map(move |of| of.steps(version));
    let later = match steps(Version::V3).any(|to| to.code() == new) {
        true => "; version 3 has this one",
        false => "",
    };
    let to = match steps(version).collect::<Vec<_>>()[..] {
        [] if steps(Version::V3).next().is_none() => {
            return format!("from {} there is no step", named(old));
        }
        [] => "no step".into(),
        [one] => format!("the step to {one} alone"),
        [one, other] => format!("the steps to {one} and to {other} alone"),
        [first, .., last] => format!("the steps to {first} up to {last} alone"),
    };
    format!("from {} format version {version} has {to}{later}", named(old))
}
