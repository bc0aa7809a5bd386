//! The steps by which a type is widened (02, 6/13). 02 takes them from the Apache Iceberg table
//! specification, section Schema Evolution, whose table of type promotions has a column for each
//! format version.

use crate::layout::{DATE, DECIMAL, DOUBLE, FLOAT, INT, LONG, TIMESTAMP, TIMESTAMP_NS};

/// The format versions that a request may name.
pub const VERSIONS: [u32; 2] = [2, 3];

/// Precision and scale of a decimal's code: precision 1 to 38, scale 0 to precision. Each is tried.
pub fn decimal(code: u32) -> Option<(u32, u32)> {
    (1..=38).find_map(|precision| {
        let is = |scale: &u32| DECIMAL + 256 * precision + scale == code;
        Some((precision, (0..=precision).find(is)?))
    })
}

/// Does a version allow that a column of the old code gets the new one?
pub fn is_step(version: u32, old: u32, new: u32) -> bool {
    let of_2 = match (old, new, decimal(old), decimal(new)) {
        (INT, LONG, ..) | (FLOAT, DOUBLE, ..) => true,
        (_, _, Some((precision, scale)), Some((higher, equal))) => {
            higher > precision && equal == scale
        }
        _ => false,
    };
    let added_by_3 = matches!((old, new), (DATE, TIMESTAMP | TIMESTAMP_NS));
    match version {
        2 => of_2,
        3 => of_2 || added_by_3,
        _ => false,
    }
}
