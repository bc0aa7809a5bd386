//! The two judges beside each other, and the port beside both.

mod agree;
mod recorded;
mod run;

pub use agree::{Agreement, LISTED, agreement};
pub use recorded::{recorded_list, recorded_path, replay};
pub use run::{Failure, Report, Run, Shown, check};

use oracle::Iceberg;

/// Does the gate ask, so that nothing may be left out?
fn gate() -> bool {
    std::env::var("CI").is_ok_and(|ci| ci == "true")
}

/// Is the toolchain there that makes the port's archive?
fn toolchain() -> bool {
    let folders = std::env::var_os("PATH").unwrap_or_default();
    std::env::split_paths(&folders).any(|folder| folder.join("rt").is_file())
}

/// The first judge, if it is there. Where it isn't this says so and why; with CI=true in the
/// environment that is a failure.
pub fn iceberg() -> Option<Iceberg> {
    oracle::judge().map_err(|why| said("iceberg's own code", why, gate())).ok()
}

/// Is the port there? Where it isn't this says so and why; with CI=true in the environment, or
/// beside the toolchain that makes its archive, that is a failure.
pub fn port_is_there() -> bool {
    let absent = port::absent();
    if let Some(why) = absent {
        said("the port", why, gate() || toolchain());
    }
    absent.is_none()
}

fn said(who: &str, why: &str, needed: bool) {
    println!("{}", absent(who, why, needed).unwrap_or_else(|failure| panic!("{failure}")));
}

/// What to say where somebody isn't there: a note, or where it is needed a failure.
pub fn absent(who: &str, why: &str, needed: bool) -> Result<String, String> {
    match needed {
        false => Ok(format!("The comparison with {who} did not run: {why}")),
        true => Err(format!("The comparison with {who} must run here: {why}")),
    }
}
