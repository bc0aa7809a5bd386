//! Finds the port's archive, or has it made, and links it. Without one the build ends here and
//! says what to do: a program that changes schemas is no use without the code that does.
//! `tools/archive` knows what the archive is made from, and makes it.

use std::fs::OpenOptions;
use std::os::unix::process::parent_id;
use std::path::{Path, PathBuf};
use std::process::{Command, Stdio};
use std::{env, fs};

const VARIABLE: &str = "BRAIDHURDLE_ARCHIVE";
const ARCHIVE: &str = "libbraidhurdle.a";

fn main() {
    println!("cargo::rustc-check-cfg=cfg(archive)");
    println!("cargo::rerun-if-env-changed={VARIABLE}");
    println!("cargo::rerun-if-changed=build.rs");
    if env::var(VARIABLE).is_ok_and(|value| value == "none") {
        return;
    }
    match folder().and_then(|folder| fits(&folder).map(|()| folder)) {
        Ok(folder) => {
            println!("cargo::rustc-cfg=archive");
            println!("cargo::rustc-link-search=native={}", folder.display());
            println!("cargo::rustc-link-lib=static=braidhurdle");
        }
        Err(why) => println!("cargo::error={why}"),
    }
}

/// The folder that the variable names, or the checkout's own; the toolchain fills the latter. In
/// either the archive is held to the sources beside this crate, where they are there.
fn folder() -> Result<PathBuf, String> {
    let checkout = PathBuf::from(env::var_os("CARGO_MANIFEST_DIR").expect("cargo sets it"));
    let checkout = checkout.join("../..");
    let maker = checkout.join("tools/archive");
    if maker.exists() {
        for source in ["tools/archive", "tools/below", "tools/staticlib", "crates.txt"] {
            println!("cargo::rerun-if-changed={}", checkout.join(source).display());
        }
        // not a crate's out/: the toolchain's own, it changes with each check
        for made in fs::read_dir(checkout.join("crates")).into_iter().flatten().flatten() {
            for part in ["src", "specs", "proofs"].map(|part| made.path().join(part)) {
                if part.exists() {
                    println!("cargo::rerun-if-changed={}", part.display());
                }
            }
        }
        told(Command::new(&maker).arg("--look"))?;
        if told(Command::new(&maker).arg("--fresh")).is_err() {
            told(Command::new(&maker).stderr(where_cargo_speaks()))
                .map_err(|_| "the archive is not made: target/archive.log has the reasons")?;
        }
    }
    let own = checkout.join("target/staticlib");
    Ok(env::var_os(VARIABLE).map_or(own, PathBuf::from))
}

/// Runs a command; where it fails, what it said.
fn told(command: &mut Command) -> Result<(), String> {
    match command.output() {
        Ok(output) if output.status.success() => Ok(()),
        Ok(output) => Err(String::from_utf8_lossy(&output.stdout).trim().to_string()),
        Err(why) => Err(format!("tools/archive can't be run: {why}")),
    }
}

/// Cargo's own standard error. What a build script says is shown when it has ended, if at all; but
/// making the archive takes minutes, and a person who waits is told so at once.
fn where_cargo_speaks() -> Stdio {
    let file = format!("/proc/{}/fd/2", parent_id());
    OpenOptions::new().append(true).open(file).map_or_else(|_| Stdio::inherit(), Stdio::from)
}

/// Is there an archive for the machine that is built for, and of the version that is declared?
fn fits(folder: &Path) -> Result<(), String> {
    let archive = folder.join(ARCHIVE);
    println!("cargo::rerun-if-changed={}", archive.display());
    let bytes = fs::read(&archive).map_err(|why| format!("{}: {why}", archive.display()))?;
    let target = env::var("CARGO_CFG_TARGET_ARCH").expect("cargo sets it");
    match machine(&bytes) {
        Some(machine) if machine == target => {}
        other => {
            return Err(format!(
                "{} is for {}, not for {target}",
                archive.display(),
                other.unwrap_or("no machine that is known here")
            ));
        }
    }
    let version = version();
    match names(&bytes).is_some_and(|mut names| names.any(|name| name == version.as_bytes())) {
        true => Ok(()),
        false => Err(format!(
            "{} is of another version than this crate: it has no {version}",
            archive.display()
        )),
    }
}

/// The functions that an archive offers, by its index: eight bytes, a header of 60 whose bytes 48
/// to 57 are the length, then a count, as many places, and the names, each with a zero at its end.
fn names(bytes: &[u8]) -> Option<impl Iterator<Item = &[u8]>> {
    let (header, index) = bytes.get(8..)?.split_at_checked(60)?;
    let length = std::str::from_utf8(header.get(48..58)?).ok()?.trim().parse().ok()?;
    let (count, rest) = index.get(..length)?.split_first_chunk()?;
    let names = rest.get(4 * u32::from_be_bytes(*count) as usize..)?;
    Some(names.split(|&byte| byte == 0))
}

/// The function whose name has the version, as this crate declares it.
fn version() -> String {
    let declared = include_str!("src/c.rs").split("fn braidhurdle_abi_").nth(1);
    let number = declared.and_then(|rest| rest.split('(').next()).expect("src/c.rs declares it");
    format!("braidhurdle_abi_{number}")
}

/// The machine of the first object in the archive.
fn machine(bytes: &[u8]) -> Option<&'static str> {
    let object = bytes.windows(4).position(|part| part == b"\x7fELF")?;
    match bytes.get(object + 18)? {
        0x3E => Some("x86_64"),
        0xB7 => Some("aarch64"),
        _ => None,
    }
}
