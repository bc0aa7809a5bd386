//! Finds iceberg's files, checks that they are the ones that this judge was written for, and
//! writes the `mod` lines that compile them from where they lie. `#[path]` takes a literal
//! only, so the lines are made here and included.

#[path = "build/sha256.rs"]
mod sha256;

use std::path::{Path, PathBuf};
use std::{env, fs};

const VARIABLE: &str = "BRAIDHURDLE_ICEBERG";

/// Visibility and name of a module, and the crate's file.
type Module = (&'static str, &'static str, &'static str);

/// The files that are made, with the modules in each.
const MODULES: &[(&str, &[Module])] = &[
    ("root.rs", &[("pub", "error", "src/error.rs")]),
    (
        "spec.rs",
        &[("", "datatypes", "src/spec/datatypes.rs"), ("", "schema", "src/spec/schema/mod.rs")],
    ),
    (
        "beside.rs",
        &[
            ("pub(crate)", "id_reassigner", "src/spec/schema/id_reassigner.rs"),
            ("pub(crate)", "index", "src/spec/schema/index.rs"),
            ("", "utils", "src/spec/schema/utils.rs"),
        ],
    ),
    ("expr.rs", &[("pub", "accessor", "src/expr/accessor.rs")]),
    (
        "transaction.rs",
        &[
            ("pub(crate)", "action", "src/transaction/action.rs"),
            ("pub(crate)", "update_schema", "src/transaction/update_schema.rs"),
        ],
    ),
];

fn main() {
    println!("cargo::rustc-check-cfg=cfg(iceberg)");
    println!("cargo::rerun-if-env-changed={VARIABLE}");
    println!("cargo::rerun-if-changed=build.rs");
    println!("cargo::rerun-if-changed=build/sha256.rs");
    println!("cargo::rerun-if-changed=VERBATIM.sha256");
    match files() {
        Ok(folder) => {
            write_modules(&folder);
            println!("cargo::rustc-cfg=iceberg");
        }
        Err(why) => println!("cargo::rustc-env=ICEBERG_ABSENT={why}"),
    }
}

/// The folder that holds all twelve files, or why there is none. A file that is there and
/// differs stops the build: its answers would be another crate's.
fn files() -> Result<PathBuf, String> {
    let here = PathBuf::from(env::var("CARGO_MANIFEST_DIR").expect("cargo sets it"));
    let folder = match env::var(VARIABLE) {
        Ok(word) if word == "none" => return Err(format!("{VARIABLE}=none leaves it out")),
        Ok(folder) => PathBuf::from(folder),
        Err(_) => here.join("../../../shared/docs/src"),
    };
    let Ok(folder) = folder.canonicalize() else {
        // so that the folder is seen once it is there
        println!("cargo::rerun-if-changed={}", folder.display());
        let shown = env::var(VARIABLE).unwrap_or("../shared/docs/src beside the checkout".into());
        return Err(format!("no folder of iceberg's files: {shown} (set {VARIABLE})"));
    };
    let hashes = fs::read_to_string(here.join("VERBATIM.sha256")).expect("VERBATIM.sha256");
    for line in hashes.lines() {
        let (hash, file) = line.split_once("  ").expect("hash, two blanks, file");
        let path = folder.join(file);
        println!("cargo::rerun-if-changed={}", path.display());
        let Ok(bytes) = fs::read(&path) else {
            return Err(format!("the folder of iceberg's files has no {file} (set {VARIABLE})"));
        };
        assert_eq!(sha256::sha256(&bytes), hash, "{file} is not iceberg 0.10.1's");
    }
    Ok(folder)
}

fn write_modules(folder: &Path) {
    let out = PathBuf::from(env::var("OUT_DIR").expect("cargo sets it"));
    for (file, modules) in MODULES {
        let lines: String = modules
            .iter()
            .map(|(seen, name, path)| {
                format!("#[path = {:?}]\n{seen} mod {name};\n", folder.join(path))
            })
            .collect();
        fs::write(out.join(file), lines).expect("OUT_DIR is writable");
    }
}
