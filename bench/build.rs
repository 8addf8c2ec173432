//! Links the verified library where ORDERLINK_ARCHIVE names its archive, and lets the desk's test
//! build where ORDERLINK_DESK names the program. Without them the rest builds alone.

use std::env;
use std::path::{Path, PathBuf};

fn main() {
    println!("cargo::rerun-if-changed=build.rs");
    println!("cargo::rustc-check-cfg=cfg(archive, desk)");
    if let Some(archive) = named_file("ORDERLINK_ARCHIVE") {
        link(&archive);
        println!("cargo::rustc-cfg=archive");
    }
    if let Some(desk) = named_file("ORDERLINK_DESK") {
        println!("cargo::rustc-env=DESK_PROGRAM={}", desk.display());
        println!("cargo::rustc-cfg=desk");
    }
}

/// The file that a variable names, from this folder if its path is relative.
fn named_file(variable: &str) -> Option<PathBuf> {
    println!("cargo::rerun-if-env-changed={variable}");
    let name = env::var_os(variable).filter(|name| !name.is_empty())?;
    match Path::new(&name).canonicalize() {
        Ok(path) => {
            println!("cargo::rerun-if-changed={}", path.display());
            Some(path)
        }
        Err(error) => {
            println!("cargo::error={variable} names {}: {error}", name.display());
            None
        }
    }
}

/// Links libNAME.a, whatever NAME is.
fn link(archive: &Path) {
    let stem = archive.file_stem().map(|stem| stem.to_string_lossy().into_owned());
    match (archive.parent(), stem.as_deref().and_then(|stem| stem.strip_prefix("lib"))) {
        (Some(folder), Some(name)) => {
            println!("cargo::rustc-link-search=native={}", folder.display());
            println!("cargo::rustc-link-lib=static={name}");
        }
        _ => println!("cargo::error={} is not named libNAME.a", archive.display()),
    }
}
