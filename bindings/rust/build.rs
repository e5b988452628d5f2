//! Finds libksmbook, or with the feature `host` libksmbook-host, the first that there is of: the folder that KSMBOOK_LIB_DIR names, the checkout's
//! (bench/library makes it), the archive that the crate carries for its target, and what pkg-config tells of an installed one. Where there is none
//! it says what to do.

use std::path::{Path, PathBuf};
use std::process::{Command, exit};
use std::{env, fs};

const HELP: &str = "Install the package libksmbook-dev, or set KSMBOOK_LIB_DIR to a folder with it (in a checkout of ksmbook `release/join` makes \
    bindings/out/libksmbook.a)";

fn variable(name: &str) -> Option<PathBuf> {
    println!("cargo:rerun-if-env-changed={name}");
    env::var_os(name).map(PathBuf::from)
}

// The archive of a library in a folder.
fn archive(folder: &Path, name: &str) -> PathBuf {
    folder.join(format!("lib{name}.a"))
}

fn link_archive(folder: &Path, name: &str) {
    let folder = fs::canonicalize(folder).unwrap_or_else(|_| folder.to_path_buf());
    println!("cargo:rerun-if-changed={}", archive(&folder, name).display());
    println!("cargo:rustc-link-search=native={}", folder.display());
    println!("cargo:rustc-link-lib=static={name}");
}

// Tells the linker what pkg-config says, if it knows the library.
fn link_installed(name: &str) -> bool {
    let wanted = [format!("{name} >= 1.1.0"), format!("{name} < 2")];
    let said = match Command::new("pkg-config").arg("--libs").args(wanted).output() {
        Ok(said) if said.status.success() => said,
        _ => return false,
    };
    for word in String::from_utf8_lossy(&said.stdout).split_whitespace() {
        if let Some(folder) = word.strip_prefix("-L") {
            println!("cargo:rustc-link-search=native={folder}");
        } else if let Some(name) = word.strip_prefix("-l") {
            println!("cargo:rustc-link-lib={name}");
        }
    }
    true
}

fn main() {
    if env::var_os("DOCS_RS").is_some() {
        return;
    }
    let package = PathBuf::from(env::var_os("CARGO_MANIFEST_DIR").unwrap_or_default());
    let target = env::var("TARGET").unwrap_or_default();
    let carried = [package.join("../out"), package.join("lib").join(target)];
    let name = if env::var_os("CARGO_FEATURE_HOST").is_some() { "ksmbook-host" } else { "ksmbook" };
    match variable("KSMBOOK_LIB_DIR") {
        Some(folder) if archive(&folder, name).is_file() => link_archive(&folder, name),
        Some(folder) => {
            eprintln!("KSMBOOK_LIB_DIR: there is no {}", archive(&folder, name).display());
            exit(1);
        }
        None => match carried.iter().find(|folder| archive(folder, name).is_file()) {
            Some(folder) => link_archive(folder, name),
            None if link_installed(name) => {}
            None => {
                eprintln!("lib{name} was not found. {HELP}");
                exit(1);
            }
        },
    }
}
