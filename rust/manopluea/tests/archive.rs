//! The build without an archive to link: it ends, and says what is missing and what to do.

#![cfg(feature = "calls")]

use std::fs;
use std::path::{Path, PathBuf};
use std::process::Command;

/// A folder of one test alone, with nothing in it.
fn folder(name: &str) -> PathBuf {
    let folder = Path::new(env!("CARGO_TARGET_TMPDIR")).join(name);
    let _ = fs::remove_dir_all(&folder);
    fs::create_dir_all(&folder).expect("a folder is made");
    folder
}

/// Builds a package into a folder. What is said comes back: where it is built, and where not.
fn build(
    package: &Path,
    into: &Path,
    archive: Option<&str>,
    words: &[&str],
) -> Result<String, String> {
    let mut cargo = Command::new(env!("CARGO"));
    cargo.args(["build", "--offline", "--manifest-path"]);
    cargo.arg(package.join("Cargo.toml"));
    cargo.arg("--target-dir").arg(into).args(words);
    cargo.env_remove("MANOPLUEA_ARCHIVE");
    if let Some(archive) = archive {
        cargo.env("MANOPLUEA_ARCHIVE", archive);
    }
    let ended = cargo.output().expect("cargo starts");
    let said = String::from_utf8_lossy(&ended.stderr).into_owned();
    if ended.status.success() {
        Ok(said)
    } else {
        Err(said)
    }
}

/// What is said where nothing is built, which has to be what to do, too.
fn fault(built: Result<String, String>) -> String {
    let said = built.expect_err("there is no archive");
    for part in ["rt lib", "bash rust/compare.sh", "MANOPLUEA_ARCHIVE"] {
        assert!(said.contains(part), "{part}: {said}");
    }
    said
}

#[test]
fn an_archive_that_is_named_has_to_be_there() {
    let (here, into) = (Path::new(env!("CARGO_MANIFEST_DIR")), folder("named"));
    let nowhere = into.join("libexports.a").display().to_string();
    let said = fault(build(here, &into, Some(&nowhere), &[]));
    assert!(said.contains(&format!("{nowhere} is not there")), "{said}");
    // By its whole path, though there is a file of that name.
    let said = fault(build(here, &into, Some("build.rs"), &[]));
    assert!(said.contains("no whole path: build.rs"), "{said}");
    // Types alone are built without one.
    let built = build(here, &into, Some(&nowhere), &["--no-default-features"]);
    assert!(built.is_ok(), "{built:?}");
}

#[test]
fn the_archive_that_is_shipped_is_for_one_machine() {
    let (here, into) = (Path::new(env!("CARGO_MANIFEST_DIR")), folder("elsewhere"));
    let words = ["--target", "aarch64-unknown-linux-gnu"];
    let said = fault(build(here, &into, None, &words));
    assert!(said.contains("made for aarch64 linux"), "{said}");
}

/// The package in a folder where no archive has been made.
#[test]
fn the_archive_that_is_shipped_has_to_be_made() {
    let top = folder("unmade");
    let package = top.join("rust/manopluea");
    fs::create_dir_all(package.join("src")).expect("folders are made");
    let here = Path::new(env!("CARGO_MANIFEST_DIR"));
    fs::copy(here.join("build.rs"), package.join("build.rs")).expect("it is copied");
    fs::write(package.join("src/lib.rs"), "").expect("it is written");
    let manifest = fs::read_to_string(here.join("Cargo.toml")).expect("it is read");
    // A workspace of its own: the folder lies in another.
    fs::write(package.join("Cargo.toml"), manifest + "\n[workspace]\n").expect("it is written");
    let said = fault(build(&package, &top.join("target"), None, &[]));
    let archive = package.join("../../crates/exports/out/libexports.a");
    let missing = format!("{} is not there", archive.display());
    assert!(said.contains(&missing), "{said}");
}
