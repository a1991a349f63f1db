//! Links the archive of the proved library, which has the functions of
//! `include/manopluea.h`. Where there is none for the target the build ends here: a
//! linker would only name functions that it does not find.

use std::env;
use std::path::{Path, PathBuf};

/// What can be done where there is no archive.
const REMEDY: &str = "In the folder crates/exports of the repository `rt lib` makes the one for \
    x86-64 Linux, and so does `bash rust/compare.sh`; MANOPLUEA_ARCHIVE names any other by its \
    whole path.";

fn main() {
    println!("cargo::rerun-if-changed=build.rs");
    println!("cargo::rerun-if-env-changed=MANOPLUEA_ARCHIVE");
    // Types alone need no archive.
    if env::var_os("CARGO_FEATURE_CALLS").is_none() {
        return;
    }
    if let Err(why) = archive().and_then(|archive| link(&archive)) {
        println!("cargo::error=the proved library is not linked: {why}. {REMEDY}");
    }
}

/// The archive for the target.
fn archive() -> Result<PathBuf, String> {
    if let Some(named) = env::var_os("MANOPLUEA_ARCHIVE") {
        let named = PathBuf::from(named);
        if named.is_relative() {
            // Cargo does not say which folder it was called in.
            let named = named.display();
            return Err(format!("MANOPLUEA_ARCHIVE is no whole path: {named}"));
        }
        return Ok(named);
    }
    let [machine, system] =
        ["ARCH", "OS"].map(|part| env::var(format!("CARGO_CFG_TARGET_{part}")).unwrap_or_default());
    if [machine.as_str(), system.as_str()] != ["x86_64", "linux"] {
        return Err(format!(
            "no archive is named that is made for {machine} {system}"
        ));
    }
    Ok(Path::new(env!("CARGO_MANIFEST_DIR")).join("../../crates/exports/out/libexports.a"))
}

fn link(archive: &Path) -> Result<(), String> {
    println!("cargo::rerun-if-changed={}", archive.display());
    let (true, Some(folder), Some(name)) =
        (archive.is_file(), archive.parent(), archive.file_name())
    else {
        return Err(format!("{} is not there", archive.display()));
    };
    println!("cargo::rustc-link-search=native={}", folder.display());
    let name = name.display();
    println!("cargo::rustc-link-lib=static:+verbatim={name}");
    Ok(())
}
