//! The stored runs of the printing program, `crates/print`: a standard input
//! and what is printed for it.

use manopluea_compare::calls::Calls;
use manopluea_compare::paper;
use manopluea_compare::program::Program;
use manopluea_compare::proved::Proved;
use std::fs;
use std::path::{Path, PathBuf};

struct Run {
    name: String,
    input: Vec<u8>,
    output: Vec<u8>,
}

fn stored(input: &Path, output: &Path) -> Run {
    let bytes =
        |path: &Path| fs::read(path).unwrap_or_else(|fault| panic!("{}: {fault}", path.display()));
    Run {
        name: input.display().to_string(),
        input: bytes(input),
        output: bytes(output),
    }
}

/// The run of `rt ci`, and those of the folder `runs`.
fn runs() -> Vec<Run> {
    let folder = Path::new(env!("CARGO_MANIFEST_DIR")).join("../crates/print");
    let mut inputs: Vec<PathBuf> = fs::read_dir(folder.join("runs"))
        .expect("there are stored runs")
        .map(|entry| entry.expect("a folder can be read to its end").path())
        .filter(|path| path.extension().is_some_and(|extension| extension == "in"))
        .collect();
    inputs.sort();
    assert!(!inputs.is_empty(), "no stored run has been found");
    let mut runs = vec![stored(&folder.join("stdin"), &folder.join("stdout"))];
    runs.extend(
        inputs
            .iter()
            .map(|input| stored(input, &input.with_extension("out"))),
    );
    runs
}

fn prints_them(print: impl Fn(&[u8]) -> Vec<u8>) {
    for run in runs() {
        let printed = print(&run.input);
        assert_eq!(
            String::from_utf8_lossy(&printed),
            String::from_utf8_lossy(&run.output),
            "{}",
            run.name
        );
    }
}

#[test]
fn the_paper_program_prints_the_stored_runs() {
    prints_them(paper::print);
}

#[test]
fn the_proved_library_prints_the_stored_runs() {
    prints_them(|input| Proved.print(input));
}

#[test]
fn the_printing_program_prints_the_stored_runs() {
    let program = Program::find().expect("it is made");
    prints_them(|input| program.print(input));
}
