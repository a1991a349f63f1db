//! The commands that write files for other programs.

use manopluea_compare::calls::{Query, Stand, ROW};
use manopluea_compare::generate;
use manopluea_compare::paper;
use std::fs;
use std::path::{Path, PathBuf};
use std::process::{Command, Output};

/// A file of this test alone.
fn file(name: &str) -> PathBuf {
    Path::new(env!("CARGO_TARGET_TMPDIR")).join(name)
}

fn run(words: &[&str], files: &[&Path]) -> Output {
    Command::new(env!("CARGO_BIN_EXE_manopluea-compare"))
        .args(words)
        .args(files)
        .output()
        .expect("the program of this package starts")
}

/// What is said where a command fails.
fn fault(words: &[&str], files: &[&Path]) -> String {
    let ended = run(words, files);
    assert!(!ended.status.success(), "{words:?}");
    String::from_utf8(ended.stderr).expect("it is text")
}

/// The first of sixty stands crosses as many lines as any of them, and as many as in every
/// figure of the benchmark.
#[test]
fn a_floor_is_written_with_its_stands() {
    let [plan, stands] = [file("cathedral.plan"), file("cathedral.csv")];
    let ended = run(&["floor", "cathedral"], &[&plan, &stands]);
    assert!(ended.status.success(), "{ended:?}");
    let plan = paper::decode(&fs::read(plan).unwrap()).expect("it is a plan file");
    let [corners, cells, doors, ..] = paper::check(plan.lists()).values;
    assert_eq!([corners, cells, doors], [1_200, 2_002, 64]);
    let csv = fs::read_to_string(stands).unwrap();
    let mut lines = csv.lines();
    assert_eq!(lines.next(), Some("x,y"));
    let crossings: Vec<u64> = lines
        .map(|line| {
            let (x, y) = line.split_once(',').expect("two numbers");
            let [x, y] = [x, y].map(|number| number.parse::<i32>().expect("a whole number"));
            let query = Query::without_reach(0, Stand::Point(x.into(), y.into()));
            let mut table = vec![0; ROW * corners as usize];
            let reply = paper::list(plan.lists(), query.without_ceiling(), &mut table);
            assert_eq!(reply.number, 0, "{line}");
            reply.values[1]
        })
        .collect();
    assert_eq!(crossings.len(), 60);
    assert_eq!(crossings[0], 2_068);
    assert_eq!(crossings.iter().max(), crossings.first());
}

#[test]
fn inputs_are_written_one_after_another() {
    let path = file("inputs");
    let ended = run(&["inputs", "7", "40"], &[&path]);
    assert!(ended.status.success(), "{ended:?}");
    let written = fs::read(path).unwrap();
    let mut rest = written.as_slice();
    for number in 0..40 {
        let (length, after) = rest.split_first_chunk().expect("a length");
        let (input, after) = after.split_at(u32::from_le_bytes(*length) as usize);
        assert_eq!(input, generate::case(7, number).input, "case {number}");
        rest = after;
    }
    assert_eq!(rest, []);
}

#[test]
fn what_cannot_be_written_is_said() {
    let (here, nowhere) = (file("written"), file("no-such-folder/written"));
    let path = nowhere.display().to_string();
    assert!(fault(&["floor", "corridor"], &[&nowhere, &here]).contains(&path));
    assert!(fault(&["floor", "corridor"], &[&here, &nowhere]).contains(&path));
    assert!(fault(&["inputs", "1", "2"], &[&nowhere]).contains(&path));
}

#[test]
fn other_words_are_answered_with_the_usage() {
    let path = file("not-written");
    let usage = |words, files: &[&Path]| fault(words, files).starts_with("usage: ");
    assert!(usage(&["floor", "cellar"], &[&path, &path]));
    assert!(usage(&["floor", "largest"], &[&path]));
    assert!(usage(&["inputs", "one", "2"], &[&path]));
    assert!(usage(&["inputs", "1"], &[&path]));
    assert!(!usage(&["inputs", "1", "0"], &[&path]));
    assert!(!path.exists());
}
