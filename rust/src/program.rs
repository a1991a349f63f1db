//! The printing program itself, as a process.

use std::io::{ErrorKind, Write};
use std::path::{Path, PathBuf};
use std::process::{Command, Stdio};

/// The printing program, found and ready to run.
pub struct Program {
    path: PathBuf,
}

impl Program {
    pub fn find() -> Result<Program, String> {
        let path = Path::new(env!("CARGO_MANIFEST_DIR")).join("../crates/print/out/print");
        if !path.is_file() {
            let path = path.display();
            return Err(format!(
                "{path} is not there; `rt run` in crates/print makes it"
            ));
        }
        Ok(Program { path })
    }

    /// What it writes to standard output for this standard input.
    pub fn print(&self, input: &[u8]) -> Vec<u8> {
        let mut process = Command::new(&self.path)
            .stdin(Stdio::piped())
            .stdout(Stdio::piped())
            .spawn()
            .expect("the printing program starts");
        let mut standard_input = process.stdin.take().expect("it was asked for");
        match standard_input.write_all(input) {
            // An input over the limit need not be read to its end.
            Err(fault) if fault.kind() == ErrorKind::BrokenPipe => {}
            written => written.expect("the printing program takes its input"),
        }
        drop(standard_input);
        let ended = process.wait_with_output().expect("it was started");
        assert!(ended.status.success(), "it ended with {}", ended.status);
        ended.stdout
    }
}
