//! The compiled program `report`, run on an input.

use std::io::{ErrorKind, Write};
use std::path::PathBuf;
use std::process::{Command, Stdio};
use std::thread;

/// Where `make` and the gate put the program.
fn path() -> PathBuf {
    PathBuf::from(concat!(env!("CARGO_MANIFEST_DIR"), "/../target/bin/report"))
}

/// What the program writes to standard output for an input. It may leave before the input's end.
pub fn report(input: &[u8]) -> Vec<u8> {
    let path = path();
    let mut child = Command::new(&path)
        .stdin(Stdio::piped())
        .stdout(Stdio::piped())
        .spawn()
        .unwrap_or_else(|error| panic!("{}: {error}; `make` builds it", path.display()));
    let mut stdin = child.stdin.take().expect("it is piped");
    thread::scope(|scope| {
        scope.spawn(move || match stdin.write_all(input) {
            Err(error) if error.kind() != ErrorKind::BrokenPipe => panic!("{error}"),
            _ => {}
        });
        let output = child.wait_with_output().expect("it is a child");
        assert!(output.status.success(), "{:?}", output.status);
        output.stdout
    })
}
