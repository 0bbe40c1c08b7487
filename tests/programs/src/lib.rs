//! Runs a program of the project on some standard input and gives what it wrote.

use std::fs::{self, File};
use std::io::{Read, Seek, Write};
use std::path::PathBuf;
use std::process::{self, Child, Command, Stdio};
use std::sync::atomic::{AtomicU32, Ordering};
use std::thread;
use std::time::Duration;

/// The program as `bin/build` left it.
pub fn program(name: &str) -> PathBuf {
    let path = PathBuf::from(env!("CARGO_MANIFEST_DIR"))
        .join("../../target/bin")
        .join(name);
    assert!(
        path.is_file(),
        "{} is not there: run `bin/build {name}`",
        path.display()
    );
    path
}

fn started(name: &str) -> Child {
    Command::new(program(name))
        .stdin(Stdio::piped())
        .stdout(Stdio::piped())
        .spawn()
        .expect("the program starts")
}

/// What the program writes where its input comes in the given pieces, one after the other.
///
/// A program that has read enough may close its input early: what is left is then not written.
pub fn written_for_pieces(name: &str, pieces: &[&[u8]], pause: Duration) -> Vec<u8> {
    let mut child = started(name);
    let mut input = child.stdin.take().expect("its input is a pipe");
    let mut output = child.stdout.take().expect("its output is a pipe");
    let reader = thread::spawn(move || {
        let mut written = Vec::new();
        output
            .read_to_end(&mut written)
            .expect("its output is read");
        written
    });
    for piece in pieces {
        if input.write_all(piece).and_then(|()| input.flush()).is_err() {
            break;
        }
        thread::sleep(pause);
    }
    drop(input);
    assert!(child.wait().expect("the program ends").success());
    reader.join().expect("its output was read")
}

/// What the program writes for an input that comes at once.
pub fn written_for(name: &str, input: &[u8]) -> Vec<u8> {
    written_for_pieces(name, &[input], Duration::ZERO)
}

/// What the program writes where its input is a regular file with the given bytes, and how many of
/// them it has read: the offset of the file is shared with the program.
pub fn written_for_file(name: &str, input: &[u8]) -> (Vec<u8>, u64) {
    static FILES: AtomicU32 = AtomicU32::new(0);
    let number = FILES.fetch_add(1, Ordering::Relaxed);
    let path = std::env::temp_dir().join(format!("{name}-{}-{number}", process::id()));
    fs::write(&path, input).expect("the file is written");
    let mut file = File::open(&path).expect("the file is opened");
    fs::remove_file(&path).expect("the file's name is removed");
    let shared = file.try_clone().expect("the file is shared");
    let output = Command::new(program(name))
        .stdin(shared)
        .output()
        .expect("the program runs");
    assert!(output.status.success());
    (
        output.stdout,
        file.stream_position().expect("it has an offset"),
    )
}
