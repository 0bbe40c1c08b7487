//! `bin/compare` as a command of the shell: its exit status, what it says before anything is built, and when it builds.
//! But for the last test it runs in repositories made here, where `kit/rt` stands for the kit.

use programs::program;
use std::fs::{self, File};
use std::io::Write;
use std::os::unix::fs::symlink;
use std::path::{Path, PathBuf};
use std::process::{Command, Stdio};

fn here(path: &str) -> PathBuf {
    Path::new(env!("CARGO_MANIFEST_DIR")).join(path)
}

fn example(name: &str) -> PathBuf {
    here("../../examples").join(name).with_extension("pattern")
}

/// A small repository of its own, with the command in it.
struct Repository {
    root: PathBuf,
}

impl Drop for Repository {
    fn drop(&mut self) {
        fs::remove_dir_all(&self.root).expect("the repository is removed");
    }
}

impl Repository {
    fn new(name: &str) -> Repository {
        // Outside of this repository, where files of Rattle that no crate has are a fault.
        let process = std::process::id();
        let root = std::env::temp_dir().join(format!("pressbadger-command-{process}-{name}"));
        for folder in ["bin", "crates/compare/src", "crates/walk/src"] {
            fs::create_dir_all(root.join(folder)).expect("a folder is made");
        }
        let repository = Repository { root };
        repository.has("kit", "kit 1");
        repository.has("crates.txt", "walk:\ncompare: walk\n");
        repository.has("crates/compare/src/main.rt", "fn main() {}\n");
        repository.has("crates/walk/src/lib.rt", "pub fn walk() {}\n");
        // A copy by another process: this one must not have an executable open for writing.
        let copied = Command::new("cp")
            .args(["compare", "build", "program.sh"].map(|name| here("../../bin").join(name)))
            .arg(repository.root.join("bin"))
            .status();
        assert!(copied.expect("cp runs").success());
        repository
    }

    fn has(&self, path: &str, content: &str) {
        fs::write(self.root.join(path), content).expect("a file is written");
    }

    fn has_not(&self, path: &str) {
        fs::remove_file(self.root.join(path)).expect("a file is removed");
    }

    /// The command, by the given path to it, with the kit that is none.
    fn command_at(&self, path: &Path) -> Command {
        let mut command = Command::new(path);
        let path = std::env::var("PATH").expect("there is a PATH");
        command
            .env("PATH", format!("{}:{path}", here("kit").display()))
            .env("PROGRAM", program("compare"));
        command
    }

    fn command(&self) -> Command {
        self.command_at(&self.root.join("bin/compare"))
    }

    /// What the command says of the files that are named.
    fn said(&self, files: &[&Path]) -> Said {
        said(self.command().args(files), b"")
    }

    /// How often the kit was asked to prove and build.
    fn builds(&self) -> usize {
        fs::read_to_string(self.root.join("calls")).map_or(0, |calls| calls.lines().count())
    }
}

/// How the command ended, and what it wrote.
#[derive(Debug)]
struct Said {
    status: Option<i32>,
    out: String,
    err: String,
}

fn said(command: &mut Command, input: &[u8]) -> Said {
    let mut child = command
        .stdin(Stdio::piped())
        .stdout(Stdio::piped())
        .stderr(Stdio::piped())
        .spawn()
        .expect("the command starts");
    // It may have ended already, without reading.
    let _ = child
        .stdin
        .take()
        .expect("its input is a pipe")
        .write_all(input);
    let output = child.wait_with_output().expect("the command ends");
    Said {
        status: output.status.code(),
        out: String::from_utf8(output.stdout).expect("it is text"),
        err: String::from_utf8(output.stderr).expect("it is text"),
    }
}

/// The answers that the examples have, with the status of each.
const ANSWERS: [(&str, &str, i32); 3] = [
    ("recent-drop", "SAME 4 49\n1 8\n3 16\n5 32\n7 64\n", 0),
    ("first-answer", "DIFFERENT 1 2 1\nREAD\n", 1),
    ("checklist", "FULL 1024 6189\n", 2),
];

/// Catches an answer that scripts cannot tell from another, and one that is not printed whole.
#[test]
fn each_answer_has_its_status() {
    let repository = Repository::new("status");
    for (name, answer, status) in ANSWERS {
        let said = repository.said(&[&example(name)]);
        assert_eq!((said.out.as_str(), said.status), (answer, Some(status)));
    }
    let said = repository.said(&[&repository.root.join("crates.txt")]);
    assert_eq!(
        (said.out.as_str(), said.status),
        ("REFUSED 10 0\n", Some(3))
    );
}

/// Catches a file that is read only where it is named, and a `-` that is taken for a file.
#[test]
fn without_a_file_standard_input_is_read() {
    let repository = Repository::new("input");
    for (name, answer, status) in ANSWERS {
        let input = fs::read(example(name)).expect("the example is there");
        for words in [&[][..], &["-"], &["--"], &["--", "-"]] {
            let said = said(repository.command().args(words), &input);
            assert_eq!((said.out.as_str(), said.status), (answer, Some(status)));
        }
    }
    let said = said(&mut repository.command(), b"");
    assert_eq!(
        (said.out.as_str(), said.status),
        ("REFUSED 20 0\n", Some(3))
    );
}

/// Catches a mistake in the call that costs a build before it is said, or that looks like an answer.
#[test]
fn what_cannot_be_asked_is_said_before_anything_is_built() {
    let repository = Repository::new("before");
    let (file, folder) = (example("first-answer"), here("../../examples"));
    let calls: [(&[&Path], &str); 6] = [
        (&[Path::new("no-such-file")], "no file 'no-such-file'"),
        (&[Path::new("")], "no file ''"),
        (&[&folder], "is a directory"),
        (&[&file, &file], "one file at a time"),
        (&[Path::new("--fast")], "no option --fast"),
        (&[Path::new("--"), Path::new("--fast")], "no file '--fast'"),
    ];
    for (words, why) in calls {
        let said = repository.said(words);
        assert_eq!((said.out.as_str(), said.status), ("", Some(4)));
        assert!(said.err.contains(why), "{said:?}");
        assert_eq!(said.err.lines().count(), 1, "{said:?}");
    }
    let mut command = repository.command();
    let folder = File::open(folder).expect("a folder is opened");
    let output = command.stdin(folder).output().expect("the command ends");
    assert_eq!((output.stdout.len(), output.status.code()), (0, Some(4)));
    assert_eq!(repository.builds(), 0);
}

/// Catches a request for help that is taken for a file, and a help that leaves a status out.
#[test]
fn help_says_every_status_and_builds_nothing() {
    let repository = Repository::new("help");
    let said = repository.said(&[Path::new("--help")]);
    assert_eq!((said.err.as_str(), said.status), ("", Some(0)));
    for line in [
        "0     SAME",
        "1     DIFFERENT",
        "2     FULL",
        "3     REFUSED",
        "4     no answer",
    ] {
        assert!(said.out.contains(line), "{said:?}");
    }
    assert_eq!(repository.builds(), 0);
}

/// Catches a command that looks for its repository beside a link to it, or beside whoever calls it.
#[test]
fn it_may_be_called_through_links_from_anywhere() {
    let repository = Repository::new("link");
    let elsewhere = repository.root.join("some/where");
    fs::create_dir_all(&elsewhere).expect("a folder is made");
    symlink("../../bin/compare", elsewhere.join("near")).expect("a link is made");
    symlink("near", elsewhere.join("far")).expect("a link is made");
    fs::copy(example("first-answer"), elsewhere.join("question")).expect("a file is copied");
    let mut command = repository.command_at(Path::new("./far"));
    let said = said(command.current_dir(&elsewhere).arg("question"), b"");
    assert_eq!((said.out.as_str(), said.status), (ANSWERS[1].1, Some(1)));
    assert!(repository.root.join("target/bin/compare").is_file());
}

/// Catches a program that is proved again for each question, and one that is asked though its sources, its order, its kit
/// or itself have changed.
#[test]
fn it_builds_where_something_has_changed_and_only_there() {
    let repository = Repository::new("builds");
    let change = |path: &'static str, content: &'static str| {
        move |repository: &Repository| repository.has(path, content)
    };
    let remove = |path: &'static str| move |repository: &Repository| repository.has_not(path);
    let changes: [(&str, Box<dyn Fn(&Repository)>); 9] = [
        ("nothing was built", Box::new(|_| ())),
        (
            "a source",
            Box::new(change("crates/walk/src/lib.rt", "// new")),
        ),
        (
            "one more source",
            Box::new(change("crates/walk/src/more.rt", "// new")),
        ),
        ("a source less", Box::new(remove("crates/walk/src/more.rt"))),
        (
            "the order",
            Box::new(change("crates.txt", "compare: walk\nwalk:\n")),
        ),
        ("the kit", Box::new(change("kit", "kit 2"))),
        ("no program", Box::new(remove("target/bin/compare"))),
        (
            "another program",
            Box::new(|repository| {
                let copied = Command::new("cp")
                    .args(["/bin/true", "target/bin/compare"])
                    .current_dir(&repository.root)
                    .status();
                assert!(copied.expect("cp runs").success());
            }),
        ),
        ("no stamp", Box::new(remove("target/bin/compare.made-of"))),
    ];
    for (turn, (what, change)) in changes.iter().enumerate() {
        change(&repository);
        for _ in 0..2 {
            let said = repository.said(&[&example("first-answer")]);
            assert_eq!(
                (said.out.as_str(), said.status),
                (ANSWERS[1].1, Some(1)),
                "{what}"
            );
        }
        assert_eq!(repository.builds(), turn + 1, "{what}");
    }
}

/// Catches a program of the last proof that is asked where the sources of today are not proved.
#[test]
fn what_is_not_proved_is_not_asked() {
    let repository = Repository::new("unproved");
    assert_eq!(repository.said(&[&example("first-answer")]).status, Some(1));
    repository.has("crates/walk/src/lib.rt", "// worse");
    repository.has("broken", "");
    for _ in 0..2 {
        let said = repository.said(&[&example("first-answer")]);
        assert_eq!((said.out.as_str(), said.status), ("", Some(4)));
        assert!(said.err.contains("walk NOT PROVED"), "{said:?}");
    }
    repository.has_not("broken");
    assert_eq!(repository.said(&[&example("first-answer")]).status, Some(1));
}

/// Catches a copy of the command alone whose failure scripts take for DIFFERENT.
#[test]
fn a_command_copied_without_what_it_stands_on_gives_no_answer() {
    let repository = Repository::new("alone");
    repository.has_not("bin/program.sh");
    let said = repository.said(&[&example("recent-drop")]);
    assert_eq!((said.out.as_str(), said.status), ("", Some(4)));
    assert!(said.err.contains("program.sh"), "{said:?}");
}

/// Catches an answer that is lost, in whole or in part, with the status of one that was given.
#[test]
fn an_answer_that_cannot_be_written_is_none() {
    let repository = Repository::new("unwritten");
    let full = File::create("/dev/full").expect("there is a full device");
    let mut command = repository.command();
    let command = command.arg(example("recent-drop")).stdout(full);
    let output = command.output().expect("the command ends");
    assert_eq!(output.status.code(), Some(4), "{output:?}");
    // A reader that has gone before the question was asked.
    let mut child = repository
        .command()
        .stdin(Stdio::piped())
        .stdout(Stdio::piped())
        .stderr(Stdio::null())
        .spawn()
        .expect("the command starts");
    drop(child.stdout.take());
    let question = fs::read(example("recent-drop")).expect("the example is there");
    let mut input = child.stdin.take().expect("its input is a pipe");
    input.write_all(&question).expect("it reads its input");
    drop(input);
    assert_eq!(child.wait().expect("the command ends").code(), Some(4));
}

/// Catches a command that does not work in this repository, with the kit that is here.
#[test]
fn it_answers_here() {
    let mut command = Command::new(here("../../bin/compare"));
    let said = said(command.arg(example("first-answer")), b"");
    assert_eq!(
        (said.out.as_str(), said.status),
        (ANSWERS[1].1, Some(1)),
        "{said:?}"
    );
}
