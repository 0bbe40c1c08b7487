//! The wrapper's build beside libraries that are missing, old or of another version, in a repository made here.

use std::fs;
use std::path::{Path, PathBuf};
use std::process::{Command, Output};

/// The wrapper, two crates that its library is made of, one that it is not, and a program that calls it.
struct Repository {
    root: PathBuf,
}

impl Drop for Repository {
    fn drop(&mut self) {
        fs::remove_dir_all(&self.root).expect("the repository is removed");
    }
}

impl Repository {
    fn new(name: &str) -> Repository {
        // Outside of this repository, where files of Rattle that no crate has are a fault.
        let process = std::process::id();
        let root = std::env::temp_dir().join(format!("pressbadger-stale-{process}-{name}"));
        let wrapper = Path::new(env!("CARGO_MANIFEST_DIR")).join("../../bindings/rust");
        fs::create_dir_all(root.join("bindings/rust")).expect("a folder is made");
        for part in [
            "Cargo.toml",
            "Cargo.lock",
            "README.md",
            "build.rs",
            "static_library.rs",
            "src",
        ] {
            let copied = Command::new("cp")
                .arg("-r")
                .arg(wrapper.join(part))
                .arg(root.join("bindings/rust"))
                .status();
            assert!(copied.expect("cp runs").success());
        }
        let repository = Repository { root };
        repository.has(
            "crates.txt",
            "# all: of them\nwalk:\nreport: walk\npressbadger staticlib: walk # above\n",
        );
        repository.has("crates/walk/src/lib.rt", "");
        repository.has("crates/walk/proofs/run/Answers.antt", "");
        repository.has("crates/report/src/lib.rt", "");
        repository.has("crates/pressbadger/src/lib.rt", "");
        repository.has(
            "host/Cargo.toml",
            "[package]\nname = \"host\"\nversion = \"0.1.0\"\nedition = \"2021\"\n\
             [dependencies]\npressbadger = { path = \"../bindings/rust\" }\n[workspace]\n",
        );
        repository.has(
            "host/src/main.rs",
            "fn main() {\n    let pattern = pressbadger::Pattern { states: 1, letters: 1, finals: 1, rows: &[0] };\n    \
             println!(\"{:?}\", pressbadger::judge(&pattern, 1, &[]));\n}\n",
        );
        repository
    }

    fn has(&self, path: &str, content: &str) {
        let path = self.root.join(path);
        fs::create_dir_all(path.parent().expect("it has a folder")).expect("a folder is made");
        fs::write(path, content).expect("a file is written");
    }

    /// A library as C has it, of a version, that accepts everything.
    fn has_library(&self, folder: &str, version: u32) {
        let calls = [
            "compare",
            "compare_default",
            "compare_lists",
            "check",
            "check_records",
            "read_pattern",
            "write_pattern",
        ];
        let mut code = format!("unsigned pb_version(void) {{ return {version}; }}\n");
        code += "unsigned char pb_judge(void) { return 3; }\n";
        for call in calls {
            code += &format!("void pb_{call}(void) {{}}\n");
        }
        self.has(&format!("{folder}/exports.c"), &code);
        let made = Command::new("sh")
            .args(["-ec", "gcc -c -o exports.o exports.c; rm -f libpressbadger.a; ar rc libpressbadger.a exports.o"])
            .current_dir(self.root.join(folder))
            .status();
        assert!(made.expect("gcc and ar run").success());
    }

    /// Runs the program that calls the wrapper; what it has to be built of is built first.
    fn run(&self, elsewhere: Option<&str>) -> Output {
        let mut cargo = Command::new(env!("CARGO"));
        cargo
            .args(["run", "--quiet", "--offline"])
            .current_dir(self.root.join("host"))
            .env("CARGO_TARGET_DIR", self.root.join("cargo"))
            .env_remove("PRESSBADGER_LIB_DIR");
        if let Some(folder) = elsewhere {
            cargo.env("PRESSBADGER_LIB_DIR", self.root.join(folder));
        }
        cargo.output().expect("cargo runs")
    }

    fn answers(&self, elsewhere: Option<&str>) {
        let output = self.run(elsewhere);
        let written = String::from_utf8_lossy(&output.stdout);
        assert_eq!(written, "Ok(Accept)\n", "{output:?}");
    }

    fn stops(&self, elsewhere: Option<&str>, why: &str) {
        let output = self.run(elsewhere);
        assert!(
            !output.status.success() && output.stdout.is_empty(),
            "{output:?}"
        );
        let said = String::from_utf8_lossy(&output.stderr);
        assert!(said.contains(why), "{said}");
    }
}

/// Catches a library of yesterday's sources that is linked as if it were of today's.
#[test]
fn a_library_older_than_what_it_is_made_of_is_not_linked() {
    let repository = Repository::new("older");
    let built = "target/staticlib";
    repository.stops(
        None,
        "libpressbadger.a is not there: run `bin/build pressbadger`",
    );
    repository.has_library(built, 2);
    repository.answers(None);
    repository.has("crates/report/src/lib.rt", "// not of the library");
    repository.answers(None);
    repository.has("crates/walk/src/lib.rt", "// changed");
    repository.stops(None, "crates/walk/src/lib.rt: run `bin/build pressbadger`");
    repository.has_library(built, 2);
    repository.answers(None);
    fs::remove_file(repository.root.join("crates/walk/proofs/run/Answers.antt"))
        .expect("it was there");
    repository.stops(None, "crates/walk/proofs/run: run `bin/build pressbadger`");
    repository.has_library(built, 2);
    repository.answers(None);
    repository.has("crates.txt", "walk:\npressbadger staticlib: walk\n");
    repository.stops(None, "crates.txt: run `bin/build pressbadger`");
}

/// Catches a library of another interface whose answers are read as if they were this one's.
#[test]
fn a_library_of_another_version_is_not_asked() {
    let repository = Repository::new("version");
    repository.has_library("elsewhere", 2);
    repository.answers(Some("elsewhere"));
    repository.has_library("elsewhere", 1);
    repository.stops(
        Some("elsewhere"),
        "libpressbadger.a has version 1 of the interface",
    );
    repository.stops(Some("nowhere"), "libpressbadger.a is not there");
}
