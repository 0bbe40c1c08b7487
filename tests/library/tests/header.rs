//! The header as compilers see it: in C and in C++, and on a machine that the library is not for.

use std::io::Write;
use std::process::{Command, Stdio};

/// What gcc says of a host that includes the header, or nothing where it compiles.
fn refused(host: &str, flags: &[&str]) -> Option<String> {
    let mut gcc = Command::new("gcc")
        .args([
            "-Wall",
            "-Wextra",
            "-Werror",
            "-pedantic",
            "-fsyntax-only",
            "-I",
        ])
        .arg(concat!(env!("CARGO_MANIFEST_DIR"), "/../../include"))
        .args(flags)
        .arg("-")
        .stdin(Stdio::piped())
        .stderr(Stdio::piped())
        .spawn()
        .expect("gcc starts");
    let mut input = gcc.stdin.take().expect("its input is a pipe");
    write!(input, "#include \"pressbadger.h\"\n{host}\n").expect("it reads its input");
    drop(input);
    let output = gcc.wait_with_output().expect("gcc ends");
    let said = String::from_utf8_lossy(&output.stderr).into_owned();
    (!output.status.success()).then_some(said)
}

/// Catches a header that C++ cannot read, that a strict compiler warns of, or that cannot be included twice.
#[test]
fn the_header_is_read_in_c_and_in_cpp() {
    let host = "#include \"pressbadger.h\"\nint main(void) { return pb_is_refusal(PB_TAIL) && pb_version() == PB_VERSION; }";
    for flags in [
        ["-x", "c", "-std=c99"],
        ["-x", "c", "-std=c17"],
        ["-x", "c++", "-std=c++98"],
        ["-x", "c++", "-std=c++20"],
    ] {
        assert_eq!(refused(host, &flags), None, "{flags:?}");
    }
}

/// Catches a host that compiles for another machine, or with another layout, than the library has.
#[test]
fn the_header_refuses_what_the_library_is_not_for() {
    for (flag, why) in [
        ("-m32", "libpressbadger.a is for x86-64"),
        ("-mx32", "libpressbadger.a is for x86-64"),
        ("-D_WIN32", "libpressbadger.a is for x86-64"),
        ("-fpack-struct", "pb_record_has_24_bytes"),
    ] {
        for language in [["-x", "c", "-std=c99"], ["-x", "c++", "-std=c++11"]] {
            let flags = [&language[..], &[flag]].concat();
            let said = refused("int main(void) { return 0; }", &flags).expect("it is refused");
            assert!(said.contains(why), "{flag}: {said}");
        }
    }
}
