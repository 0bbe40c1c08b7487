//! `compare` as a process: its output, byte for byte, is what the scope, §10, says of its input.

use programs::{written_for, written_for_file, written_for_pieces};
use reference::damage::{damaged, every_last_byte, DAMAGES};
use reference::file::LONGEST_FILE;
use reference::pattern::{Pattern, MAX_LETTERS};
use reference::questions::{figure_five, long_way, question, switches, Question};
use reference::random::Random;
use reference::report::{report, INPUT_LIMIT};
use reference::rounds::rounds;
use reference::{answers, events, file};
use std::fs;
use std::path::Path;
use std::time::Duration;

fn bytes_of(question: &Question) -> Vec<u8> {
    let written = file::write(
        &question.pattern,
        question.x,
        question.y,
        LONGEST_FILE as u64,
    );
    assert_eq!(written.answer, answers::DONE);
    written.bytes
}

fn holds(input: &[u8]) {
    let written = written_for("compare", input);
    let expected = report(input);
    assert_eq!(
        String::from_utf8_lossy(&written),
        String::from_utf8_lossy(&expected),
        "for the input {input:02x?}"
    );
}

/// Catches a program that prints another line, name, number or order than the scope, §10, says.
#[test]
fn good_files_are_answered_as_the_reference_does() {
    let mut random = Random::new(0xC0DE);
    for _ in 0..rounds(1500) {
        let states = random.between(1, 64);
        let letters = random.between(1, 32);
        holds(&bytes_of(&question(&mut random, states, letters)));
    }
}

/// Catches a wrong number or place of a refusal, and one that prints more than its line.
#[test]
fn damaged_files_are_refused_as_the_reference_does() {
    let mut random = Random::new(0xBAD);
    for turn in 0..rounds(1500) {
        let states = random.between(1, 8);
        let letters = random.between(1, 4);
        let question = question(&mut random, states, letters);
        holds(&damaged(
            &mut random,
            &question,
            DAMAGES[turn % DAMAGES.len()],
        ));
    }
}

/// Catches a number badly written that is printed under another number: every length with every last byte.
#[test]
fn every_length_and_last_byte_of_a_number_is_answered_as_the_reference_does() {
    for input in every_last_byte() {
        holds(&input);
    }
}

/// Catches a list or a sequence that is cut or not printed in full where the room is used up.
#[test]
fn the_room_is_printed_to_its_end() {
    for question in [switches(10), switches(11), figure_five(20)] {
        holds(&bytes_of(&question));
    }
}

/// Catches a sequence that is cut, or a buffer that is too short for the longest one.
#[test]
fn a_sequence_of_1024_events_is_printed() {
    let input = bytes_of(&long_way(1024));
    holds(&input);
    let written = String::from_utf8(written_for("compare", &input)).expect("it is text");
    let lines: Vec<&str> = written.lines().collect();
    assert_eq!(lines.len(), 2);
    assert!(lines[0].starts_with("DIFFERENT 1024 ") && lines[0].ends_with(" 1024"));
    assert_eq!(lines[1].split(' ').count(), 1024);
    assert!(lines[1].starts_with("SAMPLE WARM E17 WARM "));
}

/// Catches an event that is printed under another's name: each letter is the whole of some answer.
#[test]
fn each_of_the_32_names_is_printed() {
    for letter in 0..MAX_LETTERS {
        let mut rows = vec![0; 2 * MAX_LETTERS as usize];
        rows[letter as usize] = 0b10;
        let input = bytes_of(&Question {
            pattern: Pattern {
                states: 2,
                letters: MAX_LETTERS,
                finals: 0b10,
                rows,
            },
            x: 0b01,
            y: 0,
        });
        let name = events::name(letter).expect("a letter below 32 has a name");
        let expected = format!("DIFFERENT 1 {} 1\n{name}\n", letter + 2);
        let written = written_for("compare", &input);
        assert_eq!(String::from_utf8_lossy(&written), expected);
    }
}

/// Catches a program that takes the end of a short read for the end of its input.
#[test]
fn input_may_come_in_small_pieces() {
    let input = bytes_of(&switches(3));
    let pieces: Vec<&[u8]> = input.chunks(1).collect();
    assert_eq!(
        written_for_pieces("compare", &pieces, Duration::from_millis(2)),
        report(&input)
    );
    let pieces: Vec<&[u8]> = input.chunks(7).collect();
    assert_eq!(
        written_for_pieces("compare", &pieces, Duration::from_millis(5)),
        report(&input)
    );
}

/// Catches a program that waits for input, or answers at all, where there is none.
#[test]
fn no_input_is_cut_at_0() {
    assert_eq!(written_for("compare", b""), b"REFUSED 20 0\n");
}

/// Catches a cap of the input that changes an answer: the longest file, one byte more, and far more.
#[test]
fn longer_input_than_the_program_takes_in_is_refused_as_it_should_be() {
    let longest = bytes_of(&Question {
        pattern: Pattern {
            states: 64,
            letters: 32,
            finals: u64::MAX,
            rows: vec![u64::MAX; 2048],
        },
        x: u64::MAX,
        y: u64::MAX,
    });
    assert_eq!(longest.len(), LONGEST_FILE);
    for more in [0, 1, 2, INPUT_LIMIT, 200_000] {
        let mut input = longest.clone();
        input.resize(LONGEST_FILE + more, 0);
        holds(&input);
    }
    holds(&vec![0x80; 1_000_000]);
}

/// Catches a program that takes in less than 20,513 bytes, or more: what it has read of a regular
/// file is where the file, which it shares, stands afterwards.
#[test]
fn at_most_20513_bytes_are_taken_in() {
    assert_eq!(INPUT_LIMIT, 20_513);
    for length in [0, 1, 8, 20_511, 20_512, 20_513, 20_514, 30_000, 200_000] {
        let (written, read) = written_for_file("compare", &vec![0x01; length]);
        assert_eq!(read, length.min(INPUT_LIMIT) as u64, "of {length} bytes");
        assert_eq!(written, report(&vec![0x01; length]));
    }
}

/// Catches an example that no longer says what its page says.
#[test]
fn the_examples_are_answered_as_their_page_says() {
    let folder = Path::new(env!("CARGO_MANIFEST_DIR")).join("../../examples");
    let page = fs::read_to_string(folder.join("README.md")).expect("the page is there");
    for name in [
        "first-answer",
        "stable-gravity",
        "recent-drop",
        "second-sample",
        "checklist",
    ] {
        let input =
            fs::read(folder.join(name).with_extension("pattern")).expect("the example is there");
        let written = String::from_utf8(written_for("compare", &input)).expect("it is text");
        assert!(
            page.contains(&format!("```\n{written}```")),
            "{name}: {written}"
        );
        holds(&input);
    }
}
