//! Pattern files: round trips over random patterns, and damaged files.

use reference::answers::*;
use reference::damage::{damaged, Damage, DAMAGES};
use reference::file::{read, write, Reading, LONGEST_FILE};
use reference::questions::{question, Question};
use reference::random::Random;
use std::collections::HashMap;

const ROWS: u64 = 2048;

fn file_of(question: &Question) -> Vec<u8> {
    let Question { pattern, x, y } = question;
    let written = write(pattern, *x, *y, LONGEST_FILE as u64);
    assert_eq!(written.answer, DONE);
    written.bytes
}

fn random_question(random: &mut Random) -> Question {
    let states = *random.pick(&[1, 2, 7, 8, 20, 63, 64]).expect("not empty");
    let letters = *random.pick(&[1, 2, 5, 32]).expect("not empty");
    question(random, states, letters)
}

/// Catches a number lost, put in another order, or cut short on the way.
#[test]
fn what_is_written_is_read_back() {
    let mut random = Random::new(21);
    for _ in 0..500 {
        let question = random_question(&mut random);
        let reading = read(&file_of(&question), ROWS);
        let Question { pattern, x, y } = question;
        let (answer, place) = (DONE, 0);
        let wanted = Reading {
            answer,
            place,
            pattern,
            x,
            y,
        };
        assert_eq!(reading, wanted);
    }
}

/// Catches a second form of the same file that is read as well: what is read
/// must be written again as the same bytes.
fn assert_only_form(bytes: &[u8], reading: &Reading) {
    let again = write(&reading.pattern, reading.x, reading.y, bytes.len() as u64);
    assert_eq!((again.answer, &again.bytes[..]), (DONE, bytes));
}

/// Catches a place that is not the first fault's: the bytes before it must be
/// good by themselves.
fn assert_first_fault(bytes: &[u8], reading: &Reading) {
    let place = reading.place as usize;
    assert!(place <= bytes.len());
    let before = read(&bytes[..place], ROWS);
    let wanted = if reading.answer == TAIL {
        (DONE, 0)
    } else {
        (CUT, reading.place)
    };
    assert_eq!((before.answer, before.place), wanted, "{bytes:?}");
}

/// Catches a damage that is read as if nothing were wrong, or misplaced.
#[test]
fn a_damaged_file_is_refused_at_its_first_fault_or_is_another_file() {
    let mut random = Random::new(22);
    let mut seen: HashMap<u64, u64> = HashMap::new();
    for damage in DAMAGES.repeat(500) {
        let question = random_question(&mut random);
        let bytes = damaged(&mut random, &question, damage);
        let reading = read(&bytes, ROWS);
        match reading.answer {
            DONE => assert_only_form(&bytes, &reading),
            _ => assert_first_fault(&bytes, &reading),
        }
        *seen.entry(reading.answer).or_default() += 1;
    }
    for answer in [DONE, BAD_SIZE, BAD_SET, CUT, PADDED, TAIL, TOO_BIG] {
        assert!(
            seen.get(&answer).is_some_and(|&count| count > 20),
            "{seen:?}"
        );
    }
}

/// Catches a kind of damage that does not do what its name says.
#[test]
fn each_kind_of_damage_has_its_refusal() {
    let table = [
        (Damage::Cut, CUT),
        (Damage::Padded, PADDED),
        (Damage::Longer, TOO_BIG),
        (Damage::Tail, TAIL),
    ];
    let mut random = Random::new(23);
    for (damage, answer) in table.repeat(300) {
        let question = random_question(&mut random);
        let bytes = damaged(&mut random, &question, damage);
        assert_eq!(read(&bytes, ROWS).answer, answer, "{damage:?} {bytes:?}");
    }
}

/// Catches a row buffer judged by anything but n*k.
#[test]
fn a_row_buffer_one_too_short_is_no_room() {
    let mut random = Random::new(24);
    for _ in 0..200 {
        let question = random_question(&mut random);
        let bytes = file_of(&question);
        let rows = question.pattern.rows.len() as u64;
        assert_eq!(read(&bytes, rows).answer, DONE);
        let refused = read(&bytes, rows - 1);
        assert_eq!((refused.answer, refused.place), (NO_ROOM, 2));
    }
}

/// Catches an end of data inside the file that is not CUT: every shorter part is.
#[test]
fn every_shorter_part_of_a_file_is_cut() {
    let mut random = Random::new(25);
    for _ in 0..40 {
        let question = question(&mut random, 30, 2);
        let bytes = file_of(&question);
        for length in 0..bytes.len() {
            assert_eq!(read(&bytes[..length], ROWS).answer, CUT, "{length}");
        }
    }
}
