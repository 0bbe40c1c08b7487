//! Pattern files: read and written, whole and damaged.

use crate::draw::{all_lists, any_question, blank, small_question, EDGES};
use library::faults::{assert_refused_in_order, beyond, of_pattern, Fault};
use library::{calls, cases, rounds::rounds};
use reference::answers::*;
use reference::damage::{damaged, every_last_byte, DAMAGES};
use reference::file::{read, values, write, Reading, LONGEST_FILE};
use reference::numbers::encode;
use reference::pattern::{all_states, Pattern};
use reference::questions::{question, Question};
use reference::random::Random;

/// As many rows as any pattern has.
const ROWS: usize = 64 * 32;

/// The library's reading, which is the reference's.
fn assert_read(bytes: &[u8], rows: usize) -> Reading {
    let found = calls::read_pattern(bytes, rows);
    let wanted = read(bytes, rows as u64);
    assert_eq!(found, wanted, "{rows} rows, {bytes:x?}");
    found
}

/// The library's writing, which is the reference's; its answer.
fn assert_written(question: &Question, room: usize) -> u64 {
    let Question { pattern, x, y } = question;
    let found = calls::write_pattern(pattern, *x, *y, room);
    let wanted = write(pattern, *x, *y, room as u64);
    assert_eq!(found, wanted, "{room} bytes, {question:?}");
    found.answer
}

/// The file of a question, by the library.
fn file(question: &Question) -> Vec<u8> {
    let Question { pattern, x, y } = question;
    let written = calls::write_pattern(pattern, *x, *y, LONGEST_FILE);
    assert_eq!(written.answer, DONE, "{question:?}");
    written.bytes
}

/// The reading of a question's whole file.
fn done(question: Question) -> Reading {
    let Question { pattern, x, y } = question;
    let (answer, place) = (DONE, 0);
    Reading {
        answer,
        place,
        pattern,
        x,
        y,
    }
}

/// Catches what the file says of each case.
#[test]
fn the_named_files_are_read_as_they_should() {
    let optional = ["place", "pattern", "starts"];
    for case in cases::load("read.txt", &["bytes", "rows", "answer"], &optional) {
        let found = assert_read(&case.bytes("bytes"), case.number("rows") as usize);
        let answer = case.answer("answer");
        let wanted = match answer {
            DONE => done(case.question()),
            _ => Reading {
                answer,
                place: case.number("place"),
                ..Reading::default()
            },
        };
        assert_eq!(found, wanted, "{}", case.name);
    }
}

/// Catches what the file says of each case.
#[test]
fn the_named_patterns_are_written_as_they_should() {
    let keys = ["pattern", "starts", "room", "answer"];
    for case in cases::load("write.txt", &keys, &["bytes"]) {
        let question = case.question();
        let answer = assert_written(&question, case.number("room") as usize);
        assert_eq!(answer, case.answer("answer"), "{}", case.name);
        if answer == DONE {
            assert_eq!(file(&question), case.bytes("bytes"), "{}", case.name);
        }
    }
}

/// Small files, each with something of its own: numbers of two and of ten bytes, two letters.
fn small_questions() -> Vec<Question> {
    let mut random = Random::new(108);
    let mut questions: Vec<Question> = [(1, 1), (3, 1), (2, 2), (10, 1), (15, 1), (9, 2)]
        .map(|(states, letters)| question(&mut random, states, letters))
        .into();
    let mut wide = Question {
        pattern: blank(64, 1),
        x: u64::MAX,
        y: 1 << 63,
    };
    wide.pattern.rows[63] = 1 << 62;
    questions.push(wide);
    questions
}

/// Catches a file that is read although its end is missing, and CUT at the wrong place.
#[test]
fn every_cut_of_a_file_is_cut_at_its_last_number() {
    let mut random = Random::new(109);
    let mut questions = small_questions();
    questions.extend((0..rounds(40)).map(|_| question(&mut random, 30, 2)));
    for question in questions {
        let bytes = file(&question);
        for length in 0..bytes.len() {
            let rows = question.pattern.rows.len();
            assert_eq!(assert_read(&bytes[..length], rows).answer, CUT, "{length}");
        }
    }
}

/// Catches a byte that is not looked at, and a fault that is misplaced or misnamed.
#[test]
fn every_change_of_one_byte_is_read_as_the_reference_does() {
    for question in small_questions() {
        let bytes = file(&question);
        let rows = question.pattern.rows.len();
        for place in 0..bytes.len() {
            for change in 1..=255 {
                let mut bytes = bytes.clone();
                bytes[place] ^= change;
                for rows in [rows, ROWS] {
                    assert_second_form(&bytes, &assert_read(&bytes, rows));
                }
            }
        }
    }
}

/// Catches a byte too many or too few that goes unnoticed.
#[test]
fn every_byte_put_in_or_taken_out_is_read_as_the_reference_does() {
    for question in small_questions() {
        let bytes = file(&question);
        for place in 0..bytes.len() {
            let (before, after) = bytes.split_at(place);
            assert_read(&[before, &after[1..]].concat(), ROWS);
            for byte in [0, 1, 2, 0x7f, 0x80, 0x81, 0xff] {
                assert_read(&[before, &[byte], after].concat(), ROWS);
            }
        }
    }
}

/// Catches a second form of the same file that is read as well: what is read must
/// be written again as the same bytes.
fn assert_second_form(bytes: &[u8], reading: &Reading) {
    if reading.answer == DONE {
        let Reading { pattern, x, y, .. } = reading;
        let written = calls::write_pattern(pattern, *x, *y, bytes.len());
        assert_eq!((written.answer, &written.bytes[..]), (DONE, bytes));
    }
}

/// Catches what only shows in large files or with rare damage: 108,000 damaged files.
#[test]
fn damaged_files_are_read_as_the_reference_does() {
    let mut random = Random::new(110);
    let mut seen = [0; 24];
    for round in 0..rounds(6000) {
        let question = match round % 2 {
            0 => any_question(&mut random),
            _ => small_question(&mut random),
        };
        let rows = question.pattern.rows.len();
        for damage in DAMAGES.repeat(3) {
            let bytes = damaged(&mut random, &question, damage);
            let rows = *random
                .pick(&[rows - 1, rows, rows + 1, ROWS])
                .expect("some");
            let reading = assert_read(&bytes, rows);
            assert_second_form(&bytes, &reading);
            seen[reading.answer as usize] += 1;
        }
    }
    for answer in [DONE, BAD_SIZE, BAD_SET, NO_ROOM, CUT, PADDED, TAIL, TOO_BIG] {
        assert!(seen[answer as usize] > 1000, "{seen:?}");
    }
}

/// Catches a number lost, put in another order, or cut short on the way.
#[test]
fn what_is_written_is_read_back() {
    let mut random = Random::new(111);
    for _ in 0..rounds(3000) {
        let question = any_question(&mut random);
        let bytes = file(&question);
        assert_eq!(assert_written(&question, bytes.len()), DONE);
        assert_eq!(assert_written(&question, bytes.len() - 1), NO_ROOM);
        let reading = assert_read(&bytes, question.pattern.rows.len());
        assert_eq!(reading, done(question));
    }
}

/// Catches a row buffer judged by anything but n*k, and rows written beyond n*k.
#[test]
fn row_buffers_one_short_exact_and_longer() {
    for (states, letters) in [(1, 1), (1, 32), (64, 1), (7, 3), (64, 32)] {
        let mut random = Random::new(112);
        let bytes = file(&question(&mut random, states, letters));
        let rows = (states * letters) as usize;
        for (length, answer) in [
            (0, NO_ROOM),
            (rows - 1, NO_ROOM),
            (rows, DONE),
            (rows + 1, DONE),
            (rows + 5000, DONE),
        ] {
            assert_eq!(assert_read(&bytes, length).answer, answer, "{length}");
        }
    }
}

/// Catches a file longer than any pattern's that is read, and the longest one refused.
#[test]
fn the_longest_file_has_20512_bytes() {
    for mask in [u64::MAX, 1 << 63] {
        let pattern = Pattern {
            finals: mask,
            rows: vec![mask; ROWS],
            ..blank(64, 32)
        };
        let (x, y) = (mask, mask);
        let longest = Question { pattern, x, y };
        let mut bytes = file(&longest);
        assert_eq!(bytes.len(), 20_512);
        assert_eq!(assert_written(&longest, 20_511), NO_ROOM);
        assert_eq!(assert_written(&longest, 20_513), DONE);
        assert_eq!(assert_read(&bytes, ROWS).pattern, longest.pattern);
        assert_eq!(assert_read(&bytes, ROWS - 1).answer, NO_ROOM);
        bytes.push(0);
        let reading = assert_read(&bytes, ROWS);
        assert_eq!((reading.answer, reading.place), (TAIL, 20_512));
        bytes.truncate(20_511);
        let reading = assert_read(&bytes, ROWS);
        assert_eq!((reading.answer, reading.place), (CUT, 20_502));
    }
}

/// Catches a range that is one off for any of the numbers: each is tried at both
/// ends of its range and one beyond.
#[test]
fn every_number_is_held_to_its_range() {
    for question in small_questions() {
        let numbers = values(&question.pattern, question.x, question.y);
        let all = all_states(question.pattern.states);
        for place in 0..numbers.len() {
            let tried = match place {
                0 => vec![0, 1, 63, 64, 65, 128, 1 << 32, u64::MAX],
                1 => vec![0, 1, 31, 32, 33, 128, 1 << 32, u64::MAX],
                _ => vec![0, all, all.wrapping_add(1), all / 2 + 1, 1 << 63, u64::MAX],
            };
            for value in tried {
                let mut numbers = numbers.clone();
                numbers[place] = value;
                let bytes: Vec<u8> = numbers.into_iter().flat_map(encode).collect();
                assert_read(&bytes, ROWS);
            }
        }
    }
}

/// The file of the numbers, with one of them in another form.
fn with_form(numbers: &[u64], place: usize, form: &[u8]) -> Vec<u8> {
    let number = |(other, value): (usize, &u64)| match other == place {
        true => form.to_vec(),
        false => encode(*value),
    };
    numbers.iter().enumerate().flat_map(number).collect()
}

/// Catches a number that is let pass in a longer form: each is padded, and each is
/// replaced by ten bytes of every kind.
#[test]
fn every_number_is_held_to_its_shortest_form() {
    for question in small_questions() {
        let numbers = values(&question.pattern, question.x, question.y);
        for place in 0..numbers.len() {
            let with = |form: &[u8]| with_form(&numbers, place, form);
            let mut padded = encode(numbers[place]);
            for last in padded.len() - 1..9 {
                padded[last] |= 0x80;
                padded.push(0);
                assert_eq!(assert_read(&with(&padded), ROWS).answer, PADDED);
            }
            for tenth in 0..=255 {
                for group in [0x80, 0xff] {
                    let bytes = with(&[&[group; 9][..], &[tenth]].concat());
                    let answer = assert_read(&bytes, ROWS).answer;
                    match tenth {
                        0 => assert_eq!(answer, PADDED),
                        1 => assert!(answer != PADDED && answer != TOO_BIG),
                        _ => assert_eq!(answer, TOO_BIG),
                    }
                }
            }
        }
    }
}

/// Catches a number badly written that is misnamed: every length with every last byte.
#[test]
fn every_length_and_last_byte_of_a_number_in_a_file() {
    let mut seen = [0; 24];
    for bytes in every_last_byte() {
        seen[assert_read(&bytes, ROWS).answer as usize] += 1;
    }
    // A last 00 after one to nine bytes, or behind a byte that says that another follows; a tenth byte from 02 on.
    let (padded, too_big) = (seen[PADDED as usize], seen[TOO_BIG as usize]);
    assert_eq!((padded, too_big), (9 + 9 * 128, 254));
}

/// Catches a reader that breaks on any short data at all.
#[test]
fn every_data_of_up_to_six_bytes_gets_its_answer() {
    const BYTES: [u8; 7] = [0, 1, 2, 3, 0x7f, 0x80, 0xff];
    for length in 0..=6 {
        for list in all_lists(BYTES.len() as u64, length) {
            let bytes: Vec<u8> = list.iter().map(|number| BYTES[*number as usize]).collect();
            assert_read(&bytes, 4);
        }
    }
}

/// A call of the writer.
#[derive(Clone, Debug)]
struct Call {
    question: Question,
    room: usize,
}

/// Catches a fault that is not looked at, or that is looked at too early or too
/// late: 10, 11, 12, 14 is the order.
#[test]
fn every_fault_of_a_writing_is_refused_in_order() {
    let mut faults = of_pattern(|call: &mut Call| &mut call.question.pattern);
    faults.extend([
        Fault::new("bit n in X", BAD_SET, |call: &mut Call| {
            call.question.x |= beyond(&call.question.pattern);
        }),
        Fault::new("bit n in Y", BAD_SET, |call: &mut Call| {
            call.question.y |= beyond(&call.question.pattern);
        }),
        Fault::new("bit 63 in X", BAD_SET, |call: &mut Call| {
            call.question.x |= 1 << 63;
        }),
        Fault::new("bit 63 in Y", BAD_SET, |call: &mut Call| {
            call.question.y |= 1 << 63;
        }),
        Fault::new("one byte short", NO_ROOM, |call: &mut Call| call.room -= 1),
        Fault::new("no bytes", NO_ROOM, |call: &mut Call| call.room = 0),
    ]);
    let order = [BAD_SIZE, BAD_TABLE, BAD_SET, NO_ROOM];
    let mut random = Random::new(113);
    for (states, letters) in [(3, 1), (62, 32)] {
        let question = question(&mut random, states, letters);
        let room = file(&question).len();
        let right = Call { question, room };
        assert_refused_in_order(&right, &faults, &order, |call| {
            assert_written(&call.question, call.room)
        });
    }
}

/// Catches a product of n and k that is formed before the size is judged, and bytes
/// written before all is judged.
#[test]
fn n_and_k_may_be_any_number_of_64_bits() {
    for states in EDGES {
        for letters in EDGES {
            for rows in [0, 1, 2, 64, 2048] {
                let pattern = Pattern {
                    states,
                    letters,
                    finals: 0,
                    rows: vec![0; rows],
                };
                for x in [0, 1, u64::MAX] {
                    let pattern = pattern.clone();
                    let question = Question { pattern, x, y: 0 };
                    assert_written(&question, LONGEST_FILE);
                }
            }
        }
    }
}
