//! The wrapper: its words are the scope's, and its answers those of the calls that it makes.

use crate::draw::{any_question, small_question};
use library::calls::{self, Lengths};
use library::{cases, rounds::rounds};
use pressbadger::{Checked, Columns, Compared, Inclusion, Judged, Refusal, Refused, TextRefused};
use reference::answers::*;
use reference::congruence::Pair;
use reference::damage::every_last_byte;
use reference::evidence::Check;
use reference::expressions::Expressing;
use reference::file::{Reading, Writing};
use reference::pattern::Pattern;
use reference::phrases::{phrase, text};
use reference::questions::Question;
use reference::random::Random;
use reference::walk::{Comparison, Record};

/// A pattern as the wrapper takes it.
fn lend(pattern: &Pattern) -> pressbadger::Pattern<'_> {
    pressbadger::Pattern {
        states: pattern.states as usize,
        letters: pattern.letters as usize,
        finals: pattern.finals,
        rows: &pattern.rows,
    }
}

/// The number of an answer or of a refusal, which has a place for the file reader alone.
fn number<A>(answer: &Result<A, Refused>, given: impl Fn(&A) -> u8) -> u64 {
    u64::from(match answer {
        Ok(answer) => given(answer),
        Err(refused) => {
            assert_eq!(refused.place(), None);
            refused.number()
        }
    })
}

/// A comparison by the wrapper, in the reference's types.
fn comparison<R>(
    compared: Result<Compared<R>, Refused>,
    records: impl Fn(R) -> Vec<Record>,
) -> Comparison {
    let answer = number(&compared, Compared::number);
    let (records, examined, sequence) = match compared {
        Err(_) => (Vec::new(), 0, &[][..]),
        Ok(
            Compared::Same {
                records: r,
                examined,
            }
            | Compared::Full {
                records: r,
                examined,
            },
        ) => (records(r), examined, &[][..]),
        Ok(Compared::Different {
            records: r,
            examined,
            sequence,
        }) => (records(r), examined, sequence),
        Ok(_) => panic!("an answer that the reference does not know"),
    };
    counted(answer, examined, records, sequence)
}

/// An answer to the one-way question by the wrapper, in the reference's types.
fn one_way<R>(
    included: Result<Inclusion<R>, Refused>,
    records: impl Fn(R) -> Vec<Record>,
) -> Comparison {
    let answer = number(&included, Inclusion::number);
    let (records, examined, sequence) = match included {
        Err(_) => (Vec::new(), 0, &[][..]),
        Ok(
            Inclusion::Within {
                records: r,
                examined,
            }
            | Inclusion::Full {
                records: r,
                examined,
            },
        ) => (records(r), examined, &[][..]),
        Ok(Inclusion::NotWithin {
            records: r,
            examined,
            sequence,
        }) => (records(r), examined, sequence),
        Ok(_) => panic!("an answer that the reference does not know"),
    };
    counted(answer, examined, records, sequence)
}

fn counted(answer: u64, examined: usize, records: Vec<Record>, sequence: &[u8]) -> Comparison {
    Comparison {
        answer,
        kept: records.len() as u64,
        examined: examined as u64,
        length: sequence.len() as u64,
        records,
        sequence: sequence.to_vec(),
    }
}

fn record(left: u64, right: u64, parent: u16, letter: u8) -> Record {
    let (parent, letter) = (parent.into(), letter.into());
    Record {
        left,
        right,
        parent,
        letter,
    }
}

fn of_records(records: &[pressbadger::Record]) -> Vec<Record> {
    records
        .iter()
        .map(|r| record(r.left, r.right, r.parent, r.letter))
        .collect()
}

fn of_columns(columns: Columns) -> Vec<Record> {
    let Columns {
        lefts,
        rights,
        parents,
        taken,
    } = columns;
    (0..lefts.len())
        .map(|i| record(lefts[i], rights[i], parents[i], taken[i]))
        .collect()
}

fn assert_compare(question: &Question, room: u64, length: usize) {
    let Question { pattern, x, y } = question;
    let (pattern, room) = (lend(pattern), room as usize);
    let lengths = Lengths {
        records: length,
        sequence: length + 1,
    };
    let mut records = vec![pressbadger::Record::default(); length];
    let mut sequence = vec![0; length + 1];
    let found = pressbadger::compare(&pattern, *x, *y, room, &mut records, &mut sequence);
    if let Ok(Compared::Same { records, .. }) = &found {
        let checked = pressbadger::check_records(&pattern, *x, *y, records);
        assert!(matches!(checked, Ok(Checked::Proved)), "{question:?}");
    }
    let wanted = calls::compare(question, room as u64, lengths);
    assert_eq!(comparison(found, of_records), wanted);
    let found = pressbadger::compare_default(&pattern, *x, *y, &mut records, &mut sequence);
    let wanted = calls::compare_default(question, lengths);
    assert_eq!(comparison(found, of_records), wanted);
    assert_compare_lists(question, room, [length, length + 1, length + 2, length + 3]);
}

fn assert_compare_lists(question: &Question, room: usize, lengths: [usize; 4]) {
    let Question { pattern, x, y } = question;
    let [lefts, rights, parents, taken] = lengths;
    let lists = pressbadger::Lists {
        lefts: &mut vec![0; lefts],
        rights: &mut vec![0; rights],
        parents: &mut vec![0; parents],
        taken: &mut vec![0; taken],
    };
    let mut sequence = vec![0; lefts];
    let found = pressbadger::compare_lists(&lend(pattern), *x, *y, room, lists, &mut sequence);
    if let Ok(Compared::Same { records, .. }) = &found {
        let checked = pressbadger::check(&lend(pattern), *x, *y, records.lefts, records.rights);
        assert!(matches!(checked, Ok(Checked::Proved)), "{question:?}");
    }
    let wanted = calls::compare_lists(question, room as u64, lengths, lefts);
    assert_eq!(comparison(found, of_columns), wanted);
}

fn assert_within(question: &Question, room: u64, length: usize) {
    let Question { pattern, x, y } = question;
    let (pattern, room) = (lend(pattern), room as usize);
    let mut records = vec![pressbadger::Record::default(); length];
    let mut sequence = vec![0; length + 1];
    let found = pressbadger::within(&pattern, *x, *y, room, &mut records, &mut sequence);
    let lengths = Lengths {
        records: length,
        sequence: length + 1,
    };
    let wanted = calls::within(question, room as u64, lengths);
    assert_eq!(one_way(found, of_records), wanted);
    let lists = pressbadger::Lists {
        lefts: &mut vec![0; length],
        rights: &mut vec![0; length + 1],
        parents: &mut vec![0; length + 2],
        taken: &mut vec![0; length + 3],
    };
    let found = pressbadger::within_lists(&pattern, *x, *y, room, lists, &mut sequence);
    let lengths = [length, length + 1, length + 2, length + 3];
    let wanted = calls::within_lists(question, room as u64, lengths, length + 1);
    assert_eq!(one_way(found, of_columns), wanted);
}

fn assert_judge(pattern: &Pattern, set: u64, sequence: &[u8]) {
    let found = pressbadger::judge(&lend(pattern), set, sequence);
    let found = number(&found, |judged| judged.number());
    assert_eq!(found, calls::judge(pattern, set, sequence));
}

/// A check by the wrapper, in the reference's types.
fn checked(checked: Result<Checked, Refused>) -> Check {
    let place = match checked {
        Ok(Checked::NotProved { place }) => place as u64,
        _ => 0,
    };
    let answer = number(&checked, |checked| checked.number());
    Check { answer, place }
}

fn assert_check(question: &Question, lefts: &[u64], rights: &[u64]) {
    let Question { pattern, x, y } = question;
    let found = pressbadger::check(&lend(pattern), *x, *y, lefts, rights);
    let wanted = calls::check(pattern, *x, *y, lefts, rights);
    assert_eq!(checked(found), wanted);
}

fn assert_check_records(question: &Question, pairs: &[Pair]) {
    let Question { pattern, x, y } = question;
    let record = |(left, right): &Pair| pressbadger::Record {
        left: *left,
        right: *right,
        parent: 7,
        letter: 9,
    };
    let records: Vec<pressbadger::Record> = pairs.iter().map(record).collect();
    let found = pressbadger::check_records(&lend(pattern), *x, *y, &records);
    assert_eq!(checked(found), calls::check_records(question, pairs));
}

fn assert_read(bytes: &[u8], row_buffer_length: usize) {
    let mut rows = vec![0; row_buffer_length];
    let found = match pressbadger::read_pattern(bytes, &mut rows) {
        Ok(read) => Reading {
            answer: DONE,
            place: 0,
            pattern: Pattern {
                states: read.pattern.states as u64,
                letters: read.pattern.letters as u64,
                finals: read.pattern.finals,
                rows: read.pattern.rows.to_vec(),
            },
            x: read.x,
            y: read.y,
        },
        Err(refused) => Reading {
            answer: refused.number().into(),
            place: refused.place().expect("a place in the file") as u64,
            ..Reading::default()
        },
    };
    assert_eq!(found, calls::read_pattern(bytes, row_buffer_length));
}

/// The bytes that the wrapper wrote.
fn assert_write(question: &Question, byte_buffer_length: usize) -> Vec<u8> {
    let Question { pattern, x, y } = question;
    let mut bytes = vec![0; byte_buffer_length];
    let written = pressbadger::write_pattern(&lend(pattern), *x, *y, &mut bytes);
    bytes.truncate(written.unwrap_or(0));
    let answer = number(&written, |_| DONE as u8);
    let wanted = calls::write_pattern(pattern, *x, *y, byte_buffer_length);
    assert_eq!(Writing { answer, bytes }, wanted);
    wanted.bytes
}

fn assert_expressions(one: &[u8], two: &[u8], row_buffer_length: usize) {
    let mut rows = vec![0; row_buffer_length];
    let found = match pressbadger::expressions(one, two, &mut rows) {
        Ok(made) => Expressing {
            answer: DONE,
            place: 0,
            text: 0,
            pattern: Pattern {
                states: made.pattern.states as u64,
                letters: made.pattern.letters as u64,
                finals: made.pattern.finals,
                rows: made.pattern.rows.to_vec(),
            },
            x: made.x,
            y: made.y,
        },
        Err(refused) => Expressing {
            answer: refused.number().into(),
            place: refused.place().unwrap_or(0) as u64,
            text: refused.text().unwrap_or(0).into(),
            ..Expressing::default()
        },
    };
    assert_eq!(found, calls::expressions(one, two, row_buffer_length));
}

/// Catches an argument that is passed in another's place, and a number that becomes another answer.
#[test]
fn the_wrapper_answers_the_named_questions_as_the_exports_do() {
    let keys = [
        "pattern", "starts", "room", "answer", "kept", "examined", "sequence",
    ];
    for case in cases::load("compare.txt", &keys, &["records"]) {
        let room = case.number("room");
        for length in [0, room as usize, 1030] {
            assert_compare(&case.question(), room, length);
        }
    }
    for case in cases::load("within.txt", &keys, &["records"]) {
        let room = case.number("room");
        for length in [0, room as usize, 1030] {
            assert_within(&case.question(), room, length);
        }
    }
    for case in cases::load("judge.txt", &["pattern", "set", "sequence", "answer"], &[]) {
        let sequence = case.letters("sequence");
        assert_judge(&case.pattern("pattern"), case.number("set"), &sequence);
    }
    let keys = ["pattern", "starts", "pairs", "answer", "place"];
    for case in cases::load("check.txt", &keys, &[]) {
        let (lefts, rights): (Vec<u64>, Vec<u64>) = case.pairs("pairs").into_iter().unzip();
        assert_check(&case.question(), &lefts, &rights);
        assert_check(&case.question(), &lefts, &[]);
        assert_check_records(&case.question(), &case.pairs("pairs"));
    }
    let optional = ["place", "pattern", "starts"];
    for case in cases::load("read.txt", &["bytes", "rows", "answer"], &optional) {
        assert_read(&case.bytes("bytes"), case.number("rows") as usize);
    }
    let keys = ["pattern", "starts", "room", "answer"];
    for case in cases::load("write.txt", &keys, &["bytes"]) {
        assert_write(&case.question(), case.number("room") as usize);
    }
    let optional = ["states", "finals", "starts", "rows", "place", "text"];
    for case in cases::load("expressions.txt", &["one", "two", "answer"], &optional) {
        for rows in [0, 100, 2048] {
            assert_expressions(case.text("one"), case.text("two"), rows);
        }
    }
}

/// Catches what no named question shows.
#[test]
fn the_wrapper_answers_random_questions_as_the_exports_do() {
    let mut random = Random::new(128);
    for round in 0..rounds(2000) {
        let question = match round % 4 {
            0 => any_question(&mut random),
            _ => small_question(&mut random),
        };
        let Question { pattern, x, y } = &question;
        let length = random.below(6);
        let mut letter = || random.below(pattern.letters + 1) as u8;
        let sequence: Vec<u8> = (0..length).map(|_| letter()).collect();
        assert_judge(pattern, *x, &sequence);
        assert_check(&question, &[*x, *y], &[*y, *y]);
        assert_check_records(&question, &[(*x, *y), (*y, *y)]);
        assert_compare(&question, random.below(20), random.below(40) as usize);
        assert_within(&question, random.below(20), random.below(40) as usize);
        let bytes = assert_write(&question, random.between(5, 30_000) as usize);
        assert_read(&bytes, random.between(1, 2048) as usize);
        let [one, mut two] = [(); 2].map(|()| {
            let names = random.between(1, 9);
            let tree = phrase(&mut random, names, &[0, 6, 31]);
            text(&mut random, &tree)
        });
        assert_expressions(&one, &two, random.between(0, 700) as usize);
        two.truncate(random.below(two.len() as u64) as usize);
        assert_expressions(&one, &two, 2048);
    }
}

/// Catches a refusal left out of the wrapper, or one with another number or name.
#[test]
fn every_refusal_has_the_scopes_number_and_name() {
    let all = Refusal::ALL.iter();
    let found = all.map(|refusal| (u64::from(refusal.number()), refusal.name()));
    let refusals = NAMES.iter().filter(|(number, _)| is_refusal(*number));
    let wanted: Vec<(u64, &str)> = refusals.copied().collect();
    assert_eq!(found.collect::<Vec<_>>(), wanted);
}

/// What the rows of a file come to, for a host that hands every refusal on.
fn rows_of(bytes: &[u8], rows: &mut [u64]) -> Result<usize, Box<dyn std::error::Error>> {
    let read = pressbadger::read_pattern(bytes, rows)?;
    pressbadger::judge(&read.pattern, read.x, &[0, 31])?;
    Ok(read.pattern.rows.len())
}

/// Catches a refusal that cannot be handed on with `?`, that loses its number, name or place on the
/// way, or that says to people neither what is wrong nor where.
#[test]
fn a_refusal_is_an_error_that_says_what_is_wrong_and_where() {
    let mut rows = [0; 32];
    let error = rows_of(&[3, 1, 5, 2, 1, 4, 1], &mut rows).expect_err("it is cut");
    let refused: Refused = *error.downcast().expect("it is the wrapper's own");
    assert_eq!(refused.refusal(), Refusal::Cut);
    let parts = (refused.number(), refused.name(), refused.place());
    assert_eq!(parts, (20, "CUT", Some(7)));
    let words = "CUT (20): the file ends before or within a number, at byte 7";
    assert_eq!(refused.to_string(), words);
    let error = rows_of(&[3, 1, 5, 2, 1, 4, 1, 4], &mut rows).expect_err("letter 31 of 1");
    let words = "BAD-LETTER (15): the sequence has a letter that the pattern does not have";
    assert_eq!(error.to_string(), words);
    let mut said: Vec<String> = Refusal::ALL.iter().map(Refusal::to_string).collect();
    said.sort();
    said.dedup_by_key(|words| words.split_once(": ").map(|(_, words)| words.to_owned()));
    assert_eq!(said.len(), Refusal::ALL.len());
}

/// The refusal of two texts.
fn text_refused<'texts>(one: &'texts [u8], two: &'texts [u8], rows: usize) -> TextRefused<'texts> {
    let mut rows = vec![0; rows];
    let expressed = pressbadger::expressions(one, two, &mut rows);
    expressed.expect_err("it is refused")
}

/// Catches a caret that stands under another byte than the wrong one, the other text, and a picture
/// that is spoiled by bytes that are no characters.
#[test]
fn a_refused_text_is_shown_with_a_caret_under_the_wrong_byte() {
    let syntax = "SYNTAX (30): no right text goes on so, at byte";
    let table: [(&[u8], &[u8], String); 8] = [
        (
            b"READ (STABLE | CLOCKBAK READ)* CAP",
            b"READ",
            format!("{syntax} 15 of text 1\n  READ (STABLE | CLOCKBAK READ)* CAP\n                 ^"),
        ),
        (
            b"CAP",
            b"READ (| CAP)",
            format!("{syntax} 6 of text 2\n  READ (| CAP)\n        ^"),
        ),
        (b"", b"", format!("{syntax} 0 of text 1\n  \n  ^")),
        (
            b"READ (",
            b"",
            format!("{syntax} 6 of text 1\n  READ (\n        ^"),
        ),
        (
            b"READ\t\xc3\xa9",
            b"",
            format!("{syntax} 4 of text 1\n  READ\u{fffd}\u{fffd}\u{fffd}\n      ^"),
        ),
        (
            &b"((((".repeat(9),
            b"",
            format!(
                "TOO-DEEP (32): more than 32 parentheses are open, at byte 32 of text 1\n  {}\n  {}^",
                "(".repeat(36),
                " ".repeat(32)
            ),
        ),
        (
            &b"CAP ".repeat(64),
            b"",
            format!(
                "TOO-MANY (31): no state is left, of the 64 for both texts, at byte 252 of text 1\n  ..{}\n  {}^",
                "CAP ".repeat(11),
                " ".repeat(42)
            ),
        ),
        (
            &[b"x", &b"CAP ".repeat(64)[..]].concat(),
            b"",
            format!("{syntax} 0 of text 1\n  x{}C..\n  ^", "CAP ".repeat(7)),
        ),
    ];
    for (one, two, wanted) in table {
        assert_eq!(text_refused(one, two, 2048).to_string(), wanted);
    }
    let words = "NO-ROOM (14): the buffer is too short for what is to be written into it";
    let refused = text_refused(b"READ", b"CAP", 127);
    assert_eq!(refused.to_string(), words);
    let parts = (refused.refusal(), refused.text(), refused.place());
    assert_eq!(parts, (Refusal::NoRoom, None, None));
}

/// Catches a refusal that loses its number, name or place where the texts cannot be handed on with it.
#[test]
fn a_refused_text_is_handed_on_without_the_text() {
    fn handed_on(one: &[u8]) -> Result<usize, Box<dyn std::error::Error>> {
        let mut rows = [0; 2048];
        let made = pressbadger::expressions(one, b"1", &mut rows).map_err(Refused::from)?;
        Ok(made.pattern.states)
    }
    assert_eq!(handed_on(b"READ CAP").expect("it is right"), 4);
    let error = handed_on(b"READ CAPS").expect_err("there is no such name");
    let words = "SYNTAX (30): no right text goes on so, at byte 5";
    assert_eq!(error.to_string(), words);
    let refused: Refused = *error.downcast().expect("it is the wrapper's own");
    let parts = (refused.number(), refused.name(), refused.place());
    assert_eq!(parts, (30, "SYNTAX", Some(5)));
}

/// Catches a number badly written that a person is not told apart, or not told what to do about: every length with every
/// last byte, and so every tenth byte.
#[test]
fn a_person_is_told_how_a_number_is_badly_written() {
    let mut told = std::collections::BTreeMap::new();
    for bytes in every_last_byte() {
        let mut rows = [7; 1];
        let wanted = reference::file::read(&bytes, 1);
        match pressbadger::read_pattern(&bytes, &mut rows) {
            Ok(read) => {
                assert_eq!(wanted.answer, DONE, "{bytes:x?}");
                assert_eq!(read.pattern.finals, wanted.pattern.finals, "{bytes:x?}");
            }
            Err(refused) => {
                let found = (u64::from(refused.number()), refused.place());
                let place = wanted.place as usize;
                assert_eq!(found, (wanted.answer, Some(place)), "{bytes:x?}");
                assert_eq!(rows, [7]);
                told.insert(refused.number(), refused.to_string());
            }
        }
    }
    let padded = "PADDED (21): a number of the file is written with needless zero groups: the exporter pads, at byte 2";
    assert_eq!(told.get(&21).map(String::as_str), Some(padded));
    let too_big =
        "TOO-BIG (23): a number of the file is 2^64 or more: no mask has so many bits, at byte 2";
    assert_eq!(told.get(&23).map(String::as_str), Some(too_big));
}

/// Catches an answer with another number than the scope's.
#[test]
fn every_answer_has_the_scopes_number() {
    let (records, examined, sequence) = (&[][..], 3, &[][..]);
    let same: Compared = Compared::Same { records, examined };
    let full: Compared = Compared::Full { records, examined };
    let different: Compared = Compared::Different {
        records,
        examined,
        sequence,
    };
    let within: Inclusion = Inclusion::Within { records, examined };
    let neither: Inclusion = Inclusion::Full { records, examined };
    let not_within: Inclusion = Inclusion::NotWithin {
        records,
        examined,
        sequence,
    };
    let answers = [
        (within.number(), WITHIN),
        (not_within.number(), NOT_WITHIN),
        (neither.number(), FULL),
        (same.number(), SAME),
        (different.number(), DIFFERENT),
        (full.number(), FULL),
        (Judged::Accept.number(), ACCEPT),
        (Judged::Reject.number(), REJECT),
        (Checked::Proved.number(), PROVED),
        (Checked::NotProved { place: 3 }.number(), NOT_PROVED),
    ];
    for (found, wanted) in answers {
        assert_eq!(u64::from(found), wanted);
    }
}

/// Catches a limit that is not the scope's.
#[test]
fn the_limits_are_the_scopes() {
    assert_eq!(
        pressbadger::MAX_STATES as u64,
        reference::pattern::MAX_STATES
    );
    assert_eq!(
        pressbadger::MAX_LETTERS as u64,
        reference::pattern::MAX_LETTERS
    );
    assert_eq!(pressbadger::MAX_ROOM as u64, reference::walk::MAX_ROOM);
    assert_eq!(
        pressbadger::DEFAULT_ROOM as u64,
        reference::walk::DEFAULT_ROOM
    );
    assert_eq!(pressbadger::MAX_PAIRS, reference::evidence::MAX_PAIRS);
    assert_eq!(pressbadger::LONGEST_FILE, reference::file::LONGEST_FILE);
    assert_eq!(pressbadger::MAX_ROWS, 64 * 32);
    assert_eq!(pressbadger::MAX_OPEN, reference::texts::MAX_OPEN);
}

/// Catches a wrapper and a library that do not go together.
#[test]
fn the_wrapper_is_written_for_the_version_that_is_linked() {
    assert_eq!(pressbadger::version(), pressbadger::VERSION);
    assert_eq!(library::host::version(), 2);
}

/// Catches a record that is laid out in another way than the exports write it.
#[test]
fn a_record_has_24_bytes() {
    let layout = std::alloc::Layout::new::<pressbadger::Record>();
    assert_eq!((layout.size(), layout.align()), (24, 8));
}

/// Catches an empty slice that goes over as anything but no elements: its pointer
/// is no address of memory.
#[test]
fn empty_slices_are_lent_as_nothing() {
    let pattern = pressbadger::Pattern {
        states: 1,
        letters: 1,
        finals: 1,
        rows: &[],
    };
    let (judge, check) = (pressbadger::judge, pressbadger::check);
    let why = |refused: Refused| (refused.refusal(), refused.place());
    let refused = Err((Refusal::BadTable, None));
    assert_eq!(judge(&pattern, 1, &[]).map_err(why), refused);
    let rows = [0];
    let pattern = pressbadger::Pattern {
        rows: &rows,
        ..pattern
    };
    assert_eq!(judge(&pattern, 1, &[]), Ok(Judged::Accept));
    assert_eq!(judge(&pattern, 0, &[]), Ok(Judged::Reject));
    let not_proved = Ok(Checked::NotProved { place: 0 });
    for (y, wanted) in [(1, Ok(Checked::Proved)), (0, not_proved)] {
        assert_eq!(check(&pattern, 1, y, &[], &[]), wanted);
        assert_eq!(pressbadger::check_records(&pattern, 1, y, &[]), wanted);
    }
    let (records, examined) = (&[][..], 1);
    let same = Compared::Same { records, examined };
    let found = pressbadger::compare(&pattern, 1, 1, 0, &mut [], &mut []);
    assert_eq!(found, Ok(same));
    let found = pressbadger::read_pattern(&[], &mut []).map_err(why);
    assert_eq!(found, Err((Refusal::Cut, Some(0))));
    let found = pressbadger::write_pattern(&pattern, 1, 1, &mut []);
    assert_eq!(found.map_err(why), Err((Refusal::NoRoom, None)));
    let refused = text_refused(&[], &[], 0);
    let parts = (refused.refusal(), refused.text(), refused.place());
    assert_eq!(parts, (Refusal::Syntax, Some(1), Some(0)));
}
