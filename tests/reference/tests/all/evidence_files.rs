//! Evidence files: the readings of the request, round trips, damaged files, and what `check` prints.

use reference::answers::*;
use reference::damage::{damaged_evidence, DAMAGES};
use reference::evidence_file::{
    read, values, write, EvidenceReading, Rooms, LONGEST_EVIDENCE, MOST_ROOMS,
};
use reference::numbers::encode;
use reference::pattern::Pattern;
use reference::questions::{question, renamed_copy, Question};
use reference::random::Random;
use reference::verdict::verdict;
use reference::walk::{compare_default, DEFAULT_ROOM};
use std::collections::HashMap;

fn one_state() -> Question {
    let pattern = Pattern {
        states: 1,
        letters: 1,
        finals: 1,
        rows: vec![1],
    };
    Question {
        pattern,
        x: 1,
        y: 1,
    }
}

fn file(question: &Question, lefts: &[u64], rights: &[u64]) -> Vec<u8> {
    let written = write(question, lefts, rights, LONGEST_EVIDENCE as u64);
    assert_eq!(written.answer, DONE);
    written.bytes
}

fn pairs(random: &mut Random, question: &Question, count: u64) -> (Vec<u64>, Vec<u64>) {
    let all = reference::pattern::all_states(question.pattern.states);
    let mut side = || (0..count).map(|_| random.number() & all).collect();
    (side(), side())
}

/// The evidence that a comparison left, if it answered SAME.
fn kept(question: &Question) -> Option<(Vec<u64>, Vec<u64>)> {
    let Question { pattern, x, y } = question;
    let found = compare_default(pattern, *x, *y, &[DEFAULT_ROOM], DEFAULT_ROOM);
    let sides =
        |side: fn(&reference::walk::Record) -> u64| found.records.iter().map(side).collect();
    (found.answer == SAME).then(|| (sides(|record| record.left), sides(|record| record.right)))
}

/// The file by hand: a pattern file, the count, then left and right of each pair.
#[test]
fn a_file_is_the_pattern_file_continued() {
    let bytes = file(&one_state(), &[1, 0], &[0, 1]);
    assert_eq!(bytes, [1, 1, 1, 1, 1, 1, 2, 1, 0, 0, 1]);
}

/// At the count: form, then 16 at its first byte, then 14 at the byte after it, before any CUT there.
#[test]
fn the_count_is_judged_in_its_order() {
    let head = [1, 1, 1, 1, 1, 1];
    let rooms = |lefts, rights| Rooms {
        rows: 1,
        lefts,
        rights,
    };
    for (count, lefts, rights, wanted) in [
        (&[][..], 0, 0, (CUT, 6)),
        (&[0x80], 0, 0, (CUT, 6)),
        (&[0x81, 0x00], 0, 0, (PADDED, 6)),
        (&[0x81, 0x08], 0, 0, (BAD_LIST, 6)),
        (&[0x80, 0x08], 1024, 1023, (NO_ROOM, 8)),
        (&[0x80, 0x08], 1023, 1024, (NO_ROOM, 8)),
        (&[0x80, 0x08], 1024, 1024, (CUT, 8)),
        (&[0x01], 1, 0, (NO_ROOM, 7)),
        (&[0x00], 0, 0, (DONE, 0)),
        (&[0x00, 0x00], 0, 0, (TAIL, 7)),
    ] {
        let bytes = [&head[..], count].concat();
        let found = read(&bytes, rooms(lefts, rights));
        assert_eq!((found.answer, found.place), wanted, "{count:x?}");
    }
}

/// Catches a side lost or turned round, and a second form of the same file.
#[test]
fn what_is_written_is_read_back() {
    let mut random = Random::new(61);
    for _ in 0..300 {
        let (states, letters) = (random.between(1, 64), random.between(1, 32));
        let question = question(&mut random, states, letters);
        let count = random.below(40);
        let (lefts, rights) = pairs(&mut random, &question, count);
        let bytes = file(&question, &lefts, &rights);
        let Question { pattern, x, y } = question;
        let wanted = EvidenceReading {
            answer: DONE,
            place: 0,
            pattern,
            x,
            y,
            lefts,
            rights,
        };
        assert_eq!(read(&bytes, MOST_ROOMS), wanted);
        for length in 0..bytes.len() {
            assert_eq!(read(&bytes[..length], MOST_ROOMS).answer, CUT);
        }
    }
}

/// Catches a damage that is read as if nothing were wrong, or misplaced.
#[test]
fn a_damaged_file_is_refused_or_is_another_file() {
    let mut random = Random::new(62);
    let mut seen: HashMap<u64, u64> = HashMap::new();
    for damage in DAMAGES.repeat(600) {
        let (states, letters) = (random.between(1, 20), random.between(1, 3));
        let question = question(&mut random, states, letters);
        let count = random.below(6);
        let (lefts, rights) = pairs(&mut random, &question, count);
        let bytes = damaged_evidence(&mut random, &question, &lefts, &rights, damage);
        let found = read(&bytes, MOST_ROOMS);
        if found.answer == DONE {
            let EvidenceReading { pattern, x, y, .. } = found;
            let again = write(
                &Question { pattern, x, y },
                &found.lefts,
                &found.rights,
                1 << 20,
            );
            assert_eq!(again.bytes, bytes);
        } else {
            assert!(found.place <= bytes.len() as u64);
        }
        *seen.entry(found.answer).or_default() += 1;
    }
    for answer in [
        DONE, BAD_SIZE, BAD_LIST, BAD_SET, CUT, PADDED, TAIL, TOO_BIG,
    ] {
        assert!(
            seen.get(&answer).is_some_and(|&count| count > 20),
            "{seen:?}"
        );
    }
}

/// The longest file has 40,994 bytes.
#[test]
fn the_longest_file() {
    let question = Question {
        pattern: Pattern {
            states: 64,
            letters: 32,
            finals: u64::MAX,
            rows: vec![u64::MAX; 2048],
        },
        x: u64::MAX,
        y: u64::MAX,
    };
    let side = vec![u64::MAX; 1024];
    assert_eq!(file(&question, &side, &side).len(), LONGEST_EVIDENCE);
    let refused = write(&question, &side, &side, LONGEST_EVIDENCE as u64 - 1);
    assert_eq!((refused.answer, refused.bytes.len()), (NO_ROOM, 0));
}

/// What SAME left is PROVED; with one pair changed it is not, or is refused; a set of itself is
/// PROVED with no pairs.
#[test]
fn what_same_left_is_proved_until_a_pair_is_changed() {
    let mut random = Random::new(63);
    let mut proved = 0;
    for _ in 0..200 {
        let states = random.between(1, 6);
        let half = question(&mut random, states, 2);
        let question = renamed_copy(&mut random, &half.pattern, half.x);
        let Some((lefts, rights)) = kept(&question) else {
            continue;
        };
        assert_eq!(verdict(&file(&question, &lefts, &rights)), b"PROVED\n");
        proved += 1;
        let itself = Question {
            y: question.x,
            ..question.clone()
        };
        assert_eq!(verdict(&file(&itself, &[], &[])), b"PROVED\n");
        if let Some(last) = rights.last() {
            let mut numbers = values(&question, &lefts, &rights);
            *numbers.last_mut().expect("some") = last ^ (1 << 63);
            let bytes: Vec<u8> = numbers.into_iter().flat_map(encode).collect();
            assert!(verdict(&bytes).starts_with(b"REFUSED 12 "));
        }
    }
    assert!(proved > 50, "{proved}");
}
