//! Every call made on lent memory, with its answer in the reference's types.
//!
//! Each function here fails if the call changed anything that it was lent and
//! that its answer does not name as written. A comparison fails as well if it
//! answers SAME, and the check does not answer PROVED to what it left, as it lies.

use crate::host::{self, Lists, PbChecked, PbCompared, RecordBytes};
use crate::lent::{Lent, Unit};
use crate::probes::{self, Probed};
use reference::answers::{DONE, PROVED, SAME};
use reference::congruence::Pair;
use reference::evidence::Check;
use reference::expressions::Expressing;
use reference::file::{Reading, Writing};
use reference::pattern::Pattern;
use reference::questions::Question;
use reference::walk::{Comparison, Record};

/// What a comparison gives with the records and the sequence bytes that it wrote. All numbers are
/// taken over as they come, on a refusal too.
fn comparison(found: PbCompared, records: Vec<Record>, sequence: &Lent<u8>) -> Comparison {
    Comparison {
        answer: u64::from(found.answer),
        kept: found.kept as u64,
        examined: found.examined as u64,
        length: found.length as u64,
        records,
        sequence: sequence.written(0..found.length).to_vec(),
    }
}

/// The fields of a record, from its bytes.
fn record([left, right, rest]: RecordBytes) -> Record {
    Record {
        left,
        right,
        parent: rest & 0xffff,
        letter: rest >> 16 & 0xff,
    }
}

/// How long the records and the sequence lent to a comparison are.
#[derive(Clone, Copy, Debug, PartialEq, Eq)]
pub struct Lengths {
    /// The records.
    pub records: usize,
    /// The sequence bytes.
    pub sequence: usize,
}

/// What a comparison in a room gives.
pub fn compare(question: &Question, room: u64, lengths: Lengths) -> Comparison {
    compared(question, lengths, |rows, records, sequence| {
        host::compare(question, rows, room as usize, records, sequence)
    })
}

/// What the one-way question gives in a room.
pub fn within(question: &Question, room: u64, lengths: Lengths) -> Comparison {
    compared(question, lengths, |rows, records, sequence| {
        host::within(question, rows, room as usize, records, sequence)
    })
}

/// What the comparison's short form gives.
pub fn compare_default(question: &Question, lengths: Lengths) -> Comparison {
    compared(question, lengths, |rows, records, sequence| {
        host::compare_default(question, rows, records, sequence)
    })
}

fn compared(
    question: &Question,
    lengths: Lengths,
    call: impl FnOnce(&[u64], &mut [RecordBytes], &mut [u8]) -> PbCompared,
) -> Comparison {
    let rows = Lent::holding(&question.pattern.rows);
    let mut records = Lent::blank(lengths.records);
    let mut sequence = Lent::blank(lengths.sequence);
    let found = call(rows.get(), records.get_mut(), sequence.get_mut());
    if u64::from(found.answer) == SAME {
        let left = &records.get()[..found.kept];
        assert_proved(question, host::check_records(question, rows.get(), left));
    }
    rows.assert_unchanged();
    let kept = records.written(0..found.kept);
    comparison(found, kept.iter().copied().map(record).collect(), &sequence)
}

/// What a comparison in a room gives, with lists for left sets, right sets, parents and letters of
/// the given lengths.
pub fn compare_lists(
    question: &Question,
    room: u64,
    lists: [usize; 4],
    sequence: usize,
) -> Comparison {
    compared_lists(question, lists, sequence, |rows, lists, sequence| {
        host::compare_lists(question, rows, room as usize, lists, sequence)
    })
}

/// What the one-way question gives in a room, with lists of the given lengths.
pub fn within_lists(
    question: &Question,
    room: u64,
    lists: [usize; 4],
    sequence: usize,
) -> Comparison {
    compared_lists(question, lists, sequence, |rows, lists, sequence| {
        host::within_lists(question, rows, room as usize, lists, sequence)
    })
}

fn compared_lists(
    question: &Question,
    lists: [usize; 4],
    sequence: usize,
    call: impl FnOnce(&[u64], Lists, &mut [u8]) -> PbCompared,
) -> Comparison {
    let rows = Lent::holding(&question.pattern.rows);
    let [lefts, rights, parents, taken] = lists;
    let (mut lefts, mut rights) = (Lent::blank(lefts), Lent::blank(rights));
    let (mut parents, mut taken) = (Lent::blank(parents), Lent::blank(taken));
    let mut sequence = Lent::blank(sequence);
    let lists = Lists {
        lefts: lefts.get_mut(),
        rights: rights.get_mut(),
        parents: parents.get_mut(),
        taken: taken.get_mut(),
    };
    let found = call(rows.get(), lists, sequence.get_mut());
    let kept = 0..found.kept;
    if u64::from(found.answer) == SAME {
        let Question { pattern, x, y } = question;
        let (lefts, rights) = (&lefts.get()[kept.clone()], &rights.get()[kept.clone()]);
        assert_proved(
            question,
            host::check(pattern, rows.get(), *x, *y, lefts, rights),
        );
    }
    rows.assert_unchanged();
    let (lefts, rights) = (lefts.written(kept.clone()), rights.written(kept.clone()));
    let (parents, taken) = (parents.written(kept.clone()), taken.written(kept.clone()));
    let record = |number: usize| Record {
        left: lefts[number],
        right: rights[number],
        parent: u64::from(parents[number]),
        letter: u64::from(taken[number]),
    };
    comparison(found, kept.map(record).collect(), &sequence)
}

/// Fails where what SAME left is not PROVED.
#[track_caller]
fn assert_proved(question: &Question, checked: PbChecked) {
    let found = (u64::from(checked.answer), checked.place);
    assert_eq!(found, (PROVED, 0), "what SAME left of {question:?}");
}

/// The answer to one sequence judged from one set.
pub fn judge(pattern: &Pattern, set: u64, sequence: &[u8]) -> u64 {
    let rows = Lent::holding(&pattern.rows);
    let sequence = Lent::holding(sequence);
    let judged = host::judge(pattern, rows.get(), set, sequence.get());
    rows.assert_unchanged();
    sequence.assert_unchanged();
    u64::from(judged.answer)
}

/// The answer to a list of pairs offered as evidence.
pub fn check(pattern: &Pattern, x: u64, y: u64, lefts: &[u64], rights: &[u64]) -> Check {
    let rows = Lent::holding(&pattern.rows);
    let (lefts, rights) = (Lent::holding(lefts), Lent::holding(rights));
    let checked = host::check(pattern, rows.get(), x, y, lefts.get(), rights.get());
    rows.assert_unchanged();
    lefts.assert_unchanged();
    rights.assert_unchanged();
    Check {
        answer: u64::from(checked.answer),
        place: checked.place as u64,
    }
}

/// The answer to the pairs of a list of records. Parents and letters are sentinels.
pub fn check_records(question: &Question, pairs: &[Pair]) -> Check {
    let rows = Lent::holding(&question.pattern.rows);
    let bytes = |(place, (left, right)): (usize, &Pair)| {
        let [_, _, rest] = RecordBytes::sentinel(place);
        [*left, *right, rest]
    };
    let records: Vec<RecordBytes> = pairs.iter().enumerate().map(bytes).collect();
    let records = Lent::holding(&records);
    let checked = host::check_records(question, rows.get(), records.get());
    rows.assert_unchanged();
    records.assert_unchanged();
    Check {
        answer: u64::from(checked.answer),
        place: checked.place as u64,
    }
}

/// What reading a pattern file gives, with a row buffer of the given length. All numbers are taken
/// over as they come, on a refusal too.
pub fn read_pattern(bytes: &[u8], row_buffer_length: usize) -> Reading {
    let bytes = Lent::holding(bytes);
    let mut rows = Lent::blank(row_buffer_length);
    let read = host::read_pattern(bytes.get(), rows.get_mut());
    bytes.assert_unchanged();
    let done = u64::from(read.answer) == DONE;
    let count = if done { read.states * read.letters } else { 0 };
    Reading {
        answer: u64::from(read.answer),
        place: read.place as u64,
        pattern: Pattern {
            states: read.states as u64,
            letters: read.letters as u64,
            finals: read.finals,
            rows: rows.written(0..count).to_vec(),
        },
        x: read.x,
        y: read.y,
    }
}

/// What writing a pattern file gives, with a byte buffer of the given length.
pub fn write_pattern(pattern: &Pattern, x: u64, y: u64, byte_buffer_length: usize) -> Writing {
    let rows = Lent::holding(&pattern.rows);
    let mut bytes = Lent::blank(byte_buffer_length);
    let written = host::write_pattern(pattern, rows.get(), x, y, bytes.get_mut());
    rows.assert_unchanged();
    Writing {
        answer: u64::from(written.answer),
        bytes: bytes.written(0..written.count).to_vec(),
    }
}

/// What two texts become, with a row buffer of the given length. All numbers are taken over as they
/// come, on a refusal too.
pub fn expressions(one: &[u8], two: &[u8], row_buffer_length: usize) -> Expressing {
    let (one, two) = (Lent::holding(one), Lent::holding(two));
    let mut rows = Lent::blank(row_buffer_length);
    let found = host::expressions(one.get(), two.get(), rows.get_mut());
    one.assert_unchanged();
    two.assert_unchanged();
    let done = u64::from(found.answer) == DONE;
    let count = if done {
        found.states * found.letters
    } else {
        0
    };
    Expressing {
        answer: u64::from(found.answer),
        place: found.place as u64,
        text: u64::from(found.text),
        pattern: Pattern {
            states: found.states as u64,
            letters: found.letters as u64,
            finals: found.finals,
            rows: rows.written(0..count).to_vec(),
        },
        x: found.x,
        y: found.y,
    }
}

/// A probe's value, or the refusal: its value is 0.
#[track_caller]
fn result(probed: Probed) -> Result<u64, u64> {
    match u64::from(probed.answer) {
        DONE => Ok(probed.value),
        refusal => {
            assert_eq!(probed.value, 0, "refusal {refusal}");
            Err(refusal)
        }
    }
}

/// The set of one state.
pub fn single(state: u64) -> Result<u64, u64> {
    result(probes::single(state as usize))
}

/// The first refusal that the pattern alone gives.
pub fn check_pattern(pattern: &Pattern) -> Result<(), u64> {
    let rows = Lent::holding(&pattern.rows);
    let (states, letters) = (pattern.states as usize, pattern.letters as usize);
    let probed = probes::pattern(states, letters, pattern.finals, rows.get());
    rows.assert_unchanged();
    let value = result(probed)?;
    assert_eq!(value, 0);
    Ok(())
}

/// The set that a letter takes a set to.
pub fn next(pattern: &Pattern, set: u64, letter: u8) -> Result<u64, u64> {
    let rows = Lent::holding(&pattern.rows);
    let (states, letters) = (pattern.states as usize, pattern.letters as usize);
    let probed = probes::next(states, letters, rows.get(), set, letter);
    rows.assert_unchanged();
    result(probed)
}

/// A set closed by the pairs of two sides.
pub fn close(lefts: &[u64], rights: &[u64], set: u64) -> Result<u64, u64> {
    let (lefts, rights) = (Lent::holding(lefts), Lent::holding(rights));
    let probed = probes::close(lefts.get(), rights.get(), set);
    lefts.assert_unchanged();
    rights.assert_unchanged();
    result(probed)
}

/// Whether two sets are congruent by the pairs of two sides.
pub fn congruent(lefts: &[u64], rights: &[u64], a: u64, b: u64) -> Result<bool, u64> {
    let (lefts, rights) = (Lent::holding(lefts), Lent::holding(rights));
    let probed = probes::congruent(lefts.get(), rights.get(), a, b);
    lefts.assert_unchanged();
    rights.assert_unchanged();
    let value = result(probed)?;
    assert!(value <= 1, "{value}");
    Ok(value == 1)
}

/// The number at a place and how many bytes it took, or the fault and its place.
pub fn read_number(bytes: &[u8], at: usize) -> Result<(u64, usize), (u64, usize)> {
    let bytes = Lent::holding(bytes);
    let probed = probes::read_number(bytes.get(), at);
    bytes.assert_unchanged();
    match u64::from(probed.answer) {
        DONE => {
            assert_eq!(probed.place, 0, "at {at}");
            Ok((probed.value, probed.took))
        }
        fault => {
            assert_eq!((probed.value, probed.took), (0, 0), "fault {fault}");
            Err((fault, probed.place))
        }
    }
}

/// The bytes of a number put at a place of a buffer of the given length, or the refusal.
pub fn write_number(length: usize, at: usize, value: u64) -> Result<Vec<u8>, u64> {
    let mut bytes = Lent::blank(length);
    let written = result(probes::write_number(bytes.get_mut(), at, value));
    match written {
        Ok(after) => Ok(bytes.written(at..after as usize).to_vec()),
        Err(refusal) => {
            bytes.assert_unchanged();
            Err(refusal)
        }
    }
}
