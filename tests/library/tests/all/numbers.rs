//! One number in groups of seven bits, read at a place and written at a place.

use crate::draw::all_lists;
use library::{calls, cases, rounds::rounds};
use reference::answers::{CUT, DONE, NO_ROOM, PADDED, TOO_BIG};
use reference::numbers::{encode, read};
use reference::random::Random;

/// A number and how many bytes it took, or the fault and its place.
type Read = Result<(u64, usize), (u64, usize)>;

/// The library's answer, which is the reference's. A fault stands where the number begins.
fn assert_read(bytes: &[u8], at: usize) -> Read {
    let found = calls::read_number(bytes, at);
    let wanted = read(bytes, at).map_err(|fault| (fault, at));
    assert_eq!(found, wanted, "{bytes:x?} at {at}");
    found
}

/// Catches what the file says of each case.
#[test]
fn the_named_numbers_are_read_as_they_should() {
    for case in cases::load(
        "numbers.txt",
        &["bytes", "at", "answer"],
        &["value", "took"],
    ) {
        let at = case.number("at") as usize;
        let found = assert_read(&case.bytes("bytes"), at);
        let wanted = match case.answer("answer") {
            DONE => Ok((case.number("value"), case.number("took") as usize)),
            fault => Err((fault, at)),
        };
        assert_eq!(found, wanted, "{}", case.name);
    }
}

/// The numbers at each boundary of the forms: one less, the first of that length, one more.
fn boundary_numbers() -> Vec<u64> {
    let mut numbers = vec![0, 1, 300, u64::MAX - 1, u64::MAX];
    for bytes in 1..10 {
        let first = 1u64 << (7 * bytes);
        numbers.extend([first - 1, first, first + 1]);
    }
    numbers
}

/// Catches a form one byte too short or too long, and a value that is cut at any boundary.
#[test]
fn numbers_at_every_boundary_are_read_and_written() {
    for value in boundary_numbers() {
        let form = encode(value);
        for before in 0..3 {
            let bytes = [&[0xff; 3][..before], &form, &[0xff]].concat();
            let wanted = Ok((value, form.len()));
            assert_eq!(assert_read(&bytes, before), wanted);
            for cut in before..before + form.len() {
                assert_eq!(assert_read(&bytes[..cut], before), Err((CUT, before)));
            }
            for room in 0..14 {
                assert_written(room, before, value);
            }
        }
    }
}

/// The library's bytes, which are the reference's, where they fit.
fn assert_written(length: usize, at: usize, value: u64) {
    let form = encode(value);
    let fits = length
        .checked_sub(at)
        .is_some_and(|room| form.len() <= room);
    let wanted = fits.then_some(form).ok_or(NO_ROOM);
    let found = calls::write_number(length, at, value);
    assert_eq!(found, wanted, "{value} at {at} of {length}");
}

/// Catches a place near 2^64 that wraps round into the buffer.
#[test]
fn a_number_is_written_only_where_all_of_it_fits() {
    for value in boundary_numbers() {
        for length in [0, 1, 9, 10, 11, 300] {
            for at in [0, 1, 290, 299, 300, 301, usize::MAX - 9, usize::MAX] {
                assert_written(length, at, value);
            }
        }
    }
}

/// Catches 2^64 and more taken modulo 2^64, and a tenth byte that is misnamed or judged late: all are tried.
#[test]
fn every_tenth_byte_is_padded_or_right_or_too_big() {
    for tenth in 0..=255 {
        for group in [0x80, 0x81, 0xff] {
            let bytes = [&[group; 9][..], &[tenth, 0, 0]].concat();
            let fault = match tenth {
                0 => Some(PADDED),
                1 => None,
                _ => Some(TOO_BIG),
            };
            for length in 10..=12 {
                let found = assert_read(&bytes[..length], 0);
                assert_eq!(found.err(), fault.map(|fault| (fault, 0)), "{tenth:x}");
            }
        }
    }
}

/// Catches a needless group that is let pass, or called anything but PADDED, at any length.
#[test]
fn every_number_with_a_needless_group_is_padded() {
    for value in boundary_numbers() {
        let mut bytes = encode(value);
        while bytes.len() < 10 {
            *bytes.last_mut().expect("a byte") |= 0x80;
            bytes.push(0);
            assert_eq!(assert_read(&bytes, 0), Err((PADDED, 0)), "{value}");
        }
    }
}

/// Catches a count of bytes that is not that of the number's one form, or that is not 1 to 10.
#[test]
fn a_number_takes_the_bytes_of_its_form_wherever_it_stands() {
    let mut lengths = std::collections::BTreeSet::new();
    for value in boundary_numbers() {
        let form = encode(value);
        for before in [0, 1, 2, 9, 300] {
            let bytes = [&vec![0x80; before][..], &form, &[0, 0x80]].concat();
            assert_eq!(assert_read(&bytes, before), Ok((value, form.len())));
        }
        lengths.insert(form.len());
    }
    assert!(lengths.into_iter().eq(1..=10));
}

/// Catches anything wrong in forms of up to twelve bytes that have one byte repeated and then two others.
#[test]
fn every_length_with_every_last_byte() {
    for length in 0..=12 {
        for group in [0x80, 0x81, 0xfe, 0xff] {
            for last in 0..=255u8 {
                for after in [&[][..], &[0], &[1], &[0x80]] {
                    let bytes = [&vec![group; length][..], &[last], after].concat();
                    let _ = assert_read(&bytes, 0);
                }
            }
        }
    }
}

/// Catches anything wrong in the first two bytes: all of them are tried.
#[test]
fn every_two_bytes() {
    for bytes in all_lists(256, 2) {
        let bytes: Vec<u8> = bytes.into_iter().map(|byte| byte as u8).collect();
        let _ = assert_read(&bytes, 0);
        let _ = assert_read(&bytes, 1);
    }
}

/// Catches a group of a long number that is put in the wrong place.
#[test]
fn random_forms_are_read_as_the_reference_does() {
    let mut random = Random::new(106);
    let mut counts = [0; 4];
    for _ in 0..rounds(100_000) {
        let length = random.below(13) as usize;
        let mut bytes: Vec<u8> = (0..length).map(|_| random.number() as u8).collect();
        let groups = random.below(13) as usize;
        for byte in bytes.iter_mut().take(groups) {
            *byte |= 0x80;
        }
        if let Some(last) = bytes.get_mut(groups).filter(|_| random.chance(1, 4)) {
            *last = 0;
        }
        if let Some(tenth) = bytes.get_mut(9).filter(|_| random.chance(1, 2)) {
            *tenth = 1;
        }
        match assert_read(&bytes, 0) {
            Ok((value, took)) => {
                assert_eq!(encode(value), bytes[..took], "the shortest form only");
                counts[0] += 1;
            }
            Err((CUT, _)) => counts[1] += 1,
            Err((PADDED, _)) => counts[2] += 1,
            Err(_) => counts[3] += 1,
        }
    }
    let [right, cut, padded, too_big] = counts;
    let enough = right.min(cut).min(padded + too_big) > 5000 && padded.min(too_big) > 2000;
    assert!(enough, "{counts:?}");
}

/// Catches a bit that is lost on the way out.
#[test]
fn random_numbers_are_written_as_the_reference_does() {
    let mut random = Random::new(107);
    for _ in 0..rounds(50_000) {
        let value = random.number() >> random.below(64);
        let at = random.below(20) as usize;
        assert_written(at + random.below(16) as usize, at, value);
    }
}
