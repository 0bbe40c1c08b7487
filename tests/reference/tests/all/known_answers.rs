//! Every row of the scope, §11, as data.

use crate::cases::{a, b, blank, c, d, pairs};
use reference::answers::*;
use reference::congruence::close;
use reference::pattern::Pattern;
use reference::walk::{compare, MAX_ROOM};
use reference::{file, judge};

struct Known {
    pattern: Pattern,
    x: u64,
    y: u64,
    room: u64,
    answer: u64,
    kept: u64,
    examined: u64,
    /// The pairs kept, where the row names them.
    pairs: Option<&'static [(u64, u64)]>,
    sequence: &'static [u8],
}

#[rustfmt::skip]
fn table() -> Vec<Known> {
    let row = |pattern, [x, y, room]: [u64; 3], answer, [kept, examined]: [u64; 2], pairs, sequence| Known {
        pattern, x, y, room, answer, kept, examined, pairs, sequence,
    };
    vec![
        row(a(), [1, 4, 1], DIFFERENT, [1, 2], Some(&[(1, 4)][..]), &[0]),
        row(a(), [1, 4, 0], FULL, [0, 1], Some(&[]), &[]),
        row(a(), [2, 4, 0], DIFFERENT, [0, 1], Some(&[]), &[]),
        row(a(), [3, 4, 1], SAME, [1, 2], Some(&[(3, 4)]), &[]),
        row(a(), [0, 0, 0], SAME, [0, 1], Some(&[]), &[]),
        row(b(), [1, 8, 3], SAME, [3, 4], Some(&[(1, 8), (2, 48), (4, 40)]), &[]),
        row(b(), [1, 8, 2], FULL, [2, 3], Some(&[(1, 8), (2, 48)]), &[]),
        row(c(), [1, 8, 3], SAME, [3, 4], Some(&[(1, 8), (3, 8), (7, 8)]), &[]),
        row(d(), [1, 0, 1], DIFFERENT, [1, 3], Some(&[(1, 0)]), &[1]),
        row(Pattern { finals: u64::MAX, ..blank(64, 1) }, [u64::MAX, 1, 1], SAME, [1, 2], None, &[]),
        row(Pattern { finals: u64::MAX, ..blank(63, 1) }, [1, 1, 1], BAD_SET, [0, 0], None, &[]),
        row(blank(63, 1), [u64::MAX, 1, 1], BAD_SET, [0, 0], None, &[]),
        row(blank(2, 32), [1, 2, 1], SAME, [1, 33], None, &[]),
        row(blank(2, 33), [1, 2, 1], BAD_SIZE, [0, 0], None, &[]),
        row(a(), [3, 4, 1024], SAME, [1, 2], None, &[]),
        row(a(), [3, 4, 1025], BAD_ROOM, [0, 0], None, &[]),
    ]
}

/// Catches each of the mistakes of the scope, §12, but the single pass: FULL before
/// DIFFERENT (A, room 0), adding one way only and rows read letter by letter (D),
/// skipping because the left set contains an earlier one (C).
#[test]
fn every_comparison_of_the_table_has_its_answer() {
    for (number, known) in table().iter().enumerate() {
        let Known { x, y, room, .. } = *known;
        let found = compare(&known.pattern, x, y, room, &[room], room);
        let numbers = (found.answer, found.kept, found.examined, found.length);
        let length = known.sequence.len() as u64;
        let wanted = (known.answer, known.kept, known.examined, length);
        assert_eq!(numbers, wanted, "row {number}");
        assert_eq!(found.sequence, known.sequence, "row {number}");
        assert_eq!(found.records.len() as u64, known.kept, "row {number}");
        if let Some(wanted) = known.pairs {
            assert_eq!(pairs(&found), wanted, "row {number}");
        }
    }
}

/// Catches a closing that goes over the pairs once, or adds one way only.
#[test]
fn the_list_of_the_table_closes_1_and_4_to_7() {
    let list = [(2, 4), (1, 2)];
    assert_eq!(close(1, &list), 7);
    assert_eq!(close(4, &list), 7);
}

/// Catches a table row that only the comparison obeys: the sizes hold for each call.
#[test]
fn the_sizes_of_the_table_hold_for_judge_and_writer_too() {
    let long = file::LONGEST_FILE as u64;
    let table = [
        (blank(64, 1), u64::MAX, REJECT, DONE),
        (blank(63, 1), u64::MAX, BAD_SET, BAD_SET),
        (blank(1, 32), 1, REJECT, DONE),
        (blank(1, 33), 1, BAD_SIZE, BAD_SIZE),
    ];
    for (pattern, set, judged, written) in table {
        assert_eq!(judge::judge(&pattern, set, &[]), judged);
        assert_eq!(file::write(&pattern, set, set, long).answer, written);
    }
}

/// Catches a reader that takes needless groups, or calls them CUT.
#[test]
fn badly_written_n_is_padded_or_cut_at_place_0() {
    for (bytes, answer) in [(&[0x80, 0x00][..], PADDED), (&[0x80][..], CUT)] {
        let reading = file::read(bytes, 2048);
        assert_eq!((reading.answer, reading.place), (answer, 0));
    }
}

/// Catches a greatest room that is not the one of the table.
#[test]
fn the_greatest_room_is_1024() {
    assert_eq!(MAX_ROOM, 1024);
}
