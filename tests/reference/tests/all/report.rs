//! What the program prints: the example of the scope, §10.7, the lines (§10.3 to §10.5) and the event names.

use crate::cases::{a, b, blank, pattern};
use reference::events;
use reference::file::write;
use reference::pattern::Pattern;
use reference::questions::{switches, Question};
use reference::report::report;

fn printed(pattern: &Pattern, x: u64, y: u64) -> String {
    let written = write(pattern, x, y, 20_512);
    String::from_utf8(report(&written.bytes)).expect("plain text")
}

/// Catches any change of the form that the scope, §10.7, shows.
#[test]
fn the_example_prints_exactly_its_two_lines() {
    let input = [0x03, 0x01, 0x05, 0x02, 0x01, 0x04, 0x01, 0x04];
    assert_eq!(report(&input), b"DIFFERENT 1 2 1\nREAD\n");
}

/// The scope, §10.3 to §10.5: catches a missing newline, a length printed for SAME, and signed masks.
#[test]
fn every_answer_has_its_lines() {
    let wide = Pattern {
        finals: 1,
        ..blank(64, 1)
    };
    let table = [
        (printed(&a(), 2, 4), "DIFFERENT 0 1 0\n\n"),
        (printed(&a(), 3, 4), "SAME 1 2\n3 4\n"),
        (printed(&a(), 0, 0), "SAME 0 1\n"),
        (printed(&b(), 1, 8), "SAME 3 4\n1 8\n2 48\n4 40\n"),
        (
            printed(&wide, u64::MAX, 1),
            "SAME 1 2\n18446744073709551615 1\n",
        ),
    ];
    for (found, wanted) in table {
        assert_eq!(found, wanted);
    }
}

/// Catches a refusal without its place, or with the place of another fault.
#[test]
fn a_refusal_prints_its_number_and_place() {
    let table: [(&[u8], &[u8]); 5] = [
        (&[], b"REFUSED 20 0\n"),
        (&[0x80, 0x00], b"REFUSED 21 0\n"),
        (&[3, 33], b"REFUSED 10 1\n"),
        (&[3, 1, 5, 2, 1, 8], b"REFUSED 12 5\n"),
        (&[3, 1, 5, 2, 1, 4, 1, 4, 0], b"REFUSED 22 8\n"),
    ];
    for (input, wanted) in table {
        assert_eq!(report(input), wanted, "{input:?}");
    }
}

/// Catches FULL printed with a length or with records, or a program whose room is not 1024.
#[test]
fn full_has_its_line_only() {
    let Question { pattern, x, y } = switches(11);
    let examined = candidates_until_full(11, 1024);
    assert_eq!(printed(&pattern, x, y), format!("FULL 1024 {examined}\n"));
}

/// The candidates of `switches` counted by the positions alone: the one that
/// would be kept beyond the room is the last.
fn candidates_until_full(switches: u32, room: usize) -> usize {
    let mut kept = vec![0u32];
    let mut examined = 1;
    for parent in 0.. {
        for letter in 0..switches {
            examined += 1;
            let reached = kept[parent] | 1 << letter;
            if kept.contains(&reached) {
                continue;
            }
            if kept.len() == room {
                return examined;
            }
            kept.push(reached);
        }
    }
    examined
}

/// Catches a program with fewer than 1024 records of its own.
#[test]
fn as_many_records_as_the_room_are_printed() {
    let Question { pattern, x, y } = switches(10);
    let text = printed(&pattern, x, y);
    assert!(
        text.starts_with("SAME 1024 10241\n349525 1048576\n"),
        "{text}"
    );
    assert_eq!(text.lines().count(), 1025);
}

/// Catches event names joined wrongly and a sequence printed backwards.
#[test]
fn events_are_separated_by_single_spaces() {
    let chain = pattern(3, 13, 4, &{
        let mut rows = [0; 39];
        rows[12] = 2;
        rows[13 + 8] = 4;
        rows
    });
    let text = printed(&chain, 1, 0);
    assert!(text.ends_with("\nE12 TRANSFER\n"), "{text}");
    assert!(text.starts_with("DIFFERENT 2 "), "{text}");
}

/// Catches a misspelt or misplaced event name.
#[test]
fn every_letter_has_its_event_name() {
    let names: Vec<String> = (0..32).filter_map(events::name).collect();
    let wanted = "READ STABLE DROP DRYHOP CRASH WARM CAP VENT TRANSFER SAMPLE CLOCKBACK CLOCKON \
                  E12 E13 E14 E15 E16 E17 E18 E19 E20 E21 E22 E23 E24 E25 E26 E27 E28 E29 E30 E31";
    assert_eq!(names.join(" "), wanted);
    assert_eq!(events::name(32), None);
    assert_eq!(events::name(u64::MAX), None);
}
