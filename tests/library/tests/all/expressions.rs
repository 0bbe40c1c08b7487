//! Two texts made into one pattern.

use crate::draw::all_lists;
use library::{calls, cases, rounds::rounds};
use reference::answers::*;
use reference::derivatives::{disagreement, tree, Tree};
use reference::expressions::{express, Expressing};
use reference::pattern::{check, letters, next, Pattern};
use reference::phrases::{changed, phrase, text};
use reference::random::Random;
use reference::texts::read;

/// As many rows as any pattern has.
const ROWS: usize = 64 * 32;

/// Texts that are right, with every name and sign among them.
const RIGHT: [&str; 12] = [
    "READ (STABLE | CLOCKBACK READ)* CAP",
    "1",
    " 0 ",
    "READ*+?**",
    "READ + CAP ?",
    "((((1))))|0",
    "(READ)(CAP)|E31",
    "DROP(DRYHOP CRASH)+WARM",
    "( VENT )? |TRANSFER+ ",
    "SAMPLE|CLOCKBACK|CLOCKON",
    "1*0+1?|E12 E20",
    "READ (1 | STABLE READ+)* (CAP | VENT? DROP)",
];

/// What the library makes of two texts, which is what the reference makes of them.
fn assert_expressed(one: &[u8], two: &[u8], rows: usize) -> Expressing {
    let found = calls::expressions(one, two, rows);
    let wanted = express(one, two, rows as u64);
    let shown = (String::from_utf8_lossy(one), String::from_utf8_lossy(two));
    assert_eq!(found, wanted, "{rows} rows, {shown:?}");
    found
}

/// The texts in both places, beside one that is right and without a state.
fn assert_both_places(text: &[u8]) {
    assert_expressed(text, b"1", ROWS);
    assert_expressed(b"1", text, ROWS);
}

/// The number, the text and the place of an answer.
fn fault(found: &Expressing) -> (u64, u64, u64) {
    (found.answer, found.text, found.place)
}

/// The letters that occur in both.
fn letters_of(trees: &[Tree; 2]) -> Vec<u64> {
    let mut letters = [trees[0].letters(), trees[1].letters()].concat();
    letters.sort();
    letters.dedup();
    letters
}

/// Fails unless each start accepts of all sequences of up to so many of the letters exactly those that
/// its tree takes, and of other letters none is led on by.
fn assert_language(found: &Expressing, trees: &[Tree; 2], most: usize) {
    let letters_used = letters_of(trees);
    for (set, tree) in [(found.x, &trees[0]), (found.y, &trees[1])] {
        let wrong = disagreement(&found.pattern, set, tree, &letters_used, most);
        assert_eq!(wrong, None, "{tree:?}");
    }
    for letter in letters(&found.pattern).filter(|letter| !letters_used.contains(letter)) {
        assert_eq!(next(&found.pattern, u64::MAX, letter), 0);
    }
}

/// The tree of a text that is right.
fn tree_of(text: &[u8]) -> Tree {
    let steps = read(text, 1).expect("it is right");
    tree(&steps).expect("the steps make a tree")
}

/// Catches what the file says of each case.
#[test]
fn the_named_texts_become_what_they_should() {
    let optional = ["states", "finals", "starts", "rows", "place", "text"];
    for case in cases::load("expressions.txt", &["one", "two", "answer"], &optional) {
        let found = assert_expressed(case.text("one"), case.text("two"), ROWS);
        let answer = case.answer("answer");
        let wanted = match answer {
            DONE => made(&case),
            _ => Expressing {
                answer,
                place: case.number("place"),
                text: case.number("text"),
                ..Expressing::default()
            },
        };
        assert_eq!(found, wanted, "{}", case.name);
    }
}

/// The pattern of a case.
fn made(case: &cases::Case) -> Expressing {
    let states = case.number("states");
    let mut rows = vec![0; states as usize * 32];
    for row in case.numbers("rows").chunks(3) {
        rows[(row[0] * 32 + row[1]) as usize] = row[2];
    }
    let pattern = Pattern {
        states,
        letters: 32,
        finals: case.number("finals"),
        rows,
    };
    Expressing {
        answer: DONE,
        pattern,
        x: case.numbers("starts")[0],
        y: case.numbers("starts")[1],
        ..Expressing::default()
    }
}

/// Catches a name that is read as another event, or not at all.
#[test]
fn every_event_name_is_read_as_its_letter() {
    for letter in 0..32 {
        let name = reference::events::name(letter).expect("it has a name");
        let found = assert_expressed(name.as_bytes(), b"1", ROWS);
        let mut rows = vec![0; 3 * 32];
        rows[letter as usize] = 2;
        assert_eq!(found.pattern.rows, rows, "{name}");
    }
}

/// Catches a start that accepts another language than its text's: all sequences of up to five of the
/// letters that occur.
#[test]
fn each_start_accepts_what_its_text_takes() {
    for one in RIGHT {
        for two in RIGHT {
            let found = assert_expressed(one.as_bytes(), two.as_bytes(), ROWS);
            let trees = [one, two].map(|text| tree_of(text.as_bytes()));
            let most = if letters_of(&trees).len() > 5 { 3 } else { 5 };
            assert_language(&found, &trees, most);
        }
    }
}

/// Catches what shows only in larger or odder expressions, with spaces and needless parentheses: the
/// trees are those that the texts were printed from.
#[test]
fn random_expressions_become_what_they_should() {
    let mut random = Random::new(211);
    for round in 0..rounds(3000) {
        let alphabet = [random.below(32), random.below(32), random.below(32)];
        let most = if round % 10 == 0 { 31 } else { 9 };
        let trees = [(); 2].map(|()| {
            let names = random.between(1, most);
            phrase(&mut random, names, &alphabet)
        });
        let [one, two] = [0, 1].map(|which: usize| text(&mut random, &trees[which]));
        let found = assert_expressed(&one, &two, ROWS);
        assert_eq!(found.answer, DONE);
        assert_language(&found, &trees, 5);
    }
}

/// Catches a pattern that other calls refuse, or a start that is no set of it.
#[test]
fn the_pattern_is_one_that_every_call_takes() {
    for one in RIGHT {
        let two = "READ (STABLE | CLOCKBACK READ)* CAP";
        let found = assert_expressed(one.as_bytes(), two.as_bytes(), ROWS);
        let Expressing { pattern, x, y, .. } = found;
        assert_eq!(check(&pattern), Ok(()));
        assert_eq!(calls::check_pattern(&pattern), Ok(()));
        for set in [x, y] {
            let accepted = calls::judge(&pattern, set, &[0, 1, 10, 0, 1, 6]) == ACCEPT;
            assert_eq!(accepted, set == y || one == two, "{one}");
        }
        let written = calls::write_pattern(&pattern, x, y, 20_512);
        assert_eq!(calls::read_pattern(&written.bytes, ROWS).pattern, pattern);
    }
}

/// Catches a text that is taken for whole before it is, and an end that is misplaced.
#[test]
fn every_beginning_of_a_right_text_is_read_as_the_reference_does() {
    for text in RIGHT {
        for length in 0..text.len() {
            assert_both_places(&text.as_bytes()[..length]);
        }
    }
}

/// Catches a byte that is not looked at, and a fault that is misplaced or misnamed.
#[test]
fn every_byte_changed_put_in_or_taken_out_is_read_as_the_reference_does() {
    for text in RIGHT {
        for text in changed(text.as_bytes()) {
            assert_both_places(&text);
        }
    }
}

/// Catches a reader that breaks on any short text at all: all texts of up to four of eleven bytes.
#[test]
fn every_text_of_up_to_four_bytes_is_read_as_the_reference_does() {
    const BYTES: [u8; 11] = *b" *+?|()10Ex";
    for length in 0..=4 {
        for list in all_lists(BYTES.len() as u64, length) {
            let text: Vec<u8> = list.iter().map(|byte| BYTES[*byte as usize]).collect();
            assert_both_places(&text);
        }
    }
}

/// Catches the same among whole names and signs: all texts of up to five of nine.
#[test]
fn every_text_of_up_to_five_words_is_read_as_the_reference_does() {
    const WORDS: [&str; 9] = ["READ ", "E31 ", "1 ", "0 ", "*", "+", "|", "(", ")"];
    for length in 0..=5 {
        for list in all_lists(WORDS.len() as u64, length) {
            let text: String = list.iter().map(|word| WORDS[*word as usize]).collect();
            assert_both_places(text.as_bytes());
        }
    }
}

/// Catches a byte, a length or a depth that the reader cannot bear.
#[test]
fn texts_of_any_length_and_any_bytes_get_their_answer() {
    let mut random = Random::new(212);
    for _ in 0..rounds(5000) {
        let length = random.below(12);
        let any: Vec<u8> = (0..length).map(|_| random.number() as u8).collect();
        assert_both_places(&any);
        let pick = |random: &mut Random| *random.pick(b"READ CAP10E2(|)*+? ").expect("some");
        let alike: Vec<u8> = (0..length).map(|_| pick(&mut random)).collect();
        assert_both_places(&alike);
    }
    for long in [
        b"1 ".repeat(200_000),
        b"1|".repeat(200_000),
        b" ".repeat(200_000),
        b"(1)".repeat(100_000),
        b"A".repeat(200_000),
        [&b"READ"[..], &b"*?+".repeat(100_000)].concat(),
        [&b" ".repeat(100_000)[..], b"CAP"].concat(),
    ] {
        assert_both_places(&long);
        assert_both_places(&[&long[..], b"1"].concat());
    }
}

/// So many names.
fn names(count: usize) -> Vec<u8> {
    b"READ ".repeat(count)
}

/// So many parentheses, one in the other.
fn nested(count: usize) -> Vec<u8> {
    [&b"(".repeat(count)[..], b"CAP", &b")".repeat(count)].concat()
}

/// Catches a state too many or too few, for a name or for a start: each number of names in both texts.
#[test]
fn both_texts_have_64_states() {
    for first in 0..=66 {
        for second in [0, 1, 2, 30, 31, 61, 62, 63, 64] {
            let text = |count: usize| match count {
                0 => b"1".to_vec(),
                _ => names(count),
            };
            let found = assert_expressed(&text(first), &text(second), ROWS);
            let wanted = match (first, second) {
                _ if first > 63 => (TOO_MANY, 1, 63 * 5),
                _ if first > 62 => (TOO_MANY, 2, 0),
                _ if first + second > 62 => (TOO_MANY, 2, (62 - first as u64) * 5),
                _ => (DONE, 0, 0),
            };
            assert_eq!(fault(&found), wanted, "{first} {second}");
        }
    }
}

/// Catches a depth that is one off, and parentheses counted that have been closed.
#[test]
fn thirty_two_parentheses_may_be_open() {
    let table = [
        (nested(32), (DONE, 0, 0)),
        (nested(33), (TOO_DEEP, 2, 32)),
        (nested(40), (TOO_DEEP, 2, 32)),
        (b"(READ)".repeat(40), (DONE, 0, 0)),
        (nested(32).repeat(3), (DONE, 0, 0)),
        ([nested(32), nested(33)].concat(), (TOO_DEEP, 2, 67 + 32)),
        (b"(".repeat(32), (SYNTAX, 2, 32)),
        ([&b"(".repeat(32)[..], b"|("].concat(), (SYNTAX, 2, 32)),
        ([&b"(".repeat(32)[..], b"1 ("].concat(), (TOO_DEEP, 2, 34)),
    ];
    for (two, wanted) in table {
        let found = assert_expressed(b"1", &two, ROWS);
        assert_eq!(fault(&found), wanted);
        let found = assert_expressed(&two, b"|", ROWS);
        let wanted = match wanted {
            (DONE, ..) => (SYNTAX, 2, 0),
            (answer, _, place) => (answer, 1, place),
        };
        assert_eq!(fault(&found), wanted);
    }
}

/// Texts that are wrong in one way, with the refusal and the place that they deserve where so many
/// states are taken before them.
fn wrong_texts() -> Vec<(Vec<u8>, u64, u64)> {
    vec![
        (b"".to_vec(), SYNTAX, 0),
        (b"READ x".to_vec(), SYNTAX, 5),
        (b"REA".to_vec(), SYNTAX, 0),
        (b"CAP (VENT".to_vec(), SYNTAX, 9),
        (names(64), TOO_MANY, 315),
        (names(70), TOO_MANY, 315),
        (nested(33), TOO_DEEP, 32),
        (nested(50), TOO_DEEP, 32),
    ]
}

/// Catches a fault of the second text that goes before one of the first, and NO-ROOM before either.
#[test]
fn the_first_text_goes_first_and_no_room_last() {
    for rows in [0, 63, ROWS] {
        for (one, answer, place) in wrong_texts() {
            for (two, ..) in wrong_texts() {
                let found = assert_expressed(&one, &two, rows);
                assert_eq!(fault(&found), (answer, 1, place));
            }
            let found = assert_expressed(&one, b"1", rows);
            assert_eq!(fault(&found), (answer, 1, place));
        }
        for (two, answer, place) in wrong_texts() {
            let found = assert_expressed(b"1", &two, rows);
            let taken_by_the_start = if answer == TOO_MANY { 5 } else { 0 };
            assert_eq!(fault(&found), (answer, 2, place - taken_by_the_start));
        }
        let wanted = if rows < ROWS {
            (NO_ROOM, 0, 0)
        } else {
            (DONE, 0, 0)
        };
        assert_eq!(fault(&assert_expressed(b"READ", b"1", rows)), wanted);
    }
}

/// Catches a fault that goes before one at an earlier place: each kind before and after each other.
#[test]
fn in_one_text_the_first_fault_by_place_decides() {
    // Each stands where 63 states are taken, 32 parentheses are open and a factor has come; a fault has
    // its number and its place in the part.
    let parts: [(&[u8], Option<(u64, usize)>); 7] = [
        (b"1 ", None),
        (b"* ", None),
        (b"x ", Some((SYNTAX, 0))),
        (b"STABL ", Some((SYNTAX, 0))),
        (b"| ) ", Some((SYNTAX, 2))),
        (b"CAP CAP CAP ", Some((TOO_MANY, 4))),
        (b"(VENT) ", Some((TOO_DEEP, 0))),
    ];
    let before = [&names(62)[..], &b"(".repeat(32), b"1 "].concat();
    let after = b")".repeat(32);
    for (first, first_fault) in parts {
        for (second, second_fault) in parts {
            let text = [&before[..], first, second, &after].concat();
            let later = second_fault.map(|(answer, at)| (answer, first.len() + at));
            let wanted = match first_fault.or(later) {
                None => (DONE, 0, 0),
                Some((answer, at)) => (answer, 1, (before.len() + at) as u64),
            };
            assert_eq!(fault(&assert_expressed(&text, b"1", ROWS)), wanted);
        }
    }
}

/// Catches the two limits of the second start taken in the wrong order: where no state is left, only a
/// fault of the text's form at its first byte goes before that.
#[test]
fn a_start_without_a_state_is_refused_at_place_0() {
    let full = names(63);
    let table: [(&[u8], u64); 12] = [
        (b"", SYNTAX),
        (b"x", SYNTAX),
        (b"REA", SYNTAX),
        (b"|", SYNTAX),
        (b")READ", SYNTAX),
        (b"\0", SYNTAX),
        (b" ", TOO_MANY),
        (b" x", TOO_MANY),
        (b"1", TOO_MANY),
        (b"READ", TOO_MANY),
        (b"READ x", TOO_MANY),
        (b"(|", TOO_MANY),
    ];
    for (two, answer) in table {
        for rows in [0, ROWS] {
            let found = assert_expressed(&full, two, rows);
            assert_eq!(fault(&found), (answer, 2, 0), "{two:?}");
        }
    }
    let deep = nested(33);
    assert_eq!(
        fault(&assert_expressed(&full, &deep, ROWS)),
        (TOO_MANY, 2, 0)
    );
}

/// Catches a row buffer judged by anything but 32 times the states, and rows written beyond them.
#[test]
fn row_buffers_one_short_exact_and_longer() {
    for (one, two, states) in [
        (b"1".to_vec(), b"0".to_vec(), 2),
        (b"READ".to_vec(), b"CAP".to_vec(), 4),
        (b"READ* CAP".to_vec(), b"1".to_vec(), 4),
        (names(31), names(31), 64),
    ] {
        let rows = states * 32;
        for (length, answer) in [
            (0, NO_ROOM),
            (rows - 32, NO_ROOM),
            (rows - 1, NO_ROOM),
            (rows, DONE),
            (rows + 1, DONE),
            (rows + 5000, DONE),
        ] {
            let found = assert_expressed(&one, &two, length);
            assert_eq!(fault(&found), (answer, 0, 0), "{length}");
        }
    }
}
