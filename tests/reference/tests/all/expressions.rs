//! Texts, the position construction, derivatives, and two texts together.

use reference::answers::*;
use reference::derivatives::{disagreement, tree, Tree};
use reference::expressions::{express, Expressing};
use reference::phrases::{changed, phrase, text};
use reference::positions::construct;
use reference::random::Random;
use reference::rounds::rounds;
use reference::texts::{read, Fault};
use std::collections::{BTreeSet, HashSet};

/// More rows than any pattern has.
const ROWS: u64 = 64 * 32;

/// Texts that are right.
const RIGHT: [&str; 16] = [
    "READ (STABLE | CLOCKBACK READ)* CAP",
    "READ",
    " 1 ",
    "0",
    "E12 E31",
    "READ*+?**",
    "READ + CAP",
    "((((1))))|0",
    "(READ)(CAP)",
    "READ(CAP)DROP",
    "(READ|CAP)|DROP",
    "READ(CAP DROP)",
    "1*0+1?",
    "( READ )? |CAP+ ",
    "CLOCKON|CLOCKBACK|E20",
    "TRANSFER SAMPLE VENT WARM CRASH DRYHOP DROP STABLE",
];

/// The tree of a text that is right.
fn tree_of(text: &[u8]) -> Tree {
    let steps = read(text, 1).unwrap_or_else(|fault| panic!("{fault:?} in {text:?}"));
    tree(&steps).expect("the steps make a tree")
}

fn event(letter: u64) -> Tree {
    Tree::Event(letter)
}

fn then(one: Tree, other: Tree) -> Tree {
    Tree::Then(one.into(), other.into())
}

fn or(one: Tree, other: Tree) -> Tree {
    Tree::Or(one.into(), other.into())
}

/// Catches a sign that binds as another does, a sequence or alternation that does not go from the
/// left, and a mark on more than its factor.
#[test]
fn each_text_has_its_tree() {
    let many = |inner: Tree| Tree::Many(inner.into());
    let (read, stable, cap, back) = (event(0), event(1), event(6), event(10));
    let table = [
        ("READ", read.clone()),
        ("1", Tree::One),
        ("0", Tree::Nought),
        ("E12", event(12)),
        ("E31", event(31)),
        ("READ CAP", then(read.clone(), cap.clone())),
        ("READ|CAP", or(read.clone(), cap.clone())),
        ("READ CAP*", then(read.clone(), many(cap.clone()))),
        ("(READ CAP)*", many(then(read.clone(), cap.clone()))),
        (
            "READ|CAP READ",
            or(read.clone(), then(cap.clone(), read.clone())),
        ),
        (
            "READ CAP|READ",
            or(then(read.clone(), cap.clone()), read.clone()),
        ),
        (
            "READ CAP READ",
            then(then(read.clone(), cap.clone()), read.clone()),
        ),
        (
            "READ|CAP|READ",
            or(or(read.clone(), cap.clone()), read.clone()),
        ),
        (
            "READ(CAP READ)",
            then(read.clone(), then(cap.clone(), read.clone())),
        ),
        (
            "READ|(CAP|READ)",
            or(read.clone(), or(cap.clone(), read.clone())),
        ),
        (
            "READ?+",
            Tree::Some(Tree::Maybe(read.clone().into()).into()),
        ),
        (
            "READ (STABLE | CLOCKBACK READ)* CAP",
            then(then(read.clone(), many(or(stable, then(back, read)))), cap),
        ),
    ];
    for (text, wanted) in table {
        assert_eq!(tree_of(text.as_bytes()), wanted, "{text}");
    }
}

/// Catches a fault that is missed, misnamed or misplaced.
#[test]
fn each_wrong_text_has_its_fault() {
    let table: [(&str, usize); 41] = [
        ("", 0),
        ("   ", 3),
        ("()", 1),
        ("( )", 2),
        ("READ||CAP", 5),
        ("|READ", 0),
        ("READ|", 5),
        ("READ | ", 7),
        ("READ (", 6),
        ("(READ", 5),
        ("(READ  ", 7),
        ("READ)", 4),
        ("READ ) CAP", 5),
        ("*", 0),
        ("READ|*", 5),
        ("(*READ)", 1),
        ("READ (|CAP)", 6),
        ("(READ|)", 6),
        ("READ \t", 5),
        ("READ\nCAP", 4),
        ("READ.CAP", 4),
        ("READx", 4),
        ("read", 0),
        ("Read", 0),
        ("10", 0),
        ("01", 0),
        ("1READ", 0),
        ("READ1", 0),
        ("READ0 CAP", 0),
        ("REA", 0),
        ("READS", 0),
        ("READCAP", 0),
        ("E0", 0),
        ("E11", 0),
        ("E32", 0),
        ("E012", 0),
        ("E", 0),
        ("CAP E120", 4),
        ("CAP 00", 4),
        ("CAP 2", 4),
        ("CAP| é", 5),
    ];
    for (text, place) in table {
        let answer = SYNTAX;
        let wanted = Err(Fault { place, answer });
        assert_eq!(read(text.as_bytes(), 1), wanted, "{text:?}");
    }
}

/// Catches a right text that is refused.
#[test]
fn right_texts_have_no_fault() {
    for text in RIGHT {
        assert!(read(text.as_bytes(), 1).is_ok(), "{text:?}");
    }
    for letter in 0..32 {
        let name = reference::events::name(letter).expect("it has a name");
        assert_eq!(tree_of(name.as_bytes()), event(letter));
    }
}

/// The right lists of signs by their length, up to a length, as the rule has them: alternations are
/// made of sequences, those of factors, and a factor is a name, a marked factor or an alternation in
/// parentheses. A name is `1`, and a mark `*`.
fn right_lists(most: usize) -> HashSet<String> {
    let mut alternations: Vec<HashSet<String>> = vec![HashSet::new(); most + 1];
    let mut sequences = alternations.clone();
    let mut factors = alternations.clone();
    for length in 1..=most {
        let mut made = HashSet::new();
        if length == 1 {
            made.insert("1".to_string());
        }
        made.extend(
            factors[length - 1]
                .iter()
                .map(|factor| format!("{factor}*")),
        );
        if length > 2 {
            let inner = &alternations[length - 2];
            made.extend(inner.iter().map(|inner| format!("({inner})")));
        }
        factors[length] = made;
        let mut made = factors[length].clone();
        for front in 1..length {
            for one in &sequences[front] {
                made.extend(
                    factors[length - front]
                        .iter()
                        .map(|other| format!("{one}{other}")),
                );
            }
        }
        sequences[length] = made;
        let mut made = sequences[length].clone();
        for front in 1..length.saturating_sub(1) {
            for one in &alternations[front] {
                let others = &sequences[length - front - 1];
                made.extend(others.iter().map(|other| format!("{one}|{other}")));
            }
        }
        alternations[length] = made;
    }
    alternations.into_iter().flatten().collect()
}

/// Catches a text that is read and not right, one that is right and not read, and a fault that is not
/// the first sign that no right text has there: all lists of up to four signs. Four open parentheses,
/// a name and four closing ones are the longest that it takes to make one right.
#[test]
fn a_fault_is_the_first_sign_that_no_right_text_goes_on_with() {
    let right = right_lists(9);
    let beginnings: HashSet<&str> = right
        .iter()
        .flat_map(|list| (0..=list.len()).map(|end| &list[..end]))
        .collect();
    let signs = ["1", "*", "|", "(", ")"];
    let mut lists = vec![String::new()];
    let mut from = 0;
    for _ in 0..4 {
        let longer: Vec<String> = lists[from..]
            .iter()
            .flat_map(|list| signs.map(|sign| format!("{list}{sign}")))
            .collect();
        from = lists.len();
        lists.extend(longer);
    }
    assert_eq!(lists.len(), 781);
    for list in lists {
        // `11` would be one name.
        let spaced: String = list.chars().flat_map(|sign| [sign, ' ']).collect();
        let lost = (1..=list.len()).find(|end| !beginnings.contains(&list[..*end]));
        let wanted = match lost {
            Some(end) => Err(2 * (end - 1)),
            None if right.contains(&list) => Ok(()),
            None => Err(spaced.len()),
        };
        let found = read(spaced.as_bytes(), 1);
        let found = found.map(|_| ()).map_err(|fault| fault.place);
        assert_eq!(found, wanted, "{list:?}");
    }
}

/// Catches a text that is read as another expression than it was printed from.
#[test]
fn random_expressions_are_read_back() {
    let mut random = Random::new(201);
    for _ in 0..rounds(3000) {
        let names = random.between(1, 40);
        let wanted = phrase(&mut random, names, &[0, 1, 10, 31]);
        for _ in 0..3 {
            let text = text(&mut random, &wanted);
            let shown = String::from_utf8_lossy(&text);
            assert_eq!(tree_of(&text), wanted, "{shown}");
        }
    }
}

/// The sequences of at most so many letters that an expression takes, put together from its parts.
fn language(tree: &Tree, most: usize) -> BTreeSet<Vec<u8>> {
    let joined = |one: &BTreeSet<Vec<u8>>, other: &BTreeSet<Vec<u8>>| {
        let pairs = one
            .iter()
            .flat_map(|front| other.iter().map(move |back| [&front[..], back].concat()));
        pairs.filter(|sequence| sequence.len() <= most).collect()
    };
    let empty = BTreeSet::from([Vec::new()]);
    let repeated = |inner: BTreeSet<Vec<u8>>| {
        let mut all = empty.clone();
        loop {
            let more: BTreeSet<Vec<u8>> = &joined(&all, &inner) | &all;
            if more == all {
                return all;
            }
            all = more;
        }
    };
    match tree {
        Tree::Event(letter) if most > 0 => BTreeSet::from([vec![*letter as u8]]),
        Tree::Event(_) | Tree::Nought => BTreeSet::new(),
        Tree::One => empty,
        Tree::Or(one, other) => &language(one, most) | &language(other, most),
        Tree::Then(one, other) => joined(&language(one, most), &language(other, most)),
        Tree::Many(inner) => repeated(language(inner, most)),
        Tree::Some(inner) => {
            let inner = language(inner, most);
            joined(&inner, &repeated(inner.clone()))
        }
        Tree::Maybe(inner) => &language(inner, most) | &empty,
    }
}

/// Every sequence of the letters 0 to 2 of at most so many letters.
fn sequences(most: usize) -> Vec<Vec<u8>> {
    let mut all = vec![Vec::new()];
    let mut from = 0;
    for _ in 0..most {
        let longer: Vec<Vec<u8>> = all[from..]
            .iter()
            .flat_map(|front: &Vec<u8>| [0, 1, 2].map(|letter| [&front[..], &[letter]].concat()))
            .collect();
        from = all.len();
        all.extend(longer);
    }
    all
}

/// Catches a derivative that says something else than the expression's parts do.
#[test]
fn derivatives_take_what_the_parts_make() {
    let mut random = Random::new(202);
    for _ in 0..rounds(500) {
        let names = random.between(1, 7);
        let tree = phrase(&mut random, names, &[0, 1, 2]);
        let language = language(&tree, 4);
        for sequence in sequences(4) {
            let wanted = language.contains(&sequence);
            assert_eq!(tree.takes(&sequence), wanted, "{sequence:?} {tree:?}");
        }
    }
}

/// Catches a position construction that makes another language than the expression's.
#[test]
fn the_pattern_of_two_texts_accepts_what_each_takes() {
    let mut random = Random::new(203);
    let letters = [1, 6, 31];
    for _ in 0..rounds(1500) {
        let trees = [(); 2].map(|()| {
            let names = random.between(1, 12);
            phrase(&mut random, names, &letters)
        });
        let [one, two] = [0, 1].map(|tree: usize| text(&mut random, &trees[tree]));
        let found = express(&one, &two, ROWS);
        assert_eq!(found.answer, DONE);
        for (set, tree) in [(found.x, &trees[0]), (found.y, &trees[1])] {
            let wrong = disagreement(&found.pattern, set, tree, &letters, 5);
            assert_eq!(wrong, None, "{tree:?}");
        }
    }
}

/// Catches a construction that leaves out what leads nowhere.
#[test]
fn rows_are_not_simplified_for_0() {
    let found = express(b"READ 0 | CAP", b"0* DROP", ROWS);
    let row = |state: usize, letter: usize| found.pattern.rows[state * 32 + letter];
    assert_eq!((found.pattern.states, found.x, found.y), (5, 1, 8));
    assert_eq!(found.pattern.finals, 0b10100);
    assert_eq!((row(0, 0), row(0, 6), row(3, 2)), (0b10, 0b100, 0b10000));
    let others = found.pattern.rows.iter().filter(|row| **row != 0);
    assert_eq!(others.count(), 3);
}

/// Catches a state for `1` or `0`, and one that is lost.
#[test]
fn there_is_a_state_for_each_start_and_each_event_name() {
    for text in RIGHT {
        let steps = read(text.as_bytes(), 1).expect("it is right");
        let names = construct(&steps).letters.len();
        let found = express(text.as_bytes(), text.as_bytes(), ROWS);
        assert_eq!(found.pattern.states as usize, 2 * (1 + names), "{text}");
        assert_eq!((found.x, found.y), (1, 1 << (1 + names)));
    }
}

fn refused(answer: u64, place: u64, text: u64) -> Expressing {
    Expressing {
        answer,
        place,
        text,
        ..Expressing::default()
    }
}

/// So many names.
fn names(count: usize) -> Vec<u8> {
    b"READ ".repeat(count)
}

/// So many parentheses, one in the other.
fn nested(count: usize) -> Vec<u8> {
    [&b"(".repeat(count)[..], b"CAP", &b")".repeat(count)].concat()
}

/// Catches a limit that is one off, and a fault given for another.
#[test]
fn the_limits_are_64_states_and_32_open_parentheses() {
    let table = [
        (names(61), names(1), (DONE, 0, 0)),
        (names(62), b"1".to_vec(), (DONE, 0, 0)),
        (b"0".to_vec(), names(62), (DONE, 0, 0)),
        (names(62), names(1), (TOO_MANY, 0, 2)),
        (b"1".to_vec(), names(63), (TOO_MANY, 310, 2)),
        (names(63), b"1".to_vec(), (TOO_MANY, 0, 2)),
        (names(64), b"1".to_vec(), (TOO_MANY, 315, 1)),
        (nested(32), nested(32), (DONE, 0, 0)),
        (nested(33), nested(33), (TOO_DEEP, 32, 1)),
        (nested(32), nested(33), (TOO_DEEP, 32, 2)),
        (b"(READ)".repeat(30), b"(1)".repeat(40), (DONE, 0, 0)),
        (nested(20).repeat(20), b"1*?+".repeat(9), (DONE, 0, 0)),
    ];
    for (one, two, (answer, place, text)) in table {
        let found = express(&one, &two, ROWS);
        let shown = (String::from_utf8_lossy(&one), String::from_utf8_lossy(&two));
        assert_eq!(
            (found.answer, found.place, found.text),
            (answer, place, text),
            "{shown:?}"
        );
    }
}

/// Catches a fault that goes before one that comes first: by text, by place, by number, and NO-ROOM.
#[test]
fn the_first_fault_decides() {
    let full = names(63);
    let deep_and_unknown = [&nested(33)[..], b" x"].concat();
    let unknown_and_deep = [b"x ", &nested(33)[..]].concat();
    let table: [(&[u8], &[u8], u64, Expressing); 14] = [
        (b"x", b"x", 0, refused(SYNTAX, 0, 1)),
        (b"READ x", b"x", 0, refused(SYNTAX, 5, 1)),
        (b"READ", b"READ x", 0, refused(SYNTAX, 5, 2)),
        (&deep_and_unknown, b"", 0, refused(TOO_DEEP, 32, 1)),
        (&unknown_and_deep, b"", 0, refused(SYNTAX, 0, 1)),
        (&full, b"x", 0, refused(SYNTAX, 0, 2)),
        (&full, b" x", 0, refused(TOO_MANY, 0, 2)),
        (&full, b"", 0, refused(SYNTAX, 0, 2)),
        (&full, b" ", 0, refused(TOO_MANY, 0, 2)),
        (&full, b"READ", 0, refused(TOO_MANY, 0, 2)),
        (b"READ", b"READ", 127, refused(NO_ROOM, 0, 0)),
        (b"READ", b"READ", 0, refused(NO_ROOM, 0, 0)),
        (b"1", b"0", 63, refused(NO_ROOM, 0, 0)),
        (b"READ", b"CAP|", 0, refused(SYNTAX, 4, 2)),
    ];
    for (one, two, rows, wanted) in table {
        let shown = (String::from_utf8_lossy(one), String::from_utf8_lossy(two));
        assert_eq!(express(one, two, rows), wanted, "{shown:?}");
    }
    let with = |last: &[u8]| [&names(63)[..], last].concat();
    for (last, answer) in [
        (&b"READ"[..], TOO_MANY),
        (b"REA", SYNTAX),
        (b"*", DONE),
        (b")", SYNTAX),
    ] {
        let found = express(&with(last), b"", ROWS);
        match answer {
            DONE => assert_eq!(found, refused(SYNTAX, 0, 2)),
            _ => assert_eq!(found, refused(answer, 315, 1)),
        }
    }
    assert_eq!(express(b"1", b"0", 64).answer, DONE);
}

/// Catches a place beyond the text, a text number that is none, and what breaks the reader.
#[test]
fn any_bytes_get_an_answer() {
    let check = |one: &[u8], two: &[u8]| {
        let found = express(one, two, ROWS);
        let length = [0, one.len(), two.len()][found.text as usize] as u64;
        assert!(found.place <= length);
        assert!(found.answer == DONE || found.answer >= SYNTAX);
        assert_eq!(found.answer == DONE, found.text == 0);
    };
    for text in RIGHT {
        for text in changed(text.as_bytes()) {
            check(&text, b"1");
            check(b"1", &text);
        }
    }
    let mut random = Random::new(204);
    for _ in 0..rounds(3000) {
        let length = random.below(20);
        let text: Vec<u8> = (0..length).map(|_| random.number() as u8).collect();
        check(&text, &text);
    }
    let long = b"1 ".repeat(100_000);
    check(&long, &long);
    check(&[b"1", &b"*?+".repeat(100_000)[..]].concat(), &long);
}
