//! Random expressions and texts of them, for tests to draw from.

use crate::derivatives::Tree;
use crate::events;
use crate::random::Random;

/// A random expression of that many names over some letters. About one name in six is `1` or `0`.
pub fn phrase(random: &mut Random, names: u64, letters: &[u64]) -> Tree {
    if names > 1 && random.chance(3, 4) {
        let left = random.between(1, names - 1);
        let one = phrase(random, left, letters).into();
        let other = phrase(random, names - left, letters).into();
        return match random.chance(1, 2) {
            true => Tree::Or(one, other),
            false => Tree::Then(one, other),
        };
    }
    if names > 1 || random.chance(1, 3) {
        let inner = phrase(random, names, letters).into();
        return match random.below(3) {
            0 => Tree::Many(inner),
            1 => Tree::Some(inner),
            _ => Tree::Maybe(inner),
        };
    }
    match random.below(12) {
        0 => Tree::One,
        1 => Tree::Nought,
        _ => random
            .pick(letters)
            .map_or(Tree::One, |letter| Tree::Event(*letter)),
    }
}

/// How tightly the parts of an expression bind.
#[derive(Clone, Copy, PartialEq, PartialOrd)]
enum Binding {
    Alternation,
    Sequence,
    Factor,
}

/// The names and signs of an expression, and needless parentheses round some of its parts.
fn words(random: &mut Random, tree: &Tree, least: Binding, words: &mut Vec<String>) {
    let own = match tree {
        Tree::Or(..) => Binding::Alternation,
        Tree::Then(..) => Binding::Sequence,
        _ => Binding::Factor,
    };
    if own < least || random.chance(1, 10) {
        words.push("(".into());
        self::words(random, tree, Binding::Alternation, words);
        words.push(")".into());
        return;
    }
    let mut marked = |inner: &Tree, mark: &str| {
        self::words(random, inner, Binding::Factor, words);
        words.push(mark.into());
    };
    match tree {
        Tree::Event(letter) => words.push(events::name(*letter).expect("it has a name")),
        Tree::One => words.push("1".into()),
        Tree::Nought => words.push("0".into()),
        Tree::Many(inner) => marked(inner, "*"),
        Tree::Some(inner) => marked(inner, "+"),
        Tree::Maybe(inner) => marked(inner, "?"),
        Tree::Or(one, other) => {
            self::words(random, one, Binding::Alternation, words);
            words.push("|".into());
            self::words(random, other, Binding::Sequence, words);
        }
        Tree::Then(one, other) => {
            self::words(random, one, Binding::Sequence, words);
            self::words(random, other, Binding::Factor, words);
        }
    }
}

/// Some spaces, and at least so many.
fn spaces(random: &mut Random, least: u64) -> String {
    let more = match random.chance(1, 3) {
        true => random.below(4),
        false => 0,
    };
    " ".repeat((least + more) as usize)
}

/// A text of the expression, with spaces and needless parentheses at random.
pub fn text(random: &mut Random, tree: &Tree) -> Vec<u8> {
    let mut all = Vec::new();
    words(random, tree, Binding::Alternation, &mut all);
    let mut text = spaces(random, 0);
    let mut after_name = false;
    for word in all {
        let name = word.ends_with(|last: char| last.is_ascii_alphanumeric());
        text += &spaces(random, u64::from(name && after_name));
        text += &word;
        after_name = name;
    }
    (text + &spaces(random, 0)).into_bytes()
}

/// Every text with one byte changed, put in or taken out: every byte at every place.
pub fn changed(text: &[u8]) -> Vec<Vec<u8>> {
    let mut all = Vec::new();
    for place in 0..text.len() {
        let (before, after) = (&text[..place], &text[place + 1..]);
        all.push([before, after].concat());
        let others = (0..=255).filter(|byte| *byte != text[place]);
        all.extend(others.map(|byte| [before, &[byte], after].concat()));
    }
    for place in 0..=text.len() {
        let (before, after) = text.split_at(place);
        all.extend((0..=255).map(|byte| [before, &[byte], after].concat()));
    }
    all
}
