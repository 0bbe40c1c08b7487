//! Named cases, read from the files of `tests/cases`.
//!
//! A file is a row of blocks with an empty line between them; lines that begin
//! with `#` say what the case below would catch. The first line of a block is the
//! case's name, each other line a key and its words. A number is decimal, `2^63`
//! or `max` for 2^64-1; `0*64` is 64 numbers of 0. Bytes are in hex. A text stands between
//! quotation marks.

use reference::answers::NAMES;
use reference::congruence::Pair;
use reference::pattern::Pattern;
use reference::questions::Question;
use std::collections::{BTreeMap, HashSet};
use std::path::Path;

/// One named case.
#[derive(Clone, Debug, PartialEq, Eq)]
pub struct Case {
    /// Its name, different from every other in its file.
    pub name: String,
    fields: BTreeMap<String, String>,
}

/// The cases of a file. Each has all the keys, and it may have the optional ones.
pub fn load(file: &str, keys: &[&str], optional: &[&str]) -> Vec<Case> {
    let folder = Path::new(concat!(env!("CARGO_MANIFEST_DIR"), "/../cases"));
    let text = std::fs::read_to_string(folder.join(file)).unwrap_or_else(|error| {
        panic!("{file}: {error}");
    });
    let cases = parse(&text);
    let mut names = HashSet::new();
    for case in &cases {
        let Case { name, fields } = case;
        assert!(names.insert(name), "{file}: {name} stands twice");
        for key in keys {
            assert!(fields.contains_key(*key), "{file}: {name} has no {key}");
        }
        for key in fields.keys() {
            let known = keys.contains(&&key[..]) || optional.contains(&&key[..]);
            assert!(known, "{file}: {name} has {key}");
        }
    }
    assert!(!cases.is_empty(), "{file} has no cases");
    cases
}

fn parse(text: &str) -> Vec<Case> {
    let lines: Vec<&str> = text
        .lines()
        .map(str::trim)
        .filter(|line| !line.starts_with('#'))
        .collect();
    lines
        .split(|line| line.is_empty())
        .filter(|block| !block.is_empty())
        .map(case)
        .collect()
}

fn case(block: &[&str]) -> Case {
    let name = block[0].to_string();
    let mut fields = BTreeMap::new();
    for line in &block[1..] {
        let (key, words) = line.split_once(' ').unwrap_or((line, ""));
        let old = fields.insert(key.to_string(), words.trim().to_string());
        assert_eq!(old, None, "{name}: {key} stands twice");
    }
    Case { name, fields }
}

impl Case {
    fn words(&self, key: &str) -> impl Iterator<Item = &str> {
        self.fields
            .get(key)
            .unwrap_or_else(|| panic!("{} has no {key}", self.name))
            .split_whitespace()
    }

    /// Whether the case has an optional key.
    pub fn has(&self, key: &str) -> bool {
        self.fields.contains_key(key)
    }

    /// The numbers of a key.
    pub fn numbers(&self, key: &str) -> Vec<u64> {
        self.words(key).flat_map(repeated).collect()
    }

    /// The one number of a key.
    pub fn number(&self, key: &str) -> u64 {
        match self.numbers(key)[..] {
            [number] => number,
            _ => panic!("{}: {key} is not one number", self.name),
        }
    }

    /// The letters of a key.
    pub fn letters(&self, key: &str) -> Vec<u8> {
        let narrow = |letter| u8::try_from(letter).expect("a letter is a byte");
        self.numbers(key).into_iter().map(narrow).collect()
    }

    /// The bytes of a key, in hex.
    pub fn bytes(&self, key: &str) -> Vec<u8> {
        let byte = |word| u8::from_str_radix(word, 16).expect("a byte in hex");
        self.words(key)
            .flat_map(|word| match word.split_once('*') {
                Some((word, count)) => vec![byte(word); number(count) as usize],
                None => vec![byte(word)],
            })
            .collect()
    }

    /// The text of a key, without its quotation marks.
    pub fn text(&self, key: &str) -> &[u8] {
        let quoted = self.fields.get(key).map_or("", String::as_str);
        let text = quoted
            .strip_prefix('"')
            .and_then(|text| text.strip_suffix('"'));
        let text = text.unwrap_or_else(|| panic!("{}: {key} is no text", self.name));
        text.as_bytes()
    }

    /// The pairs of a key: left and right of each.
    pub fn pairs(&self, key: &str) -> Vec<Pair> {
        let numbers = self.numbers(key);
        assert!(
            numbers.len().is_multiple_of(2),
            "{}: {key} is no pairs",
            self.name
        );
        numbers.chunks(2).map(|pair| (pair[0], pair[1])).collect()
    }

    /// The pattern of a key: n, k, finals and the rows.
    pub fn pattern(&self, key: &str) -> Pattern {
        match &self.numbers(key)[..] {
            [states, letters, finals, rows @ ..] => Pattern {
                states: *states,
                letters: *letters,
                finals: *finals,
                rows: rows.to_vec(),
            },
            _ => panic!("{}: {key} is no pattern", self.name),
        }
    }

    /// The pattern and the two starts: X and Y.
    pub fn question(&self) -> Question {
        let [x, y] = self.numbers("starts")[..] else {
            panic!("{}: there are two starts", self.name);
        };
        let pattern = self.pattern("pattern");
        Question { pattern, x, y }
    }

    /// The answer of a key, by its name.
    pub fn answer(&self, key: &str) -> u64 {
        let word: String = self.words(key).collect();
        NAMES
            .iter()
            .find(|(_, name)| *name == word)
            .map(|(number, _)| *number)
            .unwrap_or_else(|| panic!("{}: {word} is no answer", self.name))
    }
}

/// `7*3` is three times 7.
fn repeated(word: &str) -> Vec<u64> {
    match word.split_once('*') {
        Some((value, count)) => vec![number(value); number(count) as usize],
        None => vec![number(word)],
    }
}

fn number(word: &str) -> u64 {
    let decimal = |word: &str| word.parse::<u64>().ok();
    let value = match word.split_once('^') {
        Some(("2", power)) => power.parse().ok().and_then(|power| 1u64.checked_shl(power)),
        Some(_) => None,
        None if word == "max" => Some(u64::MAX),
        None => decimal(word),
    };
    value.unwrap_or_else(|| panic!("{word} is no number"))
}

#[cfg(test)]
mod tests {
    use super::parse;

    /// Catches a loader that drops a block, a word or the last line.
    #[test]
    fn blocks_are_read_with_all_their_words() {
        let text =
            "# why\nfirst\na 1 2^63 max\nb 5*3  7\n\n\n# why\nsecond\nc 0a ff*2\nd BAD-SET\ne\nf \" A  B \"";
        let [first, second] = &parse(text)[..] else {
            panic!("two cases");
        };
        assert_eq!((&first.name[..], &second.name[..]), ("first", "second"));
        assert_eq!(first.numbers("a"), [1, 1 << 63, u64::MAX]);
        assert_eq!(first.numbers("b"), [5, 5, 5, 7]);
        assert_eq!(second.bytes("c"), [10, 255, 255]);
        assert_eq!(second.answer("d"), 12);
        assert_eq!(second.numbers("e"), []);
        assert!(second.has("e") && !second.has("a"));
        assert_eq!(second.text("f"), b" A  B ");
    }
}
