//! Prints the tables of docs/FIGURES.md: each figure is a ratio or a count, measured in this one run.
mod clock;
mod library;

use library::{ByLists, ByRecords, Counts};
use reference::questions::{self, Finals, Question};
use reference::random::Random;
use reference::walk::compare;
use std::hint::black_box;
use std::slice::from_ref;
use std::time::Duration;

const ROOM: usize = 1024;
const AUTOMATA: usize = 1000;
const ROUNDS: usize = 40;
const DENSITY: u64 = 125;

/// Random automata of `states` states and two letters, from two distinct single states.
fn random_questions(seed: u64, states: u64, finals: Finals) -> Vec<Question> {
    let mut random = Random::new(seed);
    (0..AUTOMATA)
        .map(|_| {
            let pattern = questions::pattern(&mut random, states, 2, DENSITY, finals);
            let x = random.below(states);
            let y = (x + 1 + random.below(states - 1)) % states;
            Question {
                pattern,
                x: 1 << x,
                y: 1 << y,
            }
        })
        .collect()
}

/// The reference's comparison.
fn plain(question: &Question) -> Counts {
    let room = ROOM as u64;
    let compared = compare(&question.pattern, question.x, question.y, room, &[room], room);
    (compared.answer, compared.kept, compared.examined)
}

/// The least processor times of a pass over the questions by each of two comparisons that take turns.
fn times(
    questions: &[Question],
    rounds: usize,
    mut first: impl FnMut(&Question) -> Counts,
    mut second: impl FnMut(&Question) -> Counts,
) -> (f64, f64) {
    let (mut least_first, mut least_second) = (Duration::MAX, Duration::MAX);
    for _ in 0..rounds {
        let start = clock::now();
        for question in questions {
            black_box(first(black_box(question)));
        }
        least_first = least_first.min(clock::now() - start);
        let start = clock::now();
        for question in questions {
            black_box(second(black_box(question)));
        }
        least_second = least_second.min(clock::now() - start);
    }
    (least_first.as_secs_f64(), least_second.as_secs_f64())
}

/// How many pairs each question keeps, sorted; both sides answer and count the same.
fn kept(questions: &[Question]) -> Vec<u64> {
    let mut lists = ByLists::new(ROOM);
    let mut kept: Vec<u64> = questions
        .iter()
        .map(|question| {
            let counts = lists.compare(question);
            assert_eq!(counts, plain(question));
            counts.1
        })
        .collect();
    kept.sort_unstable();
    kept
}

fn random_line(name: &str, questions: &[Question]) {
    let kept = kept(questions);
    let at = |percent: usize| kept[(kept.len() * percent).div_ceil(100).saturating_sub(1)];
    let mut lists = ByLists::new(ROOM);
    let (library, rust) = times(questions, ROUNDS, |q| lists.compare(q), plain);
    println!(
        "| {name} | {:.2} | {} | {} | {} | {} |",
        library / rust,
        at(50),
        at(90),
        at(99),
        at(100)
    );
}

fn random_table() {
    println!("| {AUTOMATA} random automata, two letters, density 1.25 | library / plain Rust | kept: median | 90% | 99% | largest |");
    println!("|---|---|---|---|---|---|");
    random_line("64 states, half of them final", &random_questions(1, 64, Finals::Half));
    random_line("64 states, none final", &random_questions(2, 64, Finals::None));
    random_line("50 states, half of them final", &random_questions(3, 50, Finals::Half));
    random_line("50 states, none final", &random_questions(4, 50, Finals::None));
    println!("| 000, Table 1: 50 states, none final | | 21 | 26 | 32 | 63 |");
}

/// How the time of one walk grows with the pairs it keeps, each question keeping twice as many as the one before.
fn growth_table(questions: &[Question]) {
    println!("| kept pairs | examined | library / plain Rust | library's time over that of half the pairs |");
    println!("|---|---|---|---|");
    let mut before: Option<f64> = None;
    for question in questions {
        let mut lists = ByLists::new(ROOM);
        let (_, kept, examined) = lists.compare(question);
        let (library, rust) = times(from_ref(question), ROUNDS, |q| lists.compare(q), plain);
        let growth = before.map_or(String::from("-"), |b| format!("{:.1}", library / b));
        println!("| {kept} | {examined} | {:.2} | {growth} |", library / rust);
        before = Some(library);
    }
}

/// What lending records costs beside lending lists, on small and on large questions.
fn entry_table() {
    println!("| question | records / lists |");
    println!("|---|---|");
    let tiny = vec![questions::switches(1); AUTOMATA];
    let short = random_questions(1, 64, Finals::Half);
    let drawn = random_questions(5, 64, Finals::None);
    let (within, large) = (questions::switches(6), questions::switches(10));
    let (beyond, twice) = (questions::long_way(65), questions::switches(7));
    let cases: [(&str, &[Question], usize); 7] = [
        ("2 pairs kept", &tiny, ROUNDS),
        ("1000 random automata of 64 states, half of them final", &short, ROUNDS),
        ("1000 random automata of 64 states, none final", &drawn, ROUNDS),
        ("64 pairs kept", from_ref(&within), 200),
        ("65 pairs kept", from_ref(&beyond), 200),
        ("128 pairs kept", from_ref(&twice), 200),
        ("1024 pairs kept", from_ref(&large), ROUNDS),
    ];
    for (name, questions, rounds) in cases {
        let (mut lists, mut records) = (ByLists::new(ROOM), ByRecords::new(ROOM));
        let (by_records, by_lists) = times(questions, rounds, |q| records.compare(q), |q| lists.compare(q));
        println!("| {name} | {:.2} |", by_records / by_lists);
    }
}

fn main() {
    match std::env::args().nth(1).as_deref() {
        Some("random") => random_table(),
        Some("switches") => growth_table(&(4..=10).map(questions::switches).collect::<Vec<_>>()),
        Some("long") => growth_table(&(4..=10).map(|s| questions::long_way(1 << s)).collect::<Vec<_>>()),
        Some("entry") => entry_table(),
        _ => eprintln!("figures random | switches | long | entry"),
    }
}
