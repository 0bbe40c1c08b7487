//! Lists of pairs offered as evidence.

use crate::draw::{all_lists, any_question, blank, pattern, small_question, EDGES};
use library::calls::{self, Lengths};
use library::faults::{assert_refused_in_order, beyond, of_pattern, Fault};
use library::{cases, rounds::rounds};
use reference::answers::*;
use reference::congruence::Pair;
use reference::evidence::{check, Check, MAX_PAIRS};
use reference::pattern::Pattern;
use reference::questions::{figure_five, renamed_copy, switches, Question};
use reference::random::Random;
use reference::subsets::{equivalence, Verdict};
use reference::walk::{compare, Comparison};

/// The library's answer, which is the reference's; where the sides are of one length,
/// it is that to a list of records too.
fn assert_checked(question: &Question, lefts: &[u64], rights: &[u64]) -> Check {
    let Question { pattern, x, y } = question;
    let found = calls::check(pattern, *x, *y, lefts, rights);
    let wanted = check(pattern, *x, *y, lefts, rights);
    assert_eq!(found, wanted, "{question:?} {lefts:?} {rights:?}");
    if lefts.len() == rights.len() {
        let pairs: Vec<Pair> = lefts.iter().copied().zip(rights.iter().copied()).collect();
        let found = calls::check_records(question, &pairs);
        assert_eq!(found, wanted, "{question:?} {pairs:?}");
    }
    found
}

/// The answer to a list of pairs.
fn assert_pairs(question: &Question, pairs: &[Pair]) -> Check {
    let (lefts, rights): (Vec<u64>, Vec<u64>) = pairs.iter().copied().unzip();
    assert_checked(question, &lefts, &rights)
}

/// The records of the reference's walk as a list, where it ends with SAME.
fn evidence(question: &Question) -> Option<Vec<Pair>> {
    let Question { pattern, x, y } = question;
    let found = compare(pattern, *x, *y, 1024, &[1024], 1024);
    (found.answer == SAME).then(|| pairs(&found))
}

fn pairs(comparison: &Comparison) -> Vec<Pair> {
    let pair = |record: &reference::walk::Record| (record.left, record.right);
    comparison.records.iter().map(pair).collect()
}

const PROVED_AT_0: Check = Check {
    answer: PROVED,
    place: 0,
};

/// Catches what the file says of each case.
#[test]
fn the_named_lists_are_checked_as_they_should() {
    let keys = ["pattern", "starts", "pairs", "answer", "place"];
    for case in cases::load("check.txt", &keys, &[]) {
        let question = case.question();
        let found = assert_pairs(&question, &case.pairs("pairs"));
        let wanted = (case.answer("answer"), case.number("place"));
        assert_eq!((found.answer, found.place), wanted, "{}", case.name);
    }
}

/// Catches anything wrong that two pairs can show, and a list that is let pass
/// although the languages differ.
#[test]
fn every_list_of_up_to_two_pairs_over_two_states_and_one_letter() {
    let mut proved = 0;
    for masks in all_lists(4, 5) {
        let question = Question {
            pattern: pattern(2, 1, masks[0], &masks[1..3]),
            x: masks[3],
            y: masks[4],
        };
        for length in 0..=2 {
            for sides in all_lists(4, 2 * length) {
                let list: Vec<Pair> = sides.chunks(2).map(|pair| (pair[0], pair[1])).collect();
                let found = assert_pairs(&question, &list);
                if found.answer == PROVED {
                    assert_equivalent(&question);
                    proved += 1;
                }
            }
        }
    }
    assert!(proved > 1000, "{proved}");
}

/// Fails if the subset construction finds the languages different.
fn assert_equivalent(question: &Question) {
    let Question { pattern, x, y } = question;
    if let Verdict::Different(sequence) = equivalence(pattern, *x, *y, 5000) {
        panic!("{question:?} differs by {sequence:?}");
    }
}

/// Questions that end with SAME, with their records.
fn same_questions(seed: u64, count: usize) -> Vec<(Question, Vec<Pair>)> {
    let mut random = Random::new(seed);
    let draw = move |round: usize| match round % 4 {
        0 => any_question(&mut random),
        1 => {
            let Question { pattern, x, .. } = small_question(&mut random);
            renamed_copy(&mut random, &pattern, x)
        }
        _ => small_question(&mut random),
    };
    let known = (1..=20).map(figure_five).chain((1..=6).map(switches));
    known
        .chain((0..count).map(draw))
        .filter_map(|question| Some((question.clone(), evidence(&question)?)))
        .filter(|(_, pairs)| pairs.len() <= 200)
        .collect()
}

/// Catches a check that wants more of a list than what the walk leaves on SAME: the calls fail
/// where what they left is not PROVED, by records or by lists (`library::calls`).
#[test]
fn what_same_left_is_proved_as_it_is() {
    let mut seen = [0; 2];
    for (question, pairs) in same_questions(120, rounds(4000)) {
        let room = pairs.len();
        let lengths = Lengths {
            records: room,
            sequence: room,
        };
        let by_records = calls::compare(&question, room as u64, lengths);
        let by_lists = calls::compare_lists(&question, room as u64, [room; 4], room);
        assert_eq!((by_records.answer, by_lists.answer), (SAME, SAME));
        assert_eq!(self::pairs(&by_records), pairs);
        seen[usize::from(room > 0)] += 1;
    }
    assert!(seen[0] > 100 && seen[1] > 1000, "{seen:?}");
}

/// Catches a set and itself in room 0 that is not PROVED, or that is by pairs which do not hold.
#[test]
fn a_set_is_proved_against_itself_by_no_pairs() {
    let mut random = Random::new(121);
    let none = Lengths {
        records: 0,
        sequence: 0,
    };
    for _ in 0..rounds(2000) {
        let Question { pattern, x, .. } = any_question(&mut random);
        let question = Question { pattern, x, y: x };
        let found = calls::compare(&question, 0, none);
        assert_eq!((found.answer, found.kept), (SAME, 0));
        assert_eq!(assert_pairs(&question, &[]), PROVED_AT_0);
        let Pattern { states, finals, .. } = question.pattern;
        let last = 1 << (states - 1);
        let differs = (finals & last, 0);
        if differs.0 != 0 {
            let found = assert_pairs(&question, &[(x, x), differs]);
            assert_eq!((found.answer, found.place), (NOT_PROVED, 1));
        }
    }
}

/// Catches a check that wants the list in the walk's order, or the starting pair in its own.
#[test]
fn the_records_of_same_are_proved_in_any_order() {
    let mut random = Random::new(114);
    let mut questions = same_questions(115, rounds(4000));
    questions.retain(|(_, pairs)| !pairs.is_empty());
    assert!(questions.len() > 1000, "{}", questions.len());
    for (question, mut pairs) in questions {
        assert_eq!(assert_pairs(&question, &pairs), PROVED_AT_0);
        let other = random.below(pairs.len() as u64) as usize;
        pairs.swap(0, other);
        assert_eq!(assert_pairs(&question, &pairs), PROVED_AT_0);
        pairs.push(pairs[0]);
        assert_eq!(assert_pairs(&question, &pairs), PROVED_AT_0);
        let Question { pattern, x, y } = question;
        let turned = Question {
            pattern,
            x: y,
            y: x,
        };
        assert_eq!(assert_pairs(&turned, &pairs), PROVED_AT_0);
        for pair in &mut pairs {
            *pair = (pair.1, pair.0);
        }
        assert_eq!(assert_pairs(&turned, &pairs), PROVED_AT_0);
    }
}

/// A list with one thing done to it.
fn damaged(random: &mut Random, pairs: &[Pair], states: u64) -> Vec<Pair> {
    let mut pairs = pairs.to_vec();
    let at = random.below(pairs.len() as u64) as usize;
    let (left, right) = pairs[at];
    match random.below(8) {
        0 => drop(pairs.remove(at)),
        1 => pairs[at] = (right, left),
        2 => pairs[at].0 ^= 1 << random.below(states),
        3 => pairs[at].1 ^= 1 << random.below(states),
        4 => pairs.insert(at, (left, left | right)),
        5 => pairs.insert(at, (1 << random.below(states), right)),
        6 => pairs.insert(at, (random.set(states, 1, 2), random.set(states, 1, 2))),
        _ => pairs.truncate(at),
    }
    pairs
}

/// Catches a failing pair that is not found, or found in the wrong place, and a
/// list that is let pass although the languages differ.
#[test]
fn damaged_lists_are_checked_as_the_reference_does() {
    let mut random = Random::new(116);
    let (mut proved, mut failed) = (0, 0);
    let mut questions = same_questions(117, rounds(4000));
    questions.retain(|(_, pairs)| !pairs.is_empty());
    for (question, pairs) in questions {
        for _ in 0..12 {
            let list = damaged(&mut random, &pairs, question.pattern.states);
            let found = assert_pairs(&question, &list);
            if found.answer == PROVED {
                proved += 1;
            } else {
                failed += 1;
            }
        }
    }
    assert!(proved > 500 && failed > 5000, "{proved} {failed}");
}

/// Catches a list that is let pass although the languages differ: the starts are
/// any sets, and half of the lists have the starting pair.
#[test]
fn a_proved_list_means_equal_languages() {
    let mut random = Random::new(118);
    let (mut proved, mut failed) = (0, 0);
    for _ in 0..rounds(60_000) {
        let (states, letters) = (random.between(1, 4), random.between(1, 2));
        let question = reference::questions::question(&mut random, states, letters);
        let count = random.below(4);
        let mut side = || random.below(1 << states);
        let mut list: Vec<Pair> = (0..count).map(|_| (side(), side())).collect();
        if random.chance(1, 2) {
            let at = random.below(count + 1) as usize;
            list.insert(at, (question.x, question.y));
        }
        if assert_pairs(&question, &list).answer == PROVED {
            assert_equivalent(&question);
            proved += 1;
        } else {
            failed += 1;
        }
    }
    assert!(proved > 3000 && failed > 3000, "{proved} {failed}");
}

/// Catches a place that is held in too few bits, and a pair that is passed over.
#[test]
fn a_failing_pair_is_found_wherever_it_stands() {
    let right = Question {
        pattern: pattern(3, 1, 5, &[2, 1, 4]),
        x: 3,
        y: 4,
    };
    for length in [1usize, 2, 3, 64, 65, 255, 256, 257, 1024] {
        let mut list = vec![(3, 4); length];
        assert_eq!(assert_pairs(&right, &list), PROVED_AT_0);
        for place in [0, 1, 2, 63, 64, 254, 255, 256, 1022, 1023] {
            if place < length {
                let old = std::mem::replace(&mut list[place], (1, 2));
                let found = assert_pairs(&right, &list);
                let wanted = if length == 1 { 1 } else { place as u64 };
                assert_eq!((found.answer, found.place), (NOT_PROVED, wanted));
                list[place] = old;
            }
        }
    }
}

/// Catches a limit that is one off, sides taken as far as both go, and BAD-LIST
/// given for one side only.
#[test]
fn a_list_has_at_most_1024_pairs_and_two_equal_sides() {
    let right = Question {
        pattern: pattern(3, 1, 5, &[2, 1, 4]),
        x: 3,
        y: 4,
    };
    let lengths = [0, 1, 2, 64, 65, 1023, MAX_PAIRS, MAX_PAIRS + 1, 3000];
    for left in lengths {
        for side in lengths {
            let found = assert_checked(&right, &vec![3; left], &vec![4; side]);
            let wanted = match left == side && left <= MAX_PAIRS {
                false => BAD_LIST,
                true if left == 0 => NOT_PROVED,
                true => PROVED,
            };
            assert_eq!((found.answer, found.place), (wanted, 0), "{left} {side}");
        }
    }
}

/// A call of the check.
#[derive(Clone, Debug)]
struct Call {
    question: Question,
    lefts: Vec<u64>,
    rights: Vec<u64>,
}

/// Catches a fault that is not looked at, or that is looked at too early or too
/// late: 10, 11, 16, 12 is the order.
#[test]
fn every_fault_of_a_check_is_refused_in_order() {
    let mut faults = of_pattern(|call: &mut Call| &mut call.question.pattern);
    faults.extend([
        Fault::new("left side longer", BAD_LIST, |call: &mut Call| {
            call.lefts.push(0);
        }),
        Fault::new("right side longer", BAD_LIST, |call: &mut Call| {
            call.rights.push(0);
        }),
        Fault::new("1025 pairs", BAD_LIST, |call: &mut Call| {
            call.lefts.resize(MAX_PAIRS + 1, 0);
            call.rights.resize(MAX_PAIRS + 1, 0);
        }),
        Fault::new("bit n in X", BAD_SET, |call: &mut Call| {
            call.question.x |= beyond(&call.question.pattern);
        }),
        Fault::new("bit 63 in Y", BAD_SET, |call: &mut Call| {
            call.question.y |= 1 << 63;
        }),
        Fault::new("bit n in the first left", BAD_SET, |call: &mut Call| {
            call.lefts[0] |= beyond(&call.question.pattern);
        }),
        Fault::new("bit 63 in the last right", BAD_SET, |call: &mut Call| {
            call.rights[1] |= 1 << 63;
        }),
    ]);
    let order = [BAD_SIZE, BAD_TABLE, BAD_LIST, BAD_SET];
    for pattern in [blank(3, 1), blank(62, 32)] {
        let question = Question {
            pattern,
            x: 3,
            y: 4,
        };
        let (lefts, rights) = (vec![3, 0], vec![4, 1]);
        let right = Call {
            question,
            lefts,
            rights,
        };
        assert_refused_in_order(&right, &faults, &order, |call| {
            let found = assert_checked(&call.question, &call.lefts, &call.rights);
            assert!(found.place == 0);
            found.answer
        });
    }
}

/// Catches a mask of a pair that is not looked at, whichever it is.
#[test]
fn a_bad_mask_is_found_in_every_pair() {
    for states in [1, 2, 31, 32, 63, 64] {
        let question = Question {
            pattern: blank(states, 1),
            x: 0,
            y: 1,
        };
        for place in 0..40 {
            for bit in [states - 1, states, 63] {
                let mut sides = [vec![0; 20], vec![1; 20]];
                sides[place / 20][place % 20] = 1u64.checked_shl(bit as u32).unwrap_or(0);
                let found = assert_checked(&question, &sides[0], &sides[1]);
                assert_eq!(found.answer == BAD_SET, (states..64).contains(&bit));
            }
        }
    }
}

/// Catches a product of n and k that is formed before the size is judged.
#[test]
fn n_and_k_may_be_any_number_of_64_bits() {
    for states in EDGES {
        for letters in EDGES {
            for rows in [0, 1, 2, 64, 2048] {
                let pattern = Pattern {
                    states,
                    letters,
                    finals: 0,
                    rows: vec![0; rows],
                };
                let question = Question {
                    pattern,
                    x: 1,
                    y: 1,
                };
                for lefts in [&[][..], &[1], &[u64::MAX]] {
                    assert_checked(&question, lefts, &[1]);
                }
            }
        }
    }
}
