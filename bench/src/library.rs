//! What a host lends to the library's comparison, made once and not cleared between calls.
use pressbadger::{compare, compare_lists, Compared, Pattern, Record, Refused};
use reference::questions::Question;

/// The number of the answer, and how many were kept and examined.
pub type Counts = (u64, u64, u64);

fn pattern(question: &Question) -> Pattern<'_> {
    Pattern {
        states: question.pattern.states as usize,
        letters: question.pattern.letters as usize,
        finals: question.pattern.finals,
        rows: &question.pattern.rows,
    }
}

fn counts<Records>(compared: Result<Compared<'_, Records>, Refused>, kept: impl Fn(&Records) -> usize) -> Counts {
    let compared = compared.expect("no question is refused");
    let (records, examined) = match &compared {
        Compared::Same { records, examined }
        | Compared::Different { records, examined, .. }
        | Compared::Full { records, examined } => (records, *examined),
        _ => panic!("an answer that is not known here"),
    };
    (u64::from(compared.number()), kept(records) as u64, examined as u64)
}

/// The comparison over lists.
pub struct ByLists {
    lefts: Vec<u64>,
    rights: Vec<u64>,
    parents: Vec<u16>,
    taken: Vec<u8>,
    sequence: Vec<u8>,
}

impl ByLists {
    pub fn new(room: usize) -> ByLists {
        ByLists {
            lefts: vec![0; room],
            rights: vec![0; room],
            parents: vec![0; room],
            taken: vec![0; room],
            sequence: vec![0; room],
        }
    }

    pub fn compare(&mut self, question: &Question) -> Counts {
        let room = self.sequence.len();
        let lists = pressbadger::Lists {
            lefts: &mut self.lefts,
            rights: &mut self.rights,
            parents: &mut self.parents,
            taken: &mut self.taken,
        };
        let compared = compare_lists(&pattern(question), question.x, question.y, room, lists, &mut self.sequence);
        counts(compared, |columns| columns.lefts.len())
    }
}

/// The comparison over records.
pub struct ByRecords {
    records: Vec<Record>,
    sequence: Vec<u8>,
}

impl ByRecords {
    pub fn new(room: usize) -> ByRecords {
        ByRecords {
            records: vec![Record::default(); room],
            sequence: vec![0; room],
        }
    }

    pub fn compare(&mut self, question: &Question) -> Counts {
        let room = self.sequence.len();
        let compared = compare(&pattern(question), question.x, question.y, room, &mut self.records, &mut self.sequence);
        counts(compared, |records| records.len())
    }
}
