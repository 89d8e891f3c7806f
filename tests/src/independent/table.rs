//! The table: questions 1 to 8, and what its marks leave.
use super::program::{Clause, Program, Set};
use super::{ask, Answer, Refused};
use std::ops::Range;

/// Where a clause stands: its first word and its three parts.
#[derive(Clone, Debug)]
pub struct Span {
    pub first: usize,
    pub head: Range<usize>,
    pub pos: Range<usize>,
    pub neg: Range<usize>,
}

#[derive(Clone, Debug)]
pub struct Table<'a> {
    pub words: &'a [u16],
    pub atoms: u16,
    pub spans: Vec<Span>,
}

pub fn check_table(words: &[u16]) -> Answer {
    Table::read(words).map(|_| 0)
}

impl<'a> Table<'a> {
    /// Questions 1 to 8.
    pub fn read(words: &'a [u16]) -> Result<Table<'a>, Refused> {
        ask((2..=8192).contains(&words.len()), 1, 0)?;
        let (atoms, clauses) = (words[0], words[1]);
        ask(atoms <= 1024, 2, 0)?;
        ask(clauses <= 2048, 3, 1)?;
        let mut table = Table { words, atoms, spans: Vec::new() };
        let mut at = 2;
        for _ in 0..clauses {
            let span = table.clause(at)?;
            at = span.neg.end;
            table.spans.push(span);
        }
        ask(at == words.len(), 8, at)?;
        Ok(table)
    }

    /// Questions 4 to 7 of the clause whose first word is at `first`.
    fn clause(&self, first: usize) -> Result<Span, Refused> {
        let left = self.words.len() - first;
        ask(left >= 3, 4, first)?;
        let count = |i: usize| usize::from(self.words[first + i]);
        ask(left - 3 >= count(0) + count(1) + count(2), 5, first)?;
        let head = first + 3..first + 3 + count(0);
        let pos = head.end..head.end + count(1);
        let neg = pos.end..pos.end + count(2);
        for part in [&head, &pos, &neg] {
            for place in part.clone() {
                ask(self.words[place] < self.atoms, 6, place)?;
                ask(place == part.start || self.words[place] > self.words[place - 1], 7, place)?;
            }
        }
        Ok(Span { first, head, pos, neg })
    }

    /// "m plus all body literals"; slip 8: "17 counts all literals"
    pub fn clauses_and_literals(&self) -> usize {
        self.spans.iter().map(|span| 1 + span.head.len() + span.pos.len() + span.neg.len()).sum()
    }

    /// "those of its atoms whose mark is 1"
    fn part(&self, marks: &[u8], part: &Range<usize>) -> Set {
        part.clone().filter(|&place| marks[place] == 1).map(|place| self.words[place]).collect()
    }

    /// Each clause by its number, as left; `None` where it is deleted.
    pub fn left(&self, marks: &[u8]) -> Vec<Option<Clause>> {
        let clause = |span: &Span| Clause {
            head: self.part(marks, &span.head),
            pos: self.part(marks, &span.pos),
            neg: self.part(marks, &span.neg),
        };
        self.spans.iter().map(|span| (marks[span.first] == 1).then(|| clause(span))).collect()
    }

    /// "The program as marks leave it has the same n and the kept clauses".
    pub fn program_left(&self, marks: &[u8]) -> Program {
        Program { atoms: self.atoms, clauses: self.left(marks).into_iter().flatten().collect() }
    }

    /// The program as given.
    pub fn program(&self) -> Program {
        self.program_left(&vec![1; self.words.len()])
    }
}
