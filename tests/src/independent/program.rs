//! Programs: clauses as three sets of atoms.
use std::collections::BTreeSet;

pub type Set = BTreeSet<u16>;

#[derive(Clone, Debug, Default, PartialEq, Eq)]
pub struct Clause {
    pub head: Set,
    pub pos: Set,
    pub neg: Set,
}

#[derive(Clone, Debug, Default, PartialEq, Eq)]
pub struct Program {
    pub atoms: u16,
    pub clauses: Vec<Clause>,
}

impl Clause {
    /// "one with p = q = 0 is a fact, even where h is 0 or above 1"
    pub fn is_fact(&self) -> bool {
        self.pos.is_empty() && self.neg.is_empty()
    }
}

/// The words of a program: n, m, then each clause's counts and parts.
pub fn words(program: &Program) -> Vec<u16> {
    let mut words = vec![program.atoms, program.clauses.len() as u16];
    for clause in &program.clauses {
        let parts = [&clause.head, &clause.pos, &clause.neg];
        words.extend(parts.map(|part| part.len() as u16));
        for part in parts {
            words.extend(part);
        }
    }
    words
}

/// "0|1 <- 2, ~3" as document 01 writes clauses, several with a full stop behind each.
pub fn parse(atoms: u16, text: &str) -> Program {
    let clauses = text.split_terminator('.').map(clause).collect();
    Program { atoms, clauses }
}

fn clause(text: &str) -> Clause {
    let (head, body) = text.split_once("<-").unwrap_or((text, ""));
    let atom = |word: &str| word.trim().parse::<u16>().unwrap();
    let mut clause = Clause::default();
    clause.head.extend(head.split('|').filter(|word| !word.trim().is_empty()).map(atom));
    for literal in body.split(',').map(str::trim).filter(|literal| !literal.is_empty()) {
        match literal.strip_prefix('~') {
            Some(word) => clause.neg.insert(atom(word)),
            None => clause.pos.insert(atom(literal)),
        };
    }
    clause
}
