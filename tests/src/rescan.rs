//! A straightforward reducer: it looks through all kinds, targets and partners or atoms again after every step. What a
//! round needs of the whole program (heads, facts, the reach, what an atom derives) it works out once a round. Of two clauses that
//! are equal as left the earlier is no target of the later.
use crate::independent::program::{Clause as Given, Program};
use std::cell::OnceCell;
use std::collections::BTreeSet;

#[derive(PartialEq)]
struct Clause {
    head: Vec<u16>,
    pos: Vec<u16>,
    neg: Vec<u16>,
}

pub struct Reducer {
    atoms: usize,
    clauses: Vec<Option<Clause>>,
}

fn subset(small: &[u16], large: &[u16]) -> bool {
    small.len() <= large.len() && small.iter().all(|atom| large.binary_search(atom).is_ok())
}

impl Clause {
    fn new(given: &Given) -> Clause {
        let part = |set: &BTreeSet<u16>| set.iter().copied().collect();
        Clause { head: part(&given.head), pos: part(&given.pos), neg: part(&given.neg) }
    }

    fn is_fact(&self) -> bool {
        self.pos.is_empty() && self.neg.is_empty()
    }

    /// A constraint of positive atoms alone, and not none.
    fn is_positive_constraint(&self) -> bool {
        self.head.is_empty() && !self.pos.is_empty() && self.neg.is_empty()
    }
}

impl Reducer {
    pub fn new(program: &Program) -> Reducer {
        let clauses = program.clauses.iter().map(|clause| Some(Clause::new(clause))).collect();
        Reducer { atoms: usize::from(program.atoms), clauses }
    }

    /// All steps, four words each.
    pub fn run(&mut self) -> Vec<[u16; 4]> {
        let mut steps = Vec::new();
        while let Some(step) = self.first_step() {
            self.make(step);
            steps.push(step);
        }
        steps
    }

    fn first_step(&self) -> Option<[u16; 4]> {
        let heads = self.heads();
        let in_no_head = |atom: u16| !heads[usize::from(atom)];
        let atom_of = |kind: u16, find: &dyn Fn(&Clause) -> Option<u16>| {
            self.kept().find_map(|(target, clause)| find(clause).map(|atom| [kind, target, 0, atom]))
        };
        let first = |part: &[u16], test: &dyn Fn(u16) -> bool| part.iter().copied().find(|&atom| test(atom));
        atom_of(1, &|c| first(&c.head, &|atom| c.pos.binary_search(&atom).is_ok()))
            .or_else(|| atom_of(2, &|c| first(&c.pos, &|atom| c.neg.binary_search(&atom).is_ok())))
            .or_else(|| self.by_fact(3, |c| &c.pos, |fact| fact.len() == 1))
            .or_else(|| atom_of(4, &|c| first(&c.neg, &in_no_head)))
            .or_else(|| self.by_fact(5, |c| &c.neg, |_| true))
            .or_else(|| atom_of(6, &|c| first(&c.pos, &in_no_head)))
            .or_else(|| {
                // no failure is left, so every atom of a positive body is in some head
                let reach = self.reach();
                atom_of(7, &|c| first(&c.pos, &|atom| !reach[usize::from(atom)]))
            })
            .or_else(|| self.subsumed())
            .or_else(|| self.excluded())
    }

    /// The kept clauses with their numbers.
    fn kept(&self) -> impl Iterator<Item = (u16, &Clause)> {
        self.clauses.iter().enumerate().filter_map(|(number, clause)| Some((number as u16, clause.as_ref()?)))
    }

    fn heads(&self) -> Vec<bool> {
        let mut heads = vec![false; self.atoms];
        for (_, clause) in self.kept() {
            for &atom in &clause.head {
                heads[usize::from(atom)] = true;
            }
        }
        heads
    }

    /// Kinds 3 and 5: a fact whose head is within a part of the target's body.
    fn by_fact(&self, kind: u16, part: fn(&Clause) -> &[u16], allowed: fn(&[u16]) -> bool) -> Option<[u16; 4]> {
        let facts: Vec<(u16, &[u16])> =
            self.kept().filter(|(_, c)| c.is_fact() && allowed(&c.head)).map(|(p, c)| (p, &c.head[..])).collect();
        self.kept().find_map(|(target, clause)| {
            let fits = |&&(fact, head): &&(u16, &[u16])| {
                fact != target && subset(head, part(clause)) && !self.passed_over(kind, target, fact)
            };
            let atom = |head: &[u16]| if kind == 3 { head[0] } else { 0 };
            facts.iter().find(fits).map(|fact| [kind, target, fact.0, atom(fact.1)])
        })
    }

    fn reach(&self) -> Vec<bool> {
        let mut reach = vec![false; self.atoms];
        loop {
            let mut grew = false;
            for (_, clause) in self.kept() {
                if clause.pos.iter().all(|&atom| reach[usize::from(atom)]) {
                    for &atom in &clause.head {
                        grew |= !std::mem::replace(&mut reach[usize::from(atom)], true);
                    }
                }
            }
            if !grew {
                return reach;
            }
        }
    }

    fn subsumed(&self) -> Option<[u16; 4]> {
        self.kept().find_map(|(target, large)| {
            let within = |small: &Clause| {
                subset(&small.head, &large.head) && subset(&small.pos, &large.pos) && subset(&small.neg, &large.neg)
            };
            let fits = |&(partner, small): &(u16, &Clause)| {
                partner != target && within(small) && !self.passed_over(8, target, partner)
            };
            self.kept().find(fits).map(|(partner, _)| [8, target, partner, 0])
        })
    }

    /// Slip 7: the step of kind 5 or 8 whose target is the lower number, where target and partner are equal as left.
    fn passed_over(&self, kind: u16, target: u16, partner: u16) -> bool {
        let clause = |number: u16| &self.clauses[usize::from(number)];
        kind != 3 && target < partner && clause(target) == clause(partner)
    }

    /// Kind 9: the first positive constraint that some atom leads to by definite clauses, and the first such atom.
    fn excluded(&self) -> Option<[u16; 4]> {
        let definite = Definite::new(self);
        let occurring: BTreeSet<u16> =
            self.kept().flat_map(|(_, c)| [&c.head, &c.pos, &c.neg]).flatten().copied().collect();
        let closures = vec![OnceCell::new(); self.atoms];
        self.kept().filter(|(_, clause)| clause.is_positive_constraint()).find_map(|(target, constraint)| {
            let leads = |atom: &&u16| {
                let closure = closures[usize::from(**atom)].get_or_init(|| definite.closure(**atom));
                constraint.pos.iter().all(|&positive| closure[usize::from(positive)])
            };
            occurring.iter().find(leads).map(|&atom| [9, target, 0, atom])
        })
    }

    /// Clauses with the atom in their positive body go, the others lose it.
    fn exclude(&mut self, atom: u16) {
        for place in &mut self.clauses {
            let Some(clause) = place else { continue };
            if clause.pos.contains(&atom) {
                *place = None;
            } else {
                clause.head.retain(|&other| other != atom);
                clause.neg.retain(|&other| other != atom);
            }
        }
    }

    fn make(&mut self, [kind, target, _, atom]: [u16; 4]) {
        let target = usize::from(target);
        match kind {
            3 => self.clauses[target].as_mut().unwrap().pos.retain(|&other| other != atom),
            4 => self.clauses[target].as_mut().unwrap().neg.retain(|&other| other != atom),
            9 => self.exclude(atom),
            _ => self.clauses[target] = None,
        }
    }
}

/// The definite clauses, those of one head atom and no negative one: their heads, how many positive atoms each has, and which of
/// them wait for an atom.
struct Definite {
    heads: Vec<u16>,
    missing: Vec<usize>,
    waiting: Vec<Vec<usize>>,
}

impl Definite {
    fn new(reducer: &Reducer) -> Definite {
        let clauses: Vec<&Clause> =
            reducer.kept().map(|(_, clause)| clause).filter(|c| c.head.len() == 1 && c.neg.is_empty()).collect();
        let mut waiting = vec![Vec::new(); reducer.atoms];
        for (number, clause) in clauses.iter().enumerate() {
            clause.pos.iter().for_each(|&atom| waiting[usize::from(atom)].push(number));
        }
        let heads = clauses.iter().map(|clause| clause.head[0]).collect();
        Definite { heads, missing: clauses.iter().map(|clause| clause.pos.len()).collect(), waiting }
    }

    /// What follows from the atom: the smallest set that holds it and the head of each clause whose positive atoms it holds.
    fn closure(&self, atom: u16) -> Vec<bool> {
        let mut missing = self.missing.clone();
        let facts = (0..missing.len()).filter(|&number| missing[number] == 0).map(|number| self.heads[number]);
        let (mut open, mut closure) = (facts.chain([atom]).collect::<Vec<_>>(), vec![false; self.waiting.len()]);
        while let Some(next) = open.pop() {
            if std::mem::replace(&mut closure[usize::from(next)], true) {
                continue;
            }
            for &number in &self.waiting[usize::from(next)] {
                missing[number] -= 1;
                if missing[number] == 0 {
                    open.push(self.heads[number]);
                }
            }
        }
        closure
    }
}
