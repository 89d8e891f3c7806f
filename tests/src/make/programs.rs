//! Random programs.
use crate::independent::program::{Clause, Program, Set};
use crate::random::Random;
use std::ops::Range;

/// At most so many atoms, clauses and atoms a part.
#[derive(Clone, Copy)]
pub struct Size {
    pub atoms: usize,
    pub clauses: usize,
    pub part: usize,
}

pub const TINY: Size = Size { atoms: 4, clauses: 6, part: 2 };
pub const SMALL: Size = Size { atoms: 8, clauses: 14, part: 3 };
pub const MIDDLE: Size = Size { atoms: 60, clauses: 100, part: 4 };

/// A program that some steps apply to: facts, clauses like earlier ones, and bodies that reach few atoms.
pub fn program(random: &mut Random, size: Size) -> Program {
    let atoms = random.upto(size.atoms) as u16;
    let facts = 2 + random.upto(4);
    let mut program = Program { atoms, clauses: Vec::new() };
    for _ in 0..random.upto(size.clauses) {
        let clause = if random.once_in(8) && !program.clauses.is_empty() {
            let number = random.upto(program.clauses.len() - 1);
            varied(random, atoms, program.clauses[number].clone())
        } else {
            clause(random, atoms, size.part, facts)
        };
        program.clauses.push(clause);
    }
    program
}

/// Every program of so many atoms and clauses. A number's bits say of each atom whether it is in a part.
pub fn every(atoms: u16, clauses: u16) -> impl Iterator<Item = Program> {
    let part = move |number: u64, first: u16| (0..atoms).filter(|atom| number >> (first + atom) & 1 == 1).collect();
    let clause = move |number: u64, first: u16| {
        let part = |skipped: u16| part(number, first + skipped * atoms);
        Clause { head: part(0), pos: part(1), neg: part(2) }
    };
    let program = move |number: u64| (0..clauses).map(|i| clause(number, 3 * atoms * i)).collect();
    (0..1u64 << (3 * atoms * clauses)).map(move |number| Program { atoms, clauses: program(number) })
}

/// The program with one clause varied, two exchanged, or an atom more.
pub fn near(random: &mut Random, program: &Program) -> Program {
    let (mut near, clauses) = (program.clone(), program.clauses.len());
    match random.upto(3) {
        0 => near.atoms += 1,
        1 if clauses > 0 => near.clauses.swap(0, random.upto(clauses - 1)),
        _ if clauses > 0 => {
            let number = random.upto(clauses - 1);
            near.clauses[number] = varied(random, program.atoms, program.clauses[number].clone());
        }
        _ => {}
    }
    near
}

/// A program that often has several stable models: atoms of which one or the other holds, by negation or by disjunction,
/// and few facts.
pub fn choices(random: &mut Random, size: Size) -> Program {
    let atoms = random.upto(size.atoms) as u16;
    let mut program = Program { atoms, clauses: Vec::new() };
    for _ in 0..random.upto(size.clauses / 2) {
        let (one, other, body) = (part(random, atoms, 1), part(random, atoms, 1), part(random, atoms, 1));
        let either = |head: &Set, neg: &Set| Clause { head: head.clone(), pos: Set::new(), neg: neg.clone() };
        match random.upto(4) {
            0 | 1 => program.clauses.extend([either(&one, &other), either(&other, &one)]),
            2 => program.clauses.push(either(&(&one | &other), &Set::new())),
            3 => program.clauses.push(either(&(&one | &other), &body)),
            _ => program.clauses.push(clause(random, atoms, size.part, 8)),
        }
    }
    program
}

/// A program that often has circles outside the reach: short positive bodies, and few facts.
pub fn circular(random: &mut Random, size: Size) -> Program {
    let atoms = 1 + random.upto(size.atoms - 1) as u16;
    let ring = (1, 1, 0);
    let clause = |random: &mut Random| {
        let counts =
            random.pick(&[ring, ring, ring, ring, ring, (1, 2, 0), (2, 1, 0), (1, 1, 1), (0, 1, 1), (2, 0, 1)]);
        let mut of = |count: usize| part(random, atoms, count);
        Clause { head: of(counts.0), pos: of(counts.1), neg: of(counts.2) }
    };
    let clauses = (0..=random.upto(size.clauses)).map(|_| clause(random)).collect();
    Program { atoms, clauses }
}

/// A program in which clauses often are equal, or become so: every other clause is a copy of one before. To some a condition is
/// added that is a fact, to some a negative atom that is in no head, and steps drop both again; some have an atom more or less.
pub fn copies(random: &mut Random, size: Size) -> Program {
    let atoms = random.upto(size.atoms) as u16;
    let (fact, in_no_head) = (atoms, atoms + 1);
    let mut clauses = vec![Clause { head: [fact].into(), ..Clause::default() }];
    match random.upto(3) {
        0 | 1 => clauses.push(Clause { head: (0..atoms).collect(), ..Clause::default() }),
        2 if random.once_in(2) => clauses.push(Clause::default()),
        _ => {}
    }
    for _ in 0..random.upto(size.clauses) {
        let mut made = match random.once_in(2) {
            true => clauses[random.upto(clauses.len() - 1)].clone(),
            false => clause(random, atoms, size.part, 4),
        };
        match random.upto(5) {
            0 => drop(made.pos.insert(fact)),
            1 => drop(made.neg.insert(in_no_head)),
            2 => made = varied(random, atoms, made),
            _ => {}
        }
        clauses.insert(random.upto(clauses.len()), made);
    }
    Program { atoms: atoms + 2, clauses }
}

/// A program in which atoms often can't be: constraints of one or two positive atoms, definite clauses that lead to them, and
/// disjunctions and negations that keep both from going otherwise; at times an atom more, which is in no clause.
pub fn exclusions(random: &mut Random, size: Size) -> Program {
    const COUNTS: [(usize, usize, usize); 17] = [
        (0, 1, 0),
        (0, 1, 0),
        (0, 2, 0),
        (0, 1, 1),
        (1, 0, 0),
        (1, 1, 0),
        (1, 1, 0),
        (1, 1, 0),
        (1, 2, 0),
        (1, 0, 1),
        (1, 0, 1),
        (1, 1, 1),
        (2, 0, 0),
        (2, 0, 0),
        (2, 1, 0),
        (2, 0, 1),
        (3, 0, 1),
    ];
    let atoms = 2 + random.upto(size.atoms - 2) as u16;
    let clause = |random: &mut Random| {
        let (heads, positive, negative) = random.pick(&COUNTS);
        let mut of = |count: usize| part(random, atoms, count);
        Clause { head: of(heads), pos: of(positive), neg: of(negative) }
    };
    let clauses = (0..=random.upto(size.clauses)).map(|_| clause(random)).collect();
    Program { atoms: atoms + random.upto(1) as u16, clauses }
}

/// A disjunctive fact of each so many of the atoms: a set that satisfies them lacks fewer than so many.
pub fn one_of_any(atoms: Range<u16>, many: u32) -> Vec<Clause> {
    let numbers = (0u32..1 << atoms.len()).filter(|bits| bits.count_ones() == many);
    let head = |bits: u32| atoms.clone().filter(|atom| bits >> (atom - atoms.start) & 1 == 1).collect();
    numbers.map(|bits| Clause { head: head(bits), ..Clause::default() }).collect()
}

fn clause(random: &mut Random, atoms: u16, most: usize, facts: usize) -> Clause {
    let heads = random.pick(&[0, 1, 1, 1, 1, 1, 1, 2, 2, most]);
    let head = part(random, atoms, heads);
    if random.once_in(facts) {
        return Clause { head, ..Clause::default() };
    }
    let (positive, negative) = (random.upto(most), random.upto(most));
    Clause { head, pos: part(random, atoms, positive), neg: part(random, atoms, negative) }
}

/// An earlier clause, with an atom more or less in one part.
fn varied(random: &mut Random, atoms: u16, mut clause: Clause) -> Clause {
    let other = part(random, atoms, 1);
    let changed = match random.upto(2) {
        0 => &mut clause.head,
        1 => &mut clause.pos,
        _ => &mut clause.neg,
    };
    *changed = changed.symmetric_difference(&other).copied().collect();
    clause
}

/// At most `most` atoms.
pub fn part(random: &mut Random, atoms: u16, most: usize) -> Set {
    let count = if atoms == 0 { 0 } else { most };
    (0..count).map(|_| random.upto(usize::from(atoms) - 1) as u16).collect()
}

/// Most often the smallest size.
pub fn any_size(random: &mut Random) -> Size {
    random.pick(&[TINY, TINY, SMALL])
}
