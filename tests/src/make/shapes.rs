//! Programs of given shapes, up to the largest that a table holds. Each shape is hard for some way of reducing.
use super::programs::part;
use crate::independent::program::{words, Clause, Program};
use crate::random::Random;

/// A shape: `program(size)` for a size from 1 to `full`.
pub struct Shape {
    pub name: &'static str,
    pub full: usize,
    pub program: fn(usize) -> Program,
}

pub const SHAPES: [Shape; 22] = [
    Shape { name: "random sparse", full: 2048, program: sparse },
    Shape { name: "random sparse with constraints", full: 2048, program: sparse_with_constraints },
    Shape { name: "chain of facts against clause order", full: 1024, program: chain },
    Shape { name: "one clause of a thousand conditions", full: 1000, program: conditions },
    Shape { name: "two thousand equal facts", full: 2047, program: equal_facts },
    Shape { name: "a thousand facts, each twice", full: 1023, program: facts_twice },
    Shape { name: "a thousand facts, then their copies", full: 1023, program: facts_and_copies },
    Shape { name: "eight hundred equal rules", full: 817, program: equal_rules },
    Shape { name: "clauses that drops make equal", full: 481, program: made_equal },
    Shape { name: "two thousand empty clauses", full: 2048, program: empty_clauses },
    Shape { name: "deep positive loops", full: 511, program: loops },
    Shape { name: "a reach a thousand rounds deep", full: 1000, program: deep_reach },
    Shape { name: "subsumption with late partners", full: 511, program: late_partners },
    Shape { name: "kinds that open one another", full: 255, program: cascade },
    Shape { name: "bodies of twelve that all go", full: 500, program: bodies },
    Shape { name: "a thousand constraints that never fire", full: 512, program: idle_constraints },
    Shape { name: "a circle of six hundred atoms that can't be", full: 200, program: excluded_circle },
    Shape { name: "a constraint handed on along a chain", full: 1000, program: excluded_chain },
    Shape { name: "disjunctions that constraints make facts", full: 255, program: shrinking_heads },
    Shape { name: "a chain behind a constraint that never fires", full: 1000, program: chain_behind_idle_constraint },
    Shape { name: "constraints against the order of their atoms", full: 512, program: against_atoms },
    Shape { name: "each constraint behind one that never fires", full: 256, program: each_behind_idle_constraint },
];

fn clause(head: &[usize], pos: &[usize], neg: &[usize]) -> Clause {
    let part = |atoms: &[usize]| atoms.iter().map(|&atom| atom as u16).collect();
    Clause { head: part(head), pos: part(pos), neg: part(neg) }
}

fn program(atoms: usize, clauses: Vec<Clause>) -> Program {
    Program { atoms: atoms as u16, clauses }
}

fn sparse(size: usize) -> Program {
    random_clauses(size, usize::MAX)
}

fn sparse_with_constraints(size: usize) -> Program {
    random_clauses(size, 10)
}

/// Up to `size` random clauses over half as many atoms; one in `constraints` has no head.
fn random_clauses(size: usize, constraints: usize) -> Program {
    let mut random = Random::new(size as u64);
    let atoms = 1 + size / 2;
    let mut made = program(atoms.min(1024), Vec::new());
    let mut length = 2;
    for _ in 0..size {
        let heads = if random.once_in(constraints.min(1 << 40)) { 0 } else { 1 };
        let head = part(&mut random, made.atoms, heads);
        let (positive, negative) = random.pick(&[(0, 0), (1, 0), (1, 0), (0, 1), (1, 1), (2, 0)]);
        let pos = part(&mut random, made.atoms, positive);
        let neg = part(&mut random, made.atoms, negative);
        length += 3 + head.len() + pos.len() + neg.len();
        if length > 8192 {
            break;
        }
        made.clauses.push(Clause { head, pos, neg });
    }
    made
}

/// 0 <- 1. 1 <- 2. and so on to a last fact: each success makes the clause before it a fact.
fn chain(size: usize) -> Program {
    let mut clauses: Vec<Clause> = (1..size).map(|i| clause(&[i - 1], &[i], &[])).collect();
    clauses.push(clause(&[size - 1], &[], &[]));
    program(size, clauses)
}

/// As many facts as one clause has conditions, which all succeed.
fn conditions(size: usize) -> Program {
    let mut clauses: Vec<Clause> = (0..size).map(|i| clause(&[i], &[], &[])).collect();
    clauses.push(clause(&[size], &(0..size).collect::<Vec<_>>(), &[]));
    program(size + 1, clauses)
}

fn equal_facts(size: usize) -> Program {
    program(1, vec![clause(&[0], &[], &[]); size])
}

/// 0. 0. 1. 1. and so on.
fn facts_twice(size: usize) -> Program {
    program(size, (0..2 * size).map(|i| clause(&[i / 2], &[], &[])).collect())
}

/// 0. 1. and so on, and all of them again.
fn facts_and_copies(size: usize) -> Program {
    program(size, (0..2 * size).map(|i| clause(&[i % size], &[], &[])).collect())
}

/// A rule whose body stays, behind the disjunction that its atoms are in, again and again.
fn equal_rules(size: usize) -> Program {
    let mut clauses = vec![clause(&[0, 1, 2, 3, 4, 5, 6, 7], &[], &[])];
    clauses.extend(vec![clause(&[8], &[0, 1, 2], &[4, 5, 6]); size]);
    program(9, clauses)
}

/// Rules with a condition that is a fact, then the same rules without it, then those with a negative atom that is in no head:
/// once these are dropped, each rule stands three times.
fn made_equal(size: usize) -> Program {
    let (either, other, fact, in_no_head) = (size, size + 1, size + 2, size + 3);
    let mut clauses = vec![clause(&[either, other], &[], &[]), clause(&[fact], &[], &[])];
    clauses.extend((0..size).map(|i| clause(&[i], &[either, fact], &[])));
    clauses.extend((0..size).map(|i| clause(&[i], &[either], &[])));
    clauses.extend((0..size).map(|i| clause(&[i], &[either], &[in_no_head])));
    program(size + 4, clauses)
}

fn empty_clauses(size: usize) -> Program {
    program(0, vec![clause(&[], &[], &[]); size])
}

/// Rings of 16 atoms, each derived from either of the next two and from nothing outside, behind a chain that stays.
fn loops(size: usize) -> Program {
    let ring = size.min(16);
    let rings = size / ring * ring;
    let next = |i: usize, by: usize| i / ring * ring + (i + by) % ring;
    let two = |i: usize| [1, 2].map(|by| clause(&[i], &[next(i, by)], &[]));
    let mut clauses = vec![clause(&[rings, rings + 1], &[], &[])];
    clauses.extend((rings..rings + size).map(|i| clause(&[i + 1], &[i], &[])));
    clauses.extend((0..rings).flat_map(two).filter(|clause| clause.head != clause.pos));
    program(rings + size + 1, clauses)
}

/// A chain from a disjunctive fact, against clause order, and rings of two that it doesn't reach, each derived twice.
fn deep_reach(size: usize) -> Program {
    let rings = size / 8;
    let deep = size - 2 * rings;
    let mut clauses: Vec<Clause> = (1..deep).rev().map(|i| clause(&[i], &[i - 1], &[])).collect();
    clauses.push(clause(&[0, size], &[], &[]));
    for (a, b) in (0..rings).map(|ring| (deep + 2 * ring, deep + 2 * ring + 1)) {
        clauses.extend([clause(&[a], &[b], &[]), clause(&[a], &[b], &[0]), clause(&[b], &[a], &[])]);
    }
    program(size + 1, clauses)
}

/// Clauses that nothing subsumes, then clauses whose only partner stands behind them all.
fn late_partners(size: usize) -> Program {
    let mut clauses = vec![clause(&[0, 1], &[], &[])];
    clauses.extend((0..size).map(|i| clause(&[2 + i], &[0], &[])));
    clauses.extend((0..size).map(|i| clause(&[2 + size + i], &[0, 1], &[])));
    clauses.extend((0..size).map(|i| clause(&[2 + size + i], &[0], &[])));
    program(2 * size + 2, clauses)
}

/// Rounds of success, blocked, no head and failure, each opened by the one before; the rounds stand against clause order.
fn cascade(size: usize) -> Program {
    let mut clauses = Vec::new();
    for (a, b, c, d) in (0..size).rev().map(|i| (4 * i, 4 * i + 1, 4 * i + 2, 4 * i + 3)) {
        clauses.extend([
            clause(&[d], &[c], &[]),
            clause(&[a + 4], &[], &[c]),
            clause(&[c], &[], &[b]),
            clause(&[b], &[a], &[]),
        ]);
    }
    clauses.push(clause(&[0], &[], &[]));
    program(4 * size + 1, clauses)
}

/// Pairs of equal clauses whose bodies go literal by literal: six facts, the head of the next pair, which is a fact in the
/// end, and five atoms that are in no head. So the last pair becomes facts first; then the later of each pair is subsumed.
fn bodies(size: usize) -> Program {
    let pairs = size.div_ceil(2);
    let (facts, in_no_head) = (pairs..pairs + 6, pairs + 6..pairs + 11);
    let body = |pair: usize| (pair + 1..pairs.min(pair + 2)).chain(facts.clone()).collect::<Vec<_>>();
    let negative: Vec<usize> = in_no_head.collect();
    let mut clauses: Vec<Clause> = (0..size).map(|i| clause(&[i / 2], &body(i / 2), &negative)).collect();
    clauses.extend(facts.clone().map(|atom| clause(&[atom], &[], &[])));
    program(pairs + 11, clauses)
}

/// One atom of each two holds, and no atom leads to both atoms of a constraint.
fn idle_constraints(size: usize) -> Program {
    let mut clauses: Vec<Clause> = (0..size).map(|i| clause(&[2 * i, 2 * i + 1], &[], &[])).collect();
    clauses.extend((2..2 * size).map(|i| clause(&[], &[i - 2, i], &[])));
    program(2 * size, clauses)
}

/// A circle in which every third atom has a rule from outside too, and a constraint has its last atom and another: each of those
/// that have one leads to the constraint, goes, and takes the two behind it along, which then are in no head.
fn excluded_circle(size: usize) -> Program {
    let ring = 3 * size;
    let mut clauses: Vec<Clause> = (0..ring).map(|i| clause(&[(i + 1) % ring], &[i], &[])).collect();
    clauses.extend((0..size).map(|i| clause(&[3 * i], &[], &[ring + i])));
    clauses.extend((0..size).map(|i| clause(&[ring + i, ring + size], &[], &[])));
    clauses.push(clause(&[], &[ring / 2, ring - 1], &[]));
    program(ring + size + 1, clauses)
}

/// 0 <- 1. 1 <- 2. and so on, and <- 0.: each rule that loses its head is the constraint of the next atom.
fn excluded_chain(size: usize) -> Program {
    let mut clauses: Vec<Clause> = (1..size).map(|i| clause(&[i - 1], &[i], &[])).collect();
    clauses.push(clause(&[size - 1], &[], &[size]));
    clauses.push(clause(&[size], &[], &[size - 1]));
    clauses.push(clause(&[], &[0], &[]));
    program(size + 1, clauses)
}

/// Rounds against clause order: a constraint makes a disjunction a fact, which opens success, blocked and failure, and shortens
/// the next round's constraint to one atom.
fn shrinking_heads(size: usize) -> Program {
    let mut clauses = Vec::new();
    for (a, b, c, d) in (0..size).rev().map(|i| (4 * i, 4 * i + 1, 4 * i + 2, 4 * i + 3)) {
        let constraint = if a > 0 { clause(&[], &[a - 2, a], &[]) } else { clause(&[], &[a], &[]) };
        clauses.extend([clause(&[c], &[d], &[]), clause(&[d], &[], &[b]), constraint]);
        clauses.extend([clause(&[c], &[b], &[]), clause(&[a, b], &[], &[])]);
    }
    program(4 * size, clauses)
}

/// The chain of `excluded_chain`, behind a constraint of two atoms that none leads to: each search follows every atom.
fn chain_behind_idle_constraint(size: usize) -> Program {
    let Program { atoms, clauses } = excluded_chain(size);
    let [a, b, c, d] = [0, 1, 2, 3].map(|i| usize::from(atoms) + i);
    let idle = [clause(&[], &[a, b], &[]), clause(&[a, c], &[], &[]), clause(&[b, d], &[], &[])];
    program(usize::from(atoms) + 4, [idle.to_vec(), clauses].concat())
}

/// One atom of each two can't be, and the constraints of these stand against the order of their atoms.
fn against_atoms(size: usize) -> Program {
    let mut clauses: Vec<Clause> = (0..size).rev().map(|i| clause(&[], &[2 * i], &[])).collect();
    clauses.extend((0..size).map(|i| clause(&[2 * i, 2 * i + 1], &[], &[])));
    program(2 * size, clauses)
}

/// The same, and before each but the first a constraint of two further atoms that none leads to.
fn each_behind_idle_constraint(size: usize) -> Program {
    let idle = |i: usize| clause(&[], &[2 * (size + i), 2 * (size + i + 1)], &[]);
    let constraints = |i: usize| (i + 1 < size).then(|| idle(i)).into_iter().chain([clause(&[], &[2 * i], &[])]);
    let mut clauses: Vec<Clause> = (0..size).rev().flat_map(constraints).collect();
    clauses.extend((0..2 * size).map(|i| clause(&[2 * i, 2 * i + 1], &[], &[])));
    program(4 * size, clauses)
}

impl Shape {
    pub fn table(&self, size: usize) -> Vec<u16> {
        words(&(self.program)(size))
    }
}
