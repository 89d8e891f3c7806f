//! Stable models, the test of a set: 19, 20, 21; and their list: 30, 31.
use super::program::{Clause, Program, Set};
use super::table::Table;
use super::{ask, Answer};

pub fn test(words: &[u16], set: &[u16]) -> Answer {
    let table = Table::read(words)?;
    ask(set.len() <= 16, 19, 0)?;
    for (entry, &atom) in set.iter().enumerate() {
        ask(atom < table.atoms, 20, entry)?;
        ask(entry == 0 || atom > set[entry - 1], 21, entry)?;
    }
    Ok(u64::from(is_stable(&table.program(), &set.iter().copied().collect())))
}

/// "M is stable when it satisfies every clause left and no proper subset of M does."
pub fn is_stable(program: &Program, model: &Set) -> bool {
    let reduct = reduct(program, model);
    let satisfied = |set: &Set| reduct.iter().all(|clause| satisfies(set, clause));
    satisfied(model) && !proper_subsets(model).any(|subset| satisfied(&subset))
}

/// "remove each clause that has a negative atom in M, and strip the negative atoms from the others"
fn reduct(program: &Program, model: &Set) -> Vec<Clause> {
    let stays = program.clauses.iter().filter(|clause| clause.neg.is_disjoint(model));
    stays.map(|clause| Clause { neg: Set::new(), ..clause.clone() }).collect()
}

/// "some positive atom is outside the set or some head atom is inside"
fn satisfies(set: &Set, clause: &Clause) -> bool {
    !clause.pos.is_subset(set) || !clause.head.is_disjoint(set)
}

fn proper_subsets(set: &Set) -> impl Iterator<Item = Set> + '_ {
    let subset = |bits: usize| set.iter().enumerate().filter(move |(i, _)| bits >> i & 1 == 1).map(|(_, &atom)| atom);
    (0..(1usize << set.len()) - 1).map(move |bits| subset(bits).collect())
}

/// Every stable model of a program of few atoms, over all its sets.
pub fn models(program: &Program) -> Vec<Set> {
    let all: Set = (0..program.atoms).collect();
    let sets = proper_subsets(&all).chain([all.clone()]);
    sets.filter(|set| is_stable(program, set)).collect()
}

/// Slip 3: "write every stable model as one word". The answer, and the out slice afterwards.
pub fn list(words: &[u16], out: &[u16]) -> (Answer, Vec<u16>) {
    let mut out = out.to_vec();
    let answer = list_on(words, &mut out);
    (answer, out)
}

fn list_on(words: &[u16], out: &mut [u16]) -> Answer {
    let table = Table::read(words)?;
    ask(table.atoms <= 16, 30, 0)?;
    let mut listed: Vec<u16> = models(&table.program()).iter().map(word).collect();
    listed.sort_unstable();
    ask(out.len() >= listed.len(), 31, 0)?;
    out[..listed.len()].copy_from_slice(&listed);
    Ok(listed.len() as u64)
}

/// "the sum of 2 to the power of each atom in it"
pub fn word(set: &Set) -> u16 {
    set.iter().map(|&atom| 2u16.pow(atom.into())).sum()
}
