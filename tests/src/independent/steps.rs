//! The nine steps.
use super::program::{Clause, Set};
use super::table::{Span, Table};
use std::cell::OnceCell;
use std::ops::{Range, RangeInclusive};

/// "12 Is the kind 1 to 8?"; slip 8: "Question 12 allows 9".
pub const KINDS: RangeInclusive<u16> = 1..=9;

#[derive(Clone, Copy, Debug, PartialEq, Eq)]
pub struct Step {
    pub kind: u16,
    pub target: u16,
    pub partner: u16,
    pub atom: u16,
}

impl Step {
    pub fn new(kind: u16, target: u16, partner: u16, atom: u16) -> Step {
        Step { kind, target, partner, atom }
    }

    pub fn words(&self) -> [u16; 4] {
        [self.kind, self.target, self.partner, self.atom]
    }
}

/// "Kinds 1, 2, 4, 6, 7 have no partner word"; slip 8, of kind 9: "the partner is unused"
pub fn has_partner(kind: u16) -> bool {
    matches!(kind, 3 | 5 | 8)
}

/// "kinds 3, 5, 8 no atom word"; slip 1: "The atom word of kind 3 now holds that atom"
pub fn has_atom(kind: u16) -> bool {
    !matches!(kind, 5 | 8)
}

/// The program as left at one moment.
pub struct Left {
    pub atoms: u16,
    pub clauses: Vec<Option<Clause>>,
    heads: OnceCell<Set>,
    reach: OnceCell<Set>,
    derived: Vec<OnceCell<Set>>,
}

impl Left {
    pub fn new(table: &Table, marks: &[u8]) -> Left {
        let derived = vec![OnceCell::new(); usize::from(table.atoms)];
        Left { atoms: table.atoms, clauses: table.left(marks), heads: OnceCell::new(), reach: OnceCell::new(), derived }
    }

    pub fn kept(&self, clause: u16) -> Option<&Clause> {
        self.clauses.get(usize::from(clause))?.as_ref()
    }

    /// Whether an atom is "in the head of no kept clause".
    pub fn in_no_head(&self, atom: u16) -> bool {
        let heads = || self.clauses.iter().flatten().flat_map(|clause| clause.head.iter().copied()).collect();
        !self.heads.get_or_init(heads).contains(&atom)
    }

    /// "the smallest set that holds all head atoms of every kept clause whose positive atoms it holds"
    fn reach(&self) -> &Set {
        self.reach.get_or_init(|| {
            let mut reach = Set::new();
            loop {
                let before = reach.len();
                for clause in self.clauses.iter().flatten() {
                    if clause.pos.is_subset(&reach) {
                        reach.extend(&clause.head);
                    }
                }
                if reach.len() == before {
                    return reach;
                }
            }
        })
    }

    /// Slip 8: "the atom a occurs in a kept clause".
    pub fn occurs(&self, atom: u16) -> bool {
        let has = |clause: &Clause| [&clause.head, &clause.pos, &clause.neg].iter().any(|part| part.contains(&atom));
        self.clauses.iter().flatten().any(has)
    }

    /// Slip 8: "Let D be the smallest set that holds a and the head of each kept clause with one head atom, no negative atoms
    /// and all positive atoms in D."
    pub fn derived_from(&self, atom: u16) -> &Set {
        self.derived[usize::from(atom)].get_or_init(|| {
            let mut derived = Set::from([atom]);
            loop {
                let before = derived.len();
                for clause in self.clauses.iter().flatten() {
                    if clause.head.len() == 1 && clause.neg.is_empty() && clause.pos.is_subset(&derived) {
                        derived.extend(&clause.head);
                    }
                }
                if derived.len() == before {
                    return derived;
                }
            }
        })
    }

    /// Slip 8: "The target is a kept constraint with at least one positive and no negative atom .. The step applies when the
    /// target's positive atoms are all in D."
    fn excludes(&self, target: &Clause, atom: u16) -> bool {
        let positive_constraint = target.head.is_empty() && !target.pos.is_empty() && target.neg.is_empty();
        positive_constraint && self.occurs(atom) && target.pos.is_subset(self.derived_from(atom))
    }

    /// Whether the step's condition holds. The target and the partner are kept, different clauses.
    pub fn condition(&self, step: Step) -> bool {
        let Some(target) = self.kept(step.target) else { return false };
        let atom = &step.atom;
        let partner = |holds: &dyn Fn(&Clause) -> bool| self.kept(step.partner).is_some_and(holds);
        match step.kind {
            1 => target.head.contains(atom) && target.pos.contains(atom),
            2 => target.pos.contains(atom) && target.neg.contains(atom),
            3 => partner(&|fact| fact.is_fact() && fact.head == Set::from([*atom]) && target.pos.contains(atom)),
            4 => target.neg.contains(atom) && self.in_no_head(*atom),
            5 => partner(&|fact| fact.is_fact() && fact.head.is_subset(&target.neg)),
            6 => target.pos.contains(atom) && self.in_no_head(*atom),
            7 => target.pos.contains(atom) && !self.reach().contains(atom),
            8 => partner(&|small| {
                small.head.is_subset(&target.head)
                    && small.pos.is_subset(&target.pos)
                    && small.neg.is_subset(&target.neg)
            }),
            9 => self.excludes(target, *atom),
            _ => false,
        }
    }

    /// Slip 1, question 29: a no "for kind 3 only, where the partner's head as left is one atom and the word differs from it".
    pub fn atom_matches(&self, step: Step) -> bool {
        let differs = |partner: &Clause| partner.head.len() == 1 && !partner.head.contains(&step.atom);
        step.kind != 3 || !self.kept(step.partner).is_some_and(differs)
    }

    /// Slip 6, question 32: a no for "A step of kind 7 whose atom is in no kept head, in the target's body or not".
    pub fn atom_headed(&self, step: Step) -> bool {
        step.kind != 7 || !self.in_no_head(step.atom)
    }

    /// Whether a step applies, of those whose target and partner are kept, different clauses: its condition holds, and slip 6
    /// doesn't turn it down.
    pub fn applies(&self, step: Step) -> bool {
        self.condition(step) && self.atom_headed(step)
    }

    /// The words that may stand behind kind and target. A success names an atom of its partner's head.
    pub fn choices(&self, kind: u16, target: u16) -> Vec<Step> {
        let partners = if has_partner(kind) { 0..self.clauses.len() as u16 } else { 0..1 };
        let others = partners.filter(|&partner| !has_partner(kind) || partner != target);
        let atoms = |partner: u16| match kind {
            3 => self.kept(partner).map_or(Vec::new(), |fact| fact.head.iter().copied().collect()),
            _ => (0..if has_atom(kind) { self.atoms } else { 1 }).collect(),
        };
        others
            .flat_map(|partner| atoms(partner).into_iter().map(move |atom| Step::new(kind, target, partner, atom)))
            .collect()
    }

    /// Makes a step: the marks that it clears, of a clause's first word or of a literal dropped, become 0.
    pub fn make(&self, table: &Table, step: Step, marks: &mut [u8]) {
        for place in self.cleared(table, step) {
            marks[place] = 0;
        }
    }

    fn cleared(&self, table: &Table, step: Step) -> Vec<usize> {
        let span = &table.spans[usize::from(step.target)];
        match step.kind {
            3 => places(table, &span.pos, step.atom),
            4 => places(table, &span.neg, step.atom),
            9 => self.excluded(table, step.atom),
            _ => vec![span.first],
        }
    }

    /// Slip 8: "It deletes kept clauses with a in the positive body and drops a from the heads and negative bodies of the other
    /// kept ones."
    fn excluded(&self, table: &Table, atom: u16) -> Vec<usize> {
        let kept = table.spans.iter().zip(&self.clauses).filter_map(|(span, clause)| Some((span, clause.as_ref()?)));
        let of = |(span, clause): (&Span, &Clause)| match clause.pos.contains(&atom) {
            true => vec![span.first],
            false => [places(table, &span.head, atom), places(table, &span.neg, atom)].concat(),
        };
        kept.flat_map(of).collect()
    }
}

/// Where an atom stands in a part: one place, or none.
fn places(table: &Table, part: &Range<usize>, atom: u16) -> Vec<usize> {
    part.clone().filter(|&place| table.words[place] == atom).collect()
}
