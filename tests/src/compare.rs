//! One call of the library beside document 01: the same answer, and the same memory afterwards.
use crate::independent::program::Clause;
use crate::independent::reduce::{list_by, passed_over, smallest_applicable};
use crate::independent::steps::{Left, Step};
use crate::independent::table::Table;
use crate::independent::{self, Answer, Refused};
use crate::library;
use std::fmt::Debug;
use std::ops::{Deref, DerefMut};

/// The greatest number of a question.
pub const LAST: usize = 32;

/// How many calls were compared, how often each question refused one, how many steps of each kind were made, which loop steps
/// were refused, which steps the reducer passed over, what steps of kind 9 did, how many programs had which circles, what the
/// lists of stable models were, and what the texts were that were read.
#[derive(Default)]
pub struct Tally {
    pub cases: u64,
    pub met: Met,
    pub made: [u64; 10],
    pub loops: Loops,
    pub equal: EqualClauses,
    pub exclusions: Exclusions,
    pub circles: Circles,
    pub listed: Listed,
    pub texts: Texts,
}

/// How often each question refused a call, under its number.
#[derive(Debug)]
pub struct Met([u64; LAST + 1]);

impl Default for Met {
    fn default() -> Met {
        Met([0; LAST + 1])
    }
}

impl Deref for Met {
    type Target = [u64];

    fn deref(&self) -> &[u64] {
        &self.0
    }
}

impl DerefMut for Met {
    fn deref_mut(&mut self) -> &mut [u64] {
        &mut self.0
    }
}

/// Loop steps that lists were refused at. By 32, as the atom is in no kept head: how many were failures, with the atom in the
/// target's positive body, and how many not; how many of them stood behind another step, and how many before one; and how many
/// had an atom that lost its last head to the steps before. By 16, as it is in one: how many had the atom in the target's
/// positive body, and so in the reach, and how many not.
#[derive(Debug, Default)]
pub struct Loops {
    pub failures: u64,
    pub in_no_body: u64,
    pub behind: u64,
    pub before: u64,
    pub head_gone: u64,
    pub reached: u64,
    pub headed_in_no_body: u64,
}

impl Loops {
    /// A list that is refused by 32 or 16 at a step; the steps before it leave these marks.
    fn count(&mut self, table: &[u16], marks: &[u8], list: &[u16], place: u64) {
        let place = 4 * place as usize;
        let &[7, target, _, atom] = &list[place..place + 4] else { return };
        let table = Table::read(table).unwrap();
        let (given, left) = (Left::new(&table, &vec![1; marks.len()]), Left::new(&table, marks));
        let in_body = left.kept(target).unwrap().pos.contains(&atom);
        match (left.in_no_head(atom), in_body) {
            (true, true) => self.failures += 1,
            (true, false) => self.in_no_body += 1,
            (false, true) => self.reached += 1,
            (false, false) => self.headed_in_no_body += 1,
        }
        if left.in_no_head(atom) {
            self.behind += u64::from(place > 0);
            self.before += u64::from(place + 4 < list.len());
            self.head_gone += u64::from(!given.in_no_head(atom));
        }
    }
}

/// Lists of the reducer: how many are as they were before slip 7, and how many not. Then the states where the smallest
/// applicable step is passed over: of kind 5, and of kind 8; how often the step taken in its place deletes the partner, how
/// often the same target by another partner, and how often it deletes something else; and of how many the target had lost a
/// literal, and of how many the partner.
#[derive(Debug, Default)]
pub struct EqualClauses {
    pub same_lists: u64,
    pub other_lists: u64,
    pub blocked: u64,
    pub subsumed: u64,
    pub partner_goes: u64,
    pub by_another: u64,
    pub elsewhere: u64,
    pub target_shortened: u64,
    pub partner_shortened: u64,
}

impl EqualClauses {
    /// The reducer's list of a table.
    pub fn count(&mut self, table: &[u16], list: &[u16]) {
        let same = list_by(table, smallest_applicable).concat() == list;
        *(if same { &mut self.same_lists } else { &mut self.other_lists }) += 1;
        let table = Table::read(table).unwrap();
        let mut marks = vec![1; table.words.len()];
        let given = Left::new(&table, &marks);
        for step in list.chunks(4).map(|words| Step::new(words[0], words[1], words[2], words[3])) {
            let left = Left::new(&table, &marks);
            self.count_state(&given, &left, step);
            left.make(&table, step, &mut marks);
        }
    }

    /// A state of the list, with the step taken.
    fn count_state(&mut self, given: &Left, left: &Left, taken: Step) {
        let Some(smallest) = smallest_applicable(left).filter(|&step| passed_over(left, step)) else { return };
        *(if smallest.kind == 5 { &mut self.blocked } else { &mut self.subsumed }) += 1;
        match (taken.target == smallest.partner, taken.target == smallest.target) {
            (true, _) => self.partner_goes += 1,
            (_, true) => self.by_another += 1,
            _ => self.elsewhere += 1,
        }
        let shortened = |clause: u16| u64::from(given.kept(clause) != left.kept(clause));
        self.target_shortened += shortened(smallest.target);
        self.partner_shortened += shortened(smallest.partner);
    }
}

/// Lists of the reducer: how many have no step of kind 9, one or more, and another kind behind one. Steps of kind 9 in lists that
/// were made: how many, of how many the target stays, and how many delete other clauses, drop the atom from heads, from negative
/// bodies, make a constraint, a fact, or serve a target that had lost its head. Those that were refused: by 14; by 16 as the target
/// is no positive constraint, as the atom is in no kept clause, though it derives the constraint's atoms, or was in one before, or
/// as it does not derive them.
#[derive(Debug, Default)]
pub struct Exclusions {
    pub lists_without: u64,
    pub lists_with: u64,
    pub others_behind: u64,
    pub made: u64,
    pub target_stays: u64,
    pub others_deleted: u64,
    pub heads_dropped: u64,
    pub negatives_dropped: u64,
    pub constraints_made: u64,
    pub facts_made: u64,
    pub target_had_head: u64,
    pub with_partner: u64,
    pub no_positive_constraint: u64,
    pub in_no_clause: u64,
    pub lost: u64,
    pub not_derived: u64,
}

impl Exclusions {
    /// The reducer's list.
    pub fn count_list(&mut self, list: &[u16]) {
        let first = list.chunks(4).position(|step| step[0] == 9);
        *(if first.is_some() { &mut self.lists_with } else { &mut self.lists_without }) += 1;
        let behind = first.is_some_and(|first| list.chunks(4).skip(first).any(|step| step[0] != 9));
        self.others_behind += u64::from(behind);
    }

    /// A step of kind 9 on what the steps before it left, with its answer, and the marks afterwards.
    pub fn count(&mut self, table: &Table, before: &[u8], step: Step, answer: Answer, after: &[u8]) {
        let left = Left::new(table, before);
        match answer {
            Ok(_) => self.count_made(table, &left, step, &Left::new(table, after)),
            Err(Refused { number: 14, .. }) => self.with_partner += 1,
            Err(_) => self.count_refused(table, &left, step),
        }
    }

    fn count_refused(&mut self, table: &Table, left: &Left, step: Step) {
        let target = left.kept(step.target).unwrap();
        let derived = target.pos.is_subset(left.derived_from(step.atom));
        match target.head.is_empty() && target.neg.is_empty() && !target.pos.is_empty() {
            false => self.no_positive_constraint += 1,
            true if derived => self.in_no_clause += 1,
            true => self.not_derived += 1,
        }
        let given = Left::new(table, &vec![1; table.words.len()]);
        self.lost += u64::from(given.occurs(step.atom) && !left.occurs(step.atom));
    }

    fn count_made(&mut self, table: &Table, left: &Left, step: Step, after: &Left) {
        let pairs = || left.clauses.iter().zip(&after.clauses).filter_map(|(a, b)| Some((a.as_ref()?, b.as_ref()?)));
        let any = |test: &dyn Fn(&Clause, &Clause) -> bool| u64::from(pairs().any(|(before, now)| test(before, now)));
        let deleted = left.clauses.iter().flatten().count() - pairs().count();
        let stays = after.kept(step.target).is_some();
        self.made += 1;
        self.target_stays += u64::from(stays);
        self.others_deleted += u64::from(deleted > usize::from(!stays));
        self.heads_dropped += any(&|before, now| before.head != now.head);
        self.negatives_dropped += any(&|before, now| before.neg != now.neg);
        self.constraints_made += any(&|before, now| !before.head.is_empty() && now.head.is_empty());
        self.facts_made += any(&|before, now| before.head.len() != 1 && now.is_fact() && now.head.len() == 1);
        self.target_had_head += u64::from(!table.spans[usize::from(step.target)].head.is_empty());
    }
}

/// Texts that were read: how often the library refused one by each question; how many of those taken were canonical, and how
/// many not; and how many pairs of them gave one table, and how many two.
#[derive(Debug, Default)]
pub struct Texts {
    pub met: Met,
    pub canonical: u64,
    pub unordered: u64,
    pub one_table: u64,
    pub two_tables: u64,
}

/// Programs with a circle over positive bodies, with circles through negative literals alone, and without any.
#[derive(Debug, Default)]
pub struct Circles {
    pub positive: u64,
    pub negative: u64,
    pub none: u64,
}

/// Lists of stable models: how often each question refused one, and how often that of a program of more than 16 atoms; how
/// many had no model, one, and several; how often a slice was too short for a program of more than 16 atoms; and how many
/// programs were listed again after some step.
#[derive(Debug, Default)]
pub struct Listed {
    pub met: Met,
    pub met_above: Met,
    pub none: u64,
    pub one: u64,
    pub several: u64,
    pub too_short: u64,
    pub reduced: u64,
}

impl Listed {
    fn count(&mut self, table: &[u16], answer: Answer) {
        match answer {
            Err(Refused { number, .. }) => {
                self.met[number as usize] += 1;
                self.met_above[number as usize] += u64::from(table.first().is_some_and(|&atoms| atoms > 16));
            }
            Ok(0) => self.none += 1,
            Ok(1) => self.one += 1,
            Ok(_) => self.several += 1,
        }
    }
}

/// Slip 8: "The count reported is the number of steps written; without kind 9 among them it equals the marks at 0, and otherwise
/// steps number at most the marks at 0."
pub fn counted(list: &[u16], marks: &[u8]) {
    let (steps, zeros) = (list.len() / 4, marks.iter().filter(|&&mark| mark == 0).count());
    let excludes = list.chunks(4).any(|step| step[0] == 9);
    assert!(if excludes { steps <= zeros } else { steps == zeros }, "{steps} steps, {zeros} marks at 0: {list:?}");
}

/// "the refusal's number times 2^48 plus its place, or, taken, the value"
fn code(answer: Answer) -> u64 {
    match answer {
        Ok(value) => value,
        Err(refused) => (refused.number << 48) + refused.place,
    }
}

impl Tally {
    pub fn new() -> Tally {
        Tally::default()
    }

    /// Compares what a call gave with what document 01 says, both with all memory that was lent for writing.
    fn same<M: PartialEq>(
        &mut self,
        input: &dyn Debug,
        answer: Answer,
        independent: M,
        given: u64,
        library: M,
    ) -> Answer {
        self.cases += 1;
        if let Err(refused) = answer {
            self.met[refused.number as usize] += 1;
        }
        assert!(given == code(answer), "{input:?}\nanswer {:x}, document 01 has {answer:?}", given);
        assert!(
            library == independent,
            "{input:?}\nthe memory afterwards is not document 01's; the answer {answer:?} is"
        );
        answer
    }

    /// Counts the first steps of a list.
    fn count(&mut self, list: &[u16], steps: u64) {
        for step in list.chunks(4).take(steps as usize) {
            self.made[usize::from(step[0])] += 1;
        }
    }

    pub fn check_table(&mut self, table: &[u16]) -> Answer {
        let answer = independent::table::check_table(table);
        self.same(&("check_table", table), answer, (), library::check_table(table), ())
    }

    /// The answer, and the marks afterwards.
    pub fn check(&mut self, table: &[u16], marks: &[u8], list: &[u16]) -> (Answer, Vec<u8>) {
        let (answer, after) = independent::list::check(table, marks, list);
        let (given, bytes) = library::check(table, marks, list);
        match answer {
            Err(Refused { number: 12..=16 | 29 | 32, place }) => self.count(list, place),
            Err(_) => {}
            Ok(steps) => self.count(list, steps),
        }
        if let Err(Refused { number: 16 | 32, place }) = answer {
            self.loops.count(table, &after, list, place);
        }
        (self.same(&("check", table, marks, list), answer, &after, given, &bytes), after)
    }

    /// The answer, and the marks and the list afterwards.
    pub fn reduce(&mut self, table: &[u16], marks: &[u8], list: &[u16]) -> (Answer, Vec<u8>, Vec<u16>) {
        let (answer, after, steps) = independent::reduce::reduce(table, marks, list);
        let (given, bytes, words) = library::reduce(table, marks, list);
        self.count(&steps, answer.unwrap_or(0));
        (self.same(&("reduce", table, marks), answer, (&after, &steps), given, (&bytes, &words)), after, steps)
    }

    /// The answer, and the out slice afterwards.
    pub fn reduced_table(&mut self, table: &[u16], marks: &[u8], out: &[u16]) -> (Answer, Vec<u16>) {
        let (answer, after) = independent::reduced::reduced_table(table, marks, out);
        let (given, words) = library::reduced_table(table, marks, out);
        (self.same(&("reduced_table", table, marks, out.len()), answer, &after, given, &words), after)
    }

    pub fn test(&mut self, table: &[u16], set: &[u16]) -> Answer {
        let answer = independent::stable::test(table, set);
        self.same(&("test", table, set), answer, (), library::test(table, set), ())
    }

    /// The answer, and the out slice afterwards.
    pub fn models(&mut self, table: &[u16], out: &[u16]) -> (Answer, Vec<u16>) {
        let (answer, after) = independent::stable::list(table, out);
        let (given, words) = library::models(table, out);
        self.listed.count(table, answer);
        (self.same(&("models", table, out.len()), answer, &after, given, &words), after)
    }

    pub fn cycle(&mut self, table: &[u16]) -> Answer {
        let answer = independent::cycle::cycle(table);
        self.same(&("cycle", table), answer, (), library::cycle(table), ())
    }

    /// The answer, and the table slice afterwards.
    pub fn read_text(&mut self, text: &[u8], table: &[u16]) -> (Answer, Vec<u16>) {
        let (answer, after) = independent::text::read_text(text, table);
        let (given, words) = library::read_text(text, table);
        self.texts.met[(given >> 48) as usize] += 1;
        let shown = String::from_utf8_lossy(text);
        (self.same(&("read_text", shown, table.len()), answer, &after, given, &words), after)
    }

    /// The answer, and the out slice afterwards.
    pub fn write_text(&mut self, table: &[u16], out: &[u8]) -> (Answer, Vec<u8>) {
        let (answer, after) = independent::text::write_text(table, out);
        let (given, bytes) = library::write_text(table, out);
        (self.same(&("write_text", table, out.len()), answer, &after, given, &bytes), after)
    }
}
