//! Lists of steps: checked, and made by the reducer.
use gambrolt_tests::compare::{counted, Tally};
use gambrolt_tests::independent::reduce::{applicable, passed_over};
use gambrolt_tests::independent::steps::{has_partner, Left, Step};
use gambrolt_tests::independent::table::Table;
use gambrolt_tests::independent::Refused;
use gambrolt_tests::library;
use gambrolt_tests::make::programs::{any_size, Size, MIDDLE};
use gambrolt_tests::make::{lists, marks, tables};
use gambrolt_tests::random::Random;

pub fn checked(random: &mut Random, tally: &mut Tally) {
    let size = any_size(random);
    let table = tables::mostly_sound(random, size);
    let marks = marks::any(random, table.len());
    let list = lists::list(random, &table);
    tally.check(&table, &marks, &list);
}

/// A loop step behind steps and before others. Slip 6: it is refused by 32 exactly where its atom is in no kept head; and then it is
/// taken as a failure where the atom is in the target's positive body, and else refused by 16.
pub fn loops(random: &mut Random, tally: &mut Tally) {
    let size = any_size(random);
    let table = if random.once_in(2) { tables::circular(random, size) } else { tables::table(random, size) };
    let read = Table::read(&table).unwrap();
    let Some((mut list, place)) = lists::around_loop(random, &read) else { return };
    let marks = random.bytes(table.len());
    let no = |number: u64| Err(Refused { number, place: place as u64 });
    let (_, left) = tally.check(&table, &marks, &list[..4 * place]);
    let (left, target, atom) = (Left::new(&read, &left), list[4 * place + 1], list[4 * place + 3]);
    let (answer, _) = tally.check(&table, &marks, &list);
    assert_eq!(answer == no(32), left.in_no_head(atom), "{table:?}, {list:?}");
    if left.in_no_head(atom) {
        list.truncate(4 * place + 4);
        list[4 * place] = 6;
        let expected = if left.kept(target).unwrap().pos.contains(&atom) { Ok(place as u64 + 1) } else { no(16) };
        assert_eq!(tally.check(&table, &marks, &list).0, expected, "{table:?}, {list:?}");
    }
}

/// A program with many equal clauses. Slip 7: the reducer's list has no step that is passed over; at each of its states the
/// checker takes such a step, and that with target and partner exchanged.
pub fn equal_clauses(random: &mut Random, tally: &mut Tally) {
    let size = any_size(random);
    let table = tables::copies(random, size);
    let marks = random.bytes(table.len());
    let (steps, _, list) = tally.reduce(&table, &marks, &vec![0; 4 * table.len()]);
    let list = &list[..4 * steps.expect("room for every list") as usize];
    tally.equal.count(&table, list);
    let read = Table::read(&table).unwrap();
    for place in 0..=list.len() / 4 {
        let (before, behind) = list.split_at(4 * place);
        let (_, left) = tally.check(&table, &marks, before);
        let left = Left::new(&read, &left);
        let over: Vec<Step> = applicable(&left).into_iter().filter(|&step| passed_over(&left, step)).collect();
        assert!(over.iter().all(|step| !behind.starts_with(&step.words())), "{table:?}, {list:?}");
        if !over.is_empty() {
            let Step { kind, target, partner, atom } = random.pick(&over);
            for step in [[kind, target, partner, atom], [kind, partner, target, atom]] {
                let answer = tally.check(&table, &marks, &[before, &step].concat()).0;
                assert_eq!(answer, Ok(place as u64 + 1), "{table:?}, {step:?} behind {before:?}");
            }
        }
    }
}

/// A step of kind 9 behind steps and before others, most often in a program with atoms that can't be: made, or refused by 14
/// where it has a partner, and else by 16.
pub fn exclusions(random: &mut Random, tally: &mut Tally) {
    let size = any_size(random);
    let table = if random.once_in(5) { tables::table(random, size) } else { tables::exclusions(random, size) };
    let read = Table::read(&table).unwrap();
    let Some((list, place)) = lists::around_exclusion(random, &read) else { return };
    let marks = random.bytes(table.len());
    let (before, step) = list[..4 * place + 4].split_at(4 * place);
    let (_, left) = tally.check(&table, &marks, before);
    let (answer, after) = tally.check(&table, &marks, &list[..4 * place + 4]);
    tally.check(&table, &marks, &list);
    let step = Step::new(step[0], step[1], step[2], step[3]);
    tally.exclusions.count(&read, &left, step, answer, &after);
    let number = answer.map_or_else(|refused| refused.number, |_| 0);
    let expected = if step.partner != 0 { [14; 2] } else { [0, 16] };
    assert!(expected.contains(&number), "{table:?}, {list:?}: {answer:?}");
    assert!(number == 0 || after == left, "a refused step changes marks: {table:?}, {list:?}");
}

/// A program with atoms that can't be: the reducer's list, and behind it every step near the program's words, which is refused.
pub fn excluded_atoms(random: &mut Random, tally: &mut Tally) {
    let size = any_size(random);
    let table = tables::exclusions(random, size);
    let marks = random.bytes(table.len());
    let (steps, left, list) = tally.reduce(&table, &marks, &vec![0; 4 * table.len()]);
    let list = &list[..4 * steps.expect("room for every list") as usize];
    counted(list, &left);
    tally.exclusions.count_list(list);
    assert_eq!(tally.check(&table, &marks, list), (steps, left.clone()), "{table:?}");
    let (clauses, atoms) = (usize::from(table[1]), usize::from(table[0]));
    for _ in 0..20 {
        let kind = random.pick(&[1, 2, 3, 4, 5, 6, 7, 8, 9, 9, 9, 9]);
        let partner = if has_partner(kind) { random.upto(clauses) as u16 } else { 0 };
        let step = [kind, random.upto(clauses) as u16, partner, random.upto(atoms) as u16];
        let (refused, after) = library::check(&table, &marks, &[list, &step].concat());
        assert!(refused >> 48 > 0 && Ok(refused & 0xffff_ffff_ffff) == steps, "{table:?}, {step:?} behind {list:?}");
        assert!(after == left, "{table:?}, {step:?} behind {list:?}");
    }
}

pub fn reduced(random: &mut Random, tally: &mut Tally) {
    let size = any_size(random);
    reduce_and_check(random, tally, size);
}

pub fn reduced_middle(random: &mut Random, tally: &mut Tally) {
    reduce_and_check(random, tally, MIDDLE);
}

/// "The reducer's list .. is accepted, and with any four words behind it, it is refused at step s"; s is the marks at 0, or less
/// where a step of kind 9 is among them.
fn reduce_and_check(random: &mut Random, tally: &mut Tally, size: Size) {
    let table = match random.upto(5) {
        0 | 1 => tables::copies(random, size),
        2 => tables::exclusions(random, size),
        _ => tables::mostly_sound(random, size),
    };
    let marks = marks::any(random, table.len());
    let needed = Table::read(&table).map_or(0, |table| 4 * table.clauses_and_literals());
    let room = match random.upto(9) {
        0 => needed.saturating_sub(1),
        1..=5 => needed,
        more => needed + more,
    };
    let list = random.words(room);
    let (answer, left, list) = tally.reduce(&table, &marks, &list);
    let Ok(steps) = answer else { return };
    let mut list = list[..4 * steps as usize].to_vec();
    counted(&list, &left[..table.len()]);
    let again = random.bytes(table.len());
    let (accepted, checked) = tally.check(&table, &again, &list);
    assert_eq!(
        (accepted, &checked[..]),
        (Ok(steps), &left[..table.len()]),
        "the reducer's list is not accepted: {table:?}"
    );
    list.extend([random.upto(10) as u16, random.upto(8) as u16, random.upto(8) as u16, random.upto(8) as u16]);
    let (refused, _) = tally.check(&table, &again, &list);
    assert_eq!(refused.map_err(|refused| refused.place), Err(steps), "a step more is taken: {table:?}");
}
