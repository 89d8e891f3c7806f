//! Tables, marks, sets, lists of stable models and texts at the limits. The answers were worked out by hand; the literal
//! implementation of the documents and the library give the same, in all of the memory that is lent to them.
#![deny(warnings)]
use gambrolt_tests::compare::Tally;
use gambrolt_tests::independent::program::{parse, words, Program};
use gambrolt_tests::independent::{Answer, Refused};
use gambrolt_tests::library;
use gambrolt_tests::make::programs::one_of_any;

fn refused(number: u64, place: u64) -> Answer {
    Err(Refused { number, place })
}

/// Three clauses that fill 8,192 words.
fn full() -> Vec<u16> {
    let mut words = vec![1024, 3];
    for counts in [[1024, 1024, 1024], [1024, 1024, 1024], [1024, 1013, 0]] {
        words.extend(counts);
        words.extend(counts.into_iter().flat_map(|count| 0..count));
    }
    assert_eq!(words.len(), 8192);
    words
}

/// As many words, all 0 but the number of clauses.
fn empty_clauses(clauses: u16, len: usize) -> Vec<u16> {
    let mut words = vec![0; len];
    words[1] = clauses;
    words
}

#[test]
fn words_of_a_table() {
    let with_clauses = |clauses: u16| {
        let mut words = full();
        words[1] = clauses;
        words
    };
    let check = |words: &[u16]| Tally::new().check_table(words);
    assert_eq!(check(&full()), Ok(0));
    assert_eq!(check(&[full(), vec![0]].concat()), refused(1, 0));
    assert_eq!(check(&full()[..8191]), refused(5, 6152));
    assert_eq!(check(&with_clauses(2)), refused(8, 6152));
    assert_eq!(check(&with_clauses(4)), refused(4, 8192));
}

#[test]
fn clauses_of_a_table() {
    let check = |clauses: u16, len: usize| Tally::new().check_table(&empty_clauses(clauses, len));
    assert_eq!(check(2048, 6146), Ok(0));
    assert_eq!(check(2048, 6145), refused(4, 6143));
    assert_eq!(check(2048, 6147), refused(8, 6146));
    assert_eq!(check(2049, 6149), refused(3, 1));
    assert_eq!(check(2049, 6146), refused(3, 1));
}

#[test]
fn reduced_tables() {
    let reduced = |words: &[u16], marks: &[u8], room: usize| Tally::new().reduced_table(words, marks, &vec![9; room]);
    let (table, mut marks) = (full(), vec![1; 8192]);
    assert_eq!(reduced(&table, &marks, 8192), (Ok(8192), table.clone()));
    assert_eq!(reduced(&table, &marks, 8191), (refused(18, 0), vec![9; 8191]));
    // the body of clause 0 is dropped, and clause 1 deleted
    marks[1029..3078].fill(0);
    let left = [&[1024, 2, 1024, 0, 0], &table[5..1029], &table[6152..]].concat();
    assert_eq!(reduced(&table, &marks, 3069), (Ok(3069), left));
    assert_eq!(reduced(&table, &marks, 3068), (refused(18, 0), vec![9; 3068]));
    // the whole head of clause 0 is dropped too
    marks[5..1029].fill(0);
    let left = [&[1024, 2, 0, 0, 0], &table[6152..]].concat();
    assert_eq!(reduced(&table, &marks, 2045), (Ok(2045), left));
    assert_eq!(reduced(&table, &marks, 2044), (refused(18, 0), vec![9; 2044]));
    // every other clause is deleted
    let (table, mut marks) = (empty_clauses(2048, 6146), vec![1; 6146]);
    marks[5..].iter_mut().step_by(6).for_each(|mark| *mark = 0);
    let left = [empty_clauses(1024, 3074), vec![9; 5118]].concat();
    assert_eq!(reduced(&table, &marks, 8192), (Ok(3074), left));
}

/// The library alone is asked: the literal implementation takes seconds for such a table and a set of 16.
#[test]
fn sets_and_cycles() {
    let both = |words: &[u16], set: &[u16]| (library::test(words, set), library::cycle(words));
    let all: Vec<u16> = (0..16).collect();
    let facts = |atoms: &[u16]| -> Vec<u16> { atoms.iter().flat_map(|&atom| [1, 0, 0, atom]).collect() };
    let (eight, one) = (8 << 48 | 2, 1 << 48);
    assert_eq!(both(&[vec![1024], vec![0; 8191]].concat(), &[]), (eight, eight));
    assert_eq!(both(&[vec![1024], vec![0; 8192]].concat(), &[]), (one, one));
    // 0 <- 0 again and again, then the facts
    let loops = [vec![16, 1616], [1, 1, 0, 0, 0].repeat(1600), facts(&all)].concat();
    assert_eq!(both(&loops, &all), (1, 1));
    // the fact 15 again and again, then all facts; all but 14; none, and two empty clauses
    let many =
        |clauses: u16, again: usize, rest: Vec<u16>| [vec![16, clauses], facts(&[15]).repeat(again), rest].concat();
    assert_eq!(both(&many(2047, 2031, facts(&all)), &all), (1, 0));
    let but_14: Vec<u16> = all.iter().copied().filter(|&atom| atom != 14).collect();
    assert_eq!(both(&many(2046, 2031, facts(&but_14)), &all), (0, 0));
    assert_eq!(both(&many(2048, 2046, vec![0; 6]), &all), (0, 0));
}

/// The words below 2^16 that have so many bits within each of these masks, ascending.
fn words_with(masks: &[(u16, u32)]) -> Vec<u16> {
    let fits = |word: &u16| masks.iter().all(|&(mask, bits)| (word & mask).count_ones() == bits);
    (0..=u16::MAX).filter(fits).collect()
}

/// The list is that of these models, with just enough room, and is refused with a word less. The library alone is asked:
/// the literal implementation takes long for these programs of 16 atoms.
fn listed(table: &[u16], models: &[u16]) {
    let count = models.len();
    assert_eq!(library::models(table, &vec![9; count + 2]), (count as u64, [models, &[9, 9]].concat()));
    assert_eq!(library::models(table, &vec![9; count]), (count as u64, models.to_vec()));
    assert_eq!(library::models(table, &vec![9; count - 1]), (31 << 48, vec![9; count - 1]));
}

#[test]
fn models_of_up_to_16_atoms() {
    let models = |table: &[u16], room: usize| Tally::new().models(table, &vec![9; room]);
    assert_eq!(models(&[0, 0], 2), (Ok(1), vec![0, 9]));
    assert_eq!(models(&[0, 0], 0), (refused(31, 0), vec![]));
    assert_eq!(models(&[0, 1, 0, 0, 0], 0), (Ok(0), vec![]));
    assert_eq!(models(&[16, 1, 0, 0, 0], 0), (Ok(0), vec![]));
    assert_eq!(models(&[16, 1, 0, 0, 0], 1), (Ok(0), vec![9]));
    assert_eq!(models(&[16, 0], 2), (Ok(1), vec![0, 9]));
    assert_eq!(models(&[16, 0], 0), (refused(31, 0), vec![]));
    let facts = words(&parse(16, "0. 1. 2. 3. 4. 5. 6. 7. 8. 9. 10. 11. 12. 13. 14. 15."));
    assert_eq!(models(&facts, 2), (Ok(1), vec![65535, 9]));
    assert_eq!(models(&facts, 0), (refused(31, 0), vec![]));
}

#[test]
fn models_of_more_atoms() {
    let models = |table: &[u16], room: usize| Tally::new().models(table, &vec![9; room]);
    for atoms in [17, 32, 1024] {
        assert_eq!(models(&[atoms, 0], 1), (refused(30, 0), vec![9]));
        assert_eq!(models(&[atoms, 0], 0), (refused(30, 0), vec![]), "30 before 31");
        assert_eq!(models(&[atoms, 0, 0], 1), (refused(8, 2), vec![9]), "8 before 30");
        assert_eq!(models(&[atoms, 1, 1, 0, 0, atoms], 1), (refused(6, 5), vec![9]), "6 before 30");
    }
    assert_eq!(models(&[1025, 0], 0), (refused(2, 0), vec![]), "2 before 30");
    assert_eq!(models(&[17, 2049], 0), (refused(3, 1), vec![]), "3 before 30");
}

/// Eight pairs of which one or the other holds: by disjunction, by negation, and in a table of 8,192 words.
#[test]
fn models_of_pairs() {
    let one_of_each = words_with(&[0, 2, 4, 6, 8, 10, 12, 14].map(|low| (3 << low, 1)));
    assert_eq!(one_of_each.len(), 256);
    let either = parse(16, "0|1. 2|3. 4|5. 6|7. 8|9. 10|11. 12|13. 14|15.");
    listed(&words(&either), &one_of_each);
    let by_negation = (0..16).map(|atom| format!("{atom} <- ~{}.", atom ^ 1)).collect::<String>();
    listed(&words(&parse(16, &by_negation)), &one_of_each);
    // behind clauses that every set satisfies
    let mut full = parse(16, &(0..1630).map(|i| format!("{0} <- {0}.", i % 16)).collect::<String>());
    full.clauses.extend(either.clauses);
    let full = words(&full);
    assert_eq!(full.len(), 8192);
    listed(&full, &one_of_each);
    assert_eq!(library::models(&[full, vec![0]].concat(), &[9; 300]), (1 << 48, vec![9; 300]));
}

/// Many stable models: six of twelve atoms, as one of any seven holds, and two of the other four, as one of any three does.
#[test]
fn thousands_of_models() {
    let clauses = [one_of_any(0..12, 7), one_of_any(12..16, 3)].concat();
    let table = words(&Program { atoms: 16, clauses });
    let halves = words_with(&[(0x0fff, 6), (0xf000, 2)]);
    assert_eq!((table.len(), halves.len()), (7946, 924 * 6));
    listed(&table, &halves);
}

/// Chains as long as there are atoms, and bodies as long as a table holds.
#[test]
fn long_chains() {
    // 0 <- 1. 1 <- 2. and so on to 1022 <- 1023., with one clause more
    let chain: Vec<u16> = (0..1023).flat_map(|atom| [1, 1, 0, atom, atom + 1]).collect();
    let closed = |last: &[u16]| library::cycle(&[&[1024, 1024], &chain[..], last].concat());
    assert_eq!(closed(&[1, 0, 0, 1023]), 0);
    assert_eq!(closed(&[1, 1, 0, 1023, 0]), 1);
    assert_eq!(closed(&[1, 0, 1, 1023, 0]), 0);
    assert_eq!(closed(&[0, 1, 0, 0]), 0);
    assert_eq!(closed(&[1, 0, 1, 0, 0]), 0);
    assert_eq!(closed(&[2, 1, 0, 0, 1023, 1022]), 1);
    // all of 512 to 1023 in each head and 0 to 511 in each body, seven times; then 0 <- 1023., or 0 <- ~1023.
    let wide = |positive: bool, last: &[u16]| {
        let (head, body): (Vec<u16>, Vec<u16>) = ((512..1024).collect(), (0..512).collect());
        let counts = if positive { [512, 512, 0] } else { [512, 0, 512] };
        let clause = [&counts[..], &head, &body].concat();
        library::cycle(&[vec![1024, 8], clause.repeat(7), last.to_vec()].concat())
    };
    assert_eq!(wide(true, &[1, 1, 0, 0, 1023]), 1);
    assert_eq!(wide(true, &[1, 0, 1, 0, 1023]), 0);
    assert_eq!(wide(false, &[1, 1, 0, 0, 1023]), 0);
}

/// 17 counts clauses and all literals: of the full table 3 and 8,181, so that the longest list that may be asked for is below the
/// longest that is checked. The library alone is asked.
#[test]
fn room_of_a_list() {
    let (table, room) = (full(), 4 * (3 + 8181));
    let reduce = |room: usize| library::reduce(&table, &vec![7; 8192], &vec![9; room]);
    let (steps, marks, list) = reduce(room);
    // every clause has atom 0 in its head and its positive body
    assert_eq!((steps, &list[..12]), (3, &[1, 0, 0, 0, 1, 1, 0, 0, 1, 2, 0, 0][..]));
    assert_eq!(marks.iter().filter(|&&mark| mark == 0).count(), 3);
    assert_eq!(reduce(room - 1), (17 << 48, vec![7; 8192], vec![9; room - 1]));
    // one clause of all three parts; 2,048 empty clauses
    let one = [vec![1024, 1, 1024, 1024, 1024], (0..3).flat_map(|_| 0..1024).collect()].concat();
    for (table, room) in [(one, 4 * (1 + 3072)), (empty_clauses(2048, 6146), 4 * 2048)] {
        let reduce = |room: usize| library::reduce(&table, &vec![7; table.len()], &vec![9; room]).0;
        assert_eq!((reduce(room) >> 48, reduce(room - 1)), (0, 17 << 48));
    }
}

#[test]
fn lists() {
    let fact = [2, 1, 1, 0, 0, 0];
    assert_eq!(Tally::new().check(&fact, &[7; 6], &[0; 32760]), (refused(12, 0), vec![1; 6]));
    assert_eq!(Tally::new().check(&fact, &[7; 6], &[0; 32764]), (refused(11, 0), vec![7; 6]));
}

/// The text is read where there is room for so many words.
fn read(text: &str, room: usize) -> Answer {
    Tally::new().read_text(text.as_bytes(), &vec![7; room]).0
}

/// The text has 8,192 words and so many bytes, and is written again with just enough room; a byte less does not suffice.
fn whole(text: &str, bytes: usize) {
    let (words, table) = Tally::new().read_text(text.as_bytes(), &[7; 8196]);
    assert_eq!((words, text.len()), (Ok(8192), bytes));
    let write = |room: usize| Tally::new().write_text(&table[..8192], &vec![9; room]);
    assert_eq!(write(bytes), (Ok(bytes as u64), text.as_bytes().to_vec()));
    assert_eq!(write(bytes - 1), (refused(28, 0), vec![9; bytes - 1]));
}

/// Seven clauses with 1,024 head atoms each, then one with so many, and the lines behind it.
fn wide(clauses: u16, last: u16, lines: &str) -> String {
    let numbers = |count: u16| (0..count).map(|atom| atom.to_string()).collect::<Vec<_>>().join(",");
    let seven = format!("head={}\npos=\nneg=\n", numbers(1024)).repeat(7);
    format!("atoms=1024\nclauses={clauses}\n{seven}head={}\n{lines}", numbers(last))
}

#[test]
fn words_of_a_text() {
    let answer = |last: u16, lines: &str| read(&wide(8, last, lines), 8196);
    whole(&wide(8, 998, "pos=\nneg=\n"), 32093);
    assert_eq!(answer(999, "pos=\nneg=\n"), refused(26, 28196));
    assert_eq!(answer(998, "pos=0\nneg=\n"), refused(26, 32083));
    assert_eq!(answer(998, "pos=\nneg=0\n"), refused(26, 32088));
    assert_eq!(answer(998, "pos=1024\nneg=\n"), refused(26, 32083), "26 before 6");
    assert_eq!(answer(997, "pos=1,0\nneg=\n"), refused(26, 32079), "two are kept");
    assert_eq!(answer(997, "pos=1,1\nneg=\n"), Ok(8192), "one is kept");
    assert_eq!(answer(998, "pos=1,1\nneg=\n"), refused(26, 32083));
    assert_eq!(answer(997, "pos=1024,1024\nneg=\n"), refused(6, 32079));
    assert_eq!(answer(997, "pos=1\nneg=0,0\n"), refused(26, 32085));
    assert_eq!(answer(998, "pos=01\nneg=\n"), refused(25, 32083), "26 after 25");
}

/// "a clause's counts are counted at its head line"
#[test]
fn counts_of_a_text() {
    let lines = "pos=\nneg=\nhead=\npos=\nneg=\n";
    whole(&wide(9, 995, lines), 32097);
    assert_eq!(read(&wide(9, 996, lines), 8196), refused(26, 32085));
}

#[test]
fn clauses_of_a_text() {
    let clauses = "head=1023\npos=\nneg=\n".repeat(2046) + &"head=\npos=\nneg=\n".repeat(2);
    whole(&format!("atoms=1024\nclauses=2048\n{clauses}"), 40976);
}

/// A beginning, filled up with the same byte to so many.
fn filled(start: &str, byte: &str, len: usize) -> String {
    format!("{start}{}", byte.repeat(len - start.len()))
}

#[test]
fn bytes_of_a_text() {
    assert_eq!(read(&filled("atoms=0\nclauses=0\n", "x", 65536), 8192), refused(27, 18));
    assert_eq!(read(&filled("atoms=0\nclauses=0\n", "x", 65537), 8192), refused(22, 0));
    assert_eq!(read(&filled("atoms=", "x", 65536), 8192), refused(24, 0));
    assert_eq!(read(&(filled("atoms=", "x", 65535) + "\n"), 8192), refused(25, 0));
    assert_eq!(read(&filled("", "a", 65536), 8192), refused(24, 0));
    assert_eq!(read(&filled("", "\n", 65536), 8192), refused(24, 0));
    let zeros = ",0".repeat(32754);
    let list = format!("atoms=1024\nclauses=1\nhead=0{zeros}\n");
    assert_eq!((list.len(), read(&list, 8192)), (65536, refused(24, 65536)), "32,755 times the same atom");
    assert_eq!(read(&filled("", "a", 65537), 0), refused(22, 0), "22 before 23");
    assert_eq!(read(&filled("", "a", 65536), 8191), refused(23, 0), "23 before any byte");
    assert_eq!(Tally::new().write_text(&[0; 8193], &[]).0, refused(1, 0), "1 before 28");
}
