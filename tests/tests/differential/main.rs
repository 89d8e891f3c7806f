//! The library compared with document 01 on random and damaged input. Seeds are fixed and printed; GAMBROLT_ROUNDS=k
//! makes k rounds, each with seeds of its own and, past the first, the full-size tables asked at more of their steps.
#![deny(warnings)]
#![allow(unused_must_use)] // a comparison fails by itself
mod full_size;
mod listing;
mod models;
mod steps;
mod tables;
mod texts;

use gambrolt_tests::compare::{Circles, EqualClauses, Exclusions, Listed, Loops, Tally, Texts, LAST};
use gambrolt_tests::random::Random;
use std::thread;
use std::time::Instant;

/// A group of cases: its name, how many draws it makes, and what one draw compares.
type Group = (&'static str, u64, fn(&mut Random, &mut Tally));

const GROUPS: [Group; 27] = [
    ("tables", 120_000, tables::damaged),
    ("lists", 100_000, steps::checked),
    ("reducing", 60_000, steps::reduced),
    ("reducing, middle sizes", 400, steps::reduced_middle),
    ("reduced tables", 60_000, tables::reduced),
    ("sets", 40_000, models::tested),
    ("sets of 16", 20, models::largest_sets),
    ("models before and after", 10_000, models::same_models),
    ("texts read", 160_000, texts::read),
    ("texts at the limits", 20, texts::at_the_limits),
    ("texts written", 20_000, texts::written),
    ("circles", 40_000, tables::circles),
    ("models listed", 30_000, listing::listed),
    ("models listed, to ten atoms", 1_000, listing::listed_to_ten),
    ("models listed, spread over 16 atoms", 2_000, listing::spread),
    ("models listed, more than 16 atoms", 10_000, listing::many_atoms),
    ("models listed and sets tested", 2_000, listing::tested),
    ("models listed before and after", 10_000, listing::same_list),
    ("texts written, numbers of every length", 600, texts::of_every_length),
    ("texts read, one long list", 2_000, texts::long),
    ("texts read, lists in any order", 10_000, texts::in_any_order),
    ("texts read, two of one program or of two", 20_000, texts::two),
    ("texts read, refused late", 4_000, texts::late),
    ("lists with a loop step", 30_000, steps::loops),
    ("reducing, equal clauses", 20_000, steps::equal_clauses),
    ("lists with a step of kind 9", 60_000, steps::exclusions),
    ("reducing, atoms that can't be", 20_000, steps::excluded_atoms),
];

fn main() {
    let rounds =
        std::env::var("GAMBROLT_ROUNDS").map_or(1, |rounds| rounds.parse().expect("GAMBROLT_ROUNDS is a number"));
    let mut tally = Tally::new();
    for round in 0..rounds {
        let shapes = thread::spawn(move || full_size::all(if round == 0 { 12 } else { 100 }));
        for (number, group) in GROUPS.iter().enumerate() {
            run(group, 1_000_000 * round + 1_000 * (1 + number as u64), &mut tally);
        }
        tally.cases += shapes.join().expect("the full-size tables are reduced as the documents say");
    }
    report(&tally);
}

fn run((name, draws, compare): &Group, seed: u64, tally: &mut Tally) {
    let (cases, start) = (tally.cases, Instant::now());
    println!("{name}: seed {seed}, {draws} draws");
    for draw in 0..*draws {
        let mut random = Random::new(seed.wrapping_mul(1 << 32) + draw);
        compare(&mut random, tally);
    }
    println!("  {} cases, {:.1} s", tally.cases - cases, start.elapsed().as_secs_f64());
}

/// Fails where a question was never met, or where there were too few cases.
fn report(tally: &Tally) {
    println!("{} cases; refusals by question:", tally.cases);
    for (number, &count) in tally.met.iter().enumerate().skip(1) {
        println!("  {number:2}: {count}");
    }
    println!("steps made by kind: {:?}", &tally.made[1..]);
    assert!(tally.made[1..].iter().all(|&steps| steps > 0), "a kind of step was never made");
    loops(&tally.loops);
    equal_clauses(&tally.equal);
    exclusions(&tally.exclusions);
    println!("{:?}", tally.circles);
    let Circles { positive, negative, none } = tally.circles;
    assert!(positive.min(negative).min(none) > 1_000, "too few circles, or programs without");
    lists(&tally.listed);
    texts_read(&tally.texts);
    let never: Vec<usize> = (1..=LAST).filter(|&number| tally.met[number] == 0).collect();
    assert!(never.is_empty(), "questions never met: {never:?}");
    assert!(tally.cases >= 200_000, "too few cases");
    println!("differential tests: ok");
}

/// Fails where loop steps were refused too seldom for some reason.
fn loops(refused: &Loops) {
    println!("lists refused at a loop step: {refused:?}");
    let Loops { failures, in_no_body, behind, before, head_gone, reached, headed_in_no_body } = refused;
    let by_32 = failures.min(in_no_body).min(behind).min(before).min(head_gone);
    assert!(by_32.min(reached).min(headed_in_no_body) > &1_000, "too few loop steps of a kind");
}

/// Fails where steps were passed over too seldom in some way.
fn equal_clauses(equal: &EqualClauses) {
    println!("lists and states where the smallest applicable step is passed over: {equal:?}");
    let EqualClauses { same_lists, other_lists, blocked, subsumed, .. } = equal;
    let EqualClauses { partner_goes, by_another, elsewhere, target_shortened, partner_shortened, .. } = equal;
    let kinds = same_lists.min(other_lists).min(blocked).min(subsumed);
    let shortened = target_shortened.min(partner_shortened);
    assert!(kinds.min(shortened).min(partner_goes).min(elsewhere) > &1_000, "too few equal clauses of a kind");
    assert!(by_another > &200, "too few clauses that a third deletes");
}

/// Fails where steps of kind 9 were made or refused too seldom in some way.
fn exclusions(steps: &Exclusions) {
    println!("lists of the reducer, and steps of kind 9 in lists: {steps:?}");
    let Exclusions { lists_without, lists_with, others_behind, made, target_stays, others_deleted, .. } = steps;
    let Exclusions { heads_dropped, negatives_dropped, constraints_made, facts_made, target_had_head, .. } = steps;
    let Exclusions { with_partner, no_positive_constraint, in_no_clause, lost, not_derived, .. } = steps;
    let lists = lists_without.min(lists_with).min(others_behind);
    let drops = heads_dropped.min(negatives_dropped).min(constraints_made).min(facts_made);
    let refused = no_positive_constraint.min(not_derived).min(with_partner);
    assert!(
        lists.min(made).min(target_stays).min(others_deleted).min(drops).min(refused) > &1_000,
        "too few of a kind"
    );
    assert!(in_no_clause.min(lost).min(target_had_head) > &300, "too few of a rare kind");
}

/// Fails where the lists of stable models were refused too seldom by some question, or were too much alike.
fn lists(listed: &Listed) {
    let refused = [&listed.met[1..=8], &listed.met[30..=31]].concat();
    println!("lists of stable models refused by 1 to 8, 30 and 31: {refused:?}");
    assert!(refused.iter().all(|&times| times > 100), "a question was met too seldom");
    let many_atoms = [&listed.met_above[1..=8], &[listed.too_short]].concat();
    println!("of more than 16 atoms by 1 to 8, and by 30 with a slice too short: {many_atoms:?}");
    assert!(many_atoms.iter().all(|&times| times > 50), "two questions met too seldom at once");
    let Listed { none, one, several, reduced, .. } = listed;
    println!("lists of no model, one and several: {none}, {one}, {several}; after some step: {reduced}");
    assert!(none.min(one).min(several).min(reduced) > &1_000, "too few lists of a kind");
}

/// Fails where a text was refused by 7, or the texts were refused too seldom by some other question, or were too much alike.
fn texts_read(texts: &Texts) {
    let refused = [&texts.met[2..=3], &texts.met[6..=6], &texts.met[22..=27]].concat();
    println!("texts refused by 2, 3, 6 and 22 to 27: {refused:?}");
    assert!(refused.iter().all(|&times| times > 100), "a question was met too seldom");
    assert_eq!(texts.met.iter().sum::<u64>(), texts.met[0] + refused.iter().sum::<u64>(), "another question was met");
    let Texts { canonical, unordered, one_table, two_tables, .. } = texts;
    println!(
        "canonical and other texts: {canonical}, {unordered}; pairs of one table and of two: {one_table}, {two_tables}"
    );
    assert!(canonical.min(unordered).min(one_table).min(two_tables) > &1_000, "too few texts of a kind");
}
