/*
 * program.h - builds the table of gambrolt.h, rule by rule.
 *
 * A rule is given as a solver's backend takes it: its head atoms, and its body as signed literals, -a for "not a".
 * Atoms are any numbers from 1 up, in any order and with repeats. The table numbers them from 0 in ascending order, and
 * each part of a clause comes out sorted, every atom once. Clauses keep the order in which they were added.
 *
 *   - All memory is the caller's; nothing is allocated. A struct program takes about 36 kB.
 *   - A rule that is not taken leaves the program as it was.
 *
 * For "7. 9 | 5 :- 7, not 3.":
 *
 *     struct program p;
 *     uint16_t table[GAMBROLT_MAX_WORDS];
 *     program_start(&p);
 *     program_rule(&p, (uint32_t[]){7}, 1, NULL, 0);
 *     program_rule(&p, (uint32_t[]){9, 5}, 2, (int32_t[]){7, -3}, 2);
 *     size_t words = program_table(&p, table); // 4 2  1 0 0 2  2 1 1 1 3 2 0
 */
#ifndef SHELL_PROGRAM_H
#define SHELL_PROGRAM_H

#include "gambrolt.h"

#ifdef __cplusplus
extern "C" {
#endif

struct program {
    size_t atoms, clauses, words;          /* how many so far; words counts those of the table */
    uint32_t atom[GAMBROLT_MAX_ATOMS + 1]; /* the caller's atoms, ascending: atom[i] is the table's atom i */
    uint32_t word[GAMBROLT_MAX_WORDS + 1]; /* the table, with the caller's atoms; both have room for one too many */
};

/* Those but PROGRAM_ATOM_ZERO are questions of gambrolt.h; gambrolt_message says them in words. */
enum program_answer {
    PROGRAM_TAKEN = 0,
    PROGRAM_ATOM_ZERO = -1, /* an atom or a literal is 0 */
    PROGRAM_ATOMS = GAMBROLT_ATOM_LIMIT,
    PROGRAM_CLAUSES = GAMBROLT_CLAUSE_LIMIT,
    PROGRAM_WORDS = GAMBROLT_WORD_LIMIT
};

/* An empty program. */
void program_start(struct program *p);

/* Adds "head | head .. :- literal, literal ..": no head atom for a constraint, no literal for a fact. */
enum program_answer program_rule(struct program *p, const uint32_t *head, size_t heads,
                                 const int32_t *body, size_t literals);

/* Writes the table, which passes questions 1 to 8. Returns its number of words. */
size_t program_table(const struct program *p, uint16_t table[GAMBROLT_MAX_WORDS]);

/* The table's number of one of the caller's atoms, or -1 where no rule has it. */
int program_number(const struct program *p, uint32_t atom);

#ifdef __cplusplus
}
#endif

#endif
