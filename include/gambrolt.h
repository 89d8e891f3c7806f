/*
 * gambrolt.h - reduces ground logic programs and keeps their stable models.
 *
 * A ground program (disjunctive clauses, constraints, default negation) is a table of 16-bit words. The library checks
 * tables, shortens a program step by step, checks such lists of steps, writes the shortened program, tests whether a set
 * of atoms is a stable model, lists the stable models of a program of few atoms, answers whether atoms depend on
 * themselves, and reads and writes a text form. What every call returns, and what it leaves in the caller's memory, is
 * proved for every input, however damaged.
 *
 *   - A call allocates nothing, keeps no state and no pointer, and calls nobody. Threads may call at the same time, each
 *     with buffers of its own.
 *   - All memory is the caller's. A slice is a pointer and the number of its elements; it may be longer than is needed,
 *     and what lies past the part written doesn't change. The slices lent to one call must not overlap. A pointer must
 *     not be null, not even for 0 elements.
 *   - A refused call changes nothing, save the marks of a list that gambrolt_check refuses at a step.
 *   - A call takes at most 192 kB of stack.
 *
 * The table. Word 0 is the number of atoms n, word 1 the number of clauses m. Each clause has three counts h, p, q, then
 * h head atoms, p positive and q negative body atoms, each part strictly ascending, atoms 0 to n-1. Clauses are numbered
 * from 0. The program "0. 1 <- 0, ~2." with three atoms is the words 3 2  1 0 0 0  1 1 1 1 0 2.
 *
 * The marks. A byte for each word of the table, 1 for kept and 0 for gone. The mark of a clause's first word is 0 where
 * the clause is deleted, that of an atom where it is dropped, from a body or, by kind 9, from a head. Heads and bodies are
 * read as the marks leave them: a clause that has lost its last head atom is a constraint.
 *
 * The list. Four words a step: kind, target, partner, atom. An unused word is 0. A step that drops a literal names its
 * atom. 4 times the table's length always suffices for the list of a reduction.
 *
 * The text. Lines in fixed order, each ended by a line feed: atoms= and clauses= with the two numbers, then for each clause
 * head=, pos= and neg= with its atoms, joined by commas, or with nothing. A list may be in any order and repeat an atom; of
 * each atom one is kept. A number has one to four digits and no leading zero, save 0 itself; there are no blanks. A text is
 * canonical when every list ascends and repeats no atom: that is what is written. The program above is
 *
 *     atoms=3
 *     clauses=2
 *     head=0
 *     pos=
 *     neg=
 *     head=1
 *     pos=0
 *     neg=2
 *
 * Languages that can't read this header link the functions of the same names that the installed library has for the five
 * inline ones: gambrolt_version, gambrolt_refusal, gambrolt_value, gambrolt_message, gambrolt_kind_name.
 */
#ifndef GAMBROLT_H
#define GAMBROLT_H

#include <stddef.h>
#include <stdint.h>

#ifdef __cplusplus
extern "C" {
#endif

/* ---- Version --------------------------------------------------------------------------------------------------------- */

#define GAMBROLT_VERSION "7.0.0"

static inline const char *gambrolt_version(void)
{
    return GAMBROLT_VERSION;
}

/* ---- Limits ---------------------------------------------------------------------------------------------------------- */

#define GAMBROLT_MAX_ATOMS   1024
#define GAMBROLT_MAX_CLAUSES 2048
#define GAMBROLT_MAX_WORDS   8192  /* of a table: as many words, or marks, hold every table */
#define GAMBROLT_MAX_LIST    32760 /* words of a list: as many hold the list of every reduction */
#define GAMBROLT_MAX_SET     16    /* entries of a set that is tested; atoms of a program whose stable models are listed */
#define GAMBROLT_MAX_MODELS  12870 /* words of a list of stable models: as many hold every list */
#define GAMBROLT_MAX_TEXT    65536 /* bytes of a text: as many hold the text of every table */

/* ---- Steps ----------------------------------------------------------------------------------------------------------- */

/* The kinds of step, with the words that each uses beside kind and target. */
enum gambrolt_kind {
    GAMBROLT_TAUTOLOGY     = 1, /* atom: in the head and the positive body; the clause is deleted */
    GAMBROLT_CONTRADICTION = 2, /* atom: in the positive and the negative body; the clause is deleted */
    GAMBROLT_SUCCESS       = 3, /* partner: a fact; atom: its one head atom, in the positive body; the literal is dropped */
    GAMBROLT_NO_HEAD       = 4, /* atom: in the negative body and in no head; the literal is dropped */
    GAMBROLT_BLOCKED       = 5, /* partner: a fact whose head is within the negative body; the clause is deleted */
    GAMBROLT_FAILURE       = 6, /* atom: in the positive body and in no head; the clause is deleted */
    GAMBROLT_LOOP          = 7, /* atom: in the positive body and in a head, but underivable; the clause is deleted */
    GAMBROLT_SUBSUMED      = 8, /* partner: each part within the target's same part; the clause is deleted */
    GAMBROLT_EXCLUDED      = 9  /* atom: in a kept clause, and with it the target, a constraint, would be violated */
};

/*
 * A step of kind 9, excluded, is about an atom that no stable model holds. Its target is a constraint with some positive
 * and no negative atom, and its positive atoms are all among what follows from the atom: the smallest set that holds the
 * atom and the head of each kept clause of one head atom, no negative atoms, and all positive atoms in the set. Every kept
 * clause with the atom in its positive body is deleted, and the atom is dropped from the heads and negative bodies of the
 * others: one step may clear several marks.
 */

/* The name of a kind of step: its constant's, in small letters. */
static inline const char *gambrolt_kind_name(unsigned kind)
{
    switch (kind) {
    case GAMBROLT_TAUTOLOGY: return "tautology";
    case GAMBROLT_CONTRADICTION: return "contradiction";
    case GAMBROLT_SUCCESS: return "success";
    case GAMBROLT_NO_HEAD: return "no_head";
    case GAMBROLT_BLOCKED: return "blocked";
    case GAMBROLT_FAILURE: return "failure";
    case GAMBROLT_LOOP: return "loop";
    case GAMBROLT_SUBSUMED: return "subsumed";
    case GAMBROLT_EXCLUDED: return "excluded";
    default: return "none";
    }
}

/* ---- Answers --------------------------------------------------------------------------------------------------------- */

/*
 * Every call returns one number: the number of the first question that its input fails times 2^48, plus the place of
 * what failed; or, where the call is taken, the value that is named with the call, which is below 2^48.
 */

/* The number of the question that refused the call, or 0 where it was taken. */
static inline unsigned gambrolt_refusal(uint64_t answer)
{
    return (unsigned)(answer >> 48);
}

/* The value of a call that was taken, the place of one that was refused. */
static inline uint64_t gambrolt_value(uint64_t answer)
{
    return answer & UINT64_C(0xffffffffffff);
}

/* The questions. The place is an index into the table, the list (in steps), the set or the text; 0 where none is named. */
enum gambrolt_question {
    GAMBROLT_TABLE_LENGTH    = 1,  /* has the table 2 to 8192 words? */
    GAMBROLT_ATOM_LIMIT      = 2,  /* is n at most 1024? in a text: place of the line */
    GAMBROLT_CLAUSE_LIMIT    = 3,  /* is m at most 2048? place 1; in a text: place of the line */
    GAMBROLT_COUNTS_LEFT     = 4,  /* are three count words left? place of the clause's first word */
    GAMBROLT_LITERALS_LEFT   = 5,  /* are h+p+q more words left? place of the clause's first word */
    GAMBROLT_ATOM_BELOW      = 6,  /* is the atom below n? place of the word; in a text: of the line */
    GAMBROLT_ASCENDING       = 7,  /* is it above the one before it in its part? place of the word; never asked of a text */
    GAMBROLT_ALL_USED        = 8,  /* is no word left over? place of the first */
    GAMBROLT_MARKS_LENGTH    = 9,  /* are there at least as many marks as words? */
    GAMBROLT_MARK_ALLOWED    = 10, /* is each mark 0 or 1, and 0 only where a step can clear it? place of the first not */
    GAMBROLT_LIST_LENGTH     = 11, /* is the list's length a multiple of 4, at most 32760? */
    GAMBROLT_KIND_KNOWN      = 12, /* is the kind 1 to 9? 12 to 16, 29 and 32: place of the step, from 0 */
    GAMBROLT_TARGET_KEPT     = 13, /* is the target below m and kept? */
    GAMBROLT_PARTNER_KEPT    = 14, /* is the partner below m, kept and another clause, or 0 where unused? */
    GAMBROLT_ATOM_KNOWN      = 15, /* is the atom below n, or 0 where unused? */
    GAMBROLT_CONDITION_HOLDS = 16, /* does the kind's condition hold? */
    GAMBROLT_LIST_ROOM       = 17, /* has the list 4 words for each clause and each of its atoms? */
    GAMBROLT_TABLE_ROOM      = 18, /* does the reduced table fit? */
    GAMBROLT_SET_LENGTH      = 19, /* has the set at most 16 entries? */
    GAMBROLT_ENTRY_BELOW     = 20, /* is the entry below n? place of the entry */
    GAMBROLT_ENTRY_ASCENDING = 21, /* is it above the one before? place of the entry */
    GAMBROLT_TEXT_LENGTH     = 22, /* has the text at most 65536 bytes? */
    GAMBROLT_TABLE_SLICE     = 23, /* has the table slice at least 8192 words? */
    GAMBROLT_LINE_THERE      = 24, /* is the line there with its key, "=" and a line feed? 24 to 26: place of its first byte */
    GAMBROLT_VALUE_IN_FORM   = 25, /* is the value in form? */
    GAMBROLT_WORD_LIMIT      = 26, /* do the words so far stay within 8192? of a list each number counts once */
    GAMBROLT_TEXT_ALL_USED   = 27, /* is no byte left? place of the first */
    GAMBROLT_TEXT_ROOM       = 28, /* does the text fit? */
    GAMBROLT_ATOM_MATCHES    = 29, /* kind 3, after 15: where the partner has exactly one head atom, is it the atom? */
    GAMBROLT_FEW_ATOMS       = 30, /* are there at most 16 atoms? */
    GAMBROLT_MODELS_ROOM     = 31, /* does the list of stable models fit? */
    GAMBROLT_ATOM_HEADED     = 32  /* kind 7, after 29: is the atom in the head of a kept clause? */
};

/* What a refusal number says, in words. */
static inline const char *gambrolt_message(unsigned number)
{
    switch (number) {
    case 0: return "taken";
    case GAMBROLT_TABLE_LENGTH: return "the table does not have 2 to 8192 words";
    case GAMBROLT_ATOM_LIMIT: return "there are more than 1024 atoms";
    case GAMBROLT_CLAUSE_LIMIT: return "there are more than 2048 clauses";
    case GAMBROLT_COUNTS_LEFT: return "the table ends before a clause's three counts";
    case GAMBROLT_LITERALS_LEFT: return "the table ends before a clause's last atom";
    case GAMBROLT_ATOM_BELOW: return "an atom is not below the number of atoms";
    case GAMBROLT_ASCENDING: return "an atom is not above the one before it";
    case GAMBROLT_ALL_USED: return "words are left over after the last clause";
    case GAMBROLT_MARKS_LENGTH: return "there are fewer marks than words";
    case GAMBROLT_MARK_ALLOWED: return "a mark is not 0 or 1, or is 0 where nothing can be gone";
    case GAMBROLT_LIST_LENGTH: return "the list is not made of whole steps, or has more than 32760 words";
    case GAMBROLT_KIND_KNOWN: return "the kind of a step is not 1 to 9";
    case GAMBROLT_TARGET_KEPT: return "the target of a step is not a kept clause";
    case GAMBROLT_PARTNER_KEPT: return "the partner of a step is not another kept clause, or is unused and not 0";
    case GAMBROLT_ATOM_KNOWN: return "the atom of a step is not below the number of atoms, or is unused and not 0";
    case GAMBROLT_CONDITION_HOLDS: return "the condition of a step does not hold";
    case GAMBROLT_LIST_ROOM: return "the list has not 4 words for each clause and each of its atoms";
    case GAMBROLT_TABLE_ROOM: return "the reduced table does not fit";
    case GAMBROLT_SET_LENGTH: return "the set has more than 16 entries";
    case GAMBROLT_ENTRY_BELOW: return "an entry of the set is not below the number of atoms";
    case GAMBROLT_ENTRY_ASCENDING: return "an entry of the set is not above the one before it";
    case GAMBROLT_TEXT_LENGTH: return "the text has more than 65536 bytes";
    case GAMBROLT_TABLE_SLICE: return "the table slice has fewer than 8192 words";
    case GAMBROLT_LINE_THERE: return "a line with the expected key and a line feed is not there";
    case GAMBROLT_VALUE_IN_FORM: return "the value of a line is not in form";
    case GAMBROLT_WORD_LIMIT: return "the program has more than 8192 words";
    case GAMBROLT_TEXT_ALL_USED: return "bytes are left over after the last line";
    case GAMBROLT_TEXT_ROOM: return "the text does not fit";
    case GAMBROLT_ATOM_MATCHES: return "the atom of a success step is not the one head atom of its partner";
    case GAMBROLT_FEW_ATOMS: return "there are more than 16 atoms";
    case GAMBROLT_MODELS_ROOM: return "the list of stable models does not fit";
    case GAMBROLT_ATOM_HEADED: return "the atom of a loop step is in no kept head; a failure is kind 6";
    default: return "no such refusal";
    }
}

/* ---- Calls ----------------------------------------------------------------------------------------------------------- */

/* Every call on a table asks questions 1 to 8 of it first, then those named with the call, in that order. */

/* Checks a table. Value: 0. */
uint64_t gambrolt_check_table(const uint16_t *table, size_t table_len);

/*
 * Checks a list of steps, each asked and made on what the steps before it left, from all marks 1: 9, 11,
 * then for each step 12, 13, 14, 15, 29, 32, 16.
 * Value: the number of steps.
 * marks (at least table_len, of any values): those after the steps; of a list refused at step k (12 to 16, 29, 32),
 * those after steps 0 to k-1.
 */
uint64_t gambrolt_check(const uint16_t *table, size_t table_len, uint8_t *marks, size_t marks_len,
                        const uint16_t *list, size_t list_len);

/*
 * Reduces a program: takes the applicable step that is smallest by kind, target, partner, atom, until none applies: 9, 17.
 * Passed over are steps of kinds 5 and 8 whose partner is a later clause, equal to the target as left: of two such clauses
 * the later goes by the earlier.
 * Value: the number s of steps made, which is the number of marks at 0, or less where a step of kind 9 is among them.
 * marks (at least table_len, of any values): those after the steps.
 * list (at least 4 words for each clause and each of its atoms; 4 * table_len always suffices): the steps, in its first
 * 4s words.
 */
uint64_t gambrolt_reduce(const uint16_t *table, size_t table_len, uint8_t *marks, size_t marks_len,
                         uint16_t *list, size_t list_len);

/*
 * Writes the table of the program that the marks leave, its clauses renumbered from 0: 9, 10, 18.
 * Value: the number of words written.
 * out: the table, in its first words; table_len words always suffice.
 */
uint64_t gambrolt_reduced_table(const uint16_t *table, size_t table_len, const uint8_t *marks, size_t marks_len,
                                uint16_t *out, size_t out_len);

/*
 * Tests whether a set of atoms, given in ascending order, is a stable model: 19, 20, 21.
 * Value: 1 for yes, 0 for no. The time doubles with each entry, and 16 take milliseconds.
 */
uint64_t gambrolt_test(const uint16_t *table, size_t table_len, const uint16_t *set, size_t set_len);

/*
 * Lists the stable models of a program of at most 16 atoms, which are the sets that gambrolt_test says yes to: 30, 31.
 * Value: the number of stable models.
 * out: a word for each stable model, the sum of 2 to the power of each of its atoms, in ascending order, in its first words.
 * GAMBROLT_MAX_MODELS words always suffice: no stable model is a proper subset of another, and no more than 12,870 subsets
 * of 16 atoms are so (Sperner's theorem).
 * The time doubles with each atom: 16 atoms take milliseconds with a short table, and some tenths of a second with one of
 * 8192 words that is made to take long.
 */
uint64_t gambrolt_models(const uint16_t *table, size_t table_len, uint16_t *out, size_t out_len);

/*
 * Answers whether some atom depends on itself, from head to positive body, along any chain of clauses. Negative body atoms
 * lead nowhere: no is what solvers call a tight program (Fages).
 * Value: 1 for yes, 0 for no. The time is in proportion to the table's length.
 */
uint64_t gambrolt_cycle(const uint16_t *table, size_t table_len);

/*
 * Reads a program from text: 22 to 27, with 2, 3 and 6 for the line that fails them. Each list is sorted and keeps each
 * atom once, so two texts give the same table exactly when gambrolt_write_text gives one text for both; of a canonical
 * text it gives the bytes back.
 * Value: the number of words written.
 * table (at least GAMBROLT_MAX_WORDS): the table, in its first words.
 * The time is in proportion to the text's length; for a list that does not ascend 10,000 bytes more are cleared, and read up
 * to its greatest number.
 */
uint64_t gambrolt_read_text(const uint8_t *text, size_t text_len, uint16_t *table, size_t table_len);

/*
 * Writes a table as text, which is canonical: 28.
 * Value: the number of bytes written.
 * out: the text, in its first bytes, with no 0 behind it; GAMBROLT_MAX_TEXT bytes always suffice.
 */
uint64_t gambrolt_write_text(const uint16_t *table, size_t table_len, uint8_t *out, size_t out_len);

#ifdef __cplusplus
}
#endif

#endif
