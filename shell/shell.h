/* shell.h - an order, from the bytes that come in to those that go out: what the parts of the program share. */
#ifndef SHELL_H
#define SHELL_H

#include "program.h"

/* Bytes that grow, with a zero byte behind them, or an array that does. Starts as all zeros. */
struct buffer {
    char *at;
    size_t len, room;
};

/* Some of the bytes of a buffer. */
struct span {
    const char *at;
    size_t len;
};

/* The statements of aspif by their numbers. */
enum kind { STEP_END, RULE, MINIMIZE, PROJECT, OUTPUT, EXTERNAL, ASSUME, HEURISTIC, EDGE, THEORY, COMMENT };

/* What becomes of a rule: it goes past the table as it is, or into it as one clause, or as one for each atom of a choice. */
enum role { CARRIED, LED_ROUND, CLAUSE, CHOICE };

struct statement {
    struct span name;  /* an output statement's name, a comment's text */
    struct span bytes; /* as it came */
    enum kind kind;
    enum role role;        /* of a rule; one that is led round is a fact that no clause mentions */
    size_t first;          /* of its numbers, which are all that follow its kind */
    size_t line;           /* from 1 */
    size_t number, clause; /* of a rule: how many rules, and how many clauses of the table, come before it */
};

/* A rule's parts in its statement. A literal of a weight body is followed by its weight. */
struct rule {
    int choice, weights;
    size_t heads, literals;
    int32_t bound;
    const int32_t *head, *body;
};

/* An atom of the order. */
struct atom {
    uint32_t number;
    uint32_t mentions;      /* in clauses of the table */
    uint8_t guarded;        /* it may hold for reasons that the table doesn't show */
    uint8_t external;       /* it has an external statement */
    uint8_t theory;         /* it is a theory's */
    uint8_t minimized;      /* a minimize statement has it */
    uint8_t made;           /* by the grounder, for an aggregate */
    uint8_t derived, given; /* a rule that is left has it in its head; as a fact */
    struct span name;       /* one without is letters x, _ and its number */
};

/* Atoms of the table that aspif can't have: from CHOSEN those of choices, from GUARD those of guards. */
#define CHOSEN UINT32_C(0x80000000)
#define GUARD UINT32_C(0xc0000000)
#define NO_RULE SIZE_MAX

/* Starts as all zeros, but for what comes in. */
struct order {
    struct buffer bytes;  /* in: aspif, or document 01's text, which becomes aspif */
    struct buffer ground; /* in: the same rules as `gringo --text` writes them */
    struct buffer given;  /* in: a list of steps to be checked */
    struct buffer output, explanation, statistics, certificate, notes; /* out: notes are for standard error */
    char fault[400];                                                   /* why it is refused: one line */

    struct buffer statements, numbers; /* arrays of struct statement and int32_t */
    struct buffer atoms, slots;        /* of struct atom, and of where they stand, by a hash of the number, plus 1 */
    char beyond[400];                  /* why it can't be reduced, though it is well-formed */
    struct program program;            /* the table's clauses: rules, choices and guards, with aspif's atoms */
    size_t rules, carried;             /* of the input; those that go past the table as they are */
    uint32_t shift;                    /* how far the input's atoms are below aspif's: 1 for a text */
    uint64_t taken;                    /* bit k: a name of the order is k letters x, _ and a number */

    uint16_t table[GAMBROLT_MAX_WORDS], reduced[GAMBROLT_MAX_WORDS], list[GAMBROLT_MAX_LIST];
    size_t words, reduced_words, steps;
    size_t start[GAMBROLT_MAX_CLAUSES]; /* the first word of each clause */
    size_t left[GAMBROLT_MAX_CLAUSES];  /* the same in the reduced table, or 0, also where a choice has lost its atom */
    size_t of[GAMBROLT_MAX_CLAUSES];    /* the number of the clause's statement, or NO_RULE for a guard */
    size_t first[GAMBROLT_MAX_CLAUSES]; /* of a choice's clause that is left: the first with the same body */
    uint8_t marks[GAMBROLT_MAX_WORDS], reach[GAMBROLT_MAX_ATOMS]; /* reach: as document 01 defines it */
    double seconds[3];                                            /* of reading, reducing, checking */
};

/* The options that a run depends on. */
struct options {
    int text, to_text, from_text, to_lp, no_reduce, steps, pass_through, names, explain, stats, json;
    int list, list_json, check; /* --steps=FILE, in JSON; --check=FILE */
    int models;
};

/* run.c: one whole run in memory. Returns 0, or -1 with the fault and no output. */
int run(struct order *o, const struct options *options);

/* Sets the fault and returns -1. */
int refuse(struct order *o, const char *format, ...) __attribute__((format(printf, 2, 3)));

/* Whether a part of the library refuses a call that it must take, which is then the fault. */
int refused(struct order *o, const char *part, uint64_t answer);

/* Says why an order can't be reduced, though it is well-formed; the first reason counts. */
void beyond(struct order *o, const char *format, ...) __attribute__((format(printf, 2, 3)));

/* read.c: read o->bytes. Return 0, or -1 with the fault. */
int read_aspif(struct order *o);
int read_text(struct order *o);

/* table.c: makes the table; where it is over the limits, o->beyond says so. */
void make_table(struct order *o, const struct options *options);

/* After the reduction: o->left, o->first, and which atoms are derived. With `merge`, choices of several rules become one. */
void find_left(struct order *o, int merge);

/* Whether the order has rules beside the table, or atoms that may be set from outside. */
int has_context(const struct order *o);

/* Whether a clause of a table has only the atom that stands for leaving a choice in its head: it says nothing any more. */
int is_spent(const struct order *o, const uint16_t *clause);

/* The atom by its number, or NULL where no statement has it. */
struct atom *atom_of(const struct order *o, uint32_t number);

/* names.c: names from output statements; further ones from o->ground, or -1 and none where its rules do not fit. */
void name_shown(struct order *o);
int name_ground(struct order *o);

/* report.c: each step as a sentence, one a line; and figures, aligned or as JSON. */
void explain(struct order *o);
void put_statistics(struct order *o, int json);

/* steps.c: the list of steps, a line each as document 01's program prints them, or as JSON, and its objects alone. */
void put_steps(struct buffer *b, const struct order *o);
void put_steps_json(struct buffer *b, const struct order *o);
void put_objects(struct buffer *b, const struct order *o);

/*
 * How many of the steps can be used: all, but where something goes past the table those before the first of kind 9. It may
 * derive an atom that the table's clauses exclude, and then the constraint has to be there.
 */
size_t usable_steps(const struct order *o);

/* Reads o->given, in either form, and has the library check it; returns -1 with the fault where it is refused. */
int check_steps(struct order *o);

/* models.c: the kind of a statement that decides beside the table what is a stable model, or NULL. */
const char *decides_beside(const struct order *o, const struct statement *s);

/* The stable models of what is left, a line each, and their number; or -1 with the fault where its atoms are too many. */
int put_models(struct order *o, int reduced);

/* write.c: adds to a buffer. Where memory runs out, the program ends with status 2. */
void put(struct buffer *b, const void *bytes, size_t len);
void putf(struct buffer *b, const char *format, ...) __attribute__((format(printf, 2, 3)));

/* A literal of aspif by name, `not` before it where it is negative, between two texts. */
void put_literal(struct buffer *b, const struct order *o, const char *before, int64_t literal, const char *after);

/* A clause as the marks leave it, e.g. `a | b :- c, not d.`, with at most `most` of its atoms; of a choice `{a} :- c.`. */
void put_clause(struct buffer *b, const struct order *o, size_t clause, size_t most);

/* One rule in aspif, with the line feed: a clause, and the atoms of its table. */
void put_rule(struct buffer *b, const uint16_t *clause, const uint32_t *atom);

/* The program that is left, with every other statement unchanged in its place; and the same in gringo's syntax. */
void put_aspif(struct order *o);
void put_lp(struct order *o, int reduced);

/* The first word after the clause that starts at word i. */
static inline size_t clause_end(const uint16_t *table, size_t i)
{
    return i + 3 + table[i] + table[i + 1] + table[i + 2];
}

/* The k-th statement, or NULL after the last; and its numbers. */
static inline struct statement *statement_at(const struct order *o, size_t k)
{
    struct statement *first = (struct statement *)(void *)o->statements.at;
    return k < o->statements.len / sizeof *first ? first + k : NULL;
}

static inline const int32_t *numbers_of(const struct order *o, const struct statement *s)
{
    return (const int32_t *)(const void *)o->numbers.at + s->first;
}

static inline struct rule rule_of(const struct order *o, const struct statement *s)
{
    const int32_t *n = numbers_of(o, s), *b = n + 2 + n[1];
    return (struct rule){n[0], b[0], (size_t)n[1], (size_t)b[1 + b[0]], b[0] ? b[1] : 0, n + 2, b + 2 + b[0]};
}

/* Whether the clause comes from a choice. Its head is the choice's atom, then the one that stands for leaving it. */
static inline int is_choice(const struct order *o, size_t clause)
{
    return o->of[clause] != NO_RULE && statement_at(o, o->of[clause])->role == CHOICE;
}

/* Whether the choice's atom is left in its clause: an atom that can't be is dropped from it. */
static inline int has_chosen(const struct order *o, size_t clause)
{
    return o->marks[o->start[clause] + 3];
}

#endif
