/*
 * models.c - all stable models of a small order, in place of its program. They are those of the clauses that are left,
 * which become a table of their own: its atoms are numbered from 0, so that only those count that one of these clauses
 * mentions. An atom that stands for leaving a choice is one of them, but no output statement has it, so it is not shown.
 */
#include "shell.h"

#include <stdio.h>
#include <stdlib.h>

#define LISTED 16 /* the atoms that question 30 of the library allows, for the words of its refusal */

/* A name that some model shows: those with all atoms of `in` and with none of `out`. */
struct shown {
    struct span name;
    uint16_t in, out;
};

/* ---- Which orders ---- */

/* Statements beside the table that decide what is a stable model, or which of them are wanted. */
static const char *const deciding[COMMENT + 1] = {
    [MINIMIZE] = "minimize statement", [EXTERNAL] = "external statement", [ASSUME] = "assume statement",
    [EDGE] = "edge statement", [THEORY] = "theory statement"};

const char *decides_beside(const struct order *o, const struct statement *s)
{
    if (s->kind == RULE)
        return s->role != CARRIED ? NULL : rule_of(o, s).weights ? "rule with a weight body" : "rule of a theory atom";
    return s->kind == THEORY && numbers_of(o, s)[0] < 4 ? NULL : deciding[s->kind]; /* below 4 are terms */
}

/* ---- The table of what is left ---- */

/* How often the clauses that are left mention each atom of the table. */
static void count_mentions(const struct order *o, uint16_t mentions[GAMBROLT_MAX_ATOMS])
{
    for (size_t i = 2; i < o->reduced_words; i = clause_end(o->reduced, i))
        for (size_t k = i + 3; k < clause_end(o->reduced, i) && !is_spent(o, o->reduced + i); k++)
            mentions[o->reduced[k]]++;
}

/* Adds a clause of the table. It is taken, as what is left is within the limits that the table is within. */
static void add_left(struct program *left, const uint16_t *clause, const uint32_t *atom)
{
    uint32_t head[GAMBROLT_MAX_ATOMS];
    int32_t body[2 * GAMBROLT_MAX_ATOMS];
    size_t heads = clause[0], positive = clause[1], literals = positive + clause[2];
    for (size_t i = 0; i < heads; i++)
        head[i] = atom[clause[3 + i]];
    for (size_t i = 0; i < literals; i++) {
        int32_t number = (int32_t)atom[clause[3 + heads + i]]; /* those of choices are in heads only */
        body[i] = i < positive ? number : -number;
    }
    program_rule(left, head, heads, body, literals);
}

/* The clauses that are left. A fact that no other mentions takes no room: its atom is in every model (see table.c). */
static void find_clauses(const struct order *o, struct program *left)
{
    uint16_t mentions[GAMBROLT_MAX_ATOMS] = {0};
    count_mentions(o, mentions);
    program_start(left);
    for (size_t i = 2; i < o->reduced_words; i = clause_end(o->reduced, i)) {
        const uint16_t *c = o->reduced + i;
        if (!is_spent(o, c) && (c[0] != 1 || c[1] + c[2] > 0 || mentions[c[3]] > 1))
            add_left(left, c, o->program.atom);
    }
}

/* Says by how much the atoms are too many. A lone fact is one that no other clause mentions. */
static int refuse_atoms(struct order *o, const struct program *left, int reduced)
{
    char choices[60] = "";
    size_t chosen = 0;
    while (chosen < left->atoms && left->atom[left->atoms - 1 - chosen] >= CHOSEN)
        chosen++;
    if (chosen)
        snprintf(choices, sizeof choices, " (%zu of them stand for leaving a choice)", chosen);
    return refuse(o, "%zu atoms besides lone facts%s%s, %zu over the %d of which --models lists the stable models; %shand the "
                  "program to a solver", left->atoms, reduced ? " are left after the reduction" : "", choices,
                  left->atoms - LISTED, LISTED, reduced ? "" : "leave out --no-reduce, or ");
}

/* ---- The models by name ---- */

/* What a condition, a count and as many literals, asks of a model. Returns 0 where no model meets it. */
static int find_condition(const struct order *o, const struct program *left, const int32_t *count, struct shown *shown)
{
    for (int32_t i = 1; i <= *count; i++) {
        uint32_t number = (uint32_t)abs(count[i]);
        const struct atom *a = atom_of(o, number);
        int positive = count[i] > 0, given = a && a->given, bit = program_number(left, number);
        if (bit < 0 && positive != given) /* in no clause of the table: in every model where it is given, else in none */
            return 0;
        if (bit >= 0)
            *(positive ? &shown->in : &shown->out) |= (uint16_t)(1 << bit);
    }
    return 1;
}

/* The names that some model may show, in the order of their statements; an atom of a text, which is a(12), as 12. */
static struct buffer find_shown(const struct order *o, const struct program *left)
{
    struct buffer all = {0};
    const struct statement *s;
    for (size_t k = 0; (s = statement_at(o, k)); k++) {
        struct shown one = {.name = s->name};
        if (o->shift && s->kind == OUTPUT)
            one.name = (struct span){s->name.at + 2, s->name.len - 3};
        if (s->kind == OUTPUT && s->name.len > 0 && find_condition(o, left, numbers_of(o, s) + 1, &one))
            put(&all, &one, sizeof one);
    }
    return all;
}

/* A model as a line of names. */
static void put_model(struct buffer *b, const struct buffer *shown, unsigned model)
{
    const struct shown *s = (const struct shown *)(const void *)shown->at;
    const char *before = "";
    for (size_t i = 0; i < shown->len / sizeof *s; i++) {
        if ((model & s[i].in) != s[i].in || model & s[i].out)
            continue;
        putf(b, "%s", before);
        put(b, s[i].name.at, s[i].name.len);
        before = " ";
    }
    put(b, "\n", 1);
}

int put_models(struct order *o, int reduced)
{
    uint16_t table[GAMBROLT_MAX_WORDS], model[GAMBROLT_MAX_MODELS];
    struct program left;
    find_clauses(o, &left);
    uint64_t answer = gambrolt_models(table, program_table(&left, table), model, GAMBROLT_MAX_MODELS);
    if (gambrolt_refusal(answer) == GAMBROLT_FEW_ATOMS)
        return refuse_atoms(o, &left, reduced);
    if (refused(o, "list of stable models", answer))
        return -1;
    struct buffer shown = find_shown(o, &left);
    for (size_t i = 0; i < answer; i++)
        put_model(&o->output, &shown, model[i]);
    putf(&o->output, "Models       : %zu\n", (size_t)answer); /* as clasp writes it */
    free(shown.at);
    return 0;
}
