/*
 * table.c - the table that the reducer gets of an order. A rule with a normal body is a clause. A choice is for each of
 * its atoms a clause `a | x :- body` with an atom x of its own. Rules with weight bodies and rules of theory atoms are
 * carried past the table; each atom of their heads, and each that may be set from outside, is guarded by a clause
 * `a | x.` at the table's end. A fact that no other clause mentions is led round the table.
 */
#include "shell.h"

#include <stdlib.h>
#include <string.h>

/* ---- The atoms of an order ---- */

static struct atom *atoms_at(const struct order *o, size_t k)
{
    return (struct atom *)(void *)o->atoms.at + k;
}

static size_t atom_count(const struct order *o)
{
    return o->atoms.len / sizeof(struct atom);
}

/* Where the atom's number stands among the slots, or the free slot where it should. Some slot is free. */
static uint32_t *slot_of(const struct order *o, uint32_t number)
{
    uint32_t *slot = (uint32_t *)(void *)o->slots.at;
    size_t mask = o->slots.len / sizeof *slot - 1, i = number * UINT32_C(2654435769) >> 7 & mask;
    while (slot[i] && atoms_at(o, slot[i] - 1)->number != number)
        i = (i + 1) & mask;
    return slot + i;
}

struct atom *atom_of(const struct order *o, uint32_t number)
{
    uint32_t slot = o->slots.len ? *slot_of(o, number) : 0;
    return slot ? atoms_at(o, slot - 1) : NULL;
}

/* Twice as many slots. */
static void more_slots(struct order *o)
{
    size_t count = o->slots.len ? 2 * o->slots.len : 1024 * sizeof(uint32_t);
    free(o->slots.at);
    o->slots = (struct buffer){0};
    for (size_t zeros = count / sizeof(uint32_t); zeros > 0; zeros -= 256)
        put(&o->slots, (uint32_t[256]){0}, 256 * sizeof(uint32_t));
    for (size_t k = 0; k < atom_count(o); k++)
        *slot_of(o, atoms_at(o, k)->number) = (uint32_t)k + 1;
}

/* The atom by its number, new where no statement before had it. */
static struct atom *add_atom(struct order *o, int32_t literal)
{
    uint32_t number = (uint32_t)abs(literal);
    if (2 * atom_count(o) >= o->slots.len / sizeof(uint32_t))
        more_slots(o);
    uint32_t *slot = slot_of(o, number);
    if (!*slot) {
        put(&o->atoms, &(struct atom){.number = number}, sizeof(struct atom));
        *slot = (uint32_t)atom_count(o);
    }
    return atoms_at(o, *slot - 1);
}

/* ---- Which rules go into the table ---- */

/* Notes the atoms that statements other than rules set or name. */
static void note_atoms(struct order *o)
{
    const struct statement *s;
    for (size_t k = 0; (s = statement_at(o, k)); k++) {
        const int32_t *n = numbers_of(o, s);
        if (s->kind == EXTERNAL)
            add_atom(o, n[0])->external = 1;
        else if (s->kind == THEORY && n[0] >= 5 && n[1] > 0)
            add_atom(o, n[1])->theory = 1;
        for (int32_t i = 0; s->kind == MINIMIZE && i < n[1]; i++)
            add_atom(o, n[2 + 2 * i])->minimized = 1;
        for (int32_t i = 1; s->kind == PROJECT && i <= n[0]; i++)
            add_atom(o, n[i]);
        if (s->kind == OUTPUT && n[1] == 1)
            add_atom(o, n[2]);
    }
    for (size_t k = 0; k < atom_count(o); k++)
        atoms_at(o, k)->guarded = atoms_at(o, k)->external | atoms_at(o, k)->theory;
}

/* Whether the rule goes past the table, judged by its body and its head. */
static int is_carried(struct order *o, const struct statement *s, const struct rule *r)
{
    int carried = r->weights;
    for (size_t i = 0; i < r->heads; i++) {
        const struct atom *a = add_atom(o, r->head[i]);
        carried |= a->theory;
        if (a->external)
            beyond(o, "line %zu: rule: it derives the external atom %u, which may then be set from outside or not, as the "
                   "solver reads it", s->line, a->number);
    }
    return carried;
}

/* Gives every rule its role, and counts where clauses of the table mention an atom. */
static void assign_roles(struct order *o)
{
    struct statement *s;
    for (size_t k = 0; (s = statement_at(o, k)); k++) {
        if (s->kind != RULE)
            continue;
        struct rule r = rule_of(o, s);
        int carried = is_carried(o, s, &r);
        s->role = carried ? CARRIED : r.choice ? CHOICE : CLAUSE;
        o->carried += (size_t)carried;
        for (size_t i = 0; i < r.heads; i++) {
            struct atom *a = atom_of(o, (uint32_t)r.head[i]);
            a->mentions += !carried;
            a->guarded |= (uint8_t)carried;
        }
        for (size_t i = 0; i < r.literals; i++)
            add_atom(o, r.body[i << r.weights])->mentions += !carried;
    }
}

/*
 * Facts whose atom nothing else in the table mentions. With such a fact "a." beside a program P without a, a set is stable
 * where a is in it and the rest is stable for P, so it asks nothing of the reducer.
 */
static void lead_facts_round(struct order *o)
{
    struct statement *s;
    for (size_t k = 0; (s = statement_at(o, k)); k++) {
        if (s->kind != RULE || s->role != CLAUSE)
            continue;
        struct rule r = rule_of(o, s);
        if (r.heads == 1 && r.literals == 0) {
            const struct atom *a = atom_of(o, (uint32_t)r.head[0]);
            if (a->mentions == 1 && !a->guarded)
                s->role = LED_ROUND;
        }
    }
}

/* ---- The table ---- */

/* Adds one clause. */
static enum program_answer add_clause(struct order *o, const uint32_t *head, size_t heads, const struct rule *r, size_t of)
{
    enum program_answer answer = program_rule(&o->program, head, heads, r ? r->body : NULL, r ? r->literals : 0);
    if (answer == PROGRAM_TAKEN)
        o->of[o->program.clauses - 1] = of;
    return answer;
}

/* Adds the clauses of the k-th statement. */
static enum program_answer add_rule(struct order *o, struct statement *s, size_t k, uint32_t *chosen)
{
    enum program_answer answer = PROGRAM_TAKEN;
    struct rule r = rule_of(o, s);
    s->clause = o->program.clauses;
    if (s->role == CLAUSE)
        return add_clause(o, (const uint32_t *)r.head, r.heads, &r, k);
    for (size_t i = 0; s->role == CHOICE && i < r.heads && answer == PROGRAM_TAKEN; i++)
        answer = add_clause(o, (uint32_t[]){(uint32_t)r.head[i], (*chosen)++}, 2, &r, k);
    return answer;
}

/* Adds all clauses. Returns 0, or the line of the first rule that is over a limit. */
static size_t add_all(struct order *o)
{
    struct statement *s;
    uint32_t chosen = CHOSEN, guard = GUARD;
    size_t line = 1;
    for (size_t k = 0; (s = statement_at(o, k)); k++) {
        line = s->line;
        if (s->kind == RULE && add_rule(o, s, k, &chosen) != PROGRAM_TAKEN)
            return line;
    }
    for (size_t k = 0; k < atom_count(o); k++)
        if (atoms_at(o, k)->guarded &&
            add_clause(o, (uint32_t[]){atoms_at(o, k)->number, guard++}, 2, NULL, NO_RULE) != PROGRAM_TAKEN)
            return line;
    return 0;
}

static int by_value(const void *left, const void *right)
{
    int32_t a = *(const int32_t *)left, b = *(const int32_t *)right;
    return (a > b) - (a < b);
}

/* How many different numbers there are. */
static size_t distinct(const int32_t *number, size_t count)
{
    struct buffer sorted = {0};
    size_t found = 0;
    put(&sorted, number, count * sizeof *number);
    qsort(sorted.at, count, sizeof *number, by_value);
    const int32_t *n = (const int32_t *)(const void *)sorted.at;
    for (size_t i = 0; i < count; i++)
        found += i == 0 || n[i] != n[i - 1];
    free(sorted.at);
    return found;
}

/* The atoms, clauses and words that the table would have. */
static void measure_whole(const struct order *o, size_t size[3])
{
    const struct statement *s;
    size[2] = 2;
    for (size_t k = 0; (s = statement_at(o, k)); k++) {
        if (s->kind != RULE || s->role < LED_ROUND)
            continue;
        struct rule r = rule_of(o, s);
        size_t clauses = s->role == CHOICE ? r.heads : s->role == CLAUSE;
        size[0] += s->role == CHOICE ? clauses : 0;
        size[0] -= s->role == LED_ROUND; /* which the atoms below count */
        size[1] += clauses;
        size[2] += clauses * (3 + (s->role == CHOICE ? 2 : distinct(r.head, r.heads)) + distinct(r.body, r.literals));
    }
    for (size_t k = 0; k < atom_count(o); k++) {
        size_t guard = atoms_at(o, k)->guarded;
        size[0] += (atoms_at(o, k)->mentions || guard) + guard;
        size[1] += guard;
        size[2] += 5 * guard;
    }
}

/* Says how far the order is over which limits. */
static void say_limits(struct order *o, size_t line)
{
    static const char *const what[] = {"atoms", "clauses", "words"};
    static const size_t limit[] = {GAMBROLT_MAX_ATOMS, GAMBROLT_MAX_CLAUSES, GAMBROLT_MAX_WORDS};
    size_t size[3] = {0};
    struct buffer b = {0};
    measure_whole(o, size);
    for (int i = 0; i < 3; i++)
        if (size[i] > limit[i])
            putf(&b, "%s%zu %s, %zu over the limit of %zu", b.len ? "; " : "", size[i], what[i], size[i] - limit[i], limit[i]);
    beyond(o, "line %zu: rule: too much from here on: %s", line, b.at);
    free(b.at);
}

void make_table(struct order *o, const struct options *options)
{
    note_atoms(o);
    assign_roles(o);
    if (!options->text && !options->to_text && !options->from_text)
        lead_facts_round(o);
    size_t line = o->beyond[0] ? 0 : add_all(o);
    if (line)
        say_limits(o, line);
    if (o->beyond[0])
        return;
    o->words = program_table(&o->program, o->table);
    for (size_t i = 2, clause = 0; i < o->words; i = clause_end(o->table, i))
        o->start[clause++] = i;
}

/* ---- What is left ---- */

/* Whether the bodies of two clauses of the reduced table are equal. */
static int same_body(const uint16_t *a, const uint16_t *b)
{
    return a[1] == b[1] && a[2] == b[2] && memcmp(a + 3 + a[0], b + 3 + b[0], (a[1] + a[2]) * sizeof *a) == 0;
}

/* For each clause of a choice the first with the same body. */
static void find_first(struct order *o, int merge)
{
    size_t firsts[GAMBROLT_MAX_CLAUSES], count = 0;
    for (size_t c = 0; c < o->table[1]; c++) {
        if (!o->left[c] || !is_choice(o, c))
            continue;
        size_t i = 0;
        while (i < count && !((merge || o->of[firsts[i]] == o->of[c]) &&
                              same_body(o->reduced + o->left[firsts[i]], o->reduced + o->left[c])))
            i++;
        if (i == count)
            firsts[count++] = c;
        o->first[c] = firsts[i];
    }
}

/* Notes the atoms that the head of a clause that is left has; of a choice only the first is the order's. */
static void note_heads(struct order *o, size_t c)
{
    const uint16_t *clause = o->reduced + o->left[c];
    int fact = !is_choice(o, c) && clause[0] == 1 && clause[1] + clause[2] == 0;
    for (size_t i = 0; i < clause[0]; i++) {
        struct atom *a = atom_of(o, o->program.atom[clause[3 + i]]);
        if (a) {
            a->derived = 1;
            a->given |= (uint8_t)fact;
        }
    }
}

static void find_derived(struct order *o)
{
    const struct statement *s;
    for (size_t k = 0; (s = statement_at(o, k)); k++) {
        if (s->kind != RULE || s->role >= CLAUSE)
            continue;
        struct rule r = rule_of(o, s);
        for (size_t i = 0; i < r.heads; i++) {
            struct atom *a = atom_of(o, (uint32_t)r.head[i]);
            a->derived = 1;
            a->given |= s->role == LED_ROUND;
        }
    }
    for (size_t c = 0; c < o->table[1]; c++)
        if (o->left[c] && o->of[c] != NO_RULE)
            note_heads(o, c);
}

int has_context(const struct order *o)
{
    for (size_t k = 0; k < atom_count(o); k++)
        if (atoms_at(o, k)->guarded)
            return 1;
    return o->carried > 0;
}

int is_spent(const struct order *o, const uint16_t *clause)
{
    uint32_t first = clause[0] == 1 ? o->program.atom[clause[3]] : 0;
    return first >= CHOSEN && first < GUARD;
}

void find_left(struct order *o, int merge)
{
    size_t left = 2;
    for (size_t c = 0; c < o->table[1]; c++) {
        int kept = o->marks[o->start[c]];
        o->left[c] = kept && !is_spent(o, o->reduced + left) ? left : 0;
        if (kept)
            left = clause_end(o->reduced, left);
    }
    find_first(o, merge);
    find_derived(o);
}
