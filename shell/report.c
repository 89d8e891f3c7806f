/* report.c - what there is to say about a reduction: each step as a sentence, and figures. */
#include "shell.h"

#include <string.h>

#define KINDS 10
#define SHOWN 12 /* atoms of a clause that are written out */
#define LINKS 6  /* links of a circle that are written out */
#define NAMED 20 /* clauses that went with an atom whose numbers are written out */
#define OUTSIDE (-1)
#define NO_ATOM (-1)

/*
 * The kinds of step. In a sentence @a is the step's atom, @n the partner's number, @p the partner, @h its heads denied,
 * @c how the atom rests on itself, @s how the partner compares with the target, @f what of the target follows from the
 * atom, @w what goes with it.
 */
static const char *const sentences[KINDS] = {
    "deleted, since @p, rules out every stable model anyway", /* what blocked says of an empty partner */
    [GAMBROLT_TAUTOLOGY] = "deleted, since it derives `@a` only where that already holds",
    [GAMBROLT_CONTRADICTION] = "deleted, since it needs both `@a` and `not @a`",
    [GAMBROLT_SUCCESS] = "dropped `@a`, which clause @n gives as a fact",
    [GAMBROLT_NO_HEAD] = "dropped `not @a`, which no clause can derive",
    [GAMBROLT_BLOCKED] = "deleted, since it needs @h, but @p, is a fact",
    [GAMBROLT_FAILURE] = "deleted, since it needs `@a`, which no clause can derive",
    [GAMBROLT_LOOP] = "deleted, since it needs `@a`, which is derived only in a circle@c",
    [GAMBROLT_SUBSUMED] = "deleted, since @p, @s",
    [GAMBROLT_EXCLUDED] = "`@a` can't be@f@w"};

/* ---- Sentences: the steps are made again, and each is read on the marks that those before it left ---- */

enum part { HEAD, POSITIVE, NEGATIVE, END };

/* Where a part of a clause starts, and so where the part before it ends. */
static size_t part_start(const struct order *o, size_t clause, enum part part)
{
    size_t i = o->start[clause], at = i + 3;
    for (enum part before = HEAD; before < part; before++)
        at += o->table[i + before];
    return at;
}

/* Where the atom stands in the part, or for OUTSIDE the first that is outside the reach; 0 where none does. */
static size_t find(const struct order *o, size_t clause, enum part part, int atom)
{
    for (size_t i = part_start(o, clause, part); i < part_start(o, clause, part + 1); i++)
        if (o->marks[i] && (atom == OUTSIDE ? !o->reach[o->table[i]] : o->table[i] == atom))
            return i;
    return 0;
}

static void find_reach(struct order *o)
{
    memset(o->reach, 0, sizeof o->reach);
    for (int more = 1; more;) {
        more = 0;
        for (size_t c = 0; c < o->table[1]; c++)
            if (o->marks[o->start[c]] && !find(o, c, POSITIVE, OUTSIDE))
                for (size_t i = part_start(o, c, HEAD); i < part_start(o, c, POSITIVE); i++)
                    if (o->marks[i] && !o->reach[o->table[i]])
                        o->reach[o->table[i]] = (uint8_t)(more = 1);
    }
}

static void put_atom(struct order *o, const char *before, int atom, const char *after)
{
    put_literal(&o->explanation, o, before, o->program.atom[atom], after);
}

static void put_numbered(struct order *o, size_t clause)
{
    putf(&o->explanation, "clause %zu, `", statement_at(o, o->of[clause])->number);
    put_clause(&o->explanation, o, clause, SHOWN);
    putf(&o->explanation, "`");
}

/* How many atoms are left from one place to another, but for one. */
static size_t count_atoms(const struct order *o, size_t from, size_t end, int but)
{
    size_t count = 0;
    for (size_t i = from; i < end; i++)
        count += o->marks[i] && o->table[i] != but;
    return count;
}

/* Those atoms, each behind a text, as `a`, `b` and `c`. */
static void put_atoms(struct order *o, size_t from, size_t end, int but, const char *before)
{
    size_t count = count_atoms(o, from, end, but), put = 0;
    for (size_t i = from; i < end; i++)
        if (o->marks[i] && o->table[i] != but) {
            putf(&o->explanation, "%s`%s", put == 0 ? "" : put + 1 == count ? " and " : ", ", before);
            put_atom(o, "", o->table[i], "`");
            put++;
        }
}

static void put_heads_denied(struct order *o, size_t clause)
{
    put_atoms(o, part_start(o, clause, HEAD), part_start(o, clause, POSITIVE), NO_ATOM, "not ");
}

/* How an atom outside the reach rests on others outside it: every clause that gives it needs one. */
static void put_circle(struct order *o, int atom)
{
    int seen[LINKS + 1] = {atom};
    for (int links = 0; links < LINKS; links++) {
        size_t c = 0, next;
        while (c < o->table[1] && !(o->marks[o->start[c]] && find(o, c, HEAD, seen[links])))
            c++;
        if (c == o->table[1] || !(next = find(o, c, POSITIVE, OUTSIDE)))
            return;
        seen[links + 1] = o->table[next];
        put_atom(o, links ? ", `" : ": `", seen[links], "` needs `");
        put_atom(o, "", seen[links + 1], "`");
        for (int i = 0; i <= links; i++)
            if (seen[i] == seen[links + 1])
                return;
    }
    putf(&o->explanation, " and so on");
}

/* The atoms of a constraint beside the one that can't be, which follow from it. */
static void put_following(struct order *o, size_t target, int atom)
{
    size_t from = part_start(o, target, POSITIVE), end = part_start(o, target, NEGATIVE);
    size_t others = count_atoms(o, from, end, atom);
    if (others) {
        putf(&o->explanation, ", since ");
        put_atoms(o, from, end, atom, "");
        putf(&o->explanation, others == 1 ? " follows from it" : " follow from it");
    }
}

/* Whether a step at the clause changes the order: a guard is none of its rules, and a choice without its atom no choice. */
static int is_told(const struct order *o, size_t clause)
{
    return o->of[clause] != NO_RULE && (!is_choice(o, clause) || has_chosen(o, clause));
}

/* The numbers of the rules that have the atom in a part, and not in their positive body but where that is the part. */
static void put_rules(struct order *o, const char *what, enum part part, int atom)
{
    size_t number[NAMED], count = 0, last = NO_RULE;
    for (size_t c = 0; c < o->table[1]; c++) {
        int there = o->marks[o->start[c]] && is_told(o, c) && find(o, c, part, atom);
        if (!there || (part != POSITIVE && find(o, c, POSITIVE, atom)) || o->of[c] == last)
            continue;
        last = o->of[c]; /* of several clauses of one rule the first is named */
        if (count < NAMED)
            number[count] = statement_at(o, last)->number;
        count++;
    }
    if (count)
        putf(&o->explanation, "; %s clause%s", what, count > 1 ? "s" : "");
    for (size_t i = 0; i < count && i < NAMED; i++)
        putf(&o->explanation, "%s %zu", i ? "," : "", number[i]);
    if (count > NAMED)
        putf(&o->explanation, " and %zu more", count - NAMED);
}

/* Which clauses are deleted, which lose the atom from their heads, and which its negation. */
static void put_with_it(struct order *o, int atom)
{
    put_rules(o, "deleted", POSITIVE, atom);
    put_rules(o, "dropped it from the head of", HEAD, atom);
    put_rules(o, "dropped its negation from", NEGATIVE, atom);
}

/* How many atoms the clause has. */
static size_t size_of(const struct order *o, size_t clause)
{
    return count_atoms(o, part_start(o, clause, HEAD), part_start(o, clause, END), NO_ATOM);
}

static void put_sentence(struct order *o, const char *c, size_t target, size_t partner, int atom)
{
    put_numbered(o, target);
    putf(&o->explanation, ": ");
    for (; *c; c++) {
        if (*c != '@')
            put(&o->explanation, c, 1);
        else if (*++c == 'a')
            put_atom(o, "", atom, "");
        else if (*c == 'n')
            putf(&o->explanation, "%zu", statement_at(o, o->of[partner])->number);
        else if (*c == 'p')
            put_numbered(o, partner);
        else if (*c == 'h')
            put_heads_denied(o, partner);
        else if (*c == 'c')
            put_circle(o, atom);
        else if (*c == 'f')
            put_following(o, target, atom);
        else if (*c == 'w')
            put_with_it(o, atom);
        else
            putf(&o->explanation, size_of(o, target) == size_of(o, partner) ? "says the same" : "already covers it");
    }
    putf(&o->explanation, "\n");
}

/* Deletes the kept clauses with the atom in their positive body, and drops it from the others. */
static void exclude(struct order *o, int atom)
{
    for (size_t c = 0; c < o->table[1]; c++) {
        if (!o->marks[o->start[c]])
            continue;
        if (find(o, c, POSITIVE, atom)) {
            o->marks[o->start[c]] = 0;
            continue;
        }
        for (enum part part = HEAD; part < END; part++) {
            size_t at = find(o, c, part, atom);
            if (at)
                o->marks[at] = 0;
        }
    }
}

/* Makes a step. */
static void make(struct order *o, const uint16_t *step)
{
    size_t gone = o->start[step[1]];
    if (step[0] == GAMBROLT_EXCLUDED) {
        exclude(o, step[3]);
        return;
    }
    if (step[0] == GAMBROLT_SUCCESS || step[0] == GAMBROLT_NO_HEAD)
        gone = find(o, step[1], step[0] == GAMBROLT_SUCCESS ? POSITIVE : NEGATIVE, step[3]);
    o->marks[gone] = 0;
}

void explain(struct order *o)
{
    int known = 0; /* whether the reach is that of the marks */
    memset(o->marks, 1, sizeof o->marks);
    for (const uint16_t *step = o->list; step < o->list + 4 * o->steps; step += 4) {
        unsigned kind = step[0];
        int empty = kind == GAMBROLT_BLOCKED && size_of(o, step[2]) == 0;
        if (kind == GAMBROLT_LOOP && !known)
            find_reach(o);
        if (is_told(o, step[1]))
            put_sentence(o, sentences[empty ? 0 : kind], step[1], step[2], step[3]);
        make(o, step);
        /* a clause that needs an atom outside the reach adds nothing to it, nor does a literal that holds */
        known = kind == GAMBROLT_LOOP || (known && (kind == GAMBROLT_SUCCESS || kind == GAMBROLT_NO_HEAD ||
                                                    kind == GAMBROLT_FAILURE));
    }
}

/* ---- Figures ---- */

/* The clauses, the body literals, and the atoms that some clause has: those of the order, in the table and round it. */
static void measure(const struct order *o, const uint16_t *table, size_t words, size_t size[3])
{
    char met[GAMBROLT_MAX_ATOMS] = {0};
    const struct statement *s;
    for (size_t i = 2; i < words; i = clause_end(table, i)) {
        int none = (table[i] == 2 && o->program.atom[table[i + 4]] >= GUARD) || is_spent(o, table + i);
        size[0] += !none;
        size[1] += none ? 0 : table[i + 1] + table[i + 2];
        for (size_t k = i + 3; k < clause_end(table, i) && !none; k++) {
            size[2] += !met[table[k]] && o->program.atom[table[k]] < CHOSEN;
            met[table[k]] = 1;
        }
    }
    for (size_t k = 0; (s = statement_at(o, k)); k++)
        if (s->kind == RULE && s->role == LED_ROUND) {
            size[0]++;
            size[2]++;
        }
}

static void put_json(struct buffer *b, struct order *o, size_t size[2][3], const int *cyclic, const unsigned *steps)
{
    static const char *const sizes[] = {"clauses", "literals", "atoms"};
    static const char *const truth[] = {"false", "true"};
    putf(b, "{\"reduced\": true,\n");
    for (int i = 0; i < 3; i++)
        putf(b, " \"%s\": {\"before\": %zu, \"after\": %zu},\n", sizes[i], size[0][i], size[1][i]);
    putf(b, " \"carried\": %zu,\n", o->carried);
    putf(b, " \"positive_cycle\": {\"before\": %s, \"after\": %s},\n", truth[cyclic[0]], truth[cyclic[1]]);
    putf(b, " \"steps\": {\"all\": %zu", o->steps);
    for (unsigned k = 1; k < KINDS; k++)
        putf(b, ", \"%s\": %u", gambrolt_kind_name(k), steps[k]);
    putf(b, "},\n \"seconds\": {\"reading\": %.6f, \"reducing\": %.6f, \"checking\": %.6f},\n \"list\": [", o->seconds[0],
         o->seconds[1], o->seconds[2]);
    put_objects(b, o);
    putf(b, "]}\n");
}

void put_statistics(struct order *o, int json)
{
    static const char *const sizes[] = {"clauses", "body literals", "atoms"};
    static const char *const times[] = {"reading", "reducing", "checking"};
    static const char *const answer[] = {"no", "yes"};
    size_t size[2][3] = {{0}};
    int cyclic[2] = {gambrolt_cycle(o->table, o->words) == 1, gambrolt_cycle(o->reduced, o->reduced_words) == 1};
    unsigned steps[KINDS] = {0};
    struct buffer *b = &o->statistics;
    measure(o, o->table, o->words, size[0]);
    measure(o, o->reduced, o->reduced_words, size[1]);
    for (size_t s = 0; s < o->steps; s++)
        steps[o->list[4 * s]]++;
    if (json) {
        put_json(b, o, size, cyclic, steps);
        return;
    }
    putf(b, "%-16s %8s %8s\n", "", "before", "after");
    for (int i = 0; i < 3; i++)
        putf(b, "%-16s %8zu %8zu\n", sizes[i], size[0][i], size[1][i]);
    if (o->carried)
        putf(b, "%-16s %8zu %8zu\n", "carried rules", o->carried, o->carried);
    putf(b, "%-16s %8s %8s\n", "positive cycle", answer[cyclic[0]], answer[cyclic[1]]);
    putf(b, "%-16s %8zu\n", "steps", o->steps);
    for (unsigned k = 1; k < KINDS; k++)
        putf(b, "  %u %-13s%8u\n", k, gambrolt_kind_name(k), steps[k]);
    for (int i = 0; i < 3; i++)
        putf(b, "%-16s %8.3f s\n", times[i], o->seconds[i]);
}
