/* write.c - bytes that grow, and a program written into them: as aspif, and as readable ground rules. */
#include "shell.h"

#include <stdarg.h>
#include <stdio.h>
#include <stdlib.h>
#include <string.h>

void put(struct buffer *b, const void *bytes, size_t len)
{
    size_t room = b->room ? b->room : 64;
    while (room - b->len <= len)
        room *= 2;
    if (room != b->room)
        b->at = realloc(b->at, room);
    b->room = room;
    if (!b->at) {
        fputs("gambrolt: out of memory\n", stderr);
        exit(2);
    }
    if (len)
        memcpy(b->at + b->len, bytes, len);
    b->len += len;
    b->at[b->len] = 0;
}

void putf(struct buffer *b, const char *format, ...)
{
    char piece[512];
    va_list arguments;
    va_start(arguments, format);
    int len = vsnprintf(piece, sizeof piece, format, arguments);
    va_end(arguments);
    put(b, piece, len < 0 ? 0 : (size_t)len < sizeof piece ? (size_t)len : sizeof piece - 1);
}

/* ---- Parts of rules ---- */

/*
 * The head atoms of a clause that the marks leave; of a choice its atom, or with `merged` those of all choices that are
 * written with it.
 */
static size_t heads_of(const struct order *o, size_t clause, int merged, uint32_t head[GAMBROLT_MAX_ATOMS])
{
    size_t first = o->start[clause] + 3, end = first + (is_choice(o, clause) ? 1 : o->table[o->start[clause]]), count = 0;
    for (size_t i = first; i < end; i++)
        if (o->marks[i])
            head[count++] = o->program.atom[o->table[i]];
    if (!is_choice(o, clause))
        return count;
    for (size_t other = clause + 1; merged && other < o->table[1]; other++) {
        uint32_t atom = o->program.atom[o->table[o->start[other] + 3]];
        size_t at = count;
        if (!o->left[other] || o->first[other] != clause || !is_choice(o, other))
            continue;
        while (at > 0 && head[at - 1] > atom)
            at--;
        if (at > 0 && head[at - 1] == atom)
            continue;
        memmove(head + at + 1, head + at, (count++ - at) * sizeof *head);
        head[at] = atom;
    }
    return count;
}

/* ---- aspif ---- */

/* A head, and the body of a clause with the atoms of its table, as one rule. */
static void put_parts(struct buffer *b, int choice, const uint32_t *head, size_t heads, const uint16_t *clause,
                      const uint32_t *atom)
{
    const uint16_t *a = clause + 3 + clause[0];
    putf(b, "1 %d %zu", choice, heads);
    for (size_t i = 0; i < heads; i++)
        putf(b, " %u", head[i]);
    putf(b, " 0 %u", clause[1] + clause[2]);
    for (int i = 0; i < clause[1] + clause[2]; i++)
        putf(b, i < clause[1] ? " %u" : " -%u", atom[a[i]]);
    put(b, "\n", 1);
}

void put_rule(struct buffer *b, const uint16_t *clause, const uint32_t *atom)
{
    uint32_t head[GAMBROLT_MAX_ATOMS];
    for (size_t i = 0; i < clause[0]; i++)
        head[i] = atom[clause[3 + i]];
    put_parts(b, 0, head, clause[0], clause, atom);
}

/* Whether something is written at the place of a clause: it is left, and not written with an earlier choice. */
static int has_place(const struct order *o, size_t clause)
{
    return o->left[clause] && !(is_choice(o, clause) && o->first[clause] != clause);
}

/* How many clauses of the table a rule has. */
static size_t clauses_of(const struct order *o, const struct statement *s)
{
    return s->role == CLAUSE ? 1 : s->role == CHOICE ? rule_of(o, s).heads : 0;
}

void put_aspif(struct order *o)
{
    const struct statement *s;
    uint32_t head[GAMBROLT_MAX_ATOMS];
    putf(&o->output, "asp 1 0 0\n");
    for (size_t k = 0; (s = statement_at(o, k)); k++) {
        if (s->kind == RULE && s->role == LED_ROUND)
            putf(&o->output, "1 0 1 %d 0 0\n", rule_of(o, s).head[0]);
        else if (s->kind != RULE || s->role == CARRIED) {
            put(&o->output, s->bytes.at, s->bytes.len);
            put(&o->output, "\n", 1);
        }
        for (size_t c = s->clause; s->kind == RULE && c < s->clause + clauses_of(o, s); c++)
            if (has_place(o, c))
                put_parts(&o->output, s->role == CHOICE, head, heads_of(o, c, 1, head), o->reduced + o->left[c],
                          o->program.atom);
    }
    putf(&o->output, "0\n");
}

/* ---- Readable ground rules ---- */

void put_literal(struct buffer *b, const struct order *o, const char *before, int64_t literal, const char *after)
{
    uint32_t number = (uint32_t)(literal < 0 ? -literal : literal);
    const struct atom *a = atom_of(o, number);
    putf(b, "%s%s", before, literal < 0 ? "not " : "");
    if (a && a->name.at) {
        put(b, a->name.at, a->name.len);
    } else {
        for (int xs = 0; xs == 0 || o->taken >> xs & 1; xs++)
            put(b, "x", 1);
        putf(b, "_%u", number);
    }
    putf(b, "%s", after);
}

/* Head atoms, in braces where they are a choice's. */
static void put_heads(struct buffer *b, const struct order *o, int choice, const uint32_t *head, size_t heads)
{
    putf(b, choice ? "{" : "");
    for (size_t i = 0; i < heads; i++)
        put_literal(b, o, i == 0 ? "" : choice ? "; " : " | ", head[i], "");
    putf(b, choice ? "}" : "");
}

void put_clause(struct buffer *b, const struct order *o, size_t clause, size_t most)
{
    size_t i = o->start[clause], at = i + 3 + o->table[i], positive = at + o->table[i + 1], body = 0, left_out = 0;
    uint32_t head[GAMBROLT_MAX_ATOMS];
    size_t heads = heads_of(o, clause, most == SIZE_MAX, head), shown = heads < most ? heads : most;
    put_heads(b, o, is_choice(o, clause), head, shown);
    for (; at < clause_end(o->table, i); at++) {
        int64_t atom = o->program.atom[o->table[at]];
        if (!o->marks[at])
            continue;
        if (shown + body == most)
            left_out++;
        else
            put_literal(b, o, body++ ? ", " : heads ? " :- " : ":- ", at < positive ? atom : -atom, "");
    }
    left_out += heads - shown;
    if (left_out)
        putf(b, " .. and %zu more", left_out);
    putf(b, heads + body ? "." : ":-.");
}

/* A rule that goes past the table. A weight's number makes it count beside equal ones. */
static void put_carried(struct buffer *b, const struct order *o, const struct rule *r)
{
    put_heads(b, o, r->choice, (const uint32_t *)r->head, r->heads);
    if (r->weights) {
        putf(b, "%s:- %d #sum {", r->heads || r->choice ? " " : "", r->bound);
        for (size_t i = 0; i < r->literals; i++) {
            putf(b, "%s%d,%zu : ", i ? "; " : " ", r->body[2 * i + 1], i);
            put_literal(b, o, "", r->body[2 * i], "");
        }
        putf(b, " }");
    } else {
        for (size_t i = 0; i < r->literals; i++)
            put_literal(b, o, i ? ", " : r->heads ? " :- " : ":- ", r->body[i], "");
    }
    putf(b, ".\n");
}

/* A count and literals as ` : literal, literal`, without literals nothing; and what comes after. */
static void put_condition(struct buffer *b, const struct order *o, const int32_t *count, const char *after)
{
    for (int32_t i = 1; i <= *count; i++)
        put_literal(b, o, i == 1 ? " : " : ", ", count[i], "");
    putf(b, "%s", after);
}

/*
 * A minimize statement; `term` makes its terms differ. Where no term is positive gringo may find that none counts; a term
 * without weight keeps the priority.
 */
static void put_minimize(struct buffer *b, const struct order *o, const int32_t *n, int *term)
{
    int positive = 0;
    for (int32_t i = 2; i < 2 + 2 * n[1]; i += 2) {
        put_literal(b, o, ":~ ", n[i], ".");
        putf(b, " [%d@%d,%d]\n", n[i + 1], n[0], (*term)++);
        positive |= n[i] > 0;
    }
    if (!positive)
        putf(b, ":~ . [0@%d,%d]\n", n[0], (*term)++);
}

/* A statement other than a rule. */
static void put_statement(struct buffer *b, const struct order *o, const struct statement *s, int *term)
{
    static const char *const modifier[] = {"level", "sign", "factor", "init", "true", "false"};
    static const char *const value[] = {"free", "true", "false", "release"};
    const int32_t *n = numbers_of(o, s);
    switch (s->kind) {
    case MINIMIZE:
        put_minimize(b, o, n, term);
        break;
    case PROJECT:
        for (int32_t i = 1; i <= n[0]; i++)
            put_literal(b, o, "#project ", n[i], ".\n");
        break;
    case EXTERNAL:
        put_literal(b, o, "#external ", n[0], "");
        putf(b, ". [%s]\n", value[n[1]]);
        break;
    case ASSUME: /* what is assumed must hold: a constraint against its opposite */
        for (int32_t i = 1; i <= n[0]; i++)
            put_literal(b, o, ":- ", -n[i], ".\n");
        break;
    case HEURISTIC:
        put_literal(b, o, "#heuristic ", n[1], "");
        put_condition(b, o, n + 4, ".");
        putf(b, " [%d@%d,%s]\n", n[2], n[3], modifier[n[0]]);
        break;
    case EDGE:
        putf(b, "#edge (%d,%d)", n[0], n[1]);
        put_condition(b, o, n + 2, ".\n");
        break;
    case OUTPUT:
        putf(b, "#show ");
        put(b, s->name.at, s->name.len);
        put_condition(b, o, n + 1, ".\n");
        break;
    default: /* a comment */
        putf(b, "%%");
        put(b, s->name.at, s->name.len);
        putf(b, "\n");
    }
}

/*
 * gringo drops what it finds no rule for, and statements about it with it. So that they stay, the atoms of minimize and
 * project statements are made externals that are false, unless a rule is sure to derive them: one that the reducer left.
 */
static void put_kept(struct order *o, int sure)
{
    const struct statement *s;
    for (size_t k = 0; (s = statement_at(o, k)); k++) {
        const int32_t *n = numbers_of(o, s);
        int32_t count = s->kind == MINIMIZE ? n[1] : s->kind == PROJECT ? n[0] : 0;
        for (int32_t i = 0; i < count; i++) {
            struct atom *a = atom_of(o, (uint32_t)abs(s->kind == MINIMIZE ? n[2 + 2 * i] : n[1 + i]));
            if (a->given || a->external || (a->derived && sure))
                continue;
            put_literal(&o->output, o, "#external ", a->number, ".\n");
            a->external = 1;
        }
    }
}

void put_lp(struct order *o, int reduced)
{
    const struct statement *s;
    int term = 0;
    for (size_t k = 0; (s = statement_at(o, k)); k++) {
        if (s->kind == RULE && s->role < CLAUSE) {
            struct rule r = rule_of(o, s);
            put_carried(&o->output, o, &r);
        }
        for (size_t c = s->clause; s->kind == RULE && c < s->clause + clauses_of(o, s); c++)
            if (has_place(o, c)) {
                put_clause(&o->output, o, c, SIZE_MAX);
                putf(&o->output, "\n");
            }
    }
    putf(&o->output, "#show.\n");
    put_kept(o, reduced && !o->carried);
    for (size_t k = 0; (s = statement_at(o, k)); k++)
        if (s->kind != RULE && !(s->kind == OUTPUT && s->name.len == 0)) /* gringo has no empty term */
            put_statement(&o->output, o, s, &term);
}
