/*
 * names.c - what atoms are called: by the order's output statements, and by its ground rules as `gringo --text` writes
 * them. aspif names only what may or may not be true, the rules name every atom, and come in the same order. Their names
 * are taken only where the two fit rule by rule, both ways, and no atom gets two names, no name two atoms. Only aspif has
 * the rules that gringo makes for conjunctions in minimize statements and for aggregates, whose lines are not read.
 */
#include "shell.h"

#include <ctype.h>
#include <stdlib.h>
#include <string.h>

/* ---- Names as text ---- */

/* Compares two spans, or two statements, whose names come first. */
static int by_name(const void *left, const void *right)
{
    const struct span *a = left, *b = right;
    int order = memcmp(a->at, b->at, a->len < b->len ? a->len : b->len);
    return order ? order : (a->len > b->len) - (a->len < b->len);
}

/* The length of the name at c, which reads `ok`, `-ok` or `ok(..)`, or 0. A control byte ends the search. */
static size_t name_at(const char *c)
{
    const char *from = c;
    int depth = 0, quoted = 0;
    c += *c == '-';
    c += strspn(c, "_");
    if (!islower((unsigned char)*c))
        return 0;
    while (isalnum((unsigned char)*c) || *c == '_' || *c == '\'')
        c++;
    for (int more = *c == '('; more; more = depth > 0 || quoted) {
        if (quoted && *c == '\\')
            c++;
        else if (*c == '"')
            quoted = !quoted;
        else if (!quoted)
            depth += (*c == '(') - (*c == ')');
        if ((unsigned char)*c++ < 32)
            return 0;
    }
    return c - from == 3 && memcmp(from, "not", 3) == 0 ? 0 : (size_t)(c - from);
}

/* Notes a name that reads like those of the nameless: letters x, _ and a number. */
static void note_form(struct order *o, struct span name)
{
    size_t xs = strspn(name.at, "x");
    if (xs < 63 && name.len > xs + 1 && name.at[xs] == '_' && isdigit((unsigned char)name.at[xs + 1]))
        o->taken |= UINT64_C(1) << xs;
}

/* ---- From output statements ---- */

void name_shown(struct order *o)
{
    struct buffer shown = {0};
    const struct statement *s;
    for (size_t k = 0; (s = statement_at(o, k)); k++)
        if (s->kind == OUTPUT && s->name.len > 0)
            put(&shown, s, sizeof *s);
    size_t count = shown.len / sizeof *s;
    if (count)
        qsort(shown.at, count, sizeof *s, by_name);
    s = (const struct statement *)(const void *)shown.at;
    for (size_t i = 0; i < count; i++, s++) {
        const int32_t *condition = numbers_of(o, s) + 1;
        note_form(o, s->name);
        struct atom *a = condition[0] == 1 && condition[1] > 0 ? atom_of(o, (uint32_t)condition[1]) : NULL;
        int alone = (i == 0 || by_name(s - 1, s)) && (i + 1 == count || by_name(s, s + 1));
        if (a && alone && name_at(s->name.at) == s->name.len && (!a->name.at || s->name.at < a->name.at))
            a->name = s->name;
    }
    free(shown.at);
}

/* ---- From ground rules ---- */

/* A line of the ground rules: names of heads, positive and negative body. */
struct line {
    struct buffer part[3]; /* arrays of struct span */
    int choice;
};

/* Whether gringo made an atom: an aggregate's last rule has a head of the order, those before it have not. */
enum made { NOT_MADE, MAYBE, SURELY };

/* What a line is: no rule, a rule that can be read, or another. */
enum form { NO_RULE_LINE, READ, UNREAD };

/* Whether an atom that gringo made stands there, as `#delayed(1)` or `#p_cell(#b(c1),#p)`. It gets no name. */
static int made_at(const char *c)
{
    return strncmp(c, "#delayed(", 9) == 0 || strncmp(c, "#p_", 3) == 0;
}

/* Takes the rule at c apart. */
static enum form read_rule(struct line *l, const char *c)
{
    int body = 0, more = 0;
    l->part[0].len = l->part[1].len = l->part[2].len = 0;
    if (*c == '\n' || *c == '%' || strncmp(c, ":~", 2) == 0 || (*c == '#' && !made_at(c)))
        return NO_RULE_LINE;
    l->choice = *c == '{';
    for (c += l->choice; *c != '.'; more = 1) {
        c += l->choice && !body && *c == '}';
        if (more && *c == '.')
            break;
        int neck = !body && strncmp(c, ":-", 2) == 0;
        int skipped = neck ? 2 : more && *c && strchr(body ? ",;" : ";|", *c);
        if (more && !skipped)
            return UNREAD;
        body |= neck;
        c += skipped;
        int negative = body && strncmp(c, "not ", 4) == 0;
        c += 4 * negative;
        int made = made_at(c);
        size_t len = name_at(c + made);
        if (len == 0)
            return UNREAD;
        put(&l->part[body + negative], &(struct span){made ? NULL : c, len}, sizeof(struct span));
        c += made + len;
    }
    return c[1] == '\n' || c[1] == 0 ? READ : UNREAD;
}

/* Whether the line can be the rule; with `give` its atoms get their names. */
static int fits(struct order *o, const struct line *l, const struct rule *r, int give)
{
    size_t used[3] = {0};
    if (l->choice != r->choice || r->weights ||
        l->part[0].len + l->part[1].len + l->part[2].len != (r->heads + r->literals) * sizeof(struct span))
        return 0;
    for (size_t i = 0; i < r->heads + r->literals; i++) {
        int32_t literal = i < r->heads ? r->head[i] : r->body[i - r->heads];
        int part = i < r->heads ? 0 : literal < 0 ? 2 : 1;
        if (used[part] == l->part[part].len)
            return 0;
        const struct span *name = (const struct span *)(const void *)(l->part[part].at + used[part]);
        struct atom *a = atom_of(o, (uint32_t)abs(literal));
        used[part] += sizeof *name;
        if (name->at ? a->made == SURELY || (a->name.at && by_name(&a->name, name)) : a->name.at != NULL)
            return 0;
        if (give && name->at)
            a->name = *name;
        else if (give)
            a->made = SURELY;
    }
    return 1;
}

/* Whether gringo can have made the rule without a line of its own: for a minimize statement, or for an aggregate. */
static int is_made(struct order *o, const struct rule *r, int aggregates)
{
    int made = r->weights;
    struct atom *a = r->heads == 1 ? atom_of(o, (uint32_t)r->head[0]) : NULL;
    if (a && !r->choice && r->literals > 1 && a->minimized && a->mentions == 1 && !a->name.at)
        return 1;
    for (size_t i = 0; i < r->literals; i++)
        made |= atom_of(o, (uint32_t)abs(r->body[i << r->weights]))->made != NOT_MADE;
    if (a && !a->name.at && made && aggregates && a->made != SURELY)
        a->made = r->weights ? SURELY : MAYBE;
    return made && aggregates;
}

/* The next rule of the order, or NULL. */
static const struct statement *next_rule(const struct order *o, size_t *next)
{
    const struct statement *s;
    do
        s = statement_at(o, (*next)++);
    while (s && s->kind != RULE);
    return s;
}

/* Fits the lines of o->ground to the order's rules, one by one. Returns -1 where they do not. */
static int align(struct order *o, struct line *l)
{
    const struct statement *s;
    size_t next = 0;
    int aggregates = 0; /* lines that were not read, since the last rule that fitted */
    for (const char *line = o->ground.at; line < o->ground.at + o->ground.len; line += strcspn(line, "\n") + 1) {
        enum form form = read_rule(l, line);
        aggregates |= form == UNREAD;
        for (int found = form != READ; !found;) {
            if (!(s = next_rule(o, &next)))
                return -1;
            struct rule r = rule_of(o, s);
            found = fits(o, l, &r, 0);
            if (found ? !fits(o, l, &r, 1) : !is_made(o, &r, aggregates))
                return -1;
            aggregates &= !found;
        }
    }
    while ((s = next_rule(o, &next))) {
        struct rule r = rule_of(o, s);
        if (!is_made(o, &r, aggregates))
            return -1;
    }
    return 0;
}

/* The atoms of the order, one after the other. */
static struct atom *each_atom(const struct order *o, size_t k)
{
    return k < o->atoms.len / sizeof(struct atom) ? (struct atom *)(void *)o->atoms.at + k : NULL;
}

/* Whether two atoms have one name. */
static int repeated(const struct order *o)
{
    struct buffer names = {0};
    const struct atom *a;
    int found = 0;
    for (size_t k = 0; (a = each_atom(o, k)); k++)
        if (a->name.at)
            put(&names, &a->name, sizeof a->name);
    size_t count = names.len / sizeof a->name;
    if (count)
        qsort(names.at, count, sizeof a->name, by_name);
    const struct span *name = (const struct span *)(const void *)names.at;
    for (size_t i = 1; i < count; i++)
        found |= by_name(name + i - 1, name + i) == 0;
    free(names.at);
    return found;
}

/* Takes the names of the ground rules, from no names or from those shown. */
static int try_align(struct order *o, const struct span *shown)
{
    struct line l = {0};
    struct atom *a;
    for (size_t k = 0; (a = each_atom(o, k)); k++) {
        a->name = shown ? shown[k] : (struct span){0};
        a->made = NOT_MADE;
    }
    int answer = align(o, &l) || repeated(o) ? -1 : 0;
    for (int part = 0; part < 3; part++)
        free(l.part[part].at);
    return answer;
}

int name_ground(struct order *o)
{
    struct buffer shown = {0};
    struct atom *a;
    put(&shown, "", 0);
    for (size_t k = 0; (a = each_atom(o, k)); k++)
        put(&shown, &a->name, sizeof a->name);
    const struct span *name = (const struct span *)(const void *)shown.at;
    int answer = try_align(o, name);
    if (answer) /* an order may show an atom under another name than its own */
        answer = try_align(o, NULL);
    for (size_t k = 0; (a = each_atom(o, k)); k++) {
        if (answer)
            a->name = name[k];
        if (a->name.at)
            note_form(o, a->name);
    }
    free(shown.at);
    return answer;
}
