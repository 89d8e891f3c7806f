/* A reducer of ground programs, written for speed and not proved: the yardstick of the benchmark. It gives document
 * 01's list, the applicable step that is smallest by kind, target, partner and atom, again and again, and looks only
 * where a step may have been opened. Of two clauses that are equal as left the earlier is no target of the later (slip 7
 * of document 02). It is compiled twice: tuned, so that an index leads to a target's partners, and with PLAIN_SEARCH, so
 * that every clause is tried as a partner, one step a search. All else is the same.
 *
 * Kinds 1 and 2 are never opened, so one pass makes them. The others have a set of targets where a step may apply:
 *  - 3 and 5 are opened by a clause that becomes a fact, at the clauses that have its head atom in their body;
 *  - 4 and 6 by a deletion, at the clauses whose body has an atom that is in no head any more;
 *  - 7 by a deletion of a clause that brought an atom into the reach, which is found again when 7 is next looked for;
 *  - 8 by a drop, at the clauses that have the rarest literal of the clause that it shortened.
 * Such clauses are found along chains of the places where a literal stands. A step that is passed over is chosen later
 * only where its partner was shortened: a shorter target no longer holds the partner.
 *
 * Kind 9 (slip 8) is looked for anew where no other kind has a step: what each atom leads to by definite clauses, atoms
 * ascending, without those that an earlier one leads to, as they lead to nothing more. Plain, the search ends at a step
 * with the first target that there is; tuned, the target is found first, and the search ends at its first step. The drops
 * may make facts of clauses that had two heads or more, which then open 3 and 5 as others do. */
#include <stddef.h>
#include <stdint.h>
#include <string.h>

enum { ATOMS = 1024, CLAUSES = 2048, WORDS = 8192, NONE = 0xffff };
enum { TAUTOLOGY = 1, CONTRADICTION, SUCCESS, NO_HEAD, BLOCKED, FAILURE, LOOP, SUBSUMED, EXCLUDED };
enum { HEAD = 0, POS = ATOMS, NEG = 2 * ATOMS, LITERALS = 3 * ATOMS }; /* a literal is its part plus its atom */

/* A set of clauses: a bit each, and a bit for each word that isn't 0. */
struct set {
    uint64_t word[CLAUSES / 64];
    uint32_t some;
};

/* Where a clause's parts begin in the table, and what is left of it. */
struct clause {
    uint16_t first, head, pos, neg, end;
    uint16_t heads;      /* head atoms left: a constraint has none */
    uint16_t body;       /* body literals left: a fact has none */
    uint16_t conditions; /* positive ones among them */
    uint16_t kept;
};

struct reducer {
    const uint16_t *words;
    uint8_t *marks;
    uint16_t *list;
    size_t steps;
    unsigned atoms, clauses;

    struct set may[EXCLUDED];      /* where a step of a kind below may apply */
    uint16_t chain[LITERALS];      /* the first place of a literal, or 0 */
    uint16_t heads[ATOMS];         /* how many kept clauses have the atom in their head */
    uint16_t fact[ATOMS];          /* the smallest fact whose head is this atom alone, or NONE */
    struct set empty;              /* kept facts without a head */
    struct set partners;           /* of the successes at one target; empty between searches */
    uint32_t stamp[LITERALS], now; /* the literals stamped with `now` are those of one clause */
    uint16_t source[ATOMS];        /* a clause that brings the atom into the reach, or NONE outside it */
    int stale;                     /* whether a source was deleted */
    int indexed;                   /* whether the search for subsumed clauses has begun */
    struct set shortened;          /* clauses that lost a literal since the last such search */
    uint16_t keyed[LITERALS];      /* the first clause whose key is the literal, or NONE */
    uint16_t count[LITERALS];      /* how often the literal stood in kept clauses when that search began */

    /* from here on written before it is read */
    struct clause clause[CLAUSES];
    uint16_t literal[WORDS];      /* the literal at a place */
    uint16_t owner[WORDS];        /* its clause */
    uint16_t next[WORDS];         /* the next place of the same literal, or 0 */
    uint16_t place[CLAUSES];      /* where the literal stands that a partner of a success drops */
    uint16_t key[CLAUSES];        /* the rarest literal of a clause */
    uint16_t next_keyed[CLAUSES]; /* the next clause with the same key, or NONE */
    uint16_t missing[CLAUSES];    /* positive atoms of a clause that the atom followed does not lead to */
    uint16_t leader[ATOMS];       /* the last atom followed that leads to this one, or NONE */
};

/* ---- sets of clauses */

static void add(struct set *s, unsigned t)
{
    s->word[t / 64] |= UINT64_C(1) << t % 64;
    s->some |= UINT32_C(1) << t / 64;
}

/* The first of a set that isn't empty. */
static unsigned first(const struct set *s)
{
    unsigned i = __builtin_ctz(s->some);
    return 64 * i + __builtin_ctzll(s->word[i]);
}

static void remove_from(struct set *s, unsigned t)
{
    s->word[t / 64] &= ~(UINT64_C(1) << t % 64);
    if (!s->word[t / 64])
        s->some &= ~(UINT32_C(1) << t / 64);
}

static unsigned take_first(struct set *s)
{
    unsigned t = first(s);
    remove_from(s, t);
    return t;
}

/* ---- equal clauses */

/* Whether clause p comes after clause t and has as many head atoms and body literals left. Where p is within t the two are
 * equal then, and also where p is a fact that blocks t, as both are empty: that step is passed over. */
static int passed_over(const struct reducer *r, unsigned t, unsigned p)
{
    const struct clause *c = &r->clause[t], *d = &r->clause[p];
    return t < p && c->body == d->body && c->heads == d->heads;
}

/* ---- chains of places */

/* The place at a link, past those that are gone, which are unlinked; 0 at the end. */
static unsigned live(struct reducer *r, uint16_t *link)
{
    while (*link && !(r->marks[*link] && r->clause[r->owner[*link]].kept))
        *link = r->next[*link];
    return *link;
}

/* A step of a kind may apply wherever the literal stands. */
static void open_at(struct reducer *r, unsigned kind, unsigned literal)
{
    for (uint16_t *link = &r->chain[literal]; live(r, link); link = &r->next[*link])
        add(&r->may[kind], r->owner[*link]);
}

/* ---- making steps, and what they open */

static void write_step(struct reducer *r, unsigned kind, unsigned target, unsigned partner, unsigned atom)
{
    uint16_t *step = r->list + 4 * r->steps++;
    step[0] = (uint16_t)kind;
    step[1] = (uint16_t)target;
    step[2] = (uint16_t)partner;
    step[3] = (uint16_t)atom;
}

static void open_no_head(struct reducer *r, unsigned atom)
{
    open_at(r, NO_HEAD, NEG + atom);
    open_at(r, FAILURE, POS + atom);
}

/* The first head atom left of a clause that has one. */
static unsigned head_atom(const struct reducer *r, unsigned t)
{
    unsigned i = r->clause[t].head;
    while (!r->marks[i])
        i++;
    return r->words[i];
}

/* Clause t has become a fact, or one of fewer heads. The first fact of an atom opens all that later ones would; so does the
 * first without a head, but for itself, which only an earlier one blocks. */
static void open_fact(struct reducer *r, unsigned t)
{
    const struct clause *c = &r->clause[t];
    if (c->heads == 0) {
        if (!r->empty.some)
            for (unsigned other = 0; other < r->clauses; other++)
                add(&r->may[BLOCKED], other);
        else if (t < first(&r->empty))
            add(&r->may[BLOCKED], first(&r->empty));
        add(&r->empty, t);
        return;
    }
    unsigned atom = head_atom(r, t);
    if (c->heads > 1) {
        open_at(r, BLOCKED, NEG + atom);
    } else if (r->fact[atom] == NONE) {
        open_at(r, SUCCESS, POS + atom);
        open_at(r, BLOCKED, NEG + atom);
        r->fact[atom] = (uint16_t)t;
    } else if (t < r->fact[atom]) {
        r->fact[atom] = (uint16_t)t;
    }
}

static void drop(struct reducer *r, unsigned t, unsigned place)
{
    r->marks[place] = 0;
    r->clause[t].body--;
    add(&r->shortened, t);
}

static void delete(struct reducer *r, unsigned t)
{
    struct clause *c = &r->clause[t];
    c->kept = 0;
    r->marks[c->first] = 0;
    remove_from(&r->empty, t);
    for (unsigned i = c->head; i < c->pos; i++) {
        unsigned atom = r->words[i];
        if (!r->marks[i])
            continue;
        if (--r->heads[atom] == 0)
            open_no_head(r, atom);
        if (r->source[atom] == t)
            r->stale = 1;
    }
}

/* ---- kinds 1 and 2 */

/* The first atom that stands both from a to b and from b to the end, two parts; or NONE. */
static unsigned common(const uint16_t *a, const uint16_t *b, const uint16_t *end)
{
    for (const uint16_t *a_end = b; a < a_end && b < end;) {
        if (*a == *b)
            return *a;
        if (*a < *b)
            a++;
        else
            b++;
    }
    return NONE;
}

static void delete_overlapping(struct reducer *r, unsigned kind)
{
    for (unsigned t = 0; t < r->clauses; t++) {
        const struct clause *c = &r->clause[t];
        const uint16_t *w = r->words;
        unsigned atom = kind == TAUTOLOGY ? common(w + c->head, w + c->pos, w + c->neg)
                                          : common(w + c->pos, w + c->neg, w + c->end);
        if (c->kept && atom != NONE) {
            write_step(r, kind, t, 0, atom);
            delete(r, t);
        }
    }
}

/* ---- stamps */

/* Stamps the literals of the places from one to another, and no others. */
static void stamp(struct reducer *r, unsigned from, unsigned end)
{
    r->now++;
    for (unsigned i = from; i < end; i++)
        if (r->marks[i])
            r->stamp[r->literal[i]] = r->now;
}

/* Whether all literals that are left of clause p are stamped. */
static int stamped(const struct reducer *r, unsigned p)
{
    const struct clause *c = &r->clause[p];
    for (unsigned i = c->head; i < c->end; i++)
        if (r->marks[i] && r->stamp[r->literal[i]] != r->now)
            return 0;
    return 1;
}

/* Whether all head atoms of clause p are stamped as negative ones. */
static int heads_stamped(const struct reducer *r, unsigned p)
{
    const struct clause *c = &r->clause[p];
    for (unsigned i = c->head; i < c->pos; i++)
        if (r->marks[i] && r->stamp[NEG + r->words[i]] != r->now)
            return 0;
    return 1;
}

/* ---- kinds 3, 5 and 8: the partners */

#ifdef PLAIN_SEARCH
#define REDUCE plain_reduce

/* Whether clause p serves a kind at the target that is stamped. */
static int fits(const struct reducer *r, unsigned kind, unsigned p)
{
    const struct clause *c = &r->clause[p];
    if (kind == SUBSUMED)
        return stamped(r, p);
    if (c->body)
        return 0;
    if (kind == BLOCKED)
        return heads_stamped(r, p);
    return c->heads == 1 && r->stamp[POS + head_atom(r, p)] == r->now;
}

/* The smallest partner of clause t, or NONE. */
static unsigned partner(struct reducer *r, unsigned kind, unsigned t)
{
    stamp(r, r->clause[t].head, r->clause[t].end);
    for (unsigned p = 0; p < r->clauses; p++)
        if (p != t && r->clause[p].kept && fits(r, kind, p) && (kind == SUCCESS || !passed_over(r, t, p)))
            return p;
    return NONE;
}

/* One drop; the target is looked at again. */
static void success(struct reducer *r, unsigned t)
{
    unsigned p = partner(r, SUCCESS, t);
    if (p == NONE)
        return;
    unsigned i = r->clause[t].pos;
    while (r->words[i] != head_atom(r, p))
        i++;
    write_step(r, SUCCESS, t, p, r->words[i]);
    drop(r, t, i);
    r->clause[t].conditions--;
    if (r->clause[t].body == 0)
        open_fact(r, t);
    add(&r->may[SUCCESS], t);
}

static unsigned blocker(struct reducer *r, unsigned t)
{
    return partner(r, BLOCKED, t);
}

static unsigned subsumer(struct reducer *r, unsigned t)
{
    return partner(r, SUBSUMED, t);
}

#else
#define REDUCE tuned_reduce

/* All drops at a target, one after the other, as only the last can make it a fact and so open a smaller step. A fact
 * can have been deleted since, but by then no clause has its atom in a positive body. */
static void success(struct reducer *r, unsigned t)
{
    struct clause *c = &r->clause[t];
    for (unsigned i = c->pos; i < c->neg; i++) {
        unsigned p = r->fact[r->words[i]];
        if (r->marks[i] && p != NONE) {
            add(&r->partners, p);
            r->place[p] = (uint16_t)i;
        }
    }
    while (r->partners.some) {
        unsigned p = take_first(&r->partners);
        write_step(r, SUCCESS, t, p, r->words[r->place[p]]);
        drop(r, t, r->place[p]);
        c->conditions--;
    }
    if (c->body == 0)
        open_fact(r, t);
}

/* The smallest fact whose head is within the negative body of clause t, or NONE. */
static unsigned blocker(struct reducer *r, unsigned t)
{
    const struct clause *c = &r->clause[t];
    unsigned best = NONE;
    if (r->empty.some) {
        struct set others = r->empty;
        remove_from(&others, t);
        if (others.some && !passed_over(r, t, first(&others)))
            best = first(&others); /* if that is passed over, clause t is the first of all that are empty */
    }
    stamp(r, c->neg, c->end);
    for (unsigned i = c->neg; i < c->end; i++) {
        if (!r->marks[i])
            continue;
        for (uint16_t *link = &r->chain[HEAD + r->words[i]]; live(r, link); link = &r->next[*link]) {
            unsigned p = r->owner[*link];
            if (p >= best)
                break;
            if (r->clause[p].body == 0 && heads_stamped(r, p))
                best = p;
        }
    }
    return best;
}

/* The smallest clause whose parts are within those of clause t, or NONE. */
static unsigned subsumer(struct reducer *r, unsigned t)
{
    const struct clause *c = &r->clause[t];
    unsigned best = NONE;
    stamp(r, c->head, c->end);
    for (unsigned i = c->head; i < c->end; i++) {
        if (!r->marks[i])
            continue;
        uint16_t *link = &r->keyed[r->literal[i]];
        while (*link < best) {
            unsigned p = *link;
            if (!r->clause[p].kept) {
                *link = r->next_keyed[p];
                continue;
            }
            if (p != t && !passed_over(r, t, p) && stamped(r, p))
                best = p;
            link = &r->next_keyed[p];
        }
    }
    return best;
}

#endif

/* ---- kind 4: all drops at a target, as only the last can open a smaller step */

static void no_head(struct reducer *r, unsigned t)
{
    struct clause *c = &r->clause[t];
    for (unsigned i = c->neg; i < c->end; i++) {
        unsigned atom = r->words[i];
        if (r->marks[i] && r->heads[atom] == 0) {
            write_step(r, NO_HEAD, t, 0, atom);
            drop(r, t, i);
        }
    }
    if (c->body == 0)
        open_fact(r, t);
}

/* ---- kind 5 */

static void blocked(struct reducer *r, unsigned t)
{
    unsigned p = blocker(r, t);
    if (p == NONE)
        return;
    write_step(r, BLOCKED, t, p, 0);
    delete(r, t);
}

/* ---- kinds 6 and 7 */

/* Deletes clause t if a positive atom of it is in no head, or outside the reach. */
static void fail(struct reducer *r, unsigned kind, unsigned t)
{
    for (unsigned i = r->clause[t].pos; i < r->clause[t].neg; i++) {
        unsigned atom = r->words[i];
        if (r->marks[i] && (kind == FAILURE ? r->heads[atom] == 0 : r->source[atom] == NONE)) {
            write_step(r, kind, t, 0, atom);
            delete(r, t);
            return;
        }
    }
}

/* The heads of a clause whose positive atoms are in the reach. */
static size_t fire(struct reducer *r, unsigned t, uint16_t *queue, size_t end)
{
    for (unsigned i = r->clause[t].head; i < r->clause[t].pos; i++) {
        unsigned atom = r->words[i];
        if (r->marks[i] && r->source[atom] == NONE) {
            r->source[atom] = (uint16_t)t;
            queue[end++] = (uint16_t)atom;
        }
    }
    return end;
}

/* The reach from nothing; a loop may be wherever an atom stands that was in it and no longer is. */
static void find_reach(struct reducer *r)
{
    uint16_t before[ATOMS], queue[ATOMS], missing[CLAUSES];
    size_t end = 0;
    memcpy(before, r->source, sizeof before);
    for (unsigned atom = 0; atom < r->atoms; atom++)
        r->source[atom] = NONE;
    for (unsigned t = 0; t < r->clauses; t++) {
        missing[t] = r->clause[t].conditions;
        if (r->clause[t].kept && missing[t] == 0)
            end = fire(r, t, queue, end);
    }
    for (size_t at = 0; at < end; at++)
        for (uint16_t *link = &r->chain[POS + queue[at]]; live(r, link); link = &r->next[*link])
            if (--missing[r->owner[*link]] == 0)
                end = fire(r, r->owner[*link], queue, end);
    for (unsigned atom = 0; atom < r->atoms; atom++)
        if (before[atom] != NONE && r->source[atom] == NONE)
            open_at(r, LOOP, POS + atom);
    r->stale = 0;
}

/* ---- kind 8: a clause stands in the list of its rarest literal, its key; the clauses that it may subsume have the key
 * too */

/* Puts a clause that is not empty into the list of its key. */
static void index_clause(struct reducer *r, unsigned p)
{
    const struct clause *c = &r->clause[p];
    unsigned key = 0, least = NONE;
    for (unsigned i = c->head; i < c->end; i++) {
        if (r->marks[i] && r->count[r->literal[i]] < least) {
            key = r->literal[i];
            least = r->count[key];
        }
    }
    r->key[p] = (uint16_t)key;
    uint16_t *link = &r->keyed[key];
    while (*link < p)
        link = &r->next_keyed[*link];
    r->next_keyed[p] = *link;
    *link = (uint16_t)p;
}

static void unindex_clause(struct reducer *r, unsigned p)
{
    uint16_t *link = &r->keyed[r->key[p]];
    while (*link != p)
        link = &r->next_keyed[*link];
    *link = r->next_keyed[p];
}

static void index_clauses(struct reducer *r)
{
    memset(r->keyed, 0xff, sizeof r->keyed);
    for (unsigned t = 0; t < r->clauses; t++)
        for (unsigned i = r->clause[t].head; r->clause[t].kept && i < r->clause[t].end; i++)
            r->count[r->literal[i]] += r->marks[i];
    for (unsigned t = r->clauses; t-- > 0;) {
        if (!r->clause[t].kept)
            continue;
        index_clause(r, t);
        add(&r->may[SUBSUMED], t);
    }
    memset(&r->shortened, 0, sizeof r->shortened);
    r->indexed = 1;
}

/* Clauses that were shortened may subsume others that have their key. */
static void open_shortened(struct reducer *r)
{
    if (!r->indexed)
        index_clauses(r);
    while (r->shortened.some) {
        unsigned p = take_first(&r->shortened);
        const struct clause *c = &r->clause[p];
        if (!c->kept)
            continue;
        unindex_clause(r, p);
        index_clause(r, p);
        for (uint16_t *link = &r->chain[r->key[p]]; live(r, link); link = &r->next[*link]) {
            unsigned t = r->owner[*link];
            const struct clause *other = &r->clause[t];
            int within = other->body >= c->body && other->heads >= c->heads;
            if (t != p && within && !passed_over(r, t, p))
                add(&r->may[SUBSUMED], t);
        }
    }
}

/* Head atoms that the partner has too stay in the reach by it. */
static void subsumed(struct reducer *r, unsigned t)
{
    unsigned p = subsumer(r, t);
    if (p == NONE)
        return;
    write_step(r, SUBSUMED, t, p, 0);
    for (unsigned i = r->clause[p].head; i < r->clause[p].pos; i++)
        if (r->source[r->words[i]] == t)
            r->source[r->words[i]] = (uint16_t)p;
    delete(r, t);
}

/* ---- kind 9: constraints, here those of positive atoms alone, and the atoms that lead to all atoms of one */

/* Whether a kept clause has no negative atom, some positive one, and so many heads. */
static int positive(const struct clause *c, unsigned heads)
{
    return c->kept && c->heads == heads && c->body == c->conditions && c->body > 0;
}

/* Puts what an atom leads to by definite clauses into the queue. Returns the first constraint that it leads to, or NONE. No
 * success is left, so no positive body has a fact's atom, and facts lead nowhere. */
static unsigned follow(struct reducer *r, unsigned atom, uint16_t *queue, size_t *end)
{
    unsigned constraint = NONE;
    queue[0] = (uint16_t)atom;
    r->leader[atom] = (uint16_t)atom;
    *end = 1;
    for (size_t at = 0; at < *end; at++) {
        for (uint16_t *link = &r->chain[POS + queue[at]]; live(r, link); link = &r->next[*link]) {
            unsigned t = r->owner[*link];
            const struct clause *c = &r->clause[t];
            if (--r->missing[t] > 0 || c->body > c->conditions || c->heads > 1)
                continue;
            if (c->heads == 0) {
                constraint = t < constraint ? t : constraint;
            } else if (r->leader[head_atom(r, t)] != atom) {
                queue[*end] = (uint16_t)head_atom(r, t);
                r->leader[queue[(*end)++]] = (uint16_t)atom;
            }
        }
    }
    return constraint;
}

/* The first constraint that an atom leads to, or NONE, also where the atom is in no positive body, or an atom that was
 * followed leads to it: then that one leads to all that it does. */
static unsigned led_to(struct reducer *r, unsigned atom)
{
    uint16_t queue[ATOMS];
    size_t end;
    if (r->leader[atom] != NONE || !live(r, &r->chain[POS + atom]))
        return NONE;
    unsigned constraint = follow(r, atom, queue, &end);
    while (end > 0)
        for (uint16_t *link = &r->chain[POS + queue[--end]]; live(r, link); link = &r->next[*link])
            r->missing[r->owner[*link]]++;
    return constraint;
}

/* No atom was followed. */
static void follow_anew(struct reducer *r)
{
    for (unsigned t = 0; t < r->clauses; t++)
        r->missing[t] = r->clause[t].conditions;
    memset(r->leader, 0xff, sizeof r->leader);
}

/* The first constraint, or NONE. */
static unsigned first_constraint(const struct reducer *r)
{
    for (unsigned t = 0; t < r->clauses; t++)
        if (positive(&r->clause[t], 0))
            return t;
    return NONE;
}

/* A constraint below which no atom leads to one, or NONE. */
#ifdef PLAIN_SEARCH
static unsigned least_constraint(struct reducer *r)
{
    return first_constraint(r);
}
#else
/* The first one that some atom leads to: atoms that no rule derives are followed first, and most others need not be. */
static unsigned least_constraint(struct reducer *r)
{
    uint8_t derived[ATOMS] = {0};
    unsigned first = first_constraint(r), least = NONE;
    follow_anew(r);
    for (unsigned t = 0; t < r->clauses; t++)
        if (positive(&r->clause[t], 1))
            derived[head_atom(r, t)] = 1;
    for (unsigned i = 0; i < 2 * r->atoms && least != first; i++) {
        unsigned atom = i % r->atoms, constraint = i < r->atoms && derived[atom] ? NONE : led_to(r, atom);
        least = constraint < least ? constraint : least;
    }
    return least;
}
#endif

/* The first constraint that an atom leads to, and the first such atom; or NONE. */
static unsigned excluded(struct reducer *r, unsigned *who)
{
    unsigned least = least_constraint(r), best = NONE;
    follow_anew(r);
    for (unsigned atom = 0; atom < r->atoms && best != least; atom++) {
        unsigned constraint = led_to(r, atom);
        if (constraint < best) {
            best = constraint;
            *who = atom;
        }
    }
    return best;
}

/* Drops an atom from the heads and negative bodies where it stands. */
static void drop_all(struct reducer *r, unsigned atom)
{
    for (uint16_t *link = &r->chain[HEAD + atom]; live(r, link);) {
        unsigned t = r->owner[*link];
        r->marks[*link] = 0;
        r->clause[t].heads--;
        add(&r->shortened, t);
    }
    r->heads[atom] = 0;
    r->source[atom] = NONE;
    for (uint16_t *link = &r->chain[NEG + atom]; live(r, link);)
        drop(r, r->owner[*link], *link);
}

/* The step of kind 9, or 0 where there is none. */
static int exclude(struct reducer *r)
{
    unsigned atom = 0, target = excluded(r, &atom);
    if (target == NONE)
        return 0;
    write_step(r, EXCLUDED, target, 0, atom);
    for (uint16_t *link = &r->chain[POS + atom]; live(r, link);)
        delete(r, r->owner[*link]);
    drop_all(r, atom);
    for (struct set changed = r->shortened; changed.some;) { /* the search for subsumed clauses left none in it */
        unsigned t = take_first(&changed);
        if (r->clause[t].body == 0)
            open_fact(r, t);
    }
    return 1;
}

/* ---- the reduction */

static void read_clauses(struct reducer *r)
{
    unsigned at = 2;
    for (unsigned t = 0; t < r->clauses; t++) {
        const uint16_t *counts = r->words + at;
        unsigned head = at + 3, pos = head + counts[0], neg = pos + counts[1], end = neg + counts[2];
        struct clause c = {(uint16_t)at, (uint16_t)head, (uint16_t)pos, (uint16_t)neg, (uint16_t)end,
                           counts[0], (uint16_t)(counts[1] + counts[2]), counts[1], 1};
        r->clause[t] = c;
        at = end;
    }
}

/* Chains, from the last clause on so that they ascend, and counts of heads. */
static void link_places(struct reducer *r)
{
    for (unsigned t = r->clauses; t-- > 0;) {
        const struct clause *c = &r->clause[t];
        for (unsigned i = c->head; i < c->end; i++) {
            unsigned literal = (i < c->pos ? HEAD : i < c->neg ? POS : NEG) + r->words[i];
            r->literal[i] = (uint16_t)literal;
            r->owner[i] = (uint16_t)t;
            r->next[i] = r->chain[literal];
            r->chain[literal] = (uint16_t)i;
            r->heads[r->words[i]] += i < c->pos;
        }
    }
}

static void begin(struct reducer *r)
{
    read_clauses(r);
    link_places(r);
    memset(r->fact, 0xff, sizeof r->fact);
    r->stale = 1;
    for (unsigned t = 0; t < r->clauses; t++)
        if (r->clause[t].body == 0)
            open_fact(r, t);
    for (unsigned atom = 0; atom < r->atoms; atom++)
        if (r->heads[atom] == 0)
            open_no_head(r, atom);
}

/* The smallest kind that may have a step, or EXCLUDED. An empty clause has blocked all others before 8 is looked for. */
static unsigned next_kind(struct reducer *r)
{
    for (unsigned kind = SUCCESS; kind < EXCLUDED; kind++) {
        if (kind == LOOP && r->stale)
            find_reach(r);
        if (kind == SUBSUMED && !r->empty.some)
            open_shortened(r);
        if (r->may[kind].some)
            return kind;
    }
    return EXCLUDED;
}

/* The steps of target t that may come next. */
static void search(struct reducer *r, unsigned kind, unsigned t)
{
    switch (kind) {
    case SUCCESS: success(r, t); break;
    case NO_HEAD: no_head(r, t); break;
    case BLOCKED: blocked(r, t); break;
    case SUBSUMED: subsumed(r, t); break;
    default: fail(r, kind, t);
    }
}

/* Writes the list and the marks of a table that passes questions 1 to 8, and returns the number of steps. */
size_t REDUCE(const uint16_t *table, size_t table_len, uint8_t *marks, uint16_t *list)
{
    struct reducer r;
    memset(&r, 0, offsetof(struct reducer, clause));
    memset(marks, 1, table_len);
    r.words = table;
    r.marks = marks;
    r.list = list;
    r.atoms = table[0];
    r.clauses = table[1];
    begin(&r);
    delete_overlapping(&r, TAUTOLOGY);
    delete_overlapping(&r, CONTRADICTION);
    do {
        for (unsigned kind; (kind = next_kind(&r)) < EXCLUDED;) {
            unsigned t = take_first(&r.may[kind]);
            if (r.clause[t].kept)
                search(&r, kind, t);
        }
    } while (exclude(&r));
    return r.steps;
}
