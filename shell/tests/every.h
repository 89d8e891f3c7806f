/*
 * every.h - one input in every form, for damage.c and fuzz.c. What may happen: a program or a list of models is written,
 * or nothing is written and the fault is one line that names a line of the input, or how many atoms are left.
 */
#include "shell.h"

#include <stdlib.h>
#include <string.h>

static const struct options every[] = {
    {.explain = 1, .stats = 1, .list = 1},
    {.to_lp = 1, .stats = 1, .json = 1, .list = 1, .list_json = 1},
    {.no_reduce = 1, .pass_through = 1},
    {.text = 1, .steps = 1},
    {.models = 1},
    {.text = 1, .models = 1}};

/* A sound order, to be read with names from anything, and checked with any list. */
static const char sound[] =
    "asp 1 0 0\n1 0 2 1 2 0 0\n1 0 1 3 0 3 1 2 -4\n1 0 1 4 0 2 4 -3\n1 1 2 5 6 0 1 -7\n1 0 1 7 1 2 2 5 1 6 1\n1 0 0 0 1 -3\n4 1 b 1 2\n0\n";
static const struct options named = {.to_lp = 1, .explain = 1, .names = 1}, checked = {.check = 1};

/* Makes the order all zeros again. */
static void reset(struct order *o)
{
    struct buffer *const all[] = {&o->bytes, &o->ground, &o->output, &o->explanation, &o->notes, &o->statements, &o->numbers, &o->given,
                                  &o->statistics, &o->certificate, &o->atoms, &o->slots};
    for (size_t i = 0; i < sizeof all / sizeof *all; i++)
        free(all[i]->at);
    memset(o, 0, sizeof *o);
}

/* A buffer of exactly these bytes and the zero behind them, so that the sanitizer sees who reads on. */
static void give(struct buffer *b, const char *bytes, size_t len)
{
    *b = (struct buffer){malloc(len + 1), len, len + 1};
    if (!b->at)
        abort();
    if (len)
        memcpy(b->at, bytes, len);
    b->at[len] = 0;
}

static int is_told(const char *fault)
{
    return strncmp(fault, "line ", 5) == 0 || strstr(fault, " atoms besides lone facts are left after the reduction") != NULL;
}

/* The number of forms that are refused, or -1 where something else happens. The order `o`, all zeros, is used for all. */
static int try_every(struct order *o, const char *bytes, size_t len)
{
    int refused = 0;
    for (size_t i = 0; i < sizeof every / sizeof *every; i++) {
        give(&o->bytes, bytes, len);
        int answer = run(o, &every[i]);
        if (answer ? o->output.len > 0 || !is_told(o->fault) : o->output.len == 0)
            return -1;
        refused += answer != 0;
        reset(o);
    }
    give(&o->bytes, sound, sizeof sound - 1);
    give(&o->ground, bytes, len);
    if (run(o, &named))
        return -1;
    reset(o);
    give(&o->bytes, sound, sizeof sound - 1);
    give(&o->given, bytes, len);
    if (run(o, &checked) ? o->output.len > 0 || strncmp(o->fault, "list, line ", 11) != 0 : o->output.len == 0)
        return -1;
    reset(o);
    return refused;
}
