/*
 * steps.c - the list of steps as a certificate: written a line a step, as document 01's program prints it, or as JSON with
 * an object a line; and read back in either form, to have the library check it.
 */
#include "shell.h"

#include <stdio.h>
#include <stdlib.h>
#include <string.h>

/* ---- Writing ---- */

void put_steps(struct buffer *b, const struct order *o)
{
    putf(b, "steps=%zu\n", o->steps);
    for (const uint16_t *step = o->list; step < o->list + 4 * o->steps; step += 4)
        putf(b, "step=%u,%u,%u,%u\n", step[0], step[1], step[2], step[3]);
}

/* A text as a string of JSON. */
static void put_string(struct buffer *b, const char *text, size_t len)
{
    put(b, "\"", 1);
    for (size_t i = 0; i < len; i++) {
        if (text[i] == '"' || text[i] == '\\')
            put(b, "\\", 1);
        if ((unsigned char)text[i] < 32)
            putf(b, "\\u%04x", (unsigned)text[i]);
        else
            put(b, text + i, 1);
    }
    put(b, "\"", 1);
}

/* The rule that a clause comes from, by its number from 0 and its line; null for a guard. */
static void put_origin(struct buffer *b, const struct order *o, const char *prefix, size_t clause)
{
    const struct statement *s = o->of[clause] == NO_RULE ? NULL : statement_at(o, o->of[clause]);
    if (s)
        putf(b, ", \"%srule\": %zu, \"%sline\": %zu", prefix, s->number, prefix, s->line);
    else
        putf(b, ", \"%srule\": null", prefix);
}

void put_objects(struct buffer *b, const struct order *o)
{
    for (const uint16_t *step = o->list; step < o->list + 4 * o->steps; step += 4) {
        int no_atom = step[0] == GAMBROLT_BLOCKED || step[0] == GAMBROLT_SUBSUMED;
        putf(b, "%s\n {\"step\": [%u, %u, %u, %u], \"kind\": \"%s\"", step == o->list ? "" : ",", step[0], step[1], step[2],
             step[3], gambrolt_kind_name(step[0]));
        put_origin(b, o, "", step[1]);
        if (no_atom || step[0] == GAMBROLT_SUCCESS)
            put_origin(b, o, "partner_", step[2]);
        if (!no_atom) {
            uint32_t atom = o->program.atom[step[3]];
            struct buffer name = {0};
            put_literal(&name, o, "", atom, "");
            putf(b, ", \"atom\": %u, \"name\": ", atom - o->shift);
            put_string(b, name.at, name.len);
            free(name.at);
        }
        putf(b, "}");
    }
}

void put_steps_json(struct buffer *b, const struct order *o)
{
    putf(b, "{\"steps\": %zu, \"list\": [", o->steps);
    put_objects(b, o);
    putf(b, "]}\n");
}

/* ---- Reading back ---- */

static int refuse_line(struct order *o, size_t line, const char *why)
{
    return refuse(o, "list, line %zu: %s; give it as --steps=FILE wrote it", line, why);
}

/* Reads numbers of at most five digits, joined by commas with or without a blank. Returns where they end, or NULL. */
static const char *read_numbers(const char *c, unsigned long *number, int count)
{
    for (int i = 0; c && i < count; i++) {
        size_t digits = strspn(c, "0123456789");
        number[i] = strtoul(c, NULL, 10);
        c = digits == 0 || digits > 5 ? NULL : c + digits;
        if (c && i + 1 < count)
            c = *c == ',' ? c + 1 + (c[1] == ' ') : NULL;
    }
    return c;
}

/* Reads the list into o->list and o->steps. */
static int read_steps(struct order *o)
{
    const char *c = o->given.at, *end = c + o->given.len;
    int json = *c == '{';
    const char *first = json ? "{\"steps\": " : "steps=", *each = json ? " {\"step\": [" : "step=";
    unsigned long count, number[4];
    size_t line = 1;
    c = strncmp(c, first, strlen(first)) == 0 ? read_numbers(c + strlen(first), &count, 1) : NULL;
    if (!c || (json ? strncmp(c, ", \"list\": [", 11) != 0 : *c != '\n') || count > GAMBROLT_MAX_LIST / 4)
        return refuse_line(o, 1, "not the number of steps, at most 8190");
    for (o->steps = 0; o->steps < count; o->steps++) {
        c += strcspn(c, "\n");
        c += *c == '\n';
        line++;
        c = strncmp(c, each, strlen(each)) == 0 ? read_numbers(c + strlen(each), number, 4) : NULL;
        if (!c || *c != (json ? ']' : '\n'))
            return refuse_line(o, line, "not a step of four numbers");
        for (int i = 0; i < 4; i++)
            if ((o->list[4 * o->steps + (size_t)i] = (uint16_t)number[i]) != number[i])
                return refuse_line(o, line, "a number is over 65535");
    }
    c += strcspn(c, "\n");
    c += *c == '\n';
    return c == end ? 0 : refuse_line(o, line + 1, "more than the number of steps");
}

size_t usable_steps(const struct order *o)
{
    size_t step = has_context(o) ? 0 : o->steps;
    while (step < o->steps && o->list[4 * step] != GAMBROLT_EXCLUDED)
        step++;
    return step;
}

static int refuse_step(struct order *o, size_t place, const char *why)
{
    const uint16_t *step = o->list + 4 * place;
    return refuse(o, "list, line %zu: step %zu, %u,%u,%u,%u: %s", place + 2, place, step[0], step[1], step[2], step[3], why);
}

int check_steps(struct order *o)
{
    if (read_steps(o))
        return -1;
    uint64_t answer = gambrolt_check(o->table, o->words, o->marks, o->words, o->list, 4 * o->steps);
    unsigned number = gambrolt_refusal(answer);
    size_t place = gambrolt_value(answer), usable = usable_steps(o);
    if (number && place <= usable) {
        char why[160];
        snprintf(why, sizeof why, "%s (refused=%u,%zu)", gambrolt_message(number), number, place);
        return refuse_step(o, place, why);
    }
    if (usable < o->steps)
        return refuse_step(o, usable, "no atom may be excluded here: a rule, an external or a theory beside the table may "
                           "derive or set it");
    putf(&o->output, "yes: the list's %zu steps keep the stable models\n", o->steps);
    return 0;
}
