/* run.c - one whole run in memory: read, reduce, believe the reducer only where the checker does, write. */
#define _POSIX_C_SOURCE 200809L
#include "shell.h"

#include <stdarg.h>
#include <stdio.h>
#include <string.h>
#include <time.h>

#define TRANSLATE "put `clasp --pre=aspif --trans-ext=all --eq=0` in front to translate it"
#define REPORT "; nothing is written; please report the order"

/* One printable line, whatever the input holds. */
static void say(char *line, size_t size, const char *format, va_list arguments)
{
    vsnprintf(line, size, format, arguments);
    for (; *line; line++)
        if ((unsigned char)*line < 32 || *line == 127)
            *line = '?';
}

int refuse(struct order *o, const char *format, ...)
{
    va_list arguments;
    va_start(arguments, format);
    say(o->fault, sizeof o->fault, format, arguments);
    va_end(arguments);
    return -1;
}

void beyond(struct order *o, const char *format, ...)
{
    va_list arguments;
    va_start(arguments, format);
    if (!o->beyond[0])
        say(o->beyond, sizeof o->beyond, format, arguments);
    va_end(arguments);
}

int refused(struct order *o, const char *part, uint64_t answer)
{
    unsigned number = gambrolt_refusal(answer);
    return number ? refuse(o, "self-check: the %s refuses: %s (refused=%u,%llu)" REPORT, part, gambrolt_message(number),
                           number, (unsigned long long)gambrolt_value(answer))
                  : 0;
}

/* Seconds since `since`, on a clock that never goes back. */
static double seconds(double since)
{
    struct timespec now;
    clock_gettime(CLOCK_MONOTONIC, &now);
    return (double)now.tv_sec + (double)now.tv_nsec / 1e9 - since;
}

/* Ends the list where its steps can be used no further; the checker makes what is left of it. */
static int cut_list(struct order *o)
{
    size_t steps = usable_steps(o);
    if (steps == o->steps)
        return 0;
    o->steps = steps;
    return refused(o, "checker", gambrolt_check(o->table, o->words, o->marks, o->words, o->list, 4 * steps));
}

/* Calls the reducer (or takes no steps), then the checker on its list, then asks for the reduced table. */
static int reduce_checked(struct order *o, int reduce)
{
    uint8_t checked[GAMBROLT_MAX_WORDS];
    uint64_t answer = 0;
    memset(o->marks, reduce ? 2 : 1, sizeof o->marks); /* 2 and 3 are no marks: where a call leaves them, they differ */
    memset(checked, 3, sizeof checked);

    double start = seconds(0);
    if (reduce)
        answer = gambrolt_reduce(o->table, o->words, o->marks, o->words, o->list, GAMBROLT_MAX_LIST);
    o->seconds[1] = seconds(start);
    if (refused(o, "reducer", answer))
        return -1;
    o->steps = answer;
    if (o->steps > GAMBROLT_MAX_LIST / 4)
        return refuse(o, "self-check: the reducer's count of steps is too large" REPORT);

    start = seconds(0);
    answer = gambrolt_check(o->table, o->words, checked, o->words, o->list, 4 * o->steps);
    o->seconds[2] = seconds(start);
    if (refused(o, "checker", answer))
        return -1;
    if (answer != o->steps || memcmp(o->marks, checked, o->words) != 0)
        return refuse(o, "self-check: reducer and checker leave different marks" REPORT);
    if (cut_list(o))
        return -1;

    answer = gambrolt_reduced_table(o->table, o->words, o->marks, o->words, o->reduced, GAMBROLT_MAX_WORDS);
    o->reduced_words = gambrolt_value(answer);
    return refused(o, "reduced table's call", answer);
}

/* The text form, and where asked for the list of steps as document 01's program prints it. */
static int put_text(struct order *o, int steps)
{
    uint8_t text[GAMBROLT_MAX_TEXT];
    uint64_t answer = gambrolt_write_text(o->reduced, o->reduced_words, text, sizeof text);
    if (refused(o, "text writer", answer))
        return -1;
    put(&o->output, text, answer);
    if (steps)
        put_steps(&o->output, o);
    return 0;
}

/* An order that can't be reduced: refused, or handed on as it came. */
static int run_beyond(struct order *o, const struct options *options)
{
    if (options->to_lp || options->to_text || options->check || options->models) /* which don't go with --pass-through */
        return refuse(o, "%s", o->beyond);
    if (!options->pass_through)
        return refuse(o, "%s; --pass-through hands it on unreduced", o->beyond);
    putf(&o->notes, "gambrolt: %s; the program is handed on unreduced\n", o->beyond);
    if (options->json)
        putf(&o->statistics, "{\"reduced\": false}\n");
    if (options->list)
        (options->list_json ? put_steps_json : put_steps)(&o->certificate, o);
    put(&o->output, o->bytes.at, o->bytes.len);
    return 0;
}

/* Whether the form that is asked for lacks something that the order has. */
static int lacks(struct order *o, const struct options *options)
{
    const struct statement *s;
    for (size_t k = 0; (s = statement_at(o, k)); k++) {
        int choice = s->kind == RULE && s->role == CHOICE, weight = s->kind == RULE && rule_of(o, s).weights;
        const char *beside = options->models ? decides_beside(o, s) : NULL;
        if (options->to_lp && s->kind == THEORY)
            return refuse(o, "line %zu: theory statement: --to-lp can't write theories; write aspif", s->line);
        if (options->to_text && (choice || weight))
            return refuse(o, "line %zu: %s: the text form has none; " TRANSLATE, s->line,
                          choice ? "choice rule" : "rule with a weight body");
        if (options->to_text && (s->kind == EXTERNAL || s->kind == THEORY))
            return refuse(o, "line %zu: %s: the text form has none; write aspif or --to-lp", s->line,
                          s->kind == EXTERNAL ? "external statement" : "theory statement");
        if (beside)
            return refuse(o, "line %zu: %s: --models takes rules with normal bodies and choices alone; %shand the program "
                          "to a solver", s->line, beside, weight ? TRANSLATE ", or " : "");
    }
    return 0;
}

/* What is asked for: the program, or what stands in its place. */
static int put_output(struct order *o, const struct options *options)
{
    if (options->models)
        return put_models(o, !options->no_reduce);
    if (options->text || options->to_text)
        return put_text(o, options->steps);
    if (options->to_lp)
        put_lp(o, !options->no_reduce);
    else
        put_aspif(o);
    return 0;
}

/* What is asked for, besides the program. */
static void put_reports(struct order *o, const struct options *options)
{
    if (options->list)
        (options->list_json ? put_steps_json : put_steps)(&o->certificate, o);
    if (options->explain)
        explain(o);
    if (options->stats)
        put_statistics(o, options->json);
}

int run(struct order *o, const struct options *options)
{
    double start = seconds(0);
    put(&o->bytes, "", 0); /* there, be there nothing in it */
    put(&o->numbers, "", 0);
    put(&o->given, "", 0);
    program_start(&o->program);
    if (options->text || options->from_text ? read_text(o) : read_aspif(o))
        return -1;
    make_table(o, options);
    o->seconds[0] = seconds(start);
    if (o->beyond[0])
        return run_beyond(o, options);
    if (lacks(o, options))
        return -1;
    if (options->check)
        return check_steps(o);
    if (reduce_checked(o, !options->no_reduce))
        return -1;
    find_left(o, !options->no_reduce);
    name_shown(o);
    if (options->names && name_ground(o))
        putf(&o->notes, "gambrolt: names: its rules do not fit the input's one by one, so none is taken; "
             "ground both alike\n");
    if (put_output(o, options))
        return -1;
    put_reports(o, options);
    return 0;
}
