/*
 * read.c - reads aspif, numbers separated by blanks, a statement on one line; document 01's text, set out as aspif; and
 * lists of steps.
 */
#include "shell.h"

#include <stdio.h>
#include <stdlib.h>
#include <string.h>

#define AS_WRITTEN "give aspif as gringo writes it"
#define IN_FORM "write atoms below atoms=, joined by commas, without blanks or leading zeros"
#define STEPS "programs in several steps are not reduced; ground the order as a whole"

/* The numbers of a statement, by the letters of its form. */
static const struct token {
    const char *what;
    int64_t lowest, highest;
} tokens[] = {
    ['k'] = {"its kind (0 to 10)", STEP_END, COMMENT},
    ['h'] = {"the head's type (0 or 1)", 0, 1},
    ['b'] = {"the body's type (0 or 1)", 0, 1},
    ['#'] = {"a count", 0, INT32_MAX},
    ['a'] = {"an atom (1 to 2147483647)", 1, INT32_MAX},
    ['l'] = {"a literal (an atom, or -atom)", -INT32_MAX, INT32_MAX},
    ['w'] = {"a weight", INT32_MIN, INT32_MAX},
    ['x'] = {"a weight (0 to 2147483647)", 0, INT32_MAX},
    ['i'] = {"a bound", INT32_MIN, INT32_MAX},
    ['p'] = {"a priority", INT32_MIN, INT32_MAX},
    ['q'] = {"a priority", 0, INT32_MAX},
    ['m'] = {"a modifier (0 to 5)", 0, 5},
    ['v'] = {"a bias", INT32_MIN, INT32_MAX},
    ['e'] = {"a node", INT32_MIN, INT32_MAX},
    ['y'] = {"a value (0 to 3)", 0, 3},
    ['t'] = {"a theory statement's type (0, 1, 2, 4, 5 or 6)", 0, 6},
    ['u'] = {"a term or element", 0, INT32_MAX},
    ['f'] = {"a term, or -1 to -3", -3, INT32_MAX},
    ['z'] = {"a number", INT32_MIN, INT32_MAX},
    ['o'] = {"an atom, or 0", 0, INT32_MAX},
    ['n'] = {"the name's length in bytes", 0, INT32_MAX},
    ['s'] = {"the symbol's length in bytes", 0, INT32_MAX}};

/* What a counted part of a form repeats: A, L, W, X, U are a count and as many of these. */
static const char *const counted['Z'] = {['A'] = "a", ['L'] = "l", ['W'] = "lw", ['X'] = "lx", ['U'] = "u"};

/* The statements, each with its form; a rule's goes on by its body's type, a theory statement's by its own. */
static const struct {
    const char *name, *form;
} statements[] = {
    [STEP_END] = {"end of program", ""},
    [RULE] = {"rule", "hAb"},
    [MINIMIZE] = {"minimize statement", "pW"},
    [PROJECT] = {"project statement", "A"},
    [OUTPUT] = {"output statement", "nL"},
    [EXTERNAL] = {"external statement", "ay"},
    [ASSUME] = {"assume statement", "L"},
    [HEURISTIC] = {"heuristic statement", "mavqL"},
    [EDGE] = {"edge statement", "eeL"},
    [THEORY] = {"theory statement", "t"},
    [COMMENT] = {"comment", ""}};
static const char *const bodies[] = {"L", "iX"};
static const char *const theories[] = {"uz", "us", "ufU", NULL, "uUL", "ouU", "ouUuu"};

struct reader {
    struct order *order;
    const char *at, *end; /* a zero byte stands at the end */
    size_t line;          /* from 1 */
    const char *where;    /* what is being read */
};

static int refuse_at(struct reader *r, const char *where, const char *why)
{
    return refuse(r->order, "line %zu: %s: %s", r->line, where, why);
}

/* Refuses what stands at the reader's place, where `what` was expected. */
static int unexpected(struct reader *r, const char *what)
{
    int end = r->at == r->end, carriage = *r->at == '\r', len = (int)strcspn(r->at, " \t\n\r");
    const char *advice = end ? "was the grounder stopped?" : carriage ? "remove them with `tr -d '\\r'`" : AS_WRITTEN;
    char item[24] = "a zero byte";
    if (len)
        snprintf(item, sizeof item, "`%.*s`", len < 20 ? len : 20, r->at);
    return refuse(r->order, "line %zu: %s: %s where %s was expected; %s", r->line, r->where,
                  end ? "the input ends" : carriage ? "carriage return" : *r->at == '\n' ? "the line ends" : item, what,
                  advice);
}

static void skip_blanks(struct reader *r)
{
    while (*r->at == ' ' || *r->at == '\t')
        r->at++;
}

static int is_digit(char c)
{
    return c >= '0' && c <= '9';
}

static int read_number(struct reader *r, char letter, int64_t *number)
{
    const struct token *t = &tokens[(unsigned char)letter];
    skip_blanks(r);
    const char *c = r->at + (*r->at == '-');
    int digits = is_digit(*c);
    for (*number = 0; is_digit(*c) && *number <= INT32_MAX; c++)
        *number = 10 * *number + (*c - '0');
    if (*r->at == '-')
        *number = -*number;
    int ends = *c == ' ' || *c == '\n' || *c == '\t' || *c == '\r' || (*c == 0 && c == r->end);
    if (!digits || !ends || *number < t->lowest || *number > t->highest || (letter == 'l' && *number == 0))
        return unexpected(r, t->what);
    r->at = c;
    return 0;
}

/* An output statement's name, or a theory's symbol: a space, and as many bytes as were counted. */
static int read_name(struct reader *r, size_t len, struct span *name, const char *after)
{
    if (*r->at != ' ')
        return unexpected(r, "one space before the name");
    r->at++;
    if (len > (size_t)(r->end - r->at))
        return refuse_at(r, r->where, "the input ends inside the name; was the grounder stopped?");
    if (memchr(r->at, 0, len))
        return refuse_at(r, r->where, "a zero byte in the name; " AS_WRITTEN);
    *name = (struct span){r->at, len};
    for (; len > 0; len--)
        r->line += *r->at++ == '\n';
    if (r->at < r->end && !strspn(r->at, after))
        return unexpected(r, "a space after the name (its length is counted in bytes)");
    return 0;
}

/* Reads what the letters of a form stand for, and keeps the numbers. */
static int read_form(struct reader *r, const char *form, struct statement *s)
{
    for (; form && *form; form++) {
        const char *part = *form <= 'Z' ? counted[(unsigned char)*form] : NULL;
        int64_t number;
        if (read_number(r, part ? '#' : *form, &number))
            return -1;
        if (*form == 'n' && read_name(r, (size_t)number, &s->name, " \t"))
            return -1;
        if (*form == 's' && read_name(r, (size_t)number, &s->name, " \t\n\r"))
            return -1;
        put(&r->order->numbers, &(int32_t){(int32_t)number}, sizeof(int32_t));
        if (*form == 'b')
            return read_form(r, bodies[number], s);
        if (*form == 't')
            return theories[number] ? read_form(r, theories[number], s) : refuse_at(r, r->where, "there is no type 3");
        for (; part && number > 0; number--)
            if (read_form(r, part, s))
                return -1;
    }
    return 0;
}

/* The end of a line, or of the input where that may be; or another statement on the same line. */
static int read_end(struct reader *r, int last)
{
    skip_blanks(r);
    if (last ? r->at == r->end : is_digit(*r->at))
        return 0;
    if (*r->at != '\n')
        return unexpected(r, "the end of the line");
    r->at++;
    r->line++;
    return 0;
}

/* What the input is, where it is no aspif. */
static const char *other_form(const char *at)
{
    if (at[0] == 0)
        return "the input is empty; did the grounder fail?";
    if (strncmp(at, "atoms=", 6) == 0)
        return "this is the text form; read it with --text or --from-text";
    if (is_digit(at[0]))
        return "this looks like the format of smodels; ground with `gringo`, without `--output=smodels`";
    if (strchr("%#{:", at[0]) || strstr(at, ":-") || strstr(at, ".\n"))
        return "this looks like a program that is not grounded; put `gringo` in front";
    return "not `asp 1 0 0`; " AS_WRITTEN;
}

static int read_header(struct reader *r, int *several)
{
    if (r->at == r->end || strncmp(r->at, "asp 1 0 0", 9) != 0)
        return refuse_at(r, r->where, other_form(r->at));
    r->at += 9;
    *several = strncmp(r->at, " incremental", 12) == 0;
    if (*several) {
        r->at += 12;
        beyond(r->order, "line 1: header: " STEPS);
    }
    skip_blanks(r);
    return *r->at == '\n' ? read_end(r, 0) : unexpected(r, "the end of the line");
}

/* Reads one statement, and adds it to the order. */
static int read_statement(struct reader *r, struct order *o, enum kind *kind)
{
    struct statement s = {.line = r->line, .first = o->numbers.len / sizeof(int32_t), .number = o->rules};
    int64_t number;
    r->where = "statement";
    skip_blanks(r);
    s.bytes.at = r->at;
    if (read_number(r, 'k', &number))
        return -1;
    *kind = s.kind = (enum kind)number;
    r->where = statements[s.kind].name;
    if (read_form(r, statements[s.kind].form, &s))
        return -1;
    if (s.kind == COMMENT) {
        const char *stop = memchr(r->at, '\n', (size_t)(r->end - r->at));
        s.name = (struct span){r->at, (size_t)((stop ? stop : r->end) - r->at)};
        r->at += s.name.len;
    }
    s.bytes.len = (size_t)(r->at - s.bytes.at);
    o->rules += s.kind == RULE;
    if (s.kind != STEP_END)
        put(&o->statements, &s, sizeof s);
    return read_end(r, s.kind == STEP_END);
}

int read_aspif(struct order *o)
{
    struct reader r = {o, o->bytes.at, o->bytes.at + o->bytes.len, 1, "header"};
    enum kind kind;
    int several = 0;
    if (read_header(&r, &several))
        return -1;
    do {
        do
            if (read_statement(&r, o, &kind))
                return -1;
        while (kind != STEP_END);
        for (; r.at < r.end && memchr(" \t\n", *r.at, 3); r.at++)
            r.line += *r.at == '\n';
        if (r.at < r.end && !several)
            return refuse_at(&r, "statement after the end of the program", STEPS);
    } while (r.at < r.end);
    return 0;
}

/* ---- Text ---- */

/* What helps against a refusal of the text. */
static const char *const text_advice[] = {
    [GAMBROLT_TEXT_ALL_USED] = "give as many clauses as clauses= says",
    [GAMBROLT_LINE_THERE] = "lines are atoms=, clauses=, then head=, pos=, neg= for each clause",
    [GAMBROLT_ATOM_BELOW] = IN_FORM, [GAMBROLT_VALUE_IN_FORM] = IN_FORM};

/* The words of a text: atoms, clauses, and every part's count and atoms, each once. */
static size_t text_words(const char *c)
{
    uint32_t numbers = 0, lines = 0, last[10000] = {0}; /* by number: the last line that has it, from 1 */
    for (size_t digits; *c; c += digits ? digits : 1) {
        digits = strspn(c, "0123456789");
        lines += *c == '\n';
        if (digits > 0 && digits <= 4) {
            uint32_t *line = &last[strtoul(c, NULL, 10)];
            numbers += *line != lines + 1;
            *line = lines + 1;
        }
    }
    return numbers + lines - 2;
}

/* By how much the text is over the limit that refused it. */
static size_t text_over(const struct buffer *text, unsigned number, const char *line)
{
    if (number == GAMBROLT_TEXT_LENGTH)
        return text->len - GAMBROLT_MAX_TEXT;
    if (number != GAMBROLT_WORD_LIMIT)
        return strtoul(line + strcspn(line, "=") + 1, NULL, 10) -
               (number == GAMBROLT_ATOM_LIMIT ? GAMBROLT_MAX_ATOMS : GAMBROLT_MAX_CLAUSES);
    size_t words = text_words(text->at);
    return words > GAMBROLT_MAX_WORDS ? words - GAMBROLT_MAX_WORDS : 1;
}

static int refuse_text(struct order *o, const struct buffer *text, uint64_t answer)
{
    unsigned number = gambrolt_refusal(answer);
    size_t line = 1, place = gambrolt_value(answer);
    char over[40] = "";
    for (size_t i = 0; i < place && i < text->len; i++)
        line += text->at[i] == '\n';
    if (!text_advice[number])
        snprintf(over, sizeof over, "%zu over the limit", text_over(text, number, text->at + place));
    return refuse(o, "line %zu: text: %s (refused=%u,%zu); %s", line, gambrolt_message(number), number, place,
                  over[0] ? over : text_advice[number]);
}

int read_text(struct order *o)
{
    struct buffer text = o->bytes;
    uint64_t answer = gambrolt_read_text((const uint8_t *)text.at, text.len, o->table, GAMBROLT_MAX_WORDS);
    if (gambrolt_refusal(answer))
        return refuse_text(o, &text, answer);
    o->bytes = (struct buffer){0};
    o->shift = 1;
    for (uint32_t a = 0; a < o->table[0]; a++) /* those that no clause has, too */
        o->program.atom[o->program.atoms++] = a + 1;
    putf(&o->bytes, "asp 1 0 0\n");
    for (size_t i = 2; i < answer; i = clause_end(o->table, i))
        put_rule(&o->bytes, o->table + i, o->program.atom);
    for (unsigned a = 0; a < o->table[0]; a++)
        putf(&o->bytes, "4 %d a(%u) 1 %u\n", snprintf(NULL, 0, "a(%u)", a), a, a + 1);
    putf(&o->bytes, "0\n");
    free(text.at);
    int refused = read_aspif(o);
    struct statement *s;
    for (size_t k = 0; (s = statement_at(o, k)); k++)
        s->line = 3 * s->number + 3; /* where the clause's head= stands in the text */
    return refused;
}
