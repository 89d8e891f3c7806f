/* gambrolt.c - the program: options, input and output. */
#define _DEFAULT_SOURCE /* signal: a read goes on after it */
#include "shell.h"

#include <errno.h>
#include <fcntl.h>
#include <signal.h>
#include <stdio.h>
#include <stdlib.h>
#include <string.h>
#include <unistd.h>

#define MOST_BYTES ((size_t)512 << 20)

enum status { DONE = 0, REFUSED = 1, FAILED = 2 };

static const char help_text[] =
    "Usage: gambrolt [OPTION]... [FILE]\n"
    "Reduces a ground logic program and keeps its stable models:\n"
    "    gringo order.lp | gambrolt | clasp 0\n"
    "\nReads aspif from FILE or standard input and writes the reduced program to standard\n"
    "output, atoms numbered as they came. The list of steps that reduced it is checked by\n"
    "a second, independent call before anything is written.\n"
    "\nForm:\n"
    "  -o FILE           write the program, or the models, to FILE\n"
    "  --text            read and write the text form (atoms=, clauses=, head= ..)\n"
    "  --to-lp           write readable ground rules with the order's names\n"
    "  --to-text         convert aspif to the text form, without reducing\n"
    "  --from-text       convert the text form to aspif, or with --to-lp to ground rules\n"
    "  --no-reduce       read, check and write the program as it is\n"
    "  --models          list the stable models of what is left by their names, one a line, then\n"
    "                    their number, in place of the program; at most 16 atoms may be left\n"
    "\nThe certificate:\n"
    "  --steps=FILE      write the list of steps to FILE, a line a step, or as JSON if FILE\n"
    "                    ends in .json; --steps alone, with --text: after the program\n"
    "  --check=FILE      have the library check such a list against the input, and say yes,\n"
    "                    or which step is refused, and why; no program is written\n"
    "\nReports, on standard error:\n"
    "  --explain[=FILE]  write each step as a sentence, to FILE if one is given\n"
    "  --stats           sizes before and after, steps by kind, times\n"
    "  --stats=json      the same and the steps as JSON; with --stats=json:FILE to FILE\n"
    "  --names=FILE      names that aspif lacks (facts, and atoms that no rule derives): the\n"
    "                    same order by `gringo --text`\n"
    "\nOther:\n"
    "  --pass-through    hand a program that can't be reduced on as it came, and say so\n"
    "  --dry-run         do everything, but write no program and no models\n"
    "  -h, --help        print this and exit\n"
    "  -V, --version     print the version and exit\n"
    "\nChoices are reduced as either-or clauses and written as choices again. Rules with weight\n"
    "bodies, externals and theories go past the reducer as they are; where there are any, no\n"
    "atom is excluded because of a constraint (steps of kind 9).\n"
    "Limits: 1,024 atoms, 2,048 clauses, 8,192 words (3 a clause, and 1 for each of its atoms).\n"
    "Each atom of a choice, and each that is derived or set outside the table, takes an atom\n"
    "and a clause more; facts that nothing else mentions take no room.\n"
    "Not reduced: what is over the limits, programs in several steps, and those with a rule\n"
    "for an external atom.\n"
    "\nExit status: 0 done; 1 the input or the list is refused, with one line on standard error\n"
    "that names the input's line, the statement and what to do; 2 bad usage, or reading or\n"
    "writing failed. Unless the status is 0, nothing is written to standard output.\n";

static struct options options;
static const char *file, *output_file, *explain_file, *names_file, *steps_file, *stats_file, *check_file;
static int dry_run, help, version;

/* The options; those that end in = or : take a value. */
static const struct {
    const char *name;
    int *flag;
    const char **value;
} known[] = {
    {"--text", &options.text, NULL}, {"--steps", &options.steps, NULL}, {"--to-lp", &options.to_lp, NULL},
    {"--to-text", &options.to_text, NULL}, {"--from-text", &options.from_text, NULL},
    {"--no-reduce", &options.no_reduce, NULL}, {"--models", &options.models, NULL}, {"--explain", &options.explain, NULL},
    {"--explain=", &options.explain, &explain_file}, {"--stats", &options.stats, NULL},
    {"--stats=json", &options.json, NULL}, {"--stats=json:", &options.json, &stats_file},
    {"--names=", &options.names, &names_file}, {"--steps=", &options.list, &steps_file},
    {"--check=", &options.check, &check_file}, {"--pass-through", &options.pass_through, NULL},
    {"--dry-run", &dry_run, NULL}, {"--help", &help, NULL}, {"-h", &help, NULL}, {"--version", &version, NULL},
    {"-V", &version, NULL}};

static int usage(const char *what, const char *argument)
{
    fprintf(stderr, "gambrolt: %s%s; see gambrolt --help\n", what, argument);
    return FAILED;
}

static int failed(const char *what, const char *name)
{
    fprintf(stderr, "gambrolt: cannot %s %s: %s\n", what, name, strerror(errno));
    return FAILED;
}

/* ---- Options ---- */

/* Takes one option. Returns 0 where it is none. */
static int take_option(const char *argument)
{
    for (size_t i = 0; i < sizeof known / sizeof *known; i++) {
        const char **value = known[i].value;
        size_t len = strlen(known[i].name);
        if (strncmp(argument, known[i].name, len) != 0 || !argument[len] != !value)
            continue;
        if (value)
            *value = argument + len;
        return *known[i].flag = 1;
    }
    return 0;
}

/* Whether a name ends so. */
static int ends_in(const char *name, const char *ending)
{
    size_t len = strlen(name), tail = strlen(ending);
    return len >= tail && strcmp(name + len - tail, ending) == 0;
}

/* What options mean for each other, and which do not go together. */
static int settle(struct options *o)
{
    int other_form = o->to_text || o->from_text || o->to_lp;
    o->no_reduce |= o->to_text || o->from_text;
    o->stats |= o->json;
    o->list_json = o->list && ends_in(steps_file, ".json");
    if (o->text && other_form)
        return usage("--text reads and writes the text form: no other form goes with it", "");
    if (o->models && (other_form || o->steps || o->check || o->names || o->pass_through))
        return usage("--models goes with --text, --no-reduce and reports: it lists models and writes no program", "");
    if (o->to_lp && o->to_text)
        return usage("--to-lp and --to-text are two forms for one output", "");
    if (o->steps && !o->text)
        return usage("--steps goes with --text; for aspif name a file, --steps=FILE", "");
    if ((o->explain || o->stats || o->steps || o->list) && o->no_reduce)
        return usage("--explain, --stats and --steps need a reduction", "");
    if (o->check && (other_form || o->no_reduce || o->explain || o->stats || o->steps || o->list || o->names))
        return usage("--check goes with --text alone: it writes no program and no report", "");
    if (o->names && !o->explain && !o->to_lp && !o->json && !o->list_json)
        return usage("--names goes with --explain, --to-lp or JSON", "");
    if (o->pass_through && (o->text || other_form || o->check))
        return usage("--pass-through goes with aspif in and out", "");
    return DONE;
}

static int read_arguments(int count, char **argument)
{
    int files_only = 0;
    for (int i = 1; i < count; i++) {
        const char *a = argument[i];
        int option = !files_only && a[0] == '-' && a[1];
        if (option && strcmp(a, "--") == 0)
            files_only = 1;
        else if (option && strcmp(a, "-o") == 0) {
            if (i + 1 == count || output_file)
                return usage("-o takes one file", "");
            output_file = argument[++i];
        } else if (option && !take_option(a))
            return usage("unknown option: ", a);
        else if (!option && file)
            return usage("more than one file: ", a);
        else if (!option)
            file = a;
    }
    return settle(&options);
}

/* A note for those who wait. */
static volatile sig_atomic_t reducing;

static void note(int signal)
{
    const char *text = reducing ? "gambrolt: reducing ..\n" : "gambrolt: waiting for the input's end ..\n";
    int before = errno;
    (void)signal;
    (void)!write(2, text, strlen(text));
    errno = before;
}

/* ---- Input and output ---- */

static int read_all(struct buffer *b, const char *name)
{
    int standard = !name || strcmp(name, "-") == 0, in = standard ? 0 : open(name, O_RDONLY);
    char piece[65536];
    ssize_t len = -1;
    put(b, "", 0);
    while (in >= 0 && b->len <= MOST_BYTES && (len = read(in, piece, sizeof piece)) > 0)
        put(b, piece, (size_t)len);
    if (len > 0)
        errno = EFBIG;
    return len != 0 ? failed("read", standard ? "standard input" : name) : DONE;
}

/* Writes to the file, or where none is named to the stream. */
static int write_all(const char *name, FILE *stream, const struct buffer *b)
{
    FILE *out = name ? fopen(name, "wb") : stream;
    int done = out && (b->len == 0 || fwrite(b->at, 1, b->len, out) == b->len) && fflush(out) == 0;
    if (name && out && fclose(out) != 0)
        done = 0;
    return done ? DONE : failed("write", name ? name : stream == stdout ? "standard output" : "standard error");
}

/* Reports first: where one is lost, no program is written. */
static int write_result(const struct order *o)
{
    if (write_all(explain_file, stderr, &o->explanation) != DONE || write_all(stats_file, stderr, &o->statistics) != DONE ||
        (steps_file && write_all(steps_file, NULL, &o->certificate) != DONE) ||
        write_all(NULL, stderr, &o->notes) != DONE)
        return FAILED;
    return dry_run && !options.check ? DONE : write_all(output_file, stdout, &o->output);
}

int main(int count, char **argument)
{
    static struct order order;
    if (read_arguments(count, argument) != DONE)
        return FAILED;
    if (help || version) {
        fputs(help ? help_text : "gambrolt " GAMBROLT_VERSION "\n", stdout);
        return fflush(stdout) == 0 ? DONE : failed("write", "standard output");
    }
    if (isatty(2)) { /* once, after a second */
        signal(SIGALRM, note);
        alarm(1);
    }
    if (read_all(&order.bytes, file) != DONE || (names_file && read_all(&order.ground, names_file) != DONE) ||
        (check_file && read_all(&order.given, check_file) != DONE))
        return FAILED;
    reducing = 1;
    if (run(&order, &options)) {
        fprintf(stderr, "gambrolt: %s\n", order.fault);
        return REFUSED;
    }
    return write_result(&order);
}
