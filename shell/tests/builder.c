/* builder.c - program.h as another C program uses it: tables worked out by hand, limits, and rules that are not taken. */
#include "program.h"

#include <stdio.h>
#include <stdlib.h>
#include <string.h>

static struct program p;
static uint16_t table[GAMBROLT_MAX_WORDS];

#define EXPECT(what) ((what) ? (void)0 : (fprintf(stderr, "builder.c:%d: %s\n", __LINE__, #what), exit(1)))
#define RULE(answer, heads, literals, ...) \
    do { \
        uint32_t head[] = {0, __VA_ARGS__}; \
        int32_t body[] = {0, __VA_ARGS__}; \
        EXPECT(program_rule(&p, head + 1, heads, body + 1 + (heads), literals) == (answer)); \
    } while (0)

static void table_is(const uint16_t *words, size_t count)
{
    EXPECT(program_table(&p, table) == count);
    EXPECT(memcmp(table, words, count * sizeof *words) == 0);
    EXPECT(gambrolt_check_table(table, count) == 0);
}

/* The example of program.h. */
static void example(void)
{
    program_start(&p);
    program_rule(&p, (uint32_t[]){7}, 1, NULL, 0);
    program_rule(&p, (uint32_t[]){9, 5}, 2, (int32_t[]){7, -3}, 2);
    table_is((uint16_t[]){4, 2, 1, 0, 0, 2, 2, 1, 1, 1, 3, 2, 0}, 13);
}

static void rules(void)
{
    program_start(&p);
    table_is((uint16_t[]){0, 0}, 2);
    RULE(PROGRAM_TAKEN, 2, 0, 30, 30);            /* 30 | 30. as gringo writes it */
    RULE(PROGRAM_TAKEN, 1, 4, 20, 30, -10, 30, -10); /* 20 :- 30, not 10. with repeats */
    RULE(PROGRAM_TAKEN, 0, 1, -20);               /* :- not 20. */
    RULE(PROGRAM_TAKEN, 0, 0, 0);                 /* :-. */
    RULE(PROGRAM_TAKEN, 1, 2, 10, 10, -10);       /* 10 :- 10, not 10. */
    EXPECT(p.atoms == 3 && p.clauses == 5 && p.atom[0] == 10 && p.atom[1] == 20 && p.atom[2] == 30);
    table_is((uint16_t[]){3, 5, 1, 0, 0, 2, 1, 1, 1, 1, 2, 0, 0, 0, 1, 1, 0, 0, 0, 1, 1, 1, 0, 0, 0}, 25);
    EXPECT(program_number(&p, 10) == 0 && program_number(&p, 30) == 2 && program_number(&p, 15) == -1);
    EXPECT(program_number(&p, 31) == -1);

    RULE(PROGRAM_ATOM_ZERO, 1, 0, 0); /* what is not taken changes nothing */
    RULE(PROGRAM_ATOM_ZERO, 1, 2, 99, 98, 0);
    EXPECT(p.atoms == 3 && p.clauses == 5 && p.words == 25);
    RULE(PROGRAM_TAKEN, 1, 1, UINT32_C(2147483647), -2147483647);
    EXPECT(program_number(&p, 2147483647) == 3);
}

static void limits(void)
{
    program_start(&p);
    for (uint32_t a = 1024; a > 0; a--)
        EXPECT(program_rule(&p, &a, 1, NULL, 0) == PROGRAM_TAKEN);
    RULE(PROGRAM_ATOMS, 1, 0, 1025);
    for (int i = 1024; i < 2048; i++)
        EXPECT(program_rule(&p, NULL, 0, NULL, 0) == PROGRAM_TAKEN);
    RULE(PROGRAM_CLAUSES, 1, 0, 1);
    EXPECT(program_table(&p, table) == 2 + 4 * 1024 + 3 * 1024);
    EXPECT(gambrolt_check_table(table, p.words) == 0 && table[0] == 1024 && table[1] == 2048);
}

/* A rule with more new atoms than there is room for: those that came in go again, wherever they stood. */
static void atoms_go_again(void)
{
    static struct program before;
    program_start(&p);
    for (uint32_t a = 1; a <= 1022; a++)
        EXPECT(program_rule(&p, (uint32_t[]){10 * a}, 1, NULL, 0) == PROGRAM_TAKEN);
    before = p;
    RULE(PROGRAM_ATOMS, 2, 3, 20000, 5, 555, -5005, 30);
    RULE(PROGRAM_ATOMS, 3, 0, 1, 2, 3);
    RULE(PROGRAM_ATOMS, 1, 2, 20000, -20001, 20002);
    EXPECT(p.atoms == 1022 && p.clauses == 1022 && p.words == before.words);
    EXPECT(memcmp(p.atom, before.atom, 1022 * sizeof *p.atom) == 0);
    EXPECT(memcmp(p.word, before.word, p.words * sizeof *p.word) == 0);
    RULE(PROGRAM_TAKEN, 2, 2, 5, 20000, -5, 30); /* two new ones fit, each once */
    EXPECT(p.atoms == 1024 && program_number(&p, 5) == 0 && program_number(&p, 20000) == 1023);
    RULE(PROGRAM_ATOMS, 1, 0, 7);
    EXPECT(program_table(&p, table) == p.words && gambrolt_check_table(table, p.words) == 0);
}

static void word_limit(void)
{
    static int32_t body[1023];
    uint32_t head = 1;
    program_start(&p);
    for (int i = 0; i < 1023; i++)
        body[i] = i + 1;
    for (int i = 0; i < 7; i++) /* 7 clauses of 1027 words: 7191 */
        EXPECT(program_rule(&p, &head, 1, body, 1023) == PROGRAM_TAKEN);
    EXPECT(p.words == 7191);
    EXPECT(program_rule(&p, &head, 1, body, 998) == PROGRAM_WORDS);
    EXPECT(program_rule(&p, &head, 1, body, 997) == PROGRAM_TAKEN);
    EXPECT(p.words == 8192 && program_table(&p, table) == 8192 && gambrolt_check_table(table, 8192) == 0);
    EXPECT(program_rule(&p, NULL, 0, NULL, 0) == PROGRAM_WORDS);
}

/* Random rules: the table holds exactly the sets of atoms that were given. */
static void random_rules(void)
{
    unsigned long state = 1;
    for (int round = 0; round < 300; round++) {
        uint32_t head[6];
        int32_t body[12];
        int in_head[21] = {0}, in_body[41] = {0};
        program_start(&p);
        for (uint32_t a = 1; a <= 20; a++) /* all twenty atoms, so that atom a is number a - 1 */
            EXPECT(program_rule(&p, &a, 1, NULL, 0) == PROGRAM_TAKEN);
        size_t before = p.words, heads = (state = state * 16807 % 2147483647) % 7, literals;
        literals = (state = state * 16807 % 2147483647) % 13;
        for (size_t i = 0; i < heads; i++)
            in_head[head[i] = 1 + (uint32_t)((state = state * 16807 % 2147483647) % 20)] = 1;
        for (size_t i = 0; i < literals; i++) {
            int a = 1 + (int)((state = state * 16807 % 2147483647) % 20);
            body[i] = (state = state * 16807 % 2147483647) % 2 ? a : -a;
            in_body[20 + body[i]] = 1;
        }
        EXPECT(program_rule(&p, head, heads, body, literals) == PROGRAM_TAKEN);
        size_t words = program_table(&p, table), at = before + 3;
        EXPECT(gambrolt_check_table(table, words) == 0);
        for (int a = 1; a <= 20; a++)
            if (in_head[a])
                EXPECT(table[at++] == a - 1);
        EXPECT(at == before + 3 + table[before]);
        for (int a = 1; a <= 20; a++)
            if (in_body[20 + a])
                EXPECT(table[at++] == a - 1);
        EXPECT(at == before + 3 + table[before] + table[before + 1]);
        for (int a = 1; a <= 20; a++)
            if (in_body[20 - a])
                EXPECT(table[at++] == a - 1);
        EXPECT(at == words);
    }
}

int main(void)
{
    example();
    rules();
    limits();
    atoms_go_again();
    word_limit();
    random_rules();
    return 0;
}
