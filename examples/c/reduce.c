/* Reduces a program and prints its steps and what is left of it. */
#include <inttypes.h>
#include <stdio.h>

#include "gambrolt.h"

/* 0. 1 <- 0, ~2. 3 <- 3. 2 <- 3. with four atoms */
static const uint16_t table[] = {4, 4, 1, 0, 0, 0, 1, 1, 1, 1, 0, 2, 1, 1, 0, 3, 3, 1, 1, 0, 2, 3};
enum { WORDS = sizeof table / sizeof table[0], LIST = 4 * WORDS };

static int refused(const char *call, uint64_t answer)
{
    unsigned number = gambrolt_refusal(answer);
    fprintf(stderr, "%s: %s (question %u, place %" PRIu64 ")\n", call, gambrolt_message(number), number,
            gambrolt_value(answer));
    return 1;
}

int main(void)
{
    uint8_t marks[WORDS];
    uint16_t list[LIST], left[WORDS];
    static uint8_t text[GAMBROLT_MAX_TEXT];

    uint64_t steps = gambrolt_reduce(table, WORDS, marks, WORDS, list, LIST);
    if (gambrolt_refusal(steps))
        return refused("reduce", steps);

    uint64_t words = gambrolt_reduced_table(table, WORDS, marks, WORDS, left, WORDS);
    if (gambrolt_refusal(words))
        return refused("reduced_table", words);

    uint64_t bytes = gambrolt_write_text(left, words, text, sizeof text);
    if (gambrolt_refusal(bytes))
        return refused("write_text", bytes);

    for (uint64_t i = 0; i < steps; i++)
        printf("kind %u: clause %u, partner %u, atom %u\n", list[4 * i], list[4 * i + 1], list[4 * i + 2], list[4 * i + 3]);
    fwrite(text, 1, bytes, stdout);
    return 0;
}
