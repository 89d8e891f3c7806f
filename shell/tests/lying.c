/*
 * lying.c - a reducer that says what is not so, to see that the program then writes nothing. LIE names the lie; linked
 * with --wrap=gambrolt_reduce.
 */
#include "gambrolt.h"

#include <stdlib.h>
#include <string.h>

uint64_t __real_gambrolt_reduce(const uint16_t *, size_t, uint8_t *, size_t, uint16_t *, size_t);
uint64_t __wrap_gambrolt_reduce(const uint16_t *, size_t, uint8_t *, size_t, uint16_t *, size_t);

uint64_t __wrap_gambrolt_reduce(const uint16_t *table, size_t words, uint8_t *marks, size_t nmarks, uint16_t *list,
                                size_t nlist)
{
    uint64_t steps = __real_gambrolt_reduce(table, words, marks, nmarks, list, nlist);
    const char *lie = getenv("LIE");
    if (!lie)
        return steps;
    if (strcmp(lie, "one step too many") == 0) {
        memcpy(list + 4 * steps, (uint16_t[]){6, 0, 0, 0}, 4 * sizeof *list);
        return steps + 1;
    }
    if (strcmp(lie, "one step too few") == 0)
        return steps - 1;
    if (strcmp(lie, "a wrong kind") == 0)
        list[0] = 2;
    else if (strcmp(lie, "a mark more") == 0)
        marks[2] = 0;
    else if (strcmp(lie, "no marks") == 0)
        memset(marks, 1, words);
    else if (strcmp(lie, "countless steps") == 0)
        return UINT64_C(1) << 40;
    else if (strcmp(lie, "refused") == 0)
        return (UINT64_C(17) << 48) + 5;
    return steps;
}
