/* The program in C: the library's call, whose result is its exit status: 0 done, 1 the text is refused, 2 reading or writing failed. */
#include <stdint.h>

uint32_t gambrolt_reduce_main(void);

int main(void)
{
    return (int)gambrolt_reduce_main();
}
