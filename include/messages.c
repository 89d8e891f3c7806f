/* messages.c - the inline functions of gambrolt.h as functions of the library, for languages that can't read the header. */
#define gambrolt_version inline_version
#define gambrolt_refusal inline_refusal
#define gambrolt_value inline_value
#define gambrolt_message inline_message
#define gambrolt_kind_name inline_kind_name
#include "gambrolt.h"
#undef gambrolt_version
#undef gambrolt_refusal
#undef gambrolt_value
#undef gambrolt_message
#undef gambrolt_kind_name

const char *gambrolt_version(void);
unsigned gambrolt_refusal(uint64_t answer);
uint64_t gambrolt_value(uint64_t answer);
const char *gambrolt_message(unsigned number);
const char *gambrolt_kind_name(unsigned kind);

const char *gambrolt_version(void)
{
    return inline_version();
}

unsigned gambrolt_refusal(uint64_t answer)
{
    return inline_refusal(answer);
}

uint64_t gambrolt_value(uint64_t answer)
{
    return inline_value(answer);
}

const char *gambrolt_message(unsigned number)
{
    return inline_message(number);
}

const char *gambrolt_kind_name(unsigned kind)
{
    return inline_kind_name(kind);
}
