/* fuzz.c - one whole run for each input that a coverage-guided fuzzer thinks up, in every form. */
#include "every.h"

int LLVMFuzzerTestOneInput(const uint8_t *bytes, size_t len);

int LLVMFuzzerTestOneInput(const uint8_t *bytes, size_t len)
{
    static struct order order;
    if (try_every(&order, (const char *)bytes, len) < 0)
        abort();
    return 0;
}
