/*
 * damage.c - every file that is named, damaged in some thousand ways, and run in every form. Built with the address and
 * undefined-behaviour sanitizers.
 */
#include "every.h"

#include <stdio.h>

static size_t runs, refusals;

static void try(const char *bytes, size_t len)
{
    static struct order order;
    int refused = try_every(&order, bytes, len);
    if (refused < 0) {
        fprintf(stderr, "damage.c: output of %zu bytes, fault `%s` for:\n", order.output.len, order.fault);
        fwrite(bytes, 1, len, stderr);
        exit(1);
    }
    runs += sizeof every / sizeof *every;
    refusals += (size_t)refused;
}

/* The input with `len` bytes at `at` replaced. */
static void try_replaced(const struct buffer *whole, size_t at, size_t len, const char *by, size_t by_len)
{
    struct buffer damaged = {0};
    put(&damaged, whole->at, at);
    put(&damaged, by, by_len);
    put(&damaged, whole->at + at + len, whole->len - at - len);
    try(damaged.at, damaged.len);
    free(damaged.at);
}

static void try_carriage_returns(const struct buffer *whole)
{
    struct buffer damaged = {0};
    for (size_t i = 0; i < whole->len; i++)
        put(&damaged, whole->at[i] == '\n' ? "\r\n" : whole->at + i, whole->at[i] == '\n' ? 2 : 1);
    try(damaged.at, damaged.len);
    free(damaged.at);
}

/* A number or a name that goes on and on. */
static void try_long(const struct buffer *whole, size_t at)
{
    struct buffer more = {0};
    for (int i = 0; i < 5000; i++)
        put(&more, i % 7 ? "9" : " 1", i % 7 ? 1 : 2);
    try_replaced(whole, at, 0, more.at, more.len);
    free(more.at);
}

static void damage(const struct buffer *whole)
{
    static const char *const pieces[] = {"", "0", "-", " ", "\n", "\r", "x", "99999999999999999999", "-2147483648",
                                         "2147483647", "4294967295", "\xff", "1 0 1 1 0 0\n", "0\n"};
    size_t stride = 1 + whole->len / 110; /* of a long file not every place */
    try(whole->at, whole->len);
    try_carriage_returns(whole);
    try_replaced(whole, 0, 0, "\0", 1);
    for (size_t at = 0; at < whole->len; at += stride) {
        try(whole->at, at);
        try(whole->at + at, whole->len - at);
        try_replaced(whole, at, 1, "\0", 1);
        for (size_t k = 0; k < sizeof pieces / sizeof *pieces; k++) {
            try_replaced(whole, at, 0, pieces[k], strlen(pieces[k]));
            try_replaced(whole, at, 1, pieces[k], strlen(pieces[k]));
        }
        if (at % 16 == 0)
            try_long(whole, at);
    }
}

/* Bytes without sense, some with a header in front. */
static void noise(void)
{
    unsigned long state = 7;
    for (int round = 0; round < 2000; round++) {
        char bytes[200];
        size_t len = 0, most = (state = state * 16807 % 2147483647) % sizeof bytes;
        if (round % 2 && most >= 10)
            len = (size_t)sprintf(bytes, "asp 1 0 0\n");
        for (; len < most; len++) {
            state = state * 16807 % 2147483647;
            bytes[len] = round % 3 ? " \n-0123456789"[state % 13] : (char)(state % 256);
        }
        try(bytes, len);
    }
}

int main(int count, char **file)
{
    for (int i = 1; i < count; i++) {
        struct buffer whole = {0};
        FILE *stream = fopen(file[i], "rb");
        for (int c; stream && (c = getc(stream)) != EOF;)
            put(&whole, &(char){(char)c}, 1);
        if (!stream || whole.len == 0) {
            perror(file[i]);
            return 1;
        }
        fclose(stream);
        damage(&whole);
        free(whole.at);
    }
    noise();
    printf("%zu runs on damaged input, %zu refused\n", runs, refusals);
    return refusals == 0 || refusals == runs;
}
