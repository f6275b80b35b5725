/* Calls one function of the library on the bytes of a file, for a counter of instructions, and prints the number that it is answered by:
 *
 *     once ENTRY FILE [NUMBER ..]
 *
 * ENTRY is the function's name behind turrethog_, and the numbers are what it takes besides bytes and delimiters, as bench/inputs.rs gives
 * them. feed is called once for each piece of a line, and could_stand is answered by 0 where it gives a name. */
#include <stddef.h>
#include <stdint.h>
#include <stdio.h>
#include <string.h>
#include <unistd.h>
#include "turrethog.h"

enum { LONGEST = 1048576, MOST_NUMBERS = 5 };

/* As in bench/calls.rs. */
#define DELIMITERS '|', '^', '~', '\\', '&'
static const uint8_t time_now[] = "20240229093001+0000";
static const uint8_t own_id[] = "ACK0001";

static uint8_t bytes[LONGEST + 4];
static uint8_t buffer[5 * LONGEST];
static size_t length;
static size_t numbers[MOST_NUMBERS];

static uint32_t serve(void)
{
    turrethog_fed fed = {0};
    size_t most = numbers[0];
    for (size_t start = 0; start < length; start += most) {
        size_t end = length - start < most ? length : start + most;
        for (size_t at = start; at < end; at += fed.used) {
            fed = turrethog_feed(fed.state, bytes + at, end - at, buffer, LONGEST);
            /* A call that uses nothing would go on for ever. */
            if (fed.used == 0) {
                return fed.number;
            }
        }
    }
    return fed.stop == TURRETHOG_FRAME ? fed.number : TURRETHOG_BROKEN_FRAME;
}

#define ADDRESS bytes, length, numbers[0], numbers[1], numbers[2], numbers[3], numbers[4]
#define TEXT DELIMITERS, bytes, length, buffer, sizeof buffer

static uint64_t rows[8 * LONGEST];

static uint32_t leaves_once(void) { return turrethog_leaves(bytes, length, rows, sizeof rows / sizeof rows[0]).number; }
static uint32_t read_once(void) { return turrethog_read(bytes, length).number; }
static uint32_t find_once(void) { return turrethog_find(ADDRESS).number; }
static uint32_t nm_once(void) { return turrethog_nm(ADDRESS).number; }
static uint32_t si_once(void) { return turrethog_si(ADDRESS).number; }
static uint32_t dt_once(void) { return turrethog_dt(ADDRESS).number; }
static uint32_t tm_once(void) { return turrethog_tm(ADDRESS).number; }
static uint32_t ts_once(void) { return turrethog_ts(ADDRESS).number; }
static uint32_t escape_once(void) { return turrethog_escape(TEXT).number; }
static uint32_t unescape_once(void) { return turrethog_unescape(TEXT).number; }
static uint32_t format_once(void) { return turrethog_format(TEXT).number; }
static uint32_t structure_once(void) { return turrethog_structure(bytes, length).number; }
static uint32_t verdict_once(void) { return turrethog_verdict(bytes, length).number; }
static uint32_t could_stand_once(void) { return turrethog_could_stand(bytes, length, numbers[0]) == 0; }
static uint32_t acknowledge_once(void)
{
    return turrethog_acknowledge(bytes, length, time_now, sizeof time_now - 1, own_id, sizeof own_id - 1, buffer, sizeof buffer).number;
}

typedef void any_function(void);

static const struct {
    const char *name;
    any_function *function;
    uint32_t (*call)(void);
} entries[] = {
    {"read", (any_function *)turrethog_read, read_once},
    {"find", (any_function *)turrethog_find, find_once},
    {"nm", (any_function *)turrethog_nm, nm_once},
    {"si", (any_function *)turrethog_si, si_once},
    {"dt", (any_function *)turrethog_dt, dt_once},
    {"tm", (any_function *)turrethog_tm, tm_once},
    {"ts", (any_function *)turrethog_ts, ts_once},
    {"escape", (any_function *)turrethog_escape, escape_once},
    {"unescape", (any_function *)turrethog_unescape, unescape_once},
    {"format", (any_function *)turrethog_format, format_once},
    {"leaves", (any_function *)turrethog_leaves, leaves_once},
    {"structure", (any_function *)turrethog_structure, structure_once},
    {"verdict", (any_function *)turrethog_verdict, verdict_once},
    {"could_stand", (any_function *)turrethog_could_stand, could_stand_once},
    {"acknowledge", (any_function *)turrethog_acknowledge, acknowledge_once},
    {"feed", (any_function *)turrethog_feed, serve},
};

static int read_file(const char *name)
{
    FILE *file = fopen(name, "rb");
    if (file == NULL) {
        return 0;
    }
    length = fread(bytes, 1, sizeof bytes, file);
    int whole = !ferror(file) && length < sizeof bytes;
    fclose(file);
    return whole;
}

static size_t number_of(const char *digits)
{
    size_t number = 0;
    for (; *digits >= '0' && *digits <= '9'; digits++) {
        number = 10 * number + (size_t)(*digits - '0');
    }
    return number;
}

int main(int count, char **words)
{
    if (count < 3 || count > 3 + MOST_NUMBERS || !read_file(words[2])) {
        fprintf(stderr, "usage: once ENTRY FILE [NUMBER ..]\n");
        return 2;
    }
    for (int i = 3; i < count; i++) {
        numbers[i - 3] = number_of(words[i]);
    }
    for (size_t i = 0; i < sizeof entries / sizeof entries[0]; i++) {
        if (strcmp(words[1], entries[i].name) == 0) {
            /* The counter sees this call, which fails, and learns from it which function it is to count. */
            if (write(-1, (const void *)(size_t)entries[i].function, 0) != -1) {
                return 1;
            }
            printf("%u\n", (unsigned)entries[i].call());
            return 0;
        }
    }
    fprintf(stderr, "once: no entry point %s\n", words[1]);
    return 2;
}
