/* What the network side of a gateway does with one message, here from standard input: the verdict in words and the letters of the answer (AA,
 * AE or AR) on standard error, and the acknowledgement on standard output. It ends with 0 where the message was accepted, 1 where it was
 * refused and the sender was told so, and 2 where nothing could be sent back.
 *
 *     c/link examples/gateway.c gateway && ./gateway 20261115103000+1000 0001 < examples/blood-count.hl7
 */
#include "turrethog.h"

#include <stdio.h>
#include <string.h>

/* One byte more than a message may have, so that a longer one is seen. */
static uint8_t message[TURRETHOG_MESSAGE_LIMIT + 1];
static uint8_t acknowledgement[TURRETHOG_MESSAGE_LIMIT];

static void print_names(size_t length, size_t count)
{
    fprintf(stderr, "  could have stood there:");
    for (size_t i = 0; i < count; i++) {
        uint32_t name = turrethog_could_stand(message, length, i);
        fprintf(stderr, " %c%c%c", (int)(name >> 16), (int)(name >> 8 & 255), (int)(name & 255));
    }
    fprintf(stderr, "\n");
}

static void print_verdict(turrethog_verdict_answer verdict, size_t length)
{
    if (verdict.number == TURRETHOG_NONE) {
        fprintf(stderr, "accepted\n");
        return;
    }
    fprintf(stderr, "refused (%u): %s\n", (unsigned)verdict.number, turrethog_words(verdict.number));
    if (verdict.number < TURRETHOG_NO_STRUCTURE)
        fprintf(stderr, "  at byte %zu\n", verdict.place);
    else if (verdict.field != 0)
        fprintf(stderr, "  in segment %zu, field %zu, repetition %zu\n", verdict.place, verdict.field, verdict.repetition);
    else if (verdict.number != TURRETHOG_NO_STRUCTURE)
        fprintf(stderr, "  at segment %zu\n", verdict.place);
    if (verdict.names != 0)
        print_names(length, verdict.names);
    if (verdict.could_end)
        fprintf(stderr, "  the message could have ended there\n");
}

/* MSA-1, as the sender will read it: AA, accepted; AE, this message is wrong; AR, a message of this kind is not taken here. */
static void print_letters(size_t length)
{
    turrethog_element letters = turrethog_find(acknowledgement, length, 1, 1, 0, 0, 0);
    fprintf(stderr, "answered %.*s\n", (int)(letters.end - letters.start), (const char *)acknowledgement + letters.start);
}

int main(int count, char **words)
{
    if (count != 3) {
        fprintf(stderr, "usage: gateway TIME ID < MESSAGE\n  TIME is a TS, as 20261115103000+1000; ID is 1 to 199 bytes\n");
        return 2;
    }
    size_t length = fread(message, 1, sizeof message, stdin);
    turrethog_verdict_answer verdict = turrethog_verdict(message, length);
    print_verdict(verdict, length);
    turrethog_answer written = turrethog_acknowledge(message, length, (const uint8_t *)words[1], strlen(words[1]), (const uint8_t *)words[2],
                                                     strlen(words[2]), acknowledgement, sizeof acknowledgement);
    if (written.number != TURRETHOG_NONE) {
        fprintf(stderr, "not acknowledged (%u): %s\n", (unsigned)written.number, turrethog_words(written.number));
        return 2;
    }
    if (fwrite(acknowledgement, 1, written.length, stdout) != written.length || fflush(stdout) != 0) {
        fprintf(stderr, "the acknowledgement could not be sent\n");
        return 2;
    }
    print_letters(written.length);
    return verdict.number == TURRETHOG_NONE ? 0 : 1;
}
