/* What the network side of a gateway does with an open line, here standard input and standard output: takes the frames off it (MLLP), judges
 * each message, and answers it in a frame of its own as soon as it is complete. Standard error has a line for each message, by the control ID
 * of our answer, and one for whatever was dropped.
 *
 *     c/link examples/mllp.c mllp
 *     socat TCP-LISTEN:2575,reuseaddr,fork,backlog=128 EXEC:./mllp,nofork   a process for each sender; not on an x86-64: EXEC:'./start ./mllp',nofork
 *     ./mllp 20240229093001+0000 K < LINE                                   for tests: always that time, and K1, K2 .. as our control IDs
 *
 * nofork hands the line itself to this program. Without it socat stands in between, and ends as soon as this program does: an answer that is still
 * on its way to a sender who has closed his side is lost with it. docs/FIRST-HOUR.md has all of it, and examples/load puts it under load.
 *
 * It ends when the sender closes the line: with 0 where every message was accepted, 1 where one was refused or not answered, or a frame was
 * dropped or left open, and 2 where the line failed, or we had no time or control ID for an answer. A message without an answer is the
 * sender's to send again. An acknowledgement is not answered, and is no fault. Nor are bytes between frames, as LF: their count is said at the
 * end.
 */
#define _POSIX_C_SOURCE 200809L

#include "turrethog.h"

#include <errno.h>
#include <signal.h>
#include <stdio.h>
#include <string.h>
#include <time.h>
#include <unistd.h>

enum { LINE_IN = 0, LINE_OUT = 1 };

/* The frame that is being gathered: between two pieces nobody else may write to it. */
static uint8_t frame[TURRETHOG_MESSAGE_LIMIT];
static uint8_t piece[65536];
/* 0B, the acknowledgement, 1C, 0D. */
static uint8_t answer[1 + TURRETHOG_MESSAGE_LIMIT + 2];

/* From the command line, for tests; else NULL. Behind the ID there is room for the ten digits of a number. */
#define LONGEST_GIVEN_ID 189
static const char *given_time, *given_id;

static unsigned long messages;
static bool trouble;

/* ---- what is said on standard error. The processes of several lines may share it, so each line of it is printed by one call. */

static void put_place(char *to, size_t room, turrethog_verdict_answer verdict)
{
    to[0] = '\0';
    /* 1 and 2 are of the message as a whole, 20 of its type. */
    if (verdict.number < TURRETHOG_DELIMITER || verdict.number == TURRETHOG_NO_STRUCTURE)
        return;
    if (verdict.number < TURRETHOG_NO_STRUCTURE)
        snprintf(to, room, ", at byte %zu", verdict.place);
    else if (verdict.field != 0)
        snprintf(to, room, ", in segment %zu, field %zu, repetition %zu", verdict.place, verdict.field, verdict.repetition);
    else
        snprintf(to, room, ", at segment %zu", verdict.place);
}

static void put_names(char *to, size_t room, turrethog_verdict_answer verdict, size_t length)
{
    size_t at = 0;
    to[0] = '\0';
    for (size_t i = 0; i < verdict.names && at + sizeof " OBX" <= room; i++) {
        uint32_t name = turrethog_could_stand(frame, length, i);
        snprintf(to + at, room - at, " %c%c%c", (int)(name >> 16), (int)(name >> 8 & 255), (int)(name & 255));
        at += strlen(to + at);
    }
}

static void say_message(const char *id, turrethog_verdict_answer verdict, size_t length, uint32_t unanswered)
{
    char place[128], names[512], why[160] = "";
    bool accepted = verdict.number == TURRETHOG_NONE;
    /* Of an accepted message the header and the control ID are sound: then 9 has one reason left. */
    if (unanswered == TURRETHOG_NOT_ACKNOWLEDGEABLE && accepted)
        snprintf(why, sizeof why, "; not answered (9): it is an acknowledgement itself");
    else if (unanswered != TURRETHOG_NONE)
        snprintf(why, sizeof why, "; not answered (%u): %s", (unsigned)unanswered, turrethog_words(unanswered));
    if (accepted) {
        fprintf(stderr, "%s: accepted%s\n", id, why);
        return;
    }
    put_place(place, sizeof place, verdict);
    put_names(names, sizeof names, verdict, length);
    fprintf(stderr, "%s: refused (%u): %s%s%s%s%s%s\n", id, (unsigned)verdict.number, turrethog_words(verdict.number), place,
            names[0] != '\0' ? "; could have stood there:" : "", names, verdict.could_end ? "; it could have ended there" : "", why);
}

static void say_drop(uint32_t number)
{
    trouble = true;
    fprintf(stderr, "a frame was dropped (%u): %s\n", (unsigned)number, turrethog_words(number));
}

/* What only the state can tell when the line is closed. */
static void say_end(turrethog_frame_state state)
{
    if (state.mode == 1 || state.mode == 2)
        fprintf(stderr, "the line was closed in a frame (bytes gathered: %zu)\n", state.held);
    else if (state.mode != 0)
        fprintf(stderr, "the line was closed in the frame that is too long\n");
    if (state.count != 0)
        fprintf(stderr, "bytes dropped outside frames: %lu%s\n", (unsigned long)state.count, state.count == UINT32_MAX ? " or more" : "");
    trouble = trouble || state.mode != 0;
}

/* ---- our own time and control ID */

/* As a TS in UTC, so that no answer depends on the zone of the place. */
static const char *time_now(void)
{
    static char now[32];
    if (given_time != NULL)
        return given_time;
    time_t seconds = time(NULL);
    const struct tm *parts = gmtime(&seconds);
    if (parts == NULL || strftime(now, sizeof now, "%Y%m%d%H%M%S+0000", parts) == 0)
        return "";
    return now;
}

/* The second, the process and the message's number, in 20 bytes: 199 may be, but older receivers take no more. No two answers from one computer
 * have the same while its clock goes forward: no process answers 16 million messages in a second, and no process's number is given again within
 * one. */
static const char *next_id(void)
{
    static char id[LONGEST_GIVEN_ID + 32];
    messages++;
    unsigned long second = (unsigned long)time(NULL) & 0xffffffff, process = (unsigned long)getpid() & 0xffffff;
    if (given_id != NULL)
        snprintf(id, sizeof id, "%s%lu", given_id, messages);
    else
        snprintf(id, sizeof id, "%08lX%06lX%06lX", second, process, messages & 0xffffff);
    return id;
}

/* ---- the line */

/* Sends the front of the answer. The line may take a part of what is written, and a signal may come between. */
static bool send_answer(const char *id, size_t length)
{
    size_t sent = 0;
    while (sent < length) {
        ssize_t count = write(LINE_OUT, answer + sent, length - sent);
        if (count < 0 && errno == EINTR)
            continue;
        if (count <= 0) {
            fprintf(stderr, "%s: the answer could not be sent: %s\n", id, count < 0 ? strerror(errno) : "nothing was taken");
            return false;
        }
        sent += (size_t)count;
    }
    return true;
}

/* Judges the message in the frame, and answers it. False where no more can be answered. */
static bool answer_message(size_t length)
{
    const char *now = time_now(), *id = next_id();
    turrethog_verdict_answer verdict = turrethog_verdict(frame, length);

    /* Here a gateway files an accepted message, and goes on only when it is safe on the disk (fsync): at AA the sender deletes his copy. One
     * that cannot be filed must not be answered: close the line, and the sender sends it again. So does a sender whom our answer did not
     * reach: the same control ID (MSH-10) may come twice, and is filed once. */

    turrethog_answer written = turrethog_acknowledge(frame, length, (const uint8_t *)now, strlen(now), (const uint8_t *)id, strlen(id),
                                                     answer + 1, TURRETHOG_MESSAGE_LIMIT);
    say_message(id, verdict, length, written.number);
    trouble = trouble || verdict.number != TURRETHOG_NONE;
    if (written.number == TURRETHOG_CALLERS_TIME || written.number == TURRETHOG_CALLERS_ID)
        return false;
    if (written.number != TURRETHOG_NONE) {
        trouble = trouble || written.number != TURRETHOG_NOT_ACKNOWLEDGEABLE;
        return true;
    }
    /* No 0B and no 1C can be in between: what it repeats came in a frame, and our own ID is escaped. */
    answer[0] = 0x0b;
    answer[1 + written.length] = 0x1c;
    answer[2 + written.length] = 0x0d;
    return send_answer(id, written.length + 3);
}

/* All the frames that end in the piece. False where no more can be answered. */
static bool take(turrethog_frame_state *state, size_t length)
{
    size_t used = 0;
    for (;;) {
        turrethog_fed fed = turrethog_feed(*state, piece + used, length - used, frame, sizeof frame);
        *state = fed.state;
        used += fed.used;
        if (fed.stop == TURRETHOG_MORE)
            return true;
        if (fed.stop == TURRETHOG_FRAME && !answer_message(fed.length))
            return false;
        if (fed.stop == TURRETHOG_DROP)
            say_drop(fed.number);
        /* Refused is only a state that no call has handed back for this buffer: a mistake of ours. */
        if (fed.stop == TURRETHOG_REFUSED) {
            fprintf(stderr, "the line's state was changed between two pieces (%u)\n", (unsigned)fed.number);
            return false;
        }
    }
}

/* Takes what there is, and does not wait until the piece is full: the sender may be waiting for his answer. */
static bool serve(turrethog_frame_state *state)
{
    for (;;) {
        ssize_t count = read(LINE_IN, piece, sizeof piece);
        if (count == 0)
            return true;
        if (count < 0 && errno == EINTR)
            continue;
        if (count < 0) {
            fprintf(stderr, "the line could not be read: %s\n", strerror(errno));
            return false;
        }
        if (!take(state, (size_t)count))
            return false;
    }
}

int main(int count, char **words)
{
    if (count != 1 && (count != 3 || strlen(words[2]) > LONGEST_GIVEN_ID)) {
        fprintf(stderr, "usage: mllp [TIME ID]\n  TIME is a TS, as 20240229093001+0000; ID is at most 189 bytes: 1, 2 .. follow it\n");
        return 2;
    }
    if (count == 3) {
        given_time = words[1];
        given_id = words[2];
    }
    /* Else a write to a line that the sender has closed would end us before we could say so; now it fails, and that is looked at. */
    signal(SIGPIPE, SIG_IGN);

    turrethog_frame_state state = {0, 0, 0};
    bool served = serve(&state);
    say_end(state);
    return !served ? 2 : trouble ? 1 : 0;
}
