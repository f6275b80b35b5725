/* Calls every function of the library from C with questions of crates/ask, and with larger ones than that program has room for, and compares
 * what comes back with their answers, so that the header, the library and the program cannot drift apart. Lines that are no questions
 * (answered `?`) are passed over: they are the program's own.
 * Every message that is read has its leaves and its segments asked for too, and held to turrethog_find. Formatted text is also laid out by a
 * table that stands here, in letters that can be read.
 * Prints how often each function was called; ends with 1 at the first difference, and where a function was never called.
 *
 *     c/test                              which calls it with files: QUESTIONS ANSWERS [QUESTIONS ANSWERS]..
 */
#include "turrethog.h"

#include <stdio.h>
#include <string.h>

/* The longest question has a text of 1 MiB, and the longest answer shows a buffer that takes five bytes for each of it; an answer of frames may
 * have one and a half characters for each of its question before its buffer: `40,` for each `0b`. */
#define LONGEST_QUESTION 2200000
#define LARGEST_ROOM 5300000
#define LONGEST_ANSWER (2 * LARGEST_ROOM + 3 * LONGEST_QUESTION / 2)
/* So many bytes behind the buffer lent have to stay as they were. */
#define BEHIND 4096
#define UNWRITTEN 0xa5

typedef struct {
    const char *at;
    size_t length;
} text;

/* A file that is read block by block, and its present line. */
typedef struct {
    const char *name;
    FILE *file;
    char block[65536];
    size_t read, taken;
    char *line;
    size_t room;
} lines;

static char question[LONGEST_QUESTION], answer[LONGEST_ANSWER], said[LONGEST_ANSWER];
static size_t said_length;
static uint8_t bytes[3][LONGEST_QUESTION / 2];
static uint8_t buffer[LARGEST_ROOM + BEHIND];

/* ---- the lines and their words */

static lines questions = {.line = question, .room = sizeof question}, answers = {.line = answer, .room = sizeof answer};

static bool open_lines(lines *from, const char *name)
{
    from->name = name;
    from->read = from->taken = 0;
    from->file = fopen(name, "rb");
    if (from->file == NULL)
        fprintf(stderr, "%s cannot be read\n", name);
    return from->file != NULL;
}

/* Copies the block up to the next LF or to its end behind the line, where there is room for it. */
static bool take_from_block(lines *from, text *line, bool *ended)
{
    const char *at = from->block + from->taken, *end = memchr(at, '\n', from->read - from->taken);
    size_t length = end == NULL ? from->read - from->taken : (size_t)(end - at);
    *ended = end != NULL;
    if (length > from->room - line->length) {
        fprintf(stderr, "%s has a line of over %zu bytes\n", from->name, from->room);
        return false;
    }
    memcpy(from->line + line->length, at, length);
    line->length += length;
    from->taken += length + *ended;
    return true;
}

enum { ANOTHER_LINE, NO_MORE_LINES, NOT_READ };

/* The last line may be ended by the end of the file alone. */
static int next_line(lines *from, text *line)
{
    bool ended = false, begun = false;
    *line = (text){from->line, 0};
    while (!ended) {
        if (from->taken == from->read) {
            from->read = fread(from->block, 1, sizeof from->block, from->file);
            from->taken = 0;
        }
        if (from->read == 0)
            return ferror(from->file) ? NOT_READ : begun ? ANOTHER_LINE : NO_MORE_LINES;
        if (!take_from_block(from, line, &ended))
            return NOT_READ;
        begun = true;
    }
    return ANOTHER_LINE;
}

/* The word at the place, which is behind its space afterwards: past the line's end behind the last word. */
static text next_word(text line, size_t *place)
{
    text word = {line.at + *place, 0};
    const char *end = memchr(word.at, ' ', line.length - *place);
    word.length = end == NULL ? line.length - *place : (size_t)(end - word.at);
    *place += word.length + 1;
    return word;
}

/* How many words there are, or one more than the most where there are more than that. */
static size_t words_of(text line, text *words, size_t most)
{
    size_t count = 0;
    for (size_t place = 0; place <= line.length && count <= most; count++) {
        text word = next_word(line, &place);
        if (count < most)
            words[count] = word;
    }
    return count;
}

static bool is(text word, const char *verb)
{
    return word.length == strlen(verb) && memcmp(word.at, verb, word.length) == 0;
}

static unsigned digit_of(char c)
{
    return c >= 'a' ? (unsigned)(c - 'a' + 10) : c >= 'A' ? (unsigned)(c - 'A' + 10) : (unsigned)(c - '0');
}

static size_t hex_of(text word, uint8_t *to)
{
    if (is(word, "-"))
        return 0;
    for (size_t i = 0; i < word.length / 2; i++)
        to[i] = (uint8_t)(digit_of(word.at[2 * i]) * 16 + digit_of(word.at[2 * i + 1]));
    return word.length / 2;
}

static size_t number_of(text word)
{
    size_t n = 0;
    for (size_t i = 0; i < word.length; i++)
        n = n * 10 + digit_of(word.at[i]);
    return n;
}

/* ---- an answer as the program prints it */

#define SAY(...) (said_length += (size_t)snprintf(said + said_length, sizeof said - said_length, __VA_ARGS__))

static void say_state(uint32_t number, uint32_t state)
{
    static const char *const names[] = {"absent", "empty", "null", "present"};
    SAY(" %s", number != 0 ? "-" : names[state]);
}

static void say_figure(uint64_t figure)
{
    if (figure == TURRETHOG_NOT_SENT)
        SAY(" -");
    else
        SAY(" %lu", (unsigned long)figure);
}

static void say_time(turrethog_time t)
{
    SAY("%u %zu", (unsigned)t.number, t.place);
    say_state(t.number, t.state);
    const uint64_t figures[] = {t.date.year, t.date.month, t.date.day, t.clock.hour, t.clock.minute, t.clock.second, t.clock.fraction};
    for (size_t i = 0; i < 7; i++)
        say_figure(figures[i]);
    if (t.clock.fraction == TURRETHOG_NOT_SENT)
        SAY(" -");
    else
        SAY(" %zu", t.clock.digits);
    if (t.offset.sign == TURRETHOG_NO_OFFSET)
        SAY(" -");
    else
        SAY(" %c%02lu%02lu", t.offset.sign == TURRETHOG_PLUS ? '+' : '-', (unsigned long)t.offset.hours, (unsigned long)t.offset.minutes);
}

static void say_names(const uint8_t *message, size_t length, size_t count)
{
    if (count == 0)
        SAY(" -");
    for (size_t i = 0; i < count; i++) {
        uint32_t name = turrethog_could_stand(message, length, i);
        SAY("%c%c%c%c", i == 0 ? ' ' : ',', (int)(name >> 16), (int)(name >> 8 & 255), (int)(name & 255));
    }
    if (turrethog_could_stand(message, length, count) != 0 || turrethog_could_stand(message, length, (size_t)-1) != 0)
        SAY(" and a name past the last");
}

static void say_bytes(size_t length)
{
    for (size_t i = 0; i < length; i++) {
        said[said_length++] = "0123456789abcdef"[buffer[i] >> 4];
        said[said_length++] = "0123456789abcdef"[buffer[i] & 15];
    }
    if (length == 0)
        SAY("-");
}

/* Lends so much of the buffer. A question for more than there is would be a mistake of the model's. */
static bool lend(size_t room)
{
    if (room > LARGEST_ROOM) {
        SAY("there is no buffer of %zu bytes", room);
        return false;
    }
    memset(buffer, UNWRITTEN, room + BEHIND);
    return true;
}

static bool unwritten(size_t from, size_t to)
{
    for (size_t i = from; i < to; i++)
        if (buffer[i] != UNWRITTEN)
            return false;
    return true;
}

/* The buffer lent. Behind it nothing may have been written. */
static void say_buffer(size_t room)
{
    SAY(" ");
    say_bytes(room);
    if (!unwritten(room, room + BEHIND))
        SAY(" and a byte behind the buffer");
}

static void say_written(turrethog_answer answer, size_t room)
{
    SAY("%u %zu %zu", (unsigned)answer.number, answer.place, answer.length);
    say_buffer(room);
}

static void say_frame_state(turrethog_frame_state state, size_t room)
{
    SAY(" %lu %zu %lu", (unsigned long)state.mode, state.held, (unsigned long)state.count);
    say_buffer(room);
}

/* ---- the questions */

typedef struct {
    const char *verb;
    size_t words;
    size_t called;
} function;

/* Three words or more. */
#define ANY_NUMBER 0

static function functions[] = {
    {"read", 2, 0}, {"find", 7, 0}, {"nm", 7, 0},       {"si", 7, 0},        {"dt", 7, 0},      {"tm", 7, 0},
    {"ts", 7, 0},   {"escape", 4, 0}, {"unescape", 4, 0}, {"structure", 2, 0}, {"verdict", 2, 0}, {"ack", 5, 0},
    {"frame", 6, 0}, {"frames", ANY_NUMBER, 0}, {"format", 4, 0},
};

static void look_up(text verb, const uint8_t *m, size_t n, const text *words)
{
    size_t a[5];
    for (size_t i = 0; i < 5; i++)
        a[i] = number_of(words[2 + i]);
    if (is(verb, "find")) {
        turrethog_element e = turrethog_find(m, n, a[0], a[1], a[2], a[3], a[4]);
        SAY("%u %zu", (unsigned)e.number, e.place);
        say_state(e.number, e.state);
        SAY(" %zu %zu", e.start, e.end);
    } else if (is(verb, "nm") || is(verb, "si")) {
        bool nm = is(verb, "nm");
        turrethog_number v = nm ? turrethog_nm(m, n, a[0], a[1], a[2], a[3], a[4]) : turrethog_si(m, n, a[0], a[1], a[2], a[3], a[4]);
        SAY("%u %zu", (unsigned)v.number, v.place);
        say_state(v.number, v.state);
        SAY(" %ld", (long)v.value);
        if (nm)
            SAY(" %zu", v.decimals);
    } else {
        say_time(is(verb, "dt")   ? turrethog_dt(m, n, a[0], a[1], a[2], a[3], a[4])
                 : is(verb, "tm") ? turrethog_tm(m, n, a[0], a[1], a[2], a[3], a[4])
                                  : turrethog_ts(m, n, a[0], a[1], a[2], a[3], a[4]));
    }
}

static void write_text(text verb, const uint8_t *m, size_t n, const text *words)
{
    size_t room = number_of(words[is(verb, "ack") ? 4 : 3]);
    size_t second = hex_of(words[2], bytes[1]);
    const uint8_t *d = bytes[1];
    if (!lend(room))
        return;
    if (is(verb, "ack"))
        say_written(turrethog_acknowledge(m, n, d, second, bytes[2], hex_of(words[3], bytes[2]), buffer, room), room);
    else if (is(verb, "escape"))
        say_written(turrethog_escape(d[0], d[1], d[2], d[3], d[4], m, n, buffer, room), room);
    else if (is(verb, "format"))
        say_written(turrethog_format(d[0], d[1], d[2], d[3], d[4], m, n, buffer, room), room);
    else
        say_written(turrethog_unescape(d[0], d[1], d[2], d[3], d[4], m, n, buffer, room), room);
}

/* Messages of up to so many bytes have all their leaves listed. */
#define LONGEST_LISTED 4096
#define UNWRITTEN_NUMBER UINT64_C(0xa5a5a5a5a5a5a5a5)

static uint64_t numbers[8 * LONGEST_LISTED + 8];

static void lend_numbers(void)
{
    for (size_t i = 0; i < sizeof numbers / sizeof *numbers; i++)
        numbers[i] = UNWRITTEN_NUMBER;
}

static bool unwritten_numbers(size_t from)
{
    for (size_t i = from; i < sizeof numbers / sizeof *numbers; i++)
        if (numbers[i] != UNWRITTEN_NUMBER)
            return false;
    return true;
}

/* A message has a leaf for each separator, but for those of MSH-1 and MSH-2, which are six bytes and two leaves. */
static size_t leaves_in(const uint8_t *m, size_t n)
{
    size_t count = 2;
    for (size_t i = 8; i < n; i++)
        count += m[i] == m[3] || m[i] == m[4] || m[i] == m[5] || m[i] == m[7];
    return count;
}

/* Every row of turrethog_leaves beside turrethog_find; how many there are, and that nothing else is written; the refusals. Empty where it is so. */
static const char *fault_in_leaves(const uint8_t *m, size_t n, turrethog_answer read)
{
    lend_numbers();
    turrethog_answer l = turrethog_leaves(m, n, numbers, 8 * n);
    if (l.number != read.number || l.place != read.place)
        return " and its leaves are answered otherwise";
    if (l.number != 0)
        return l.length == 0 && unwritten_numbers(0) ? "" : " and its leaves are written";
    if (l.length != leaves_in(m, n) || !unwritten_numbers(8 * l.length))
        return " and its leaves are others";
    for (size_t i = 0; i < l.length; i++) {
        const uint64_t *row = numbers + 8 * i;
        turrethog_element e = turrethog_find(m, n, row[0], row[1], row[2], row[3], row[4]);
        bool in_order = i == 0 || row[-1] <= row[6];
        if (e.number != 0 || e.state != row[5] || e.start != row[6] || e.end != row[7] || !in_order)
            return " and a leaf is found otherwise";
    }
    lend_numbers();
    l = turrethog_leaves(m, n, numbers, 8 * n - 1);
    return l.number == TURRETHOG_NO_ROOM && l.place == 0 && l.length == 0 && unwritten_numbers(0) ? "" : " and its leaves have room";
}

/* Whether a segment is answered as a lookup in it is, for an address that a message could have. */
static bool as_found(turrethog_segment_answer s, const uint8_t *m, size_t n, size_t segment)
{
    turrethog_element e = turrethog_find(m, n, segment, 1, 0, 0, 0);
    return s.number == e.number && s.place == e.place;
}

static bool is_refused_segment(turrethog_segment_answer s)
{
    return s.number != 0 && s.name == 0 && s.start == 0 && s.end == 0;
}

/* The segments of a message one by one: each begins behind the CR of the one before it, ends at the next CR, has its first three bytes for a name
 * and is answered as turrethog_find is; past the last there is none. Of a long message only the first of them is asked for, and what is past the
 * last. Empty where it is so. */
static const char *fault_in_segments(const uint8_t *m, size_t n, turrethog_answer read)
{
    turrethog_answer count = turrethog_segments(m, n);
    size_t start = 0, past = 0;
    if (count.number != read.number || count.place != read.place || (count.number != 0 && count.length != 0))
        return " and its segments are counted otherwise";
    for (; start < n && count.number == 0; past++) {
        const uint8_t *end = memchr(m + start, '\r', n - start);
        if (end == NULL)
            return " and it has no end";
        if (past == 0 || n <= LONGEST_LISTED) {
            turrethog_segment_answer s = turrethog_segment(m, n, past);
            uint32_t name = (uint32_t)m[start] << 16 | (uint32_t)m[start + 1] << 8 | m[start + 2];
            if (s.number != 0 || s.name != name || s.start != start || s.end != (size_t)(end - m) || !as_found(s, m, n, past))
                return " and a segment is another";
        }
        start = (size_t)(end - m) + 1;
    }
    turrethog_segment_answer behind = turrethog_segment(m, n, past), far = turrethog_segment(m, n, (size_t)-1);
    if (count.length != past || !is_refused_segment(behind) || !is_refused_segment(far) || !as_found(behind, m, n, past)
        || !as_found(far, m, n, (size_t)-1))
        return " and there is a segment past the last";
    return "";
}

static void judge(text verb, const uint8_t *m, size_t n)
{
    if (is(verb, "read")) {
        turrethog_answer r = turrethog_read(m, n);
        SAY("%u %zu", (unsigned)r.number, r.place);
        if (n <= LONGEST_LISTED)
            SAY("%s", fault_in_leaves(m, n, r));
        SAY("%s", fault_in_segments(m, n, r));
    } else if (is(verb, "structure")) {
        turrethog_structure_answer s = turrethog_structure(m, n);
        SAY("%u %zu %s", (unsigned)s.number, s.place, s.could_end ? "yes" : "no");
        say_names(m, n, s.names);
    } else {
        turrethog_verdict_answer v = turrethog_verdict(m, n);
        SAY("%u %zu %zu %zu %s", (unsigned)v.number, v.place, v.field, v.repetition, v.could_end ? "yes" : "no");
        say_names(m, n, v.names);
    }
}

static bool same_state(turrethog_frame_state a, turrethog_frame_state b)
{
    return a.mode == b.mode && a.held == b.held && a.count == b.count;
}

/* What the header says of every answer of turrethog_feed: a frame or a drop has used a byte of the piece, else it is used up; what is no frame
 * has no length; 14 has used and changed nothing. Empty where it is so. */
static const char *fault_in(turrethog_fed fed, turrethog_frame_state before, size_t length, size_t room)
{
    uint32_t n = fed.number;
    switch (fed.stop) {
    case TURRETHOG_MORE: return n == 0 && fed.used == length && fed.length == 0 ? "" : " and more is wrong";
    case TURRETHOG_FRAME: return n == 0 && 0 < fed.used && fed.used <= length && fed.length <= room ? "" : " and the frame is wrong";
    case TURRETHOG_DROP:
        return (n == TURRETHOG_BROKEN_FRAME || n == TURRETHOG_FRAME_TOO_LONG) && 0 < fed.used && fed.used <= length && fed.length == 0
                   ? ""
                   : " and the drop is wrong";
    case TURRETHOG_REFUSED:
        return n == TURRETHOG_NO_ROOM && fed.used == 0 && fed.length == 0 && same_state(fed.state, before) ? "" : " and the refusal is wrong";
    default: return " and there is no such stop";
    }
}

static void take_piece(const text *words)
{
    static const char *const stops[] = {"more", "frame", "drop", "-"};
    turrethog_frame_state state = {number_of(words[1]), number_of(words[2]), number_of(words[3])};
    size_t length = hex_of(words[4], bytes[0]), room = number_of(words[5]);
    if (!lend(room))
        return;
    turrethog_fed fed = turrethog_feed(state, bytes[0], length, buffer, room);
    SAY("%u %zu %s %zu", (unsigned)fed.number, fed.used, fed.stop < 4 ? stops[fed.stop] : "?", fed.length);
    say_frame_state(fed.state, room);
    SAY("%s", fault_in(fed, state, length, room));
}

static void say_event(turrethog_fed fed, bool first)
{
    SAY("%s", first ? "" : ",");
    if (fed.stop == TURRETHOG_DROP) {
        SAY("%u", (unsigned)fed.number);
    } else {
        SAY("f");
        say_bytes(fed.length);
    }
}

/* Takes all pieces of a line, each until it is used up. */
static void take_line(text line)
{
    size_t place = 0, events = 0;
    next_word(line, &place);
    size_t room = number_of(next_word(line, &place));
    turrethog_frame_state state = {0, 0, 0};
    if (!lend(room))
        return;
    while (place <= line.length) {
        size_t length = hex_of(next_word(line, &place), bytes[0]), used = 0;
        for (bool more = true; more;) {
            turrethog_fed fed = turrethog_feed(state, bytes[0] + used, length - used, buffer, room);
            const char *fault = fault_in(fed, state, length - used, room);
            if (*fault != '\0' || fed.stop == TURRETHOG_REFUSED) {
                SAY("%s behind %zu events", fault, events);
                return;
            }
            state = fed.state;
            used += fed.used;
            more = fed.stop != TURRETHOG_MORE;
            if (more)
                say_event(fed, events++ == 0);
        }
    }
    if (events == 0)
        SAY("-");
    say_frame_state(state, room);
}

static bool ask(text line)
{
    text words[7];
    size_t count = words_of(line, words, 7);
    said_length = 0;
    for (size_t f = 0; f < sizeof functions / sizeof *functions; f++) {
        bool fits = functions[f].words == ANY_NUMBER ? count >= 3 : count == functions[f].words;
        if (!fits || !is(words[0], functions[f].verb))
            continue;
        functions[f].called++;
        if (functions[f].words == ANY_NUMBER)
            take_line(line);
        else if (count == 6)
            take_piece(words);
        else if (count == 7)
            look_up(words[0], bytes[0], hex_of(words[1], bytes[0]), words);
        else if (count == 2)
            judge(words[0], bytes[0], hex_of(words[1], bytes[0]));
        else
            write_text(words[0], bytes[0], hex_of(words[1], bytes[0]), words);
        return true;
    }
    return false;
}

/* What is shown of a line of which only a place matters. */
static int shown(size_t length)
{
    return length < 400 ? (int)length : 400;
}

static bool says(text line, text expected)
{
    bool asked = ask(line);
    size_t same = 0;
    while (same < said_length && same < expected.length && said[same] == expected.at[same])
        same++;
    if (asked && same == said_length && same == expected.length)
        return true;
    printf("C differs on a line of %zu bytes: %.*s\n", line.length, shown(line.length), line.at);
    printf("  from character %zu of the answer on\n", same);
    printf("  expected: %.*s\n", shown(expected.length - same), expected.at + same);
    printf("  C says:   %.*s\n", shown(said_length - same), said + same);
    return false;
}

/* Asks all questions of a file: there has to be one at least, and an answer for each line and no other. */
static bool agree(const char *of_questions, const char *of_answers)
{
    if (!open_lines(&questions, of_questions) || !open_lines(&answers, of_answers))
        return false;
    for (size_t compared = 0;;) {
        text line, expected;
        int asked = next_line(&questions, &line), answered = next_line(&answers, &expected);
        if (asked != ANOTHER_LINE || answered != ANOTHER_LINE) {
            fclose(questions.file);
            fclose(answers.file);
            if (asked == NO_MORE_LINES && answered == NO_MORE_LINES && compared != 0)
                return true;
            fprintf(stderr, "%s and %s do not belong together, or were not read to their end\n", of_questions, of_answers);
            return false;
        }
        if (is(expected, "?"))
            continue;
        if (!says(line, expected))
            return false;
        compared++;
    }
}

/* ---- formatted text, by hand: what the page on it says, with the bytes as a C program writes them */

typedef struct {
    const char *sent;
    const char *lines; /* NULL where it is refused */
    uint32_t number;
    size_t place;
    size_t room;
} layout;

static const layout layouts[] = {
    {"test\\.br\\", "test\n", 0, 0, 5},
    {"Comment:\\.br\\\\.br\\", "Comment:\n\n", 0, 0, 90},
    {"a\\.sp\\b", "a\n b", 0, 0, 90},
    {"abc\\.sp2\\d", "abc\n\n   d", 0, 0, 90},
    {"\\.in+4\\a\\.br\\b\\.in-4\\\\.br\\c", "    a\n    b\nc", 0, 0, 90},
    {"\\.in+4\\\\.ti-4\\ 1. x\\.br\\y", " 1. x\n    y", 0, 0, 90},
    {"a\\.sk 3\\b\\.sk 0\\c", "a   bc", 0, 0, 90},
    {"Na  139  ", "Na  139", 0, 0, 7},
    {"\\H\\HI\\N\\GH", "HIGH", 0, 0, 4},
    {"10\\S\\9/l \\T\\ so on", "10^9/l & so on", 0, 0, 90},
    {"", "", 0, 0, 0},
    {"\"\"", NULL, TURRETHOG_NULL_TEXT, 0, 90},
    {"a|b", NULL, TURRETHOG_SEPARATOR, 1, 90},
    {"a\\.xx\\", NULL, TURRETHOG_UNKNOWN_ESCAPE, 1, 90},
    {"ab\\.br", NULL, TURRETHOG_UNCLOSED_ESCAPE, 2, 90},
    {"\\.in-1\\", NULL, TURRETHOG_LAYOUT, 0, 90},
    {"\\.sk201\\a|", NULL, TURRETHOG_SEPARATOR, 9, 90},
    {"a\\.sp\\b", NULL, TURRETHOG_NO_ROOM, 0, 3},
};

/* Whether a text is laid out so, in a buffer that else stays as it was. */
static bool lays_out(const layout *l)
{
    size_t length = l->lines == NULL ? 0 : strlen(l->lines);
    if (!lend(l->room))
        return false;
    turrethog_answer a = turrethog_format('|', '^', '~', '\\', '&', (const uint8_t *)l->sent, strlen(l->sent), buffer, l->room);
    return a.number == l->number && a.place == l->place && a.length == length && memcmp(buffer, l->lines == NULL ? "" : l->lines, length) == 0
           && unwritten(length, l->room + BEHIND);
}

static bool all_laid_out(void)
{
    for (size_t i = 0; i < sizeof layouts / sizeof *layouts; i++)
        if (!lays_out(&layouts[i])) {
            printf("C differs on the layout of: %s\n", layouts[i].sent);
            return false;
        }
    return true;
}

/* The header's version and limits are the library's. */
static bool same_limits(void)
{
    if (turrethog_version() == TURRETHOG_VERSION_NUMBER && turrethog_message_limit() == TURRETHOG_MESSAGE_LIMIT
        && turrethog_segment_limit() == TURRETHOG_SEGMENT_LIMIT && turrethog_id_limit() == TURRETHOG_ID_LIMIT)
        return true;
    printf("C differs: the header has another version or another limit than the library\n");
    return false;
}

int main(int count, char **names)
{
    if (count < 3 || count % 2 == 0)
        return 2;
    if (!same_limits() || !all_laid_out())
        return 1;
    for (int i = 1; i < count; i += 2)
        if (!agree(names[i], names[i + 1]))
            return 1;
    for (size_t f = 0; f < sizeof functions / sizeof *functions; f++) {
        printf("%s %zu, ", functions[f].verb, functions[f].called);
        if (functions[f].called == 0)
            return 1;
    }
    printf("all as the model answers\n");
    return 0;
}
