/* Turrethog: takes the frames of HL7 v2.4 messages off the line, reads, judges and acknowledges the messages, escapes and unescapes their text,
 * and lays out formatted text in lines.
 *
 * Any bytes may be handed in. Every function ends, answers or refuses by a number of the table below, keeps no state, and may be called from
 * any thread. Nothing is written but the buffer that is lent to the six functions that write, and after a refusal that buffer holds the
 * bytes that it held before; but for 40 and 41 of turrethog_feed, after which each place of it holds the byte last gathered there, or what it
 * held at first.
 *
 * What the caller owes: each pointer is not NULL, also where its length is 0, and leads to as many bytes as the length says; a buffer that is
 * lent for writing overlaps none of the other arguments. The library does not and cannot check this.
 */
#ifndef TURRETHOG_H
#define TURRETHOG_H

#include <stdbool.h>
#include <stddef.h>
#include <stdint.h>

#ifdef __cplusplus
extern "C" {
#endif

/* ---- The version of this header, and the limits. turrethog_version and the three functions beside it give the library's own. */

#define TURRETHOG_VERSION "0.1.0"
#define TURRETHOG_VERSION_NUMBER 100 /* 0.1.0: two decimal digits for each part */

#define TURRETHOG_MESSAGE_LIMIT 1048576 /* bytes of a message, or of a frame's */
#define TURRETHOG_SEGMENT_LIMIT 4096    /* segments of a message */
#define TURRETHOG_ID_LIMIT 199          /* bytes of a control ID */

/* ---- The numbers. What `place` is stands beside each; it is 0 where nothing is said. */

enum {
    TURRETHOG_NONE = 0,                      /* nothing was refused */
    /* reading: the place is a byte's offset */
    TURRETHOG_LENGTH = 1,                    /* no bytes, or over 1,048,576; place 0 */
    TURRETHOG_HEADER = 2,                    /* it does not begin as a message does; place 0 */
    TURRETHOG_DELIMITER = 3,                 /* a delimiter is not permitted, or stands twice; in text: the place is its number, 0 to 4 */
    TURRETHOG_NOT_ALLOWED = 4,               /* a byte that is not allowed, as LF; in text, CR too */
    TURRETHOG_NOT_ENDED = 5,                 /* the last byte is not CR */
    TURRETHOG_SEGMENT_NAME = 6,              /* a segment does not begin with a name */
    TURRETHOG_SECOND_HEADER = 7,             /* MSH behind the first segment */
    TURRETHOG_TOO_MANY_SEGMENTS = 8,         /* over 4,096 segments */
    /* acknowledging: place 0 */
    TURRETHOG_NOT_ACKNOWLEDGEABLE = 9,       /* no sound header, an acknowledgement itself, or no control ID of 1 to 199 bytes */
    TURRETHOG_ACKNOWLEDGEMENT_TOO_LONG = 10, /* longer than the buffer, or than 1,048,576 bytes */
    /* text: the place is a byte's offset in the text */
    TURRETHOG_SEPARATOR = 11,                /* a delimiter that stands as itself */
    TURRETHOG_UNKNOWN_ESCAPE = 12,           /* an escape that is not in the table, nor in formatted text a command */
    TURRETHOG_UNCLOSED_ESCAPE = 13,          /* an escape that never ends */
    TURRETHOG_NO_ROOM = 14,                  /* the result is longer than the buffer; place 0. In framing: see there */
    TURRETHOG_TEXT_TOO_LONG = 14,            /* the same, by its older name */
    TURRETHOG_NULL_TEXT = 15,                /* two quotes are null, and no text; place 0 */
    /* acknowledging: place 0 */
    TURRETHOG_CALLERS_TIME = 16,             /* the caller's time is no TS */
    TURRETHOG_CALLERS_ID = 17,               /* the caller's ID has not 1 to 199 bytes */
    /* finding: place 0 */
    TURRETHOG_ADDRESS = 19,                  /* no such segment, or an address that no message could have */
    /* structure: the place is a segment's number, from 0 */
    TURRETHOG_NO_STRUCTURE = 20,             /* the message's type is not listed; place 0 */
    TURRETHOG_SEGMENT_MISPLACED = 21,        /* this segment cannot stand here */
    TURRETHOG_ENDED_EARLY = 22,              /* only more segments are missing; the place is the count of segments */
    /* fields, and values of an element: in a verdict the place is a segment's number, with field and repetition */
    TURRETHOG_REQUIRED_MISSING = 31,         /* a required field is absent or empty */
    TURRETHOG_BREAKS_FORM = 32,              /* the bytes break their type's form */
    TURRETHOG_NOT_LISTED = 33,               /* the value is not in its list */
    TURRETHOG_REQUIRED_NULL = 34,            /* a required field is null */
    TURRETHOG_VALUE_WITHOUT_TYPE = 35,       /* a value in OBX-5, and no type in OBX-2 */
    TURRETHOG_REPEATED = 36,                 /* a field that may not repeat does */
    TURRETHOG_VALUE_TOO_LONG = 37,           /* a control ID of over 199 bytes, or a number, well formed, of over 18 digits */
    /* framing: no place is given. 14 is there a state that no run with that buffer's length could have reached */
    TURRETHOG_BROKEN_FRAME = 40,             /* a frame has 0B in it, or behind its 1C another byte than 0D */
    TURRETHOG_FRAME_TOO_LONG = 41,           /* a frame has over 1,048,576 bytes, or more than the buffer */
    /* formatted text: place 0 */
    TURRETHOG_LAYOUT = 42                    /* no lines can be made: a number or a margin out of its range, or what does not go into a line */
};

/* A number of the table in words, for a log or a person: the command says the same, but for 1 and 41, where it speaks of its own limit. "" for
 * 0, and for a number that is not in the table. `this` is what the place points to. */
static inline const char *turrethog_words(uint32_t number)
{
    switch (number) {
    case TURRETHOG_LENGTH: return "this has no bytes, or more than a message may have";
    case TURRETHOG_HEADER: return "this does not begin as a message does, with MSH and its delimiters";
    case TURRETHOG_DELIMITER: return "this may not be a delimiter, or is one already";
    case TURRETHOG_NOT_ALLOWED: return "this byte may not stand in a message";
    case TURRETHOG_NOT_ENDED: return "the last segment does not end with CR";
    case TURRETHOG_SEGMENT_NAME: return "this segment does not begin with a name";
    case TURRETHOG_SECOND_HEADER: return "this is a second MSH";
    case TURRETHOG_TOO_MANY_SEGMENTS: return "with this one there are more segments than a message may have";
    case TURRETHOG_NOT_ACKNOWLEDGEABLE: return "this cannot be acknowledged";
    case TURRETHOG_ACKNOWLEDGEMENT_TOO_LONG: return "the acknowledgement would be too long";
    case TURRETHOG_SEPARATOR: return "a delimiter stands here as itself: this has parts, and is no text";
    case TURRETHOG_UNKNOWN_ESCAPE: return "an escape that is not known";
    case TURRETHOG_UNCLOSED_ESCAPE: return "an escape that is never closed";
    case TURRETHOG_NO_ROOM: return "this has more bytes than there is room for";
    case TURRETHOG_NULL_TEXT: return "this is null, and null is no text";
    case TURRETHOG_CALLERS_TIME: return "the time is no TS";
    case TURRETHOG_CALLERS_ID: return "the ID has no bytes, or more than an ID may have";
    case TURRETHOG_ADDRESS: return "there is no such segment, or no such address";
    case TURRETHOG_NO_STRUCTURE: return "no structure is known for this type of message";
    case TURRETHOG_SEGMENT_MISPLACED: return "this segment cannot stand here";
    case TURRETHOG_ENDED_EARLY: return "the message ends too early";
    case TURRETHOG_REQUIRED_MISSING: return "this is required, and is absent or empty";
    case TURRETHOG_BREAKS_FORM: return "this breaks the form of its type";
    case TURRETHOG_NOT_LISTED: return "this value is not in its list";
    case TURRETHOG_REQUIRED_NULL: return "this is required, and is null";
    case TURRETHOG_VALUE_WITHOUT_TYPE: return "there is a value, and OBX-2 does not say of which type";
    case TURRETHOG_REPEATED: return "this may not repeat";
    case TURRETHOG_VALUE_TOO_LONG: return "this value is too long";
    case TURRETHOG_BROKEN_FRAME: return "this frame is broken: 0B stands inside it, or 1C without 0D behind it";
    case TURRETHOG_FRAME_TOO_LONG: return "this frame has more bytes than a message may have, or than there is room for";
    case TURRETHOG_LAYOUT: return "this cannot be laid out: a number or a margin is out of its range, or a line would be over 200 bytes";
    default: return "";
    }
}

/* The four states of an element. An empty box is not a zero, and null is neither. */
enum {
    TURRETHOG_ABSENT = 0,
    TURRETHOG_EMPTY = 1,
    TURRETHOG_NULL = 2,
    TURRETHOG_PRESENT = 3
};

/* A part of a time that was not sent: no figure is as large. */
#define TURRETHOG_NOT_SENT UINT64_MAX

/* The sign of an offset. -0000 and +0000 differ. */
enum {
    TURRETHOG_NO_OFFSET = 0,
    TURRETHOG_PLUS = 1,
    TURRETHOG_MINUS = 2
};

/* What turrethog_feed stopped at. */
enum {
    TURRETHOG_MORE = 0,   /* the piece is used up: it goes on with the next */
    TURRETHOG_FRAME = 1,  /* a frame, at the front of the buffer */
    TURRETHOG_DROP = 2,   /* a dropped frame: 40 or 41 */
    TURRETHOG_REFUSED = 3 /* the state handed in: 14 */
};

/* ---- What comes back */

/* Where a line stands between two pieces. All zeros is the start. */
typedef struct {
    uint64_t mode;  /* 0 outside a frame, 1 in one, 2 in one behind its 1C, 3 skipping one that was too long, 4 skipping behind its 1C */
    size_t held;    /* the bytes gathered of the frame; 0 in modes 0, 3 and 4 */
    uint64_t count; /* the bytes dropped outside frames since the start; it stays at 2^32-1 */
} turrethog_frame_state;

typedef struct {
    uint32_t number;
    uint32_t stop;
    size_t used;                 /* bytes of the piece, with the one that it stopped at; 0 after 14 */
    size_t length;               /* of the frame; 0 where it did not stop at one */
    turrethog_frame_state state; /* for the next call; after 14 as it was handed in */
} turrethog_fed;

typedef struct {
    uint32_t number;
    size_t place;
    size_t length; /* of what was written to the front of the buffer; 0 after a refusal */
} turrethog_answer;

typedef struct {
    uint32_t number;
    uint32_t state; /* absent where it was refused */
    size_t place;
    size_t start; /* the bytes of the message from start up to end; 0 and 0 where it is absent */
    size_t end;
} turrethog_element;

typedef struct {
    uint32_t number;
    uint32_t state; /* absent where the question was refused (1 to 8, 19), present where its bytes were (32, 37) */
    size_t place;
    int64_t value; /* 12.50 is 1250 with 2 decimals; 0 and 0 where the element is not present: look at the state */
    size_t decimals;
} turrethog_number;

typedef struct {
    uint64_t year;
    uint64_t month;
    uint64_t day;
} turrethog_date;

typedef struct {
    uint64_t hour;
    uint64_t minute;
    uint64_t second;
    uint64_t fraction; /* .05 is 5 with 2 digits */
    size_t digits;
} turrethog_clock;

typedef struct {
    uint64_t sign;
    uint64_t hours;
    uint64_t minutes;
} turrethog_offset;

typedef struct {
    uint32_t number;
    uint32_t state; /* as in a number */
    size_t place;
    turrethog_date date; /* TURRETHOG_NOT_SENT in each part that was not sent */
    turrethog_clock clock;
    turrethog_offset offset;
} turrethog_time;

typedef struct {
    uint32_t number;
    bool could_end; /* whether the message could have ended before this segment; false but for 21 */
    size_t place;
    size_t names; /* how many names could have stood there: turrethog_could_stand */
} turrethog_structure_answer;

typedef struct {
    uint32_t number;
    bool could_end;
    size_t place;      /* a byte's offset for 1 to 8, else a segment's number */
    size_t field;      /* 0 but for 31 to 37 */
    size_t repetition; /* 0 but for 31 to 37 */
    size_t names;
} turrethog_verdict_answer;

typedef struct {
    uint32_t number;
    uint32_t name; /* its three letters as one number, the first highest (OBX is 0x4f4258); 0 where it was refused */
    size_t place;
    size_t start; /* the bytes of the message from start up to end, where its CR stands; 0 and 0 where it was refused */
    size_t end;
} turrethog_segment_answer;

/* ---- The library itself */

/* What TURRETHOG_VERSION_NUMBER and the limits are in the library that was linked: others than the macros say that the header is another's. */
uint32_t turrethog_version(void);
size_t turrethog_message_limit(void);
size_t turrethog_segment_limit(void);
size_t turrethog_id_limit(void);

/* ---- Framing. On a line of MLLP each message stands in a frame: 0B, the message, 1C, 0D. It comes in pieces of any size. */

/* Takes a piece of the line up to the end of the next frame, or to where one is dropped, and gathers the frame's bytes at the front of the
 * buffer: 0, 14, 40, 41. The frames, the drops and the state at the end are the same however the line was cut.
 *
 * The state is the caller's: all zeros when the line opens, and from then on what the last call handed back. While a frame is gathered the
 * same buffer has to come back untouched; between frames it may be used as one likes. After a frame or a drop call again with the rest, at
 * piece + used: each has used one byte at least, and the piece is done where it stops at TURRETHOG_MORE.
 *
 * Bytes outside frames are dropped and counted. 0B in a frame drops what was gathered (40) and begins the next; so does 1C with 0B behind
 * it. 1C with any other byte than 0D behind it drops the frame and that byte (40). The limit is 1,048,576 or room, the smaller: a frame over it
 * is dropped at its first byte over (41, once), and skipped to the next 0B, which begins a frame, or through 1C and another byte than 0B.
 *
 * A frame that is open when the line closes is not reported. It is seen in the state: mode 1 or 2, or 3 or 4 where its 41 was given. */
turrethog_fed turrethog_feed(turrethog_frame_state state, const uint8_t *piece, size_t length, uint8_t *buffer, size_t room);

/* ---- Reading */

/* 0, or 1 to 8. */
turrethog_answer turrethog_read(const uint8_t *message, size_t length);

/* An element, by segment (from 0), field, repetition, component and subcomponent (from 1; 0 is the whole): 0, a reading fault, or 19. */
turrethog_element turrethog_find(const uint8_t *message, size_t length, size_t segment, size_t field, size_t repetition, size_t component,
                                 size_t subcomponent);

/* How many segments a message has: the length that comes back. 0, or a reading fault. */
turrethog_answer turrethog_segments(const uint8_t *message, size_t length);

/* The name of a segment, by its number from 0, and where it stands: 0, a reading fault, or 19 where there is none of that number. Each call
 * reads the message, as turrethog_find does. */
turrethog_segment_answer turrethog_segment(const uint8_t *message, size_t length, size_t segment);

/* Every leaf of a message in one call: each subcomponent of each component of each repetition of each field, in the message's order, as
 * turrethog_find has it at that address. Each is a row of eight numbers at the front of the buffer: segment, field, repetition, component,
 * subcomponent, state, start and end. MSH-1 and MSH-2, which are not split, are one leaf each (0, 1, 1, 1, 1 and 0, 2, 1, 1, 1); a name is no
 * leaf. The length that comes back is the number of leaves, so that so many times eight numbers were written. `room` is in numbers: eight for
 * each byte of the message are asked for and are always enough. 0, a reading fault, or 14 where the buffer has fewer. */
turrethog_answer turrethog_leaves(const uint8_t *message, size_t length, uint64_t *buffer, size_t room);

/* The same, and what the element says where it is present: a number (NM), a sequence number (SI), a date (DT), a time of day (TM) or a time
 * stamp (TS). Also 32, and 37 for a number of over 18 digits. */
turrethog_number turrethog_nm(const uint8_t *message, size_t length, size_t segment, size_t field, size_t repetition, size_t component,
                              size_t subcomponent);
turrethog_number turrethog_si(const uint8_t *message, size_t length, size_t segment, size_t field, size_t repetition, size_t component,
                              size_t subcomponent);
turrethog_time turrethog_dt(const uint8_t *message, size_t length, size_t segment, size_t field, size_t repetition, size_t component,
                            size_t subcomponent);
turrethog_time turrethog_tm(const uint8_t *message, size_t length, size_t segment, size_t field, size_t repetition, size_t component,
                            size_t subcomponent);
turrethog_time turrethog_ts(const uint8_t *message, size_t length, size_t segment, size_t field, size_t repetition, size_t component,
                            size_t subcomponent);

/* ---- Text. The five delimiters are bytes 3 to 7 of a message, in its order. */

/* Writes text as it stands in a field: 0, 3, 14. The result has at most five bytes for each. */
turrethog_answer turrethog_escape(uint8_t field, uint8_t component, uint8_t repetition, uint8_t escape, uint8_t subcomponent,
                                  const uint8_t *text, size_t length, uint8_t *buffer, size_t room);

/* What a written text says: 0, 3, 15, 4, 11, 12, 13, 14. The result is never longer than the text. */
turrethog_answer turrethog_unescape(uint8_t field, uint8_t component, uint8_t repetition, uint8_t escape, uint8_t subcomponent,
                                    const uint8_t *text, size_t length, uint8_t *buffer, size_t room);

/* The lines of a formatted text (FT), as a clinician reads them: 0, 3, 15, 4, 11, 12, 13, 42, 14. It unescapes, and obeys the commands
 * \.br\ \.sp n\ \.sk n\ \.in n\ \.ti n\ \.fi\ \.nf\ \.ce\ by blanks and LF, n being a number, which only .sp may be without:
 * docs/FORMATTED.md says how. \H\ and \N\ (highlight) leave no trace.
 * Lines are ended by LF and by nothing else, and none is added behind the last. No line is longer than 200 bytes or ends in a blank: filled
 * text is wrapped between words.
 *
 * 42, with place 0, is a number out of its range (0 to 200; -200 to 200 for .in and .ti), a margin below 0 or over 200, a word that does
 * not go into a line, or an unfilled line of over 200 bytes. It is looked for only where there is no other fault but 14. The result may be
 * longer than the text: up to 200 LF for the eight bytes of \.sp200\, and a margin's blanks for each line. Up to 48 KiB of stack are
 * taken, whatever the text. */
turrethog_answer turrethog_format(uint8_t field, uint8_t component, uint8_t repetition, uint8_t escape, uint8_t subcomponent,
                                  const uint8_t *text, size_t length, uint8_t *buffer, size_t room);

/* ---- Judging */

/* 0, a reading fault, 20, 21 or 22. */
turrethog_structure_answer turrethog_structure(const uint8_t *message, size_t length);

/* The verdict: 0, a reading fault, 20, 21, 22, or the first of 31 to 37. */
turrethog_verdict_answer turrethog_verdict(const uint8_t *message, size_t length);

/* The names that could have stood at the place of a 21 or 22, by their number from 0, in the grammar's order: the three letters of a name as
 * one number, the first highest (OBX is 0x4f4258). 0 past the last. */
uint32_t turrethog_could_stand(const uint8_t *message, size_t length, size_t index);

/* ---- Acknowledging */

/* Writes the acknowledgement of a message. Its letters, MSA-1, go by the verdict: AA where it is 0; AR where it is 20, or 33 at place 0 in
 * field 11 or 12 (MSH-11, MSH-12): a message of a kind that is not taken here; else AE: the message is wrong. With AR and AE an ERR segment
 * follows MSA: ERR-1 has the segment's name, its number among those of that name from 1, the field, and a code of table 0357, as in
 * ERR|OBX^12^2^103. It takes at most 20 bytes, and an answer that has no room for it is 10. time is the caller's time as a TS, id his own
 * control ID of 1 to 199 bytes of any kind, counted before they are escaped: then they take up to five bytes each. 0, or 16, 17, 9, 10. Up to
 * 24 KiB of stack are taken, whatever the message. */
turrethog_answer turrethog_acknowledge(const uint8_t *message, size_t length, const uint8_t *time, size_t time_length, const uint8_t *id,
                                       size_t id_length, uint8_t *buffer, size_t room);

#ifdef __cplusplus
}
#endif

#endif
