/* Built against an installed copy of the library, and nothing else of this tree: by c/test, through c/link, pkg-config and CMake. It says the
 * version and the limits of the header beside those of the library, every number of the table in words, and the segments of the message on
 * standard input. */
#include <turrethog.h>

#include <stdio.h>

static uint8_t message[TURRETHOG_MESSAGE_LIMIT + 1];

/* No number of the table is as large. */
#define NUMBERS 1000

static void say_limit(const char *what, size_t header, size_t library)
{
    printf("%s: %zu in the header, %zu in the library\n", what, header, library);
}

int main(void)
{
    printf("version %s\n", TURRETHOG_VERSION);
    say_limit("version", TURRETHOG_VERSION_NUMBER, turrethog_version());
    say_limit("bytes", TURRETHOG_MESSAGE_LIMIT, turrethog_message_limit());
    say_limit("segments", TURRETHOG_SEGMENT_LIMIT, turrethog_segment_limit());
    say_limit("ID", TURRETHOG_ID_LIMIT, turrethog_id_limit());
    for (uint32_t number = 0; number < NUMBERS; number++)
        if (turrethog_words(number)[0] != '\0')
            printf("%u %s\n", (unsigned)number, turrethog_words(number));

    size_t length = fread(message, 1, sizeof message, stdin);
    turrethog_answer count = turrethog_segments(message, length);
    printf("segments: %u %zu %zu\n", (unsigned)count.number, count.place, count.length);
    for (size_t i = 0; i <= count.length; i++) {
        turrethog_segment_answer s = turrethog_segment(message, length, i);
        printf("segment: %u %zu %c%c%c %zu %zu\n", (unsigned)s.number, s.place, s.name == 0 ? '-' : (int)(s.name >> 16),
               s.name == 0 ? '-' : (int)(s.name >> 8 & 255), s.name == 0 ? '-' : (int)(s.name & 255), s.start, s.end);
    }
    return 0;
}
