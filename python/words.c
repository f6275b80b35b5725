/* Gives the shared library what the header alone has: turrethog_words, which is static there. python/library links it beside the archive. */
#define turrethog_words words_in_the_header
#include "turrethog.h"
#undef turrethog_words

const char *turrethog_words(uint32_t number)
{
    return words_in_the_header(number);
}
