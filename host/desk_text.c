/* Texts of a batch are in CP1250, what people type and read is in UTF-8. */
#include "desk.h"

#include <stdlib.h>
#include <string.h>

#include "cp1250.h"

void show(FILE *to, struct text text)
{
    show_cp1250(to, text.bytes, text.length);
}

/* The code point that begins at `at`, and how many bytes it takes: 0 where the bytes are no UTF-8, as overlong forms and surrogates are not. */
static size_t code_point_at(const uint8_t *at, uint32_t *code)
{
    static const uint32_t least[5] = {0, 0, 0x80, 0x800, 0x10000};
    size_t length = at[0] < 0x80 ? 1 : (at[0] & 0xe0) == 0xc0 ? 2 : (at[0] & 0xf0) == 0xe0 ? 3 : (at[0] & 0xf8) == 0xf0 ? 4 : 0;
    size_t i;
    if (length <= 1) {
        *code = at[0];
        return length;
    }
    *code = at[0] & (0xffu >> (length + 1));
    for (i = 1; i < length; i++) {
        if ((at[i] & 0xc0) != 0x80)
            return 0;
        *code = *code << 6 | (at[i] & 0x3f);
    }
    if (*code < least[length] || *code > 0x10ffff || (*code >= 0xd800 && *code <= 0xdfff))
        return 0;
    return length;
}

static int steers_terminals(uint32_t code)
{
    return code < 32 || (code >= 127 && code < 160);
}

/* A text from the command line, as it may be shown: control characters, and bytes that are no UTF-8, by their numbers, since the name of a folder may be
   anybody's. The copy lasts as long as the program. */
const char *plain(const char *typed)
{
    const uint8_t *at = (const uint8_t *)typed;
    char *copy = malloc(4 * strlen(typed) + 1), *end = copy;
    if (copy == NULL)
        return "...";
    while (*at != 0) {
        uint32_t code;
        size_t taken = code_point_at(at, &code), i;
        int by_numbers = taken == 0 || steers_terminals(code);
        if (taken == 0)
            taken = 1;
        for (i = 0; i < taken; i++)
            end += sprintf(end, by_numbers ? "\\x%02x" : "%c", at[i]);
        at += taken;
    }
    *end = 0;
    return copy;
}

/* A typed text in CP1250; `into` has room for as many bytes as were typed. What can't be converted is said, and nothing is put in its place. */
enum status to_cp1250(const char *typed, uint8_t *into, size_t *length)
{
    const uint8_t *at = (const uint8_t *)typed;
    *length = 0;
    while (*at != 0) {
        uint32_t code;
        size_t taken = code_point_at(at, &code);
        int byte;
        if (taken == 0) {
            COMPLAIN("byte %zu of a name, 0x%02x, isn't UTF-8", "bajt %zu názvu, 0x%02x, není v UTF-8", (size_t)(at - (const uint8_t *)typed) + 1, *at);
            return WRONG_USE;
        }
        byte = cp1250_byte(code);
        if (byte < 0) {
            COMPLAIN("\"%s\": the character U+%04" PRIX32 " isn't in CP1250, in which the names of stops are written",
                     "\"%s\": znak U+%04" PRIX32 " není v kódování CP1250, v němž jsou názvy zastávek zapsány", plain(typed), code);
            return WRONG_USE;
        }
        into[(*length)++] = (uint8_t)byte;
        at += taken;
    }
    return ANSWERED;
}
