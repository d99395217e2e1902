/* Prints the text of each refusal number up to 299, a line each: the number and the text. Each is asked for with slices of every length, too: one that
   has no room for the text and its zero byte is refused with 61, and stays as it was. */
#include <hernganow.h>

#include <inttypes.h>
#include <stdio.h>
#include <string.h>

enum { NUMBERS = 300, FILLED = 165 };

/* Whether the text is written where there is room for it, and nothing where there is none. */
static int is_right(uint32_t number, size_t room, const uint8_t *text, size_t length)
{
    uint8_t out[HERNGANOW_TEXT + 8], answer[HERNGANOW_ANSWER];
    memset(out, FILLED, sizeof out);
    uint32_t refused = hernganow_refusal_text(number, out, room, answer, sizeof answer);
    size_t written = room > length ? length + 1 : 0;
    if (refused != (written ? 0 : HERNGANOW_REFUSED_TEXT_SPACE) || memcmp(out, text, written))
        return 0;
    for (size_t i = written; i < sizeof out; i++)
        if (out[i] != FILLED)
            return 0;
    return !written || hernganow_number(answer, HERNGANOW_AT_TEXT_LENGTH) == length;
}

int main(void)
{
    uint8_t text[HERNGANOW_TEXT], answer[HERNGANOW_ANSWER];
    for (uint32_t number = 0; number < NUMBERS; number++) {
        if (hernganow_refusal_text(number, text, sizeof text, answer, sizeof answer))
            return 1;
        size_t length = (size_t)hernganow_number(answer, HERNGANOW_AT_TEXT_LENGTH);
        if (length >= sizeof text || strlen((const char *)text) != length)
            return 1;
        for (size_t room = 0; room <= sizeof text; room++)
            if (!is_right(number, room, text, length)) {
                fprintf(stderr, "the text of %" PRIu32 " in a slice of %zu bytes\n", number, room);
                return 1;
            }
        printf("%" PRIu32 " %s\n", number, (const char *)text);
    }
    return 0;
}
