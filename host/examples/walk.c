/* Walks a stream: the place, length and kind of each record; then where it stopped, the refusal, and the byte or the count that goes with it. */
#include <hernganow.h>

#include <inttypes.h>
#include <stdio.h>

static uint8_t stream[1 << 24];

int main(int count, char **words)
{
    FILE *file = count == 2 ? fopen(words[1], "rb") : NULL;
    if (!file) {
        fputs("usage: walk STREAM\n", stderr);
        return 2;
    }
    size_t length = fread(stream, 1, sizeof stream, file), place = 0;
    fclose(file);

    uint8_t answer[HERNGANOW_ANSWER];
    uint32_t refused = 0;
    while (place < length) {
        refused = hernganow_read_one(stream + place, length - place, answer, sizeof answer);
        if (refused)
            break;
        uint64_t size = hernganow_number(answer, HERNGANOW_AT_SIZE), kind = hernganow_number(answer, HERNGANOW_AT_KIND);
        printf("%zu %" PRIu64 " %c\n", place, size, kind == 1 ? 'T' : 'R');
        place += (size_t)size;
    }
    /* With 1 and 6 goes a count of bytes, with the others the place of the wrong field, from the record's start. */
    uint64_t second = refused ? hernganow_number(answer, HERNGANOW_AT_FAULT) : 0;
    if (refused && refused != HERNGANOW_REFUSED_TOO_SHORT && refused != HERNGANOW_REFUSED_TRUNCATED)
        second += place;
    printf("%zu %" PRIu32 " %" PRIu64 "\n", place, refused, second);
    return refused != 0;
}
