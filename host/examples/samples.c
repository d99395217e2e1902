/* Prints the samples of a stream of receiver records: the in-phase and the quadrature number of each pair, a pair a line. */
#include <hernganow.h>

#include <inttypes.h>
#include <stdio.h>

/* A record has at most 65,795 bytes, and a byte at most 8 samples. */
static uint8_t stream[1 << 24];
static int32_t list[8 * 65795];

int main(int count, char **words)
{
    FILE *file = count == 2 ? fopen(words[1], "rb") : NULL;
    if (!file) {
        fputs("usage: samples STREAM\n", stderr);
        return 2;
    }
    size_t length = fread(stream, 1, sizeof stream, file), place = 0;
    fclose(file);

    uint8_t answer[HERNGANOW_ANSWER];
    while (place < length) {
        uint32_t refused = hernganow_unpack(stream + place, length - place, list, sizeof list / sizeof *list, answer, sizeof answer);
        if (refused) {
            fprintf(stderr, "the record at byte %zu is refused with %" PRIu32 "\n", place, refused);
            return 1;
        }
        size_t numbers = (size_t)hernganow_number(answer, HERNGANOW_AT_COUNT);
        for (size_t i = 0; i < numbers; i += 2)
            printf("%" PRId32 " %" PRId32 "\n", list[i], list[i + 1]);
        hernganow_read_one(stream + place, length - place, answer, sizeof answer);
        place += (size_t)hernganow_number(answer, HERNGANOW_AT_SIZE);
    }
    return 0;
}
