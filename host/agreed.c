/* Makes the calls of the agreed gain that the reference wrote to a file (`reference agreed`), and compares each answer, all 256 bytes, with the
 * reference's. */
#include <hernganow.h>

#include <stdio.h>
#include <string.h>

#define MOST 70000

static uint8_t settings[MOST], record[MOST];

/* Reads a length and then a slice of that length. Returns -1 at the end of the file, or if it is cut off. */
static long read_slice(FILE *file, uint8_t *slice)
{
    uint8_t head[4];
    if (fread(head, 1, sizeof head, file) != sizeof head)
        return -1;
    size_t length = (size_t)head[0] << 24 | (size_t)head[1] << 16 | (size_t)head[2] << 8 | head[3];
    if (length > MOST || fread(slice, 1, length, file) != length)
        return -1;
    return (long)length;
}

int main(int count, char **words)
{
    FILE *file = count == 2 ? fopen(words[1], "rb") : NULL;
    if (!file) {
        fputs("usage: agreed CASES\nHolds the agreed gain of each case to the reference's answer.\n", stderr);
        return 2;
    }
    size_t compared = 0;
    for (long settings_length; (settings_length = read_slice(file, settings)) >= 0; compared++) {
        uint8_t wanted[HERNGANOW_ANSWER], answer[HERNGANOW_ANSWER];
        long record_length = read_slice(file, record);
        if (record_length < 0 || fread(wanted, 1, sizeof wanted, file) != sizeof wanted) {
            fprintf(stderr, "%s: case %zu is cut\n", words[1], compared);
            return 1;
        }
        uint32_t number = hernganow_agreed_gain(settings, (size_t)settings_length, record, (size_t)record_length, answer, sizeof answer);
        if (memcmp(answer, wanted, sizeof wanted) || number != ((uint32_t)wanted[6] << 8 | wanted[7])) {
            fprintf(stderr, "%s: case %zu is answered with %u\n", words[1], compared, (unsigned)number);
            return 1;
        }
    }
    printf("%zu agreed gains compared\n", compared);
    fclose(file);
    return compared == 0;
}
