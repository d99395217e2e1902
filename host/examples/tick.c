/* Ticks the records of a stream in a fresh ledger sheet, which it writes to a file: a stream gets a row with its first record. Prints each row's
 * stream key, how many numbers are ticked and how many are missing. */
#include <hernganow.h>

#include <inttypes.h>
#include <stdio.h>

static uint8_t stream[1 << 24], sheet[HERNGANOW_SHEET], answer[HERNGANOW_ANSWER];

/* A visit of desk 0: the row is opened, the number ticked, and the row saved. Returns 0 or the refusal. */
static uint32_t tick(uint32_t row, uint32_t number)
{
    uint32_t refused = hernganow_open(sheet, sizeof sheet, 0, row, answer, sizeof answer);
    if (refused)
        return refused;
    refused = hernganow_tick(sheet, sizeof sheet, 0, number, answer, sizeof answer);
    if (!refused)
        return hernganow_save(sheet, sizeof sheet, 0, answer, sizeof answer);
    hernganow_drop(sheet, sizeof sheet, 0, answer, sizeof answer);
    return refused;
}

/* The record's row is found by its key, or enrolled from this number on. Returns 0 or the refusal. */
static uint32_t take(uint64_t key, uint32_t number)
{
    uint32_t refused = hernganow_find(sheet, sizeof sheet, key, answer, sizeof answer);
    if (refused == HERNGANOW_REFUSED_NO_ROW)
        refused = hernganow_enrol(sheet, sizeof sheet, key, number, answer, sizeof answer);
    return refused ? refused : tick((uint32_t)hernganow_number(answer, HERNGANOW_AT_ROW), number);
}

/* Reads the headers of a whole record, telemetry's or a receiver's. Returns 0 or the refusal: 12 where a field is out of its range. */
static uint32_t take_record(const uint8_t *record, size_t length)
{
    uint32_t kind = (uint32_t)hernganow_number(answer, HERNGANOW_AT_KIND);
    uint32_t refused = hernganow_read_headers(record, length, kind, answer, sizeof answer);
    if (refused)
        return refused;
    uint64_t key = hernganow_number(answer, kind == 1 ? HERNGANOW_AT_TELEMETRY_KEY : HERNGANOW_AT_RSR_KEY);
    return take(key, (uint32_t)hernganow_number(answer, kind == 1 ? HERNGANOW_AT_TELEMETRY_NUMBER : HERNGANOW_AT_RSR_NUMBER));
}

static void print_rows(void)
{
    for (uint32_t row = 0; row < 32; row++) {
        if (hernganow_row(sheet, sizeof sheet, row, answer, sizeof answer))
            continue;
        printf("%" PRIu64, hernganow_number(answer, HERNGANOW_AT_ROW_KEY));
        hernganow_row_report(sheet, sizeof sheet, row, answer, sizeof answer);
        printf(" %" PRIu64 " %" PRIu64 "\n", hernganow_number(answer, HERNGANOW_AT_TICKED), hernganow_number(answer, HERNGANOW_AT_MISSING));
    }
}

int main(int count, char **words)
{
    FILE *in = count == 3 ? fopen(words[1], "rb") : NULL, *out = in ? fopen(words[2], "wb") : NULL;
    if (!out) {
        fputs("usage: tick STREAM SHEET\n", stderr);
        return 2;
    }
    size_t length = fread(stream, 1, sizeof stream, in), place = 0, size = 0;
    hernganow_fresh(sheet, sizeof sheet, answer, sizeof answer);
    for (; place < length; place += size) {
        if (hernganow_read_one(stream + place, length - place, answer, sizeof answer))
            break;
        size = (size_t)hernganow_number(answer, HERNGANOW_AT_SIZE);
        uint32_t refused = take_record(stream + place, size);
        if (refused)
            printf("the record at byte %zu is refused with %" PRIu32 "\n", place, refused);
    }
    print_rows();
    fwrite(sheet, 1, sizeof sheet, out);
    fclose(in);
    return fclose(out) != 0 || place < length;
}
