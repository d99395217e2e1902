#define _XOPEN_SOURCE 700
#include "row.h"

#include <string.h>

uint32_t read_row(uint32_t index, struct row *row)
{
    uint32_t refused = hernganow_row(SHEET, index, ANSWER);
    if (refused)
        return refused;
    *row = (struct row){.index = index, .key = answered(HERNGANOW_AT_ROW_KEY), .first = (uint32_t)answered(HERNGANOW_AT_ROW_FIRST)};
    row->numbers = numbers_of(row->key);
    hernganow_row_report(SHEET, index, ANSWER);
    row->ticked = (uint32_t)answered(HERNGANOW_AT_TICKED);
    hernganow_missing_numbers(SHEET, index, row->gaps, POSITIONS, ANSWER);
    row->missing = (uint32_t)answered(HERNGANOW_AT_COUNT);
    return 0;
}

uint32_t number_at(const struct row *row, uint32_t position)
{
    return (uint32_t)(((uint64_t)row->first + position) % row->numbers);
}

void row_states(const struct row *row, uint8_t states[POSITIONS])
{
    uint32_t gap = 0, end = row->ticked + row->missing;
    for (uint32_t i = 0; i < POSITIONS; i++) {
        states[i] = i < end ? TICKED : NOT_YET;
        if (gap < row->missing && row->gaps[gap] == number_at(row, i)) {
            states[i] = MISSING;
            gap++;
        }
    }
}

void say_row(const struct row *row)
{
    say("row %" PRIu32 ", %s, numbers %" PRIu32 "-%" PRIu32, row->index, stream_words(row->key), row->first, number_at(row, POSITIONS - 1));
}

void say_counts(const struct row *row)
{
    say("%" PRIu32 " ticked, %" PRIu32 " missing%s", row->ticked, row->missing, row->missing ? ": " : "");
    print_runs(said, row->gaps, row->missing, row->key);
}

int has_option(const char *option)
{
    if (!count || strcmp(words[0], option))
        return 0;
    words++;
    count--;
    return 1;
}

int each_row(uint32_t *index, struct row *row)
{
    while (*index < ROWS)
        if (!read_row((*index)++, row))
            return 1;
    return 0;
}
