/* The season's report over ledgers. */
#define _XOPEN_SOURCE 700
#include "visit.h"

#include <string.h>

enum { MOST = 16 };
static uint8_t sheets[MOST][HERNGANOW_SHEET];

static const char *name_of(size_t ledger)
{
    return shown(ledger ? words[ledger - 1] : place);
}

/* Reads every ledger's sheet, one after the other. */
static void read_sheets(size_t number)
{
    for (size_t i = 0; i < number; i++) {
        if (i)
            open_ledger(words[i - 1], READ);
        begin(READ);
        finish();
        memcpy(sheets[i], book.sheet, sizeof book.sheet);
    }
    /* The session's next command uses its own ledger again. */
    close_ledger();
}

static uint32_t rows_of(size_t ledger)
{
    uint32_t used = 0;
    for (uint32_t row = 0; row < ROWS; row++)
        used += !hernganow_row(sheets[ledger], HERNGANOW_SHEET, row, ANSWER);
    return used;
}

/* Says which streams have a row in two ledgers. */
static void say_twice(size_t number)
{
    for (size_t one = 0; one < number; one++)
        for (uint32_t row = 0; row < ROWS; row++) {
            if (hernganow_row(sheets[one], HERNGANOW_SHEET, row, ANSWER))
                continue;
            uint64_t key = answered(HERNGANOW_AT_ROW_KEY);
            for (size_t other = one + 1; other < number; other++)
                if (!hernganow_find(sheets[other], HERNGANOW_SHEET, key, ANSWER))
                    say("%s: %s, row %" PRIu32 ", and %s, row %" PRIu64 "\n", stream_words(key), name_of(one), row, name_of(other),
                        answered(HERNGANOW_AT_ROW));
        }
}

static void say_season(const uint8_t *from, size_t number, uint32_t rows, const char *name)
{
    hernganow_season(from, number * HERNGANOW_SHEET, ANSWER);
    say("%4" PRIu32 "  %6" PRIu64 "  %7" PRIu64 "  %11" PRIu64 "  %s\n", rows, answered(HERNGANOW_AT_SEASON_TICKED), answered(HERNGANOW_AT_SEASON_MISSING),
        answered(HERNGANOW_AT_SEASON_PER_MILLION), name);
}

int do_season(void)
{
    size_t number = (size_t)count + 1;
    uint32_t all = 0;
    if (number > MOST)
        return refuse(HERNGANOW_REFUSED_SEASON_LENGTH);
    read_sheets(number);
    uint32_t refused = hernganow_season(sheets[0], number * HERNGANOW_SHEET, ANSWER);
    if (refused) {
        say_twice(number);
        return refuse(refused);
    }
    say("rows  ticked  missing  per million\n");
    for (size_t i = 0; i < number; i++) {
        say_season(sheets[i], 1, rows_of(i), name_of(i));
        all += rows_of(i);
    }
    say_season(sheets[0], number, all, "in all");
    uint64_t gap = answered(HERNGANOW_AT_SEASON_GAP_SHEET);
    if (gap == HERNGANOW_NONE)
        say("no gap\n");
    else
        say("first gap: %s, row %" PRIu64 ", number %" PRIu64 "\n", name_of(gap), answered(HERNGANOW_AT_SEASON_GAP_ROW),
            answered(HERNGANOW_AT_SEASON_GAP_NUMBER));
    return DONE;
}
