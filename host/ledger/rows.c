/* Commands on rows and whole ledgers. */
#define _XOPEN_SOURCE 700
#include "files.h"
#include "row.h"

#include <string.h>

/* ---- Ledgers */

static int create(const char *how)
{
    begin_any(CREATE);
    if (!store->create(&book)) {
        fprintf(denied, "refused: %s is there already, and was left as it is; use another name\n", shown(place));
        return REFUSED;
    }
    say("%s: %s\n", shown(place), how);
    return DONE;
}

int do_new(void)
{
    book = (struct book){.visits = 0};
    hernganow_fresh(SHEET, ANSWER);
    return create("a fresh ledger, 32 rows free; enrol a stream next");
}

int do_import(void)
{
    struct file file = map_file(words[0]);
    book = (struct book){.visits = 0};
    /* The converter accepts only old sheets. */
    int old = !hernganow_convert(file.bytes, file.size, SHEET, ANSWER);
    if (!old)
        take_sheet(book.sheet, file.bytes, file.size);
    unmap_files();
    if (is_sheet())
        return create(old ? "begun with the sheet, which was converted" : "begun with the sheet");
    fprintf(denied, "refused %d: %s is not a right ledger sheet; nothing was done\n", HERNGANOW_REFUSED_NOT_SHEET, words[0]);
    return REFUSED;
}

int do_export(void)
{
    begin(READ);
    write_sheet(words[0], book.sheet);
    return DONE;
}

/* ---- Rows */

int do_enrol(void)
{
    int rsr = !strcmp(words[0], "rsr");
    uint32_t part[4], first = read_number(words[5], "record number");
    if (!rsr && strcmp(words[0], "telemetry"))
        cannot("'%s' is no kind of stream; say telemetry or rsr", words[0]);
    for (int i = 0; i < 4; i++)
        part[i] = read_number(words[1 + i], "part of a stream's key");
    begin(WRITE);
    uint32_t refused = (rsr ? hernganow_rsr_key : hernganow_telemetry_key)(part[0], part[1], part[2], part[3], ANSWER);
    if (!refused)
        refused = make((struct call){.call = ENROL, .key = answered(HERNGANOW_AT_KEY), .number = first});
    if (refused)
        return refuse(refused);
    static struct row row;
    read_row((uint32_t)answered(HERNGANOW_AT_ROW), &row);
    say("enrolled as ");
    say_row(&row);
    say("\n");
    return DONE;
}

int do_strike(void)
{
    uint32_t index = read_number(words[0], "row");
    static struct row row;
    begin(WRITE);
    read_row(index, &row);
    uint32_t refused = make((struct call){.call = STRIKE, .row = index});
    if (refused)
        return refuse(refused);
    say("struck row %" PRIu32 ", %s: its %" PRIu32 " tick%s gone, and the row is free\n", index, stream_words(row.key), row.ticked,
        row.ticked == 1 ? " is" : "s are");
    return DONE;
}

static void say_desks_of(uint32_t row)
{
    for (uint32_t desk = 0; desk < DESKS; desk++)
        if (desk_row(desk) == row)
            say(" %" PRIu32, desk);
}

int do_rows(void)
{
    static struct row row;
    uint32_t index = 0, used = 0;
    begin(READ);
    while (each_row(&index, &row)) {
        if (!used++)
            say("row  stream                        numbers                ticked  missing  open at\n");
        char numbers[32];
        snprintf(numbers, sizeof numbers, "%" PRIu32 "-%" PRIu32, row.first, number_at(&row, POSITIONS - 1));
        say("%3" PRIu32 "  %-28s  %-21s  %6" PRIu32 "  %7" PRIu32 " ", row.index, stream_words(row.key), numbers, row.ticked, row.missing);
        say_desks_of(row.index);
        say("\n");
    }
    say("%" PRIu32 " of %d rows used\n", used, ROWS);
    return DONE;
}

int do_row(void)
{
    static struct row row;
    uint32_t index = read_number(words[0], "row");
    begin(READ);
    uint32_t refused = read_row(index, &row);
    if (refused)
        return refuse(refused);
    say_row(&row);
    say("\n");
    say_counts(&row);
    say("\nopen at desks:");
    say_desks_of(index);
    say("\n");
    print_grid(said, &row);
    return DONE;
}

/* ---- The order list */

/* The rows of a command: all, or the one that it names. If there is no such row, says the refusal. */
static size_t chosen_rows(struct row rows[ROWS])
{
    size_t number = 0;
    uint32_t index = 0, only = count ? read_number(words[0], "row") : 0;
    if (count > 1)
        cannot("name one row, or none for all");
    begin(READ);
    if (count) {
        uint32_t refused = read_row(only, rows);
        if (refused)
            refuse(refused);
        return !refused;
    }
    while (each_row(&index, &rows[number]))
        number++;
    return number;
}

static void say_csv(const struct row *row)
{
    char stream[96];
    snprintf(stream, sizeof stream, "%s", stream_words(row->key));
    for (char *c = stream; *c; c++)
        *c = *c == ' ' ? ',' : *c;
    for (uint32_t i = 0; i < row->missing; i++)
        say("%" PRIu32 ",%s,%" PRIu32 "\n", row->index, stream, row->gaps[i]);
}

static void say_missing(const struct row *row)
{
    say("row %" PRIu32 ", %s, %" PRIu32 " missing: ", row->index, stream_words(row->key), row->missing);
    print_runs(said, row->gaps, row->missing, row->key);
    say("\n");
}

int do_missing(void)
{
    static struct row rows[ROWS];
    int csv = has_option("--csv");
    uint64_t all = 0, with = 0;
    size_t number = chosen_rows(rows);
    if (!number && count)
        return REFUSED;
    if (csv)
        say("row,kind,spacecraft,source_or_station,equipment_or_receiver,stream_or_subchannel,number\n");
    for (size_t i = 0; i < number; i++) {
        if (csv)
            say_csv(&rows[i]);
        else if (rows[i].missing)
            say_missing(&rows[i]);
        all += rows[i].missing;
        with += rows[i].missing > 0;
    }
    if (!csv && all)
        say("%" PRIu64 " missing in %" PRIu64 " row%s\n", all, with, plural(with));
    else if (!csv)
        say("nothing is missing\n");
    return DONE;
}

int do_map(void)
{
    static struct row rows[ROWS];
    int svg = has_option("--svg");
    size_t number = chosen_rows(rows);
    if (!number && count)
        return REFUSED;
    if (svg) {
        print_svg(said, rows, number);
        return DONE;
    }
    for (size_t i = 0; i < number; i++) {
        say("%2" PRIu32 "  %-28s ", rows[i].index, stream_words(rows[i].key));
        print_strip(said, &rows[i]);
        say("\n");
    }
    if (count)
        print_grid(said, rows);
    else
        say("16 numbers a block: █ ticked, ▓ one missing, ▒ some, ░ most, · not yet there\n");
    return DONE;
}
