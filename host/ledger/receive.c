/* Receives streams: the proved receive ticks their records, and the program says what became of them for each stream. */
#define _XOPEN_SOURCE 700
#include "files.h"
#include "row.h"

#include <string.h>

enum { MOST_TOLD = 20 };

/* ---- What became of the records of each row, and of streams that have none */

static struct tally {
    uint64_t key;
    uint64_t records, ticked, already, outside;
} tallies[ROWS];

static struct stranger {
    uint64_t key, records;
    uint32_t number; /* the first record's */
} strangers[MOST_TOLD];
static size_t strange_streams;
static uint64_t other_records; /* of streams that are strange too, and not in the list */

/* A receive enrols no stream, so the rows' keys stay. A free row has no stream's key. */
static void start_tallies(void)
{
    for (uint32_t row = 0; row < ROWS; row++) {
        uint64_t key = hernganow_row(SHEET, row, ANSWER) ? HERNGANOW_NONE : answered(HERNGANOW_AT_ROW_KEY);
        tallies[row] = (struct tally){.key = key};
    }
    strange_streams = 0;
    other_records = 0;
}

static uint32_t row_of(uint64_t key)
{
    uint32_t row = 0;
    while (row < ROWS && tallies[row].key != key)
        row++;
    return row;
}

static void count_strange(uint64_t key, uint32_t number)
{
    for (size_t i = 0; i < strange_streams; i++)
        if (strangers[i].key == key) {
            strangers[i].records++;
            return;
        }
    if (strange_streams < MOST_TOLD)
        strangers[strange_streams++] = (struct stranger){.key = key, .records = 1, .number = number};
    else
        other_records++;
}

/* ---- One stream */

/* How many records at a time: their calls, three each, fit one line of the log. */
enum { WINDOW = MOST_CALLS / 3 };
static uint32_t outcomes[WINDOW];
static uint64_t out_of_range;

/* The sheet before them, and the log's entries of their calls. */
static uint8_t before[HERNGANOW_SHEET], trace[TRACE_HEAD + 3 * WINDOW * ENTRY];
static size_t entries;

static void keep(struct call call, uint32_t refused)
{
    memcpy(trace + TRACE_HEAD + entries, note(call, refused), ENTRY);
    entries += ENTRY;
}

/* The entries are this program's own. The proved replay says whether they are what the receive did. */
static void check_entries(void)
{
    if (play(before, trace, entries) || answered(HERNGANOW_AT_ENTRY) != HERNGANOW_NONE || memcmp(before, book.sheet, sizeof before))
        cannot("the log of this receive does not make the sheet; nothing was kept");
}

/* Notes the calls that a record's visit made, which follow from its outcome, and counts the record. */
static void file_record(uint32_t desk, uint64_t key, uint32_t number, uint32_t outcome)
{
    uint32_t row = row_of(key);
    if (row == ROWS) {
        count_strange(key, number);
        return;
    }
    struct tally *tally = &tallies[row];
    tally->records++;
    tally->ticked += outcome == 0;
    tally->already += outcome == HERNGANOW_REFUSED_ALREADY_TICKED;
    tally->outside += outcome == HERNGANOW_REFUSED_OUTSIDE_ROW;
    keep((struct call){.call = OPEN, .desk = desk, .row = row}, 0);
    keep((struct call){.call = TICK, .desk = desk, .number = number}, outcome);
    keep((struct call){.call = outcome ? DROP : SAVE, .desk = desk}, 0);
}

/* Files the whole record at a place, or says what is wrong with it. Returns its length. */
static size_t look_at(const struct file *stream, size_t at, uint32_t desk, uint32_t outcome)
{
    const uint8_t *record = stream->bytes + at;
    size_t left = stream->size - at;
    hernganow_read_one(record, left, ANSWER);
    size_t size = (size_t)answered(HERNGANOW_AT_SIZE);
    int rsr = answered(HERNGANOW_AT_KIND) == KIND_RSR;
    hernganow_read_headers(record, left, rsr ? KIND_RSR : KIND_TELEMETRY, ANSWER);
    uint64_t key = answered(rsr ? HERNGANOW_AT_RSR_KEY : HERNGANOW_AT_TELEMETRY_KEY);
    uint32_t number = (uint32_t)answered(rsr ? HERNGANOW_AT_RSR_NUMBER : HERNGANOW_AT_TELEMETRY_NUMBER);
    if (outcome != HERNGANOW_REFUSED_FIELD_RANGE)
        file_record(desk, key, number, outcome);
    else if (out_of_range++ < MOST_TOLD)
        say("  not filed: the record at byte %zu has a field out of range at byte %" PRIu64 "\n", at, at + answered(HERNGANOW_AT_FAULT));
    return size;
}

struct stop {
    uint64_t records, number, second;
    size_t place;
};

/* Receives the next records. Returns 0 or the refusal. Sets `stop` to where the walk is and why it stopped. */
static uint32_t receive_some(const struct file *stream, uint32_t desk, struct stop *stop)
{
    size_t at = stop->place;
    memcpy(before, book.sheet, sizeof before);
    entries = 0;
    uint32_t refused = hernganow_receive(SHEET, desk, stream->bytes + at, stream->size - at, outcomes, WINDOW, ANSWER);
    if (refused)
        return refused;
    uint64_t records = answered(HERNGANOW_AT_RECEIVED_COUNT), second = answered(HERNGANOW_AT_RECEIVED_SECOND);
    stop->place = at + (size_t)answered(HERNGANOW_AT_RECEIVED_PLACE);
    stop->number = answered(HERNGANOW_AT_RECEIVED_STOP);
    stop->records += records;
    /* If the stream is cut off, the second number is a count; else it is a place. */
    int counts = stop->number == HERNGANOW_REFUSED_TOO_SHORT || stop->number == HERNGANOW_REFUSED_TRUNCATED;
    stop->second = counts ? second : at + second;
    for (uint64_t i = 0; i < records; i++)
        at += look_at(stream, at, desk, outcomes[i]);
    check_entries();
    return 0;
}

/* ---- What the program says */

static void say_filed(uint32_t index)
{
    static struct row row;
    const struct tally *tally = &tallies[index];
    read_row(index, &row);
    say("  row %2" PRIu32 "  %-28s  %" PRIu64 " ticked, %" PRIu64 " already ticked, %" PRIu64 " outside the row; %" PRIu32 " missing\n", index,
        stream_words(tally->key), tally->ticked, tally->already, tally->outside, row.missing);
}

/* Returns whether a record was not filed. */
static int say_tallies(void)
{
    int unfiled = strange_streams > 0;
    for (uint32_t row = 0; row < ROWS; row++)
        if (tallies[row].records) {
            say_filed(row);
            unfiled |= tallies[row].outside > 0;
        }
    for (size_t i = 0; i < strange_streams; i++)
        say("  not filed: %" PRIu64 " record%s of a stream with no row: enrol %s %" PRIu32 "\n", strangers[i].records, plural(strangers[i].records),
            stream_words(strangers[i].key), strangers[i].number);
    if (other_records)
        say("  not filed: %" PRIu64 " record%s of other streams with no row\n", other_records, plural(other_records));
    return unfiled;
}

static void say_stop(const struct stop *stop)
{
    say("  %" PRIu64 " record%s, ", stop->records, plural(stop->records));
    if (!stop->number)
        say("read to the end, byte %zu\n", stop->place);
    else if (stop->number == HERNGANOW_REFUSED_TOO_SHORT || stop->number == HERNGANOW_REFUSED_TRUNCATED)
        say("stopped at byte %zu, where only %" PRIu64 " bytes are left\n", stop->place, stop->second);
    else
        say("stopped at byte %zu, for what is at byte %" PRIu64 "\n", stop->place, stop->second);
}

/* Receives a stream. Sets `status` if not all of it was filed. Returns 0, or the refusal of the desk. */
static uint32_t receive_stream(const struct file *stream, uint32_t desk, int *status)
{
    struct stop stop = {0};
    uint32_t refused;
    out_of_range = 0;
    start_tallies();
    say("%s\n", stream->path);
    do {
        refused = receive_some(stream, desk, &stop);
    } while (!refused && stop.number == HERNGANOW_REFUSED_LIST_FULL);
    if (refused)
        return refused;
    if (out_of_range > MOST_TOLD)
        say("  and %" PRIu64 " records more with a field out of range\n", out_of_range - MOST_TOLD);
    int unfiled = say_tallies() || out_of_range;
    say_stop(&stop);
    if (stop.number)
        fprintf(denied, "%s: %s\n", stream->path, refusal_words((uint32_t)stop.number));
    if (unfiled || stop.number)
        *status = REFUSED;
    return 0;
}

/* The desk is refused before anything is done, at the first stream; the message then does not name the stream. */
static int receive_streams(const struct file *streams, int number, uint32_t desk)
{
    int status = DONE;
    for (int i = 0; i < number; i++) {
        uint32_t refused = receive_stream(&streams[i], desk, &status);
        if (refused) {
            rewind(said);
            return refuse(refused);
        }
    }
    return status;
}

int do_receive(void)
{
    static struct file streams[MOST_WORDS];
    uint32_t desk = read_number(words[0], "desk");
    for (int i = 1; i < count; i++)
        streams[i - 1] = map_file(words[i]);
    begin(WRITE);
    int status = is_held(desk) ? REFUSED : receive_streams(streams, count - 1, desk);
    unmap_files();
    return status;
}
