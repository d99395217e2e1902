/* Makes the exported calls of a call script (docs/call-script.md). Compares each answer, all 256 bytes, and what the call was lent to change, with the
 * lines that the reference writes for the script. First makes each call with answer slices of other lengths, which must do nothing. The agreed gain
 * has no op; it is compared with the lines of the gain. Behind every slice is a page that cannot be touched: a call that reads or writes behind a
 * slice ends the program. */
#define _GNU_SOURCE
#include <hernganow.h>

#include <inttypes.h>
#include <stdio.h>
#include <stdlib.h>
#include <string.h>
#include <sys/mman.h>

#define FRAME 40
#define MOST_NUMBERS 131072
#define MOST_LIST 1100
#define MOST_SHEET 8192
#define PAGE 4096
#define ROOM (256 * PAGE)
#define MOST_COLUMN 64
#define TAPE_HEADER 28
#define FILLED 165
#define FILLED_NUMBER 7

enum op {
    READ_ONE = 1,
    SECONDARY_PART,
    DATA_PART,
    READ_HEADERS,
    WRITE_ONE,
    TELEMETRY_KEY,
    RSR_KEY,
    WALK,
    LIST_NUMBERS,
    PARTS,
    STEP,
    DATE,
    UNPACK,
    PACK,
    GAIN,
    READ_TAPE,
    WRITE_TAPE,
    LOAD = 19,
    FRESH = 20,
    ENROL,
    FIND,
    OPEN,
    TICK,
    UNTICK,
    SAVE,
    DROP,
    ROW_REPORT,
    FIRST_GAP,
    STRIKE,
    CONVERT,
    REPLAY,
    SEASON,
    ROW,
    DESK,
    MISSING_NUMBERS,
    RECEIVE,
    REPLAY_ON,
    LOAD_SETTINGS,
    MAKE_EMPTY,
    ADD,
    ASK
};

struct frame {
    uint32_t op, x, y, z, w;
    uint64_t key;
    const uint8_t *a;
    size_t a_length;
    const uint8_t *b;
    size_t b_length;
};

/* A room for each slice. The slice is at the room's end. */
enum room { STREAM, SECOND, SHEET, SETTINGS, NUMBERS, PACKED, LIST, COLUMNS, ANSWER = COLUMNS + 4, ROOMS };
static uint8_t *ends[ROOMS];

/* The sheet of the script's calls, and how many bytes of it are lent. */
static uint8_t *sheet;
static size_t sheet_length = HERNGANOW_SHEET;

/* The same for the settings sheet. */
static uint8_t *settings;
static size_t settings_length = HERNGANOW_SETTINGS;

/* The samples of one frame: unpacked numbers, and packed bytes. */
static int32_t *numbers;
static uint8_t *packed;

/* The list for missing numbers and for the outcomes of records. */
static uint32_t *list;

static void make_rooms(void)
{
    for (int i = 0; i < ROOMS; i++) {
        uint8_t *all = mmap(NULL, ROOM + PAGE, PROT_READ | PROT_WRITE, MAP_PRIVATE | MAP_ANONYMOUS, -1, 0);
        if (all == MAP_FAILED || mprotect(all + ROOM, PAGE, PROT_NONE)) {
            perror("mmap");
            exit(2);
        }
        ends[i] = all + ROOM;
    }
}

/* A slice of this many bytes, all with this value. */
static uint8_t *lend(enum room room, size_t length, int byte)
{
    if (length > ROOM) {
        fprintf(stderr, "a slice of %zu bytes\n", length);
        exit(2);
    }
    return memset(ends[room] - length, byte, length);
}

/* The header words of a tape's record. */
static uint16_t *header_words;

/* The four lists of a stream's records. */
static uint64_t *columns[4];

static uint64_t big_endian(const uint8_t *bytes, size_t length)
{
    uint64_t number = 0;
    for (size_t i = 0; i < length; i++)
        number = number << 8 | bytes[i];
    return number;
}

static uint8_t *read_file(const char *path, size_t *length)
{
    FILE *file = fopen(path, "rb");
    uint8_t *bytes = NULL;
    if (file && !fseek(file, 0, SEEK_END)) {
        *length = (size_t)ftell(file);
        rewind(file);
        bytes = malloc(*length + 1);
    }
    if (!bytes || fread(bytes, 1, *length, file) != *length) {
        perror(path);
        exit(2);
    }
    fclose(file);
    bytes[*length] = 0;
    return bytes;
}

static uint32_t crc(const uint8_t *bytes, size_t length)
{
    static uint32_t table[256];
    if (!table[1])
        for (uint32_t i = 0; i < 256; i++) {
            uint32_t left = i;
            for (int bit = 0; bit < 8; bit++)
                left = left >> 1 ^ (left & 1 ? 0xedb88320u : 0);
            table[i] = left;
        }
    uint32_t sum = UINT32_MAX;
    for (size_t i = 0; i < length; i++)
        sum = sum >> 8 ^ table[(sum ^ bytes[i]) & 255];
    return ~sum;
}

static int is_on_sheet(uint32_t op)
{
    return (op >= LOAD && op <= REPLAY) || (op >= ROW && op <= REPLAY_ON);
}

static int is_on_settings(uint32_t op)
{
    return op >= LOAD_SETTINGS && op <= ASK;
}

static int is_load(uint32_t op)
{
    return op == LOAD || op == LOAD_SETTINGS;
}

static int is_exported(uint32_t op)
{
    return (op >= READ_ONE && op <= WRITE_TAPE) || op == SEASON || is_on_sheet(op) || is_on_settings(op);
}

/* Whether a call writes bytes into a slice of its own. */
static int writes_bytes(uint32_t op)
{
    return op == WRITE_ONE || op == PACK || op == WRITE_TAPE;
}

/* Whether a frame's line ends with the crc of what its call is lent to change. */
static int has_crc(uint32_t op)
{
    return writes_bytes(op) || op == UNPACK || is_on_sheet(op) || is_on_settings(op);
}

/* Whether a call is lent a list of numbers. Its line then has the list's crc before the sheet's. */
static int has_list(uint32_t op)
{
    return op == MISSING_NUMBERS || op == RECEIVE;
}

static uint32_t make(const struct frame *f, uint8_t *answer, size_t length)
{
    switch (f->op) {
    case READ_ONE: return hernganow_read_one(f->a, f->a_length, answer, length);
    case SECONDARY_PART: return hernganow_secondary_part(f->a, f->a_length, answer, length);
    case DATA_PART: return hernganow_data_part(f->a, f->a_length, answer, length);
    case WRITE_ONE:
        return hernganow_write_one(
            f->x, (uint8_t)(f->y >> 24), (uint8_t)(f->y >> 16), (uint8_t)(f->y >> 8), (uint8_t)f->y, f->a, f->a_length, f->b, f->b_length, packed, f->z,
            answer, length);
    case WALK: return hernganow_walk(f->a, f->a_length, answer, length);
    case LIST_NUMBERS:
        return hernganow_list_numbers(
            f->a, f->a_length, columns[0], f->x, columns[1], f->y, columns[2], f->z, columns[3], f->w, answer, length);
    case STEP: return hernganow_step(f->a, f->a_length, f->key, answer, length);
    case PARTS: return hernganow_parts(f->key, answer, length);
    case ROW: return hernganow_row(sheet, sheet_length, f->x, answer, length);
    case MISSING_NUMBERS: return hernganow_missing_numbers(sheet, sheet_length, f->x, list, f->z, answer, length);
    case RECEIVE: return hernganow_receive(sheet, sheet_length, f->x, f->a, f->a_length, list, f->z, answer, length);
    case REPLAY_ON: return hernganow_replay_on(f->a, f->a_length, sheet, sheet_length, answer, length);
    case READ_HEADERS: return hernganow_read_headers(f->a, f->a_length, f->x, answer, length);
    case TELEMETRY_KEY: return hernganow_telemetry_key(f->x, f->y, f->z, f->w, answer, length);
    case RSR_KEY: return hernganow_rsr_key(f->x, f->y, f->z, f->w, answer, length);
    case DATE: return hernganow_date(f->x, answer, length);
    case FRESH: return hernganow_fresh(sheet, sheet_length, answer, length);
    case ENROL: return hernganow_enrol(sheet, sheet_length, f->key, f->x, answer, length);
    case FIND: return hernganow_find(sheet, sheet_length, f->key, answer, length);
    case OPEN: return hernganow_open(sheet, sheet_length, f->x, f->y, answer, length);
    case TICK: return hernganow_tick(sheet, sheet_length, f->x, f->y, answer, length);
    case UNTICK: return hernganow_untick(sheet, sheet_length, f->x, f->y, answer, length);
    case SAVE: return hernganow_save(sheet, sheet_length, f->x, answer, length);
    case DROP: return hernganow_drop(sheet, sheet_length, f->x, answer, length);
    case ROW_REPORT: return hernganow_row_report(sheet, sheet_length, f->x, answer, length);
    case FIRST_GAP: return hernganow_first_gap(sheet, sheet_length, answer, length);
    case STRIKE: return hernganow_strike(sheet, sheet_length, f->x, answer, length);
    case REPLAY: return hernganow_replay(f->a, f->a_length, sheet, sheet_length, answer, length);
    case SEASON: return hernganow_season(f->a, f->a_length, answer, length);
    case UNPACK: return hernganow_unpack(f->a, f->a_length, numbers, f->z, answer, length);
    case PACK: return hernganow_pack(f->x, f->y, numbers, f->a_length / 4, packed, f->z, answer, length);
    case READ_TAPE: return hernganow_tape_read(f->a, f->a_length, answer, length);
    case WRITE_TAPE: return hernganow_tape_write(header_words, f->a_length / 2, f->b, f->b_length, packed, f->z, answer, length);
    case GAIN: return hernganow_gain(f->a, f->a_length, f->x, answer, length);
    case MAKE_EMPTY: return hernganow_settings_make_empty(settings, settings_length, answer, length);
    case ADD: return hernganow_settings_add(settings, settings_length, (uint8_t)f->x, f->y, f->z, f->w, answer, length);
    case ASK: return hernganow_settings_ask(settings, settings_length, (uint8_t)f->x, f->y, answer, length);
    default: return hernganow_convert(f->a, f->a_length, sheet, sheet_length, answer, length);
    }
}

/* The signed number that has these bits. */
static int32_t signed_of(uint32_t bits)
{
    int32_t number;
    memcpy(&number, &bits, sizeof number);
    return number;
}

/* The crc of what a call is lent to change. It covers numbers as 4 bytes, most significant first. */
static uint32_t crc_of_lent(const struct frame *f)
{
    static uint8_t laid[4 * MOST_NUMBERS];
    if (writes_bytes(f->op))
        return crc(packed, f->z);
    if (f->op != UNPACK)
        return is_on_sheet(f->op) ? crc(sheet, sheet_length) : crc(settings, settings_length);
    for (size_t i = 0; i < 4 * (size_t)f->z; i++)
        laid[i] = (uint8_t)((uint32_t)numbers[i / 4] >> (24 - 8 * (i % 4)));
    return crc(laid, 4 * (size_t)f->z);
}

/* The crc of a list, each number as 4 bytes, most significant first. */
static uint32_t crc_of_list(size_t count)
{
    static uint8_t laid[4 * MOST_LIST];
    for (size_t i = 0; i < 4 * count; i++)
        laid[i] = (uint8_t)(list[i / 4] >> (24 - 8 * (i % 4)));
    return crc(laid, 4 * count);
}

/* A slice of this many numbers of 4 bytes, all 7. */
static void *lend_numbers(enum room room, size_t count)
{
    uint32_t *lent = (uint32_t *)(void *)lend(room, 4 * count, 0);
    for (size_t i = 0; i < count; i++)
        lent[i] = FILLED_NUMBER;
    return lent;
}

/* The same of 8 bytes. */
static uint64_t *lend_column(enum room room, size_t count)
{
    uint64_t *lent = (uint64_t *)(void *)lend(room, 8 * count, 0);
    for (size_t i = 0; i < count; i++)
        lent[i] = FILLED_NUMBER;
    return lent;
}

/* What a frame does before its call. Ops 19 and 39 are no calls; op 31, samples and lists use slices of their own. */
static void prepare(struct frame *f)
{
    f->a = memcpy(lend(STREAM, f->a_length, 0), f->a, f->a_length);
    f->b = memcpy(lend(SECOND, f->b_length, 0), f->b, f->b_length);
    if (f->op == LOAD_SETTINGS) {
        settings_length = f->a_length;
        settings = memcpy(lend(SETTINGS, settings_length, 0), f->a, settings_length);
    }
    if (has_list(f->op))
        list = lend_numbers(LIST, f->z);
    if (f->op == UNPACK)
        numbers = lend_numbers(NUMBERS, f->z);
    if (f->op == PACK) {
        numbers = lend_numbers(NUMBERS, f->a_length / 4);
        for (size_t i = 0; i < f->a_length / 4; i++)
            numbers[i] = signed_of((uint32_t)big_endian(f->a + 4 * i, 4));
    }
    if (f->op == LIST_NUMBERS) {
        const size_t lengths[] = {f->x, f->y, f->z, f->w};
        for (int i = 0; i < 4; i++)
            columns[i] = lend_column((enum room)(COLUMNS + i), lengths[i]);
    }
    if (f->op == WRITE_TAPE) {
        header_words = (uint16_t *)(void *)lend(LIST, f->a_length / 2 * 2, 0);
        for (size_t i = 0; i < f->a_length / 2; i++)
            header_words[i] = (uint16_t)big_endian(f->a + 2 * i, 2);
    }
    if (writes_bytes(f->op))
        packed = lend(PACKED, f->z, FILLED);
    if (f->op == LOAD) {
        sheet_length = f->a_length;
        sheet = memcpy(lend(SHEET, sheet_length, 0), f->a, sheet_length);
    } else if (f->op == CONVERT) {
        sheet_length = f->z;
        sheet = lend(SHEET, sheet_length, FILLED);
    }
}

/* Whether all bytes of a slice are as they were filled. */
static int is_filled(const uint8_t *slice, size_t length)
{
    for (size_t i = 0; i < length; i++)
        if (slice[i] != FILLED)
            return 0;
    return 1;
}

/* With a slice of another length a call answers 38 and does nothing. */
static int does_nothing(const struct frame *f)
{
    static const size_t lengths[] = {0, HERNGANOW_ANSWER - 1, HERNGANOW_ANSWER + 1};
    uint32_t sum = has_crc(f->op) ? crc_of_lent(f) : 0, list_sum = has_list(f->op) ? crc_of_list(f->z) : 0, before = crc(sheet, sheet_length);
    for (size_t i = 0; i < sizeof lengths / sizeof lengths[0]; i++) {
        uint8_t *answer = lend(ANSWER, lengths[i], FILLED);
        if (make(f, answer, lengths[i]) != HERNGANOW_REFUSED_ANSWER_LENGTH)
            return 0;
        if (!is_filled(answer, lengths[i]) || crc(sheet, sheet_length) != before)
            return 0;
        if (has_crc(f->op) && crc_of_lent(f) != sum)
            return 0;
        if (has_list(f->op) && crc_of_list(f->z) != list_sum)
            return 0;
    }
    return 1;
}

/* How many numbers a none has, which is one word of a line: that of a first gap, a season, the 'same' of a replay. */
static size_t numbers_of_none(uint32_t op)
{
    return op == FIRST_GAP ? 2 : op == SEASON || op == REPLAY || op == REPLAY_ON ? 3 : 1;
}

/* Takes out the three words of each sheet, which a season's line has after the number of sheets and the answer does not have. */
static void leave_sheets_out(uint64_t *words, size_t *count)
{
    if (*count < 2)
        return;
    size_t out = 3 * (size_t)words[1];
    memmove(words + 2, words + 2 + out, (*count - 2 - out) * sizeof *words);
    memset(words + *count - out, 0, out * sizeof *words);
    *count -= out;
}

/* The answer that the reference's line gives. If a call is lent something to change, the last word is its crc. */
static void told(char *line, const struct frame *f, uint8_t answer[HERNGANOW_ANSWER], uint64_t *sum, uint64_t *list_sum)
{
    /* A walk is never refused, and its line has no 0. */
    size_t count = f->op == WALK;
    uint64_t words[HERNGANOW_ANSWER] = {0};
    for (char *word = strtok(line, " "); word; word = strtok(NULL, " ")) {
        if (strcmp(word, "none") && strcmp(word, "same"))
            words[count++] = word[0] == '-' ? -strtoull(word + 1, NULL, 10) : strtoull(word, NULL, 10);
        else
            for (size_t left = numbers_of_none(f->op); left; left--)
                words[count++] = HERNGANOW_NONE;
    }
    if (f->op == SEASON)
        leave_sheets_out(words, &count);
    if (has_crc(f->op)) {
        *sum = words[--count];
        words[count] = 0;
    }
    if (has_list(f->op)) {
        *list_sum = words[--count];
        words[count] = 0;
    }
    for (size_t i = 0; i < HERNGANOW_ANSWER; i++)
        answer[i] = (uint8_t)(words[i / 8] >> (56 - 8 * (i % 8)));
}

/* Whether the agreed gain is the gain, with a setting of the frame's edition for the record's mission from day 0 on. */
static int agrees(const struct frame *f, const uint8_t wanted[HERNGANOW_ANSWER])
{
    uint8_t agreed[HERNGANOW_SETTINGS], answer[HERNGANOW_ANSWER];
    hernganow_settings_make_empty(agreed, sizeof agreed, answer, sizeof answer);
    hernganow_read_headers(f->a, f->a_length, 2, answer, sizeof answer);
    uint8_t mission = (uint8_t)hernganow_number(answer, HERNGANOW_AT_MISSION);
    if (hernganow_settings_add(agreed, sizeof agreed, mission, f->x, 0, 0, answer, sizeof answer))
        return 1;
    if (hernganow_agreed_gain(agreed, sizeof agreed, f->a, f->a_length, answer, sizeof answer) != big_endian(wanted, 8))
        return 0;
    return !memcmp(answer, wanted, sizeof answer);
}

/* Whether an answer is these numbers and then zeros. */
static int is_answer(const uint8_t answer[HERNGANOW_ANSWER], const uint64_t *numbers_wanted, size_t count)
{
    for (int i = 0; i < HERNGANOW_ANSWER / 8; i++)
        if (hernganow_number(answer, i) != ((size_t)i < count ? numbers_wanted[i] : 0))
            return 0;
    return 1;
}

/* A desk's line has the answers of two calls: its row, what it has not saved, and whether a save would be stale; or `none` if it is closed. */
static int is_desk_right(const struct frame *f, char *line)
{
    uint64_t words[6] = {0};
    size_t count = 0;
    int closed = 0;
    for (char *word = strtok(line, " "); word && count < 6; word = strtok(NULL, " "))
        if (strcmp(word, "none"))
            words[count++] = strtoull(word, NULL, 10);
        else
            closed = 1;
    uint8_t desk[HERNGANOW_ANSWER], unsaved[HERNGANOW_ANSWER];
    if (hernganow_desk(sheet, sheet_length, f->x, desk, HERNGANOW_ANSWER - 1) != HERNGANOW_REFUSED_ANSWER_LENGTH
        || hernganow_unsaved(sheet, sheet_length, f->x, unsaved, HERNGANOW_ANSWER - 1) != HERNGANOW_REFUSED_ANSWER_LENGTH)
        return 0;
    hernganow_desk(sheet, sheet_length, f->x, desk, sizeof desk);
    hernganow_unsaved(sheet, sheet_length, f->x, unsaved, sizeof unsaved);
    if (count < 2 || crc(sheet, sheet_length) != words[count - 1])
        return 0;
    if (words[0])
        return is_answer(desk, words, 1) && is_answer(unsaved, words, 1);
    if (closed) {
        const uint64_t none[] = {0, HERNGANOW_NONE, HERNGANOW_NONE}, refused[] = {HERNGANOW_REFUSED_DESK_CLOSED};
        return is_answer(desk, none, 3) && is_answer(unsaved, refused, 1);
    }
    const uint64_t open[] = {0, words[1], words[4]}, changes[] = {0, words[2], words[3]};
    return is_answer(desk, open, 3) && is_answer(unsaved, changes, 3);
}

/* The question of the settings is refused with 43 exactly where the slice is no settings sheet. */
static int is_settings_right(uint64_t holds)
{
    uint8_t answer[HERNGANOW_ANSWER];
    const uint64_t wanted[] = {0, holds};
    return hernganow_is_settings(settings, settings_length, answer, 0) == HERNGANOW_REFUSED_ANSWER_LENGTH
        && !hernganow_is_settings(settings, settings_length, answer, sizeof answer) && is_answer(answer, wanted, 2);
}

/* The numbers of a line. */
static size_t numbers_of(char *line, uint64_t *words, size_t most)
{
    size_t count = 0;
    for (char *word = strtok(line, " "); word && count < most; word = strtok(NULL, " "))
        words[count++] = strtoull(word, NULL, 10);
    return count;
}

/* A tape record's line tells its words, its fields where it has any (all but the tape type, which stands in the first word) and the crc of its samples. */
static int is_tape_right(const struct frame *f, char *line)
{
    uint64_t words[1 + TAPE_HEADER + 33 + 1] = {0}, origin[20] = {0}, reduction[16] = {0};
    uint16_t found[TAPE_HEADER + 1];
    uint8_t answer[HERNGANOW_ANSWER];
    size_t count = 0;
    for (char *word = strtok(line, " "); word && count < sizeof words / sizeof *words; word = strtok(NULL, " "))
        words[count++] = strcmp(word, "none") ? strtoull(word, NULL, 10) : HERNGANOW_NONE;
    const uint64_t *fields = words + 1 + TAPE_HEADER;
    int accepted = !words[0], tagged = count == sizeof words / sizeof *words;
    for (size_t i = 0; i <= TAPE_HEADER; i++)
        found[i] = FILLED_NUMBER;
    for (size_t i = 1; accepted && i < 20; i++)
        origin[i] = !tagged ? HERNGANOW_NONE : i < 3 ? fields[i - 1] : i == 3 ? words[1] >> 8 & 15 : fields[i - 2];
    for (size_t i = 1; accepted && i < 16; i++)
        reduction[i] = tagged ? fields[17 + i] : HERNGANOW_NONE;
    origin[0] = reduction[0] = words[0];
    if (!does_nothing(f) || make(f, answer, sizeof answer) != words[0] || !is_answer(answer, origin, 20))
        return 0;
    if (hernganow_tape_reduction(f->a, f->a_length, answer, 0) != HERNGANOW_REFUSED_ANSWER_LENGTH
        || hernganow_tape_samples(f->a, f->a_length, answer, 257) != HERNGANOW_REFUSED_ANSWER_LENGTH
        || hernganow_tape_words(f->a, f->a_length, found, TAPE_HEADER, answer, 255) != HERNGANOW_REFUSED_ANSWER_LENGTH || found[0] != FILLED_NUMBER)
        return 0;
    if (hernganow_tape_reduction(f->a, f->a_length, answer, sizeof answer) != words[0] || !is_answer(answer, reduction, 16))
        return 0;
    const uint64_t place[] = {0, accepted ? 56 : 0, accepted ? 5000 : 0}, lengths[] = {HERNGANOW_REFUSED_TAPE_LENGTHS};
    if (hernganow_tape_samples(f->a, f->a_length, answer, sizeof answer) || !is_answer(answer, place, 3))
        return 0;
    if (accepted && crc(f->a + place[1], (size_t)place[2]) != words[count - 1])
        return 0;
    for (size_t size = 0; size <= TAPE_HEADER + 1; size++)
        if (size != TAPE_HEADER
            && (hernganow_tape_words(f->a, f->a_length, found, size, answer, sizeof answer) != lengths[0] || !is_answer(answer, lengths, 1)))
            return 0;
    if (hernganow_tape_words(f->a, f->a_length, found, TAPE_HEADER, answer, sizeof answer) != words[0] || !is_answer(answer, words, 1))
        return 0;
    for (size_t i = 0; i < TAPE_HEADER; i++)
        if (found[i] != (accepted ? words[1 + i] : FILLED_NUMBER))
            return 0;
    return found[TAPE_HEADER] == FILLED_NUMBER;
}

/* A part's line tells its length and its bytes' crc. Where it starts is in the lines of `reference host`, which has it of every part. */
static int is_part_right(const struct frame *f, char *line)
{
    uint64_t words[2];
    uint8_t answer[HERNGANOW_ANSWER];
    if (numbers_of(line, words, 2) != 2 || !does_nothing(f) || make(f, answer, sizeof answer))
        return 0;
    uint64_t offset = hernganow_number(answer, HERNGANOW_AT_PART_OFFSET), length = hernganow_number(answer, HERNGANOW_AT_PART_LENGTH);
    const uint64_t wanted[] = {0, offset, words[0]};
    if (!is_answer(answer, wanted, 3) || offset > f->a_length || length > f->a_length - offset)
        return 0;
    return crc(f->a + offset, (size_t)length) == words[1];
}

/* A list's line tells the walk's four numbers, and then the four lists. */
static int is_list_right(const struct frame *f, char *line)
{
    const size_t lengths[4] = {f->x, f->y, f->z, f->w};
    uint64_t words[4 + 4 * MOST_COLUMN] = {0};
    uint8_t answer[HERNGANOW_ANSWER];
    size_t count = numbers_of(line, words, 4 + 4 * MOST_COLUMN), at = 4;
    if (count != 4 + lengths[0] + lengths[1] + lengths[2] + lengths[3])
        return 0;
    if (!does_nothing(f) || make(f, answer, sizeof answer))
        return 0;
    const uint64_t wanted[] = {0, words[0], words[1], words[2], words[3]};
    for (size_t i = 0; i < 4; at += lengths[i++])
        if (memcmp(columns[i], words + at, lengths[i] * sizeof *words))
            return 0;
    return is_answer(answer, wanted, 5);
}

/* A step's line ends in the place of the cursor; `done` stands for a record that is not there. */
static int is_step_right(const struct frame *f, char *line)
{
    uint64_t wanted[8] = {0};
    uint8_t answer[HERNGANOW_ANSWER];
    if (!strncmp(line, "done ", 5)) {
        for (size_t i = 1; i < 7; i++)
            wanted[i] = HERNGANOW_NONE;
        wanted[7] = strtoull(line + 5, NULL, 10);
    } else {
        size_t count = numbers_of(line, wanted, 8);
        uint64_t place = wanted[count - 1];
        wanted[count - 1] = 0;
        wanted[HERNGANOW_AT_STEP_NEXT] = place;
    }
    return does_nothing(f) && make(f, answer, sizeof answer) == wanted[0] && is_answer(answer, wanted, 8);
}

/* Whether the call of a frame answers as its line tells. */
static int is_right(struct frame *f, char *line)
{
    prepare(f);
    if (f->op == SECONDARY_PART || f->op == DATA_PART)
        return is_part_right(f, line);
    if (f->op == LIST_NUMBERS)
        return is_list_right(f, line);
    if (f->op == READ_TAPE)
        return is_tape_right(f, line);
    if (f->op == STEP)
        return is_step_right(f, line);
    uint8_t wanted[HERNGANOW_ANSWER];
    uint64_t sum = 0, list_sum = 0;
    if (f->op == DESK)
        return is_desk_right(f, line);
    told(line, f, wanted, &sum, &list_sum);
    if (!is_load(f->op)) {
        if (!does_nothing(f))
            return 0;
        uint8_t *answer = lend(ANSWER, HERNGANOW_ANSWER, FILLED);
        if (make(f, answer, HERNGANOW_ANSWER) != big_endian(wanted, 8) || memcmp(answer, wanted, sizeof wanted))
            return 0;
    }
    if (f->op == GAIN && !agrees(f, wanted))
        return 0;
    if (f->op == ASK && !is_settings_right(big_endian(wanted, 8) != HERNGANOW_REFUSED_NOT_SETTINGS))
        return 0;
    if (has_list(f->op) && crc_of_list(f->z) != list_sum)
        return 0;
    return !has_crc(f->op) || crc_of_lent(f) == sum;
}

/* The bytes of a word `x..` in hexadecimal. */
static size_t bytes_of(const char *word, uint8_t *bytes)
{
    size_t length = strlen(++word) / 2;
    for (size_t i = 0; i < length; i++) {
        char pair[3] = {word[2 * i], word[2 * i + 1], 0};
        bytes[i] = (uint8_t)strtoul(pair, NULL, 16);
    }
    return length;
}

/* The call of a line of `reference host`, by its name and arguments. */
static uint32_t make_named(const char *call, char **said, uint8_t *answer, size_t length)
{
    static uint8_t bytes[MOST_SHEET];
    uint64_t first = strtoull(said[0], NULL, 10);
    if (!strcmp(call, "secondary_part"))
        return hernganow_secondary_part(bytes, bytes_of(said[0], bytes), answer, length);
    if (!strcmp(call, "data_part"))
        return hernganow_data_part(bytes, bytes_of(said[0], bytes), answer, length);
    if (!strcmp(call, "most_records"))
        return hernganow_most_records(first, answer, length);
    if (!strcmp(call, "most_rsr_records"))
        return hernganow_most_rsr_records(first, answer, length);
    if (!strcmp(call, "day_count"))
        return hernganow_day_count((uint16_t)first, (uint16_t)strtoul(said[1], NULL, 10), answer, length);
    if (!strcmp(call, "key_valid"))
        return hernganow_key_valid(first, answer, length);
    fprintf(stderr, "calls: no call %s\n", call);
    exit(2);
}

/* A text of every length of slice: 61 and nothing written where it and its zero byte do not fit. */
static int is_text_right(uint32_t number, const char *text)
{
    uint8_t out[HERNGANOW_TEXT + 8], answer[HERNGANOW_ANSWER];
    size_t size = strlen(text);
    const uint64_t wanted[] = {0, size}, refused[] = {HERNGANOW_REFUSED_TEXT_SPACE};
    for (size_t length = 0; length <= sizeof out; length++) {
        int fits = length > size;
        memset(out, FILLED, sizeof out);
        if (hernganow_refusal_text(number, out, length, answer, HERNGANOW_ANSWER - 1) != HERNGANOW_REFUSED_ANSWER_LENGTH || out[0] != FILLED)
            return 0;
        if (hernganow_refusal_text(number, out, length, answer, sizeof answer) != (fits ? 0 : HERNGANOW_REFUSED_TEXT_SPACE))
            return 0;
        if (!is_answer(answer, fits ? wanted : refused, fits ? 2 : 1) || (fits && memcmp(out, text, size + 1)))
            return 0;
        for (size_t i = fits ? size + 1 : 0; i < sizeof out; i++)
            if (out[i] != FILLED)
                return 0;
    }
    return size < HERNGANOW_TEXT;
}

/* Whether a line of `reference host` tells what its call answers. */
static int is_line_right(char *line)
{
    char *said[4] = {0}, *call = strtok(line, " ");
    uint64_t wanted[HERNGANOW_ANSWER / 8] = {0};
    uint8_t answer[HERNGANOW_ANSWER + 8], filled[sizeof answer];
    size_t count = 0;
    for (char *word = strtok(NULL, " "); word && strcmp(word, "=") && strcmp(word, ":") && count < 4; word = strtok(NULL, " "))
        said[count++] = word;
    if (!strcmp(call, "refusal_text"))
        return is_text_right((uint32_t)strtoul(said[0], NULL, 10), strtok(NULL, ""));
    count = 0;
    for (char *word = strtok(NULL, " "); word && count < HERNGANOW_ANSWER / 8; word = strtok(NULL, " "))
        wanted[count++] = strtoull(word, NULL, 10);
    memset(answer, FILLED, sizeof answer);
    memset(filled, FILLED, sizeof filled);
    for (size_t length = 0; length < sizeof answer; length++)
        if (length != HERNGANOW_ANSWER
            && (make_named(call, said, answer, length) != HERNGANOW_REFUSED_ANSWER_LENGTH || memcmp(answer, filled, sizeof answer)))
            return 0;
    if (make_named(call, said, answer, HERNGANOW_ANSWER) != wanted[0] || memcmp(answer + HERNGANOW_ANSWER, filled, 8))
        return 0;
    return is_answer(answer, wanted, count);
}

/* Holds the calls of a file of lines that `reference host` writes. */
static int hold_lines(const char *path)
{
    size_t length, compared = 0;
    char *line = (char *)read_file(path, &length), *lines = line;
    for (char *end = strchr(line, '\n'); end; line = end + 1, end = strchr(line, '\n'), compared++) {
        *end = 0;
        char *copy = malloc(strlen(line) + 1);
        if (!copy)
            exit(2);
        strcpy(copy, line);
        if (!is_line_right(line)) {
            fprintf(stderr, "%s: not so: %s\n", path, copy);
            return 1;
        }
        free(copy);
    }
    printf("%zu calls compared\n", compared);
    free(lines);
    return 0;
}

int main(int count, char **words)
{
    if (count == 2)
        return hold_lines(words[1]);
    if (count != 3) {
        fputs("usage: calls SCRIPT LINES\n       calls CALLS\n"
              "Holds the exported calls of a call script to the lines that the reference writes for it,\n"
              "or the calls of a file that `reference host` writes to what it tells of them.\n", stderr);
        return 2;
    }
    make_rooms();
    sheet = lend(SHEET, sheet_length, 0);
    settings = lend(SETTINGS, settings_length, 0);
    size_t length, lines_length, compared = 0, number = 0;
    uint8_t *script = read_file(words[1], &length);
    char *line = (char *)read_file(words[2], &lines_length), *lines = line;
    for (size_t at = 0; at + FRAME <= length; number++) {
        const uint8_t *head = script + at;
        struct frame f = {
            (uint32_t)big_endian(head, 4), (uint32_t)big_endian(head + 4, 4), (uint32_t)big_endian(head + 8, 4),
            (uint32_t)big_endian(head + 12, 4), (uint32_t)big_endian(head + 16, 4), big_endian(head + 24, 8),
            head + FRAME, (size_t)big_endian(head + 32, 4), NULL, (size_t)big_endian(head + 36, 4)};
        f.b = f.a + f.a_length;
        at += FRAME + f.a_length + f.b_length;
        char *end = strchr(line, '\n');
        if (!end || at > length) {
            fprintf(stderr, "%s: ends before frame %zu of %s\n", words[end ? 1 : 2], number, words[1]);
            return 1;
        }
        *end = 0;
        if (is_exported(f.op)) {
            if (!is_right(&f, line)) {
                fprintf(stderr, "%s: the call of frame %zu, op %" PRIu32 ", does not answer as its line tells\n", words[1], number, f.op);
                return 1;
            }
            compared += !is_load(f.op);
        }
        line = end + 1;
    }
    printf("%zu calls compared\n", compared);
    free(script);
    free(lines);
    return 0;
}
