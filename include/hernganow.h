/* Hernganow's calls on records, samples, stream keys, dates, ledger sheets and mission agreements, for programs in C and C++. Compile and link
 * with what `pkg-config --cflags --libs hernganow` prints.
 *
 * Each call answers as the proved library's call does, whatever the bytes and numbers are; the season's alone leaves numbers out. The
 * caller sees to it that every pointer has as many bytes or numbers as its length says, that no two slices overlap, and that the stack has
 * room: HERNGANOW_STACK bytes are enough. A call returns 0, or the number of the refusal, and writes its answer, a refusal's too, into the last slice:
 * HERNGANOW_ANSWER bytes, 32 numbers of 8 bytes, most significant byte first. The first is the number that is returned; HERNGANOW_AT_..
 * name the others.
 * Each number of a none is HERNGANOW_NONE; numbers that the answer does not have are 0. A signed number is in two's complement.
 *
 * An answer's slice of another length is refused first, with 38: the call does nothing and writes nothing. Of the refusals in a
 * call's comment the first that applies is given; a refused call leaves the sheet as it was, but for 31.
 *
 * Nothing is kept between calls: a sheet may move, and different sheets may be worked on at the same time, but no two calls may use one
 * sheet at the same time. A pointer may be null where its length is 0. */
#ifndef HERNGANOW_H
#define HERNGANOW_H

#include <stddef.h>
#include <stdint.h>

#ifdef __cplusplus
extern "C" {
#endif

/* The version of this header: MAJOR.MINOR.PATCH, and as a number MAJOR * 1000000 + MINOR * 1000 + PATCH. A program that was built with one
 * version runs with every later one of the same MAJOR. */
#define HERNGANOW_VERSION "1.0.0"
#define HERNGANOW_VERSION_NUMBER 1000000

/* How many bytes an answer, a ledger sheet, a settings sheet, the slice for a refusal's text and a record of a tape have; how many words and samples that has; each
 * number of a none. */
#define HERNGANOW_ANSWER 256
#define HERNGANOW_SHEET 6968
#define HERNGANOW_SETTINGS 784
#define HERNGANOW_TEXT 200
#define HERNGANOW_TAPE_RECORD 5056
#define HERNGANOW_TAPE_WORDS 28
#define HERNGANOW_TAPE_SAMPLES 5000
#define HERNGANOW_NONE UINT64_MAX

/* How many bytes of stack a call takes at most. */
#define HERNGANOW_STACK 24576

/* What a call returns: 0, or the number of a refusal. */
enum hernganow_refusal {
    HERNGANOW_ACCEPTED = 0,
    /* Records: the reader. */
    HERNGANOW_REFUSED_TOO_SHORT = 1, /* under 20 bytes: no label */
    HERNGANOW_REFUSED_AUTHORITY = 2, /* bytes 0 to 3 are not NJPL */
    HERNGANOW_REFUSED_VERSION_CLASS = 3, /* bytes 4 to 7 are not 2I00 */
    HERNGANOW_REFUSED_UNKNOWN_KIND = 4, /* bytes 8 to 11 name no kind that is read here */
    HERNGANOW_REFUSED_LABEL_LENGTH = 5, /* the label's length is not one that the kind can have */
    HERNGANOW_REFUSED_TRUNCATED = 6, /* fewer bytes are there than the label says */
    HERNGANOW_REFUSED_AGGREGATION_LABEL = 7, /* the aggregation block's type or length is wrong */
    HERNGANOW_REFUSED_PRIMARY_LABEL = 8, /* the primary block's type or length is wrong */
    HERNGANOW_REFUSED_SECONDARY_LABEL = 9, /* the secondary block's type or length is wrong */
    HERNGANOW_REFUSED_DATA_TYPE = 10, /* the data block's type is not 10 */
    HERNGANOW_REFUSED_DATA_LENGTH = 11, /* the data block's length is not what the label leaves */
    HERNGANOW_REFUSED_WRONG_KIND = 15, /* the record is not of the kind asked for, or that is neither 1 nor 2 */
    HERNGANOW_REFUSED_FIELD_RANGE = 12, /* a field is out of its range */
    /* Records: samples. */
    HERNGANOW_REFUSED_SAMPLE_PAIR = 19, /* the sample size and rate are not a listed pair */
    HERNGANOW_REFUSED_SAMPLE_WORDS = 34, /* the samples do not fill whole words of 4 bytes */
    HERNGANOW_REFUSED_SAMPLE_VALUE = 37, /* a sample is even, or 2^size or more away from zero */
    HERNGANOW_REFUSED_SAMPLE_SPACE = 35, /* the lent list or slice is shorter than what would be written */
    /* Records: the writer, lists, the listing program. */
    HERNGANOW_REFUSED_WRITER_INPUT = 14, /* the kind, the secondary value's length or the data's length is none that a record has */
    HERNGANOW_REFUSED_WRITER_SPACE = 13, /* the slice to write into is shorter than the record */
    HERNGANOW_REFUSED_LIST_FULL = 16, /* a whole record stands at the stop place, and no entry is free */
    HERNGANOW_REFUSED_BUFFER_SIZE = 17, /* the record is over 65,536 bytes, more than the program's buffer */
    /* The ledger. */
    HERNGANOW_REFUSED_NOT_SHEET = 20, /* not a right ledger sheet */
    HERNGANOW_REFUSED_NO_DESK = 21, /* the desk is not 0 to 7 */
    HERNGANOW_REFUSED_BAD_KEY = 22, /* the key is not valid, or a number is too wide for its field in a key */
    HERNGANOW_REFUSED_FIRST_NUMBER = 32, /* the first number is none of the stream's */
    HERNGANOW_REFUSED_ALREADY_ENROLLED = 23, /* the stream has a row already */
    HERNGANOW_REFUSED_LEDGER_FULL = 24, /* all 32 rows are used */
    HERNGANOW_REFUSED_NO_ROW = 25, /* there is no such row, or none with that key */
    HERNGANOW_REFUSED_DESK_OPEN = 26, /* the desk has a row open */
    HERNGANOW_REFUSED_DESK_CLOSED = 27, /* the desk has no row open */
    HERNGANOW_REFUSED_OUTSIDE_ROW = 28, /* the number is in no position of the row */
    HERNGANOW_REFUSED_ALREADY_TICKED = 29, /* the number is ticked already */
    HERNGANOW_REFUSED_NOT_TICKED = 30, /* the number is not ticked */
    HERNGANOW_REFUSED_STALE = 31, /* the row is no longer what the desk opened: another desk saved it since */
    HERNGANOW_REFUSED_ROW_OPEN = 36, /* a desk has the row open */
    HERNGANOW_REFUSED_MISSING_SPACE = 60, /* the lent list is shorter than the row's missing numbers */
    /* Traces and seasons. */
    HERNGANOW_REFUSED_NOT_TRACE = 40, /* not a trace */
    HERNGANOW_REFUSED_SEASON_LENGTH = 42, /* not a whole number of sheets, or more than 16 */
    HERNGANOW_REFUSED_KEY_IN_TWO_SHEETS = 41, /* a stream has a row in two sheets of the season */
    /* Dates. */
    HERNGANOW_REFUSED_DAY_COUNT = 33, /* the day count is past the last day of 3000 */
    /* Medium band tapes. */
    HERNGANOW_REFUSED_TAPE_LENGTHS = 50, /* a tape's record is not 5,056 bytes, its words not 28, or its samples not 5,000 */
    HERNGANOW_REFUSED_TAPE_LENGTH_WORD = 51, /* a tape record's length word is not 2528 */
    HERNGANOW_REFUSED_TAPE_TIME = 52, /* a tape record's time tag is no time */
    HERNGANOW_REFUSED_TAPE_RATE = 53, /* a tape record's rate has a code that is not listed */
    HERNGANOW_REFUSED_TAPE_BLOCK = 54, /* a tape record's stored block size is zero or positive */
    /* Mission agreements. */
    HERNGANOW_REFUSED_NOT_SETTINGS = 43, /* not a right settings sheet */
    HERNGANOW_REFUSED_UNKNOWN_EDITION = 44, /* the edition is neither 1 nor 2 */
    HERNGANOW_REFUSED_ALREADY_SET = 45, /* the mission has a setting from that day */
    HERNGANOW_REFUSED_SETTINGS_FULL = 46, /* all 64 places are used */
    HERNGANOW_REFUSED_NO_SETTING = 47, /* the mission has no setting that is old enough */
    /* Calls from C. */
    HERNGANOW_REFUSED_ANSWER_LENGTH = 38, /* the answer's slice is not 256 bytes: nothing was done or written */
    HERNGANOW_REFUSED_TEXT_SPACE = 61 /* the lent slice is too short for the text and its zero byte */
};

/* The index of each number of an answer. */
enum hernganow_at {
    /* The number that is returned. */
    HERNGANOW_AT_REFUSAL = 0,
    /* The second number of a record's refusal: an offset, or a count of bytes. */
    HERNGANOW_AT_FAULT = 1,
    /* A key; the row that was enrolled or found. */
    HERNGANOW_AT_KEY = 1,
    HERNGANOW_AT_ROW = 1,
    /* A key's parts: its kind and its four numbers. */
    HERNGANOW_AT_PARTS_KIND = 1,
    HERNGANOW_AT_PARTS_SPACECRAFT = 2,
    HERNGANOW_AT_PARTS_SOURCE = 3,
    HERNGANOW_AT_PARTS_EQUIPMENT = 4,
    HERNGANOW_AT_PARTS_STREAM = 5,
    HERNGANOW_AT_PARTS_STATION = 3,
    HERNGANOW_AT_PARTS_RECEIVER = 4,
    HERNGANOW_AT_PARTS_SUBCHANNEL = 5,
    /* Whether a key is one that a stream can have. */
    HERNGANOW_AT_KEY_VALID = 1,
    /* A day count. */
    HERNGANOW_AT_DAY_COUNT = 1,
    /* A date. */
    HERNGANOW_AT_DATE_YEAR = 1,
    HERNGANOW_AT_DATE_DAY = 2,
    /* A row report. */
    HERNGANOW_AT_TICKED = 1,
    HERNGANOW_AT_MISSING = 2,
    HERNGANOW_AT_LOWEST = 3,
    /* Whether a slice is a sheet. */
    HERNGANOW_AT_IS_SHEET = 1,
    /* A row's stream. */
    HERNGANOW_AT_ROW_KEY = 1,
    HERNGANOW_AT_ROW_FIRST = 2,
    /* A desk. */
    HERNGANOW_AT_DESK_ROW = 1,
    HERNGANOW_AT_DESK_STALE = 2,
    /* What a desk has not saved. */
    HERNGANOW_AT_UNSAVED_TICKS = 1,
    HERNGANOW_AT_UNSAVED_UNTICKS = 2,
    /* The answer of receive. */
    HERNGANOW_AT_RECEIVED_COUNT = 1,
    HERNGANOW_AT_RECEIVED_PLACE = 2,
    HERNGANOW_AT_RECEIVED_STOP = 3,
    HERNGANOW_AT_RECEIVED_SECOND = 4,
    HERNGANOW_AT_RECEIVED_TICKED = 5,
    /* The first gap. */
    HERNGANOW_AT_GAP_NUMBER = 1,
    HERNGANOW_AT_GAP_ROW = 2,
    /* A replay: the first entry that differs, and what its call answered. */
    HERNGANOW_AT_ENTRY = 1,
    HERNGANOW_AT_ENTRY_NUMBER = 2,
    HERNGANOW_AT_ENTRY_ROW = 3,
    /* A season. */
    HERNGANOW_AT_SEASON_SHEETS = 1,
    HERNGANOW_AT_SEASON_TICKED = 2,
    HERNGANOW_AT_SEASON_MISSING = 3,
    HERNGANOW_AT_SEASON_PER_MILLION = 4,
    HERNGANOW_AT_SEASON_GAP_SHEET = 5,
    HERNGANOW_AT_SEASON_GAP_ROW = 6,
    HERNGANOW_AT_SEASON_GAP_NUMBER = 7,
    /* A setting. */
    HERNGANOW_AT_SETTING_EDITION = 1,
    HERNGANOW_AT_SETTING_DAY = 2,
    HERNGANOW_AT_SETTING_FRAME = 3,
    /* Whether a slice is a settings sheet. */
    HERNGANOW_AT_IS_SETTINGS = 1,
    /* A gain multiplier. */
    HERNGANOW_AT_GAIN = 1,
    /* How many samples or bytes were written; how many numbers are missing; how many records there can be. */
    HERNGANOW_AT_COUNT = 1,
    /* How many bytes a refusal's text has before its zero byte. */
    HERNGANOW_AT_TEXT_LENGTH = 1,
    /* A part of a record: where it starts in the slice, and how many bytes it has. */
    HERNGANOW_AT_PART_OFFSET = 1,
    HERNGANOW_AT_PART_LENGTH = 2,
    /* A walk or a list: how many records, where it stopped, why there (0 at the stream's end, else a refusal's number), and the number that
     * goes with that. */
    HERNGANOW_AT_WALK_COUNT = 1,
    HERNGANOW_AT_WALK_PLACE = 2,
    HERNGANOW_AT_WALK_STOP = 3,
    HERNGANOW_AT_WALK_SECOND = 4,
    /* Read headers, both kinds. */
    HERNGANOW_AT_KIND = 1,
    HERNGANOW_AT_SIZE = 2,
    HERNGANOW_AT_MAJOR = 3,
    HERNGANOW_AT_MINOR = 4,
    HERNGANOW_AT_MISSION = 5,
    HERNGANOW_AT_FORMAT = 6,
    /* A step, behind what reading one record gives: the place where the cursor stands then. */
    HERNGANOW_AT_STEP_NEXT = 7,
    /* Read headers, a telemetry record. */
    HERNGANOW_AT_TELEMETRY_SPACECRAFT = 7,
    HERNGANOW_AT_TELEMETRY_SOURCE = 8,
    HERNGANOW_AT_TELEMETRY_RECEIVED = 9,
    HERNGANOW_AT_TELEMETRY_NUMBER = 10,
    HERNGANOW_AT_TELEMETRY_UPLINK = 11,
    HERNGANOW_AT_TELEMETRY_MODE = 12,
    HERNGANOW_AT_TELEMETRY_STREAM = 13,
    HERNGANOW_AT_TELEMETRY_EQUIPMENT = 14,
    HERNGANOW_AT_TELEMETRY_KEY = 15,
    HERNGANOW_AT_TELEMETRY_DAYS = 16,
    HERNGANOW_AT_TELEMETRY_MILLISECONDS = 17,
    HERNGANOW_AT_TELEMETRY_EXTENDED = 18,
    /* Read headers, an RSR record. */
    HERNGANOW_AT_RSR_SOFTWARE = 7,
    HERNGANOW_AT_RSR_NUMBER = 8,
    HERNGANOW_AT_RSR_COMPLEX = 9,
    HERNGANOW_AT_RSR_STATION = 10,
    HERNGANOW_AT_RSR_RECEIVER = 11,
    HERNGANOW_AT_RSR_SUBCHANNEL = 12,
    HERNGANOW_AT_RSR_SPACECRAFT = 13,
    HERNGANOW_AT_RSR_PASS = 14,
    HERNGANOW_AT_RSR_UPLINK = 15,
    HERNGANOW_AT_RSR_DOWNLINK = 16,
    HERNGANOW_AT_RSR_MODE = 17,
    HERNGANOW_AT_RSR_UPLINK_STATION = 18,
    HERNGANOW_AT_RSR_EXPECTED = 19,
    HERNGANOW_AT_RSR_BANDWIDTH = 20,
    HERNGANOW_AT_RSR_OVERRIDDEN = 21,
    HERNGANOW_AT_RSR_ATTENUATION = 22,
    HERNGANOW_AT_RSR_RMS = 23,
    HERNGANOW_AT_RSR_PEAK = 24,
    HERNGANOW_AT_RSR_YEAR = 25,
    HERNGANOW_AT_RSR_DAY = 26,
    HERNGANOW_AT_RSR_FREQUENCY = 27,
    HERNGANOW_AT_RSR_KEY = 28,
    HERNGANOW_AT_RSR_DAY_COUNT = 29,
    /* A medium band record: where it comes from, its time tag, the recorder. */
    HERNGANOW_AT_TAPE_FIRST = 1,
    HERNGANOW_AT_TAPE_SOURCE_ERROR = 2,
    HERNGANOW_AT_TAPE_TYPE = 3,
    HERNGANOW_AT_TAPE_TAPE = 4,
    HERNGANOW_AT_TAPE_NUMBER = 5,
    HERNGANOW_AT_TAPE_SPACECRAFT = 6,
    HERNGANOW_AT_TAPE_STATION = 7,
    HERNGANOW_AT_TAPE_DRA_TAPE = 8,
    HERNGANOW_AT_TAPE_DAY = 9,
    HERNGANOW_AT_TAPE_HOUR = 10,
    HERNGANOW_AT_TAPE_MINUTE = 11,
    HERNGANOW_AT_TAPE_SECOND = 12,
    HERNGANOW_AT_TAPE_MICROS = 13,
    HERNGANOW_AT_TAPE_INPUT = 14,
    HERNGANOW_AT_TAPE_PPS_ABSENT = 15,
    HERNGANOW_AT_TAPE_CLOCK_UNSYNCED = 16,
    HERNGANOW_AT_TAPE_RECORDER_B = 17,
    HERNGANOW_AT_TAPE_MICROS_ABNORMAL = 18,
    HERNGANOW_AT_TAPE_TRACK_SYNCED = 19,
    /* How it was reduced, and how many samples it has. */
    HERNGANOW_AT_TAPE_PLAYBACK = 1,
    HERNGANOW_AT_TAPE_SAMPLING = 2,
    HERNGANOW_AT_TAPE_BYPASS = 3,
    HERNGANOW_AT_TAPE_DECIMATION = 4,
    HERNGANOW_AT_TAPE_PPS_TRACK = 5,
    HERNGANOW_AT_TAPE_TIME_TRACK = 6,
    HERNGANOW_AT_TAPE_CHANNEL = 7,
    HERNGANOW_AT_TAPE_BLOCK = 8,
    HERNGANOW_AT_TAPE_REDUCED_DAY = 9,
    HERNGANOW_AT_TAPE_REDUCED_SECOND = 10,
    HERNGANOW_AT_TAPE_OVERFLOW = 11,
    HERNGANOW_AT_TAPE_PPS_UNSYNCED = 12,
    HERNGANOW_AT_TAPE_BIT_SLIP = 13,
    HERNGANOW_AT_TAPE_COUNTER = 14,
    HERNGANOW_AT_TAPE_COUNT = 15
};

/* The number of an answer at a place, HERNGANOW_AT_... */
static inline uint64_t hernganow_number(const uint8_t *answer, int at)
{
    uint64_t number = 0;
    for (size_t i = 0; i < 8; i++)
        number = number << 8 | answer[8 * (size_t)at + i];
    return number;
}

/* The same for a number that is signed. */
static inline int64_t hernganow_signed_number(const uint8_t *answer, int at)
{
    uint64_t number = hernganow_number(answer, at);
    return number <= INT64_MAX ? (int64_t)number : -(int64_t)(UINT64_MAX - number) - 1;
}

/* The version of the library that the program runs with, in the form of HERNGANOW_VERSION. */
const char *hernganow_version(void);

/* ---- Refusals in words */

/* The text of a refusal's number, ended by a zero byte, at the start of the slice `out`; a number that no refusal has says so. Answers how
 * many bytes the text has before its zero byte; the rest of the slice stays. HERNGANOW_TEXT bytes are always enough.
 * Refused: 61, where the slice is too short for both: nothing is written into it. */
uint32_t hernganow_refusal_text(
    uint32_t number,
    uint8_t *out, size_t out_length,
    uint8_t *answer, size_t answer_length);

/* ---- Records */

/* Reads the first record of the slice; bytes after it do not matter. Answers the kind (1 telemetry, 2 RSR), the record's length and the four
 * primary values. Refused: 1 to 11. HERNGANOW_AT_FAULT is the offset of the wrong field's first byte; for 1 and 6, how many bytes the slice has. */
uint32_t hernganow_read_one(
    const uint8_t *record, size_t record_length,
    uint8_t *answer, size_t answer_length);

/* Where the value of the secondary block of the first record lies in the slice, and that of the data block. Answers the offset from the slice's start
 * and the length: both 0 where read one refuses the record. */
uint32_t hernganow_secondary_part(const uint8_t *record, size_t record_length, uint8_t *answer, size_t answer_length);

uint32_t hernganow_data_part(const uint8_t *record, size_t record_length, uint8_t *answer, size_t answer_length);

/* Writes a record at the start of the slice `out`: its kind (1 telemetry, 2 RSR), the four primary values, the value of its secondary
 * block (80 bytes of telemetry, 220 of RSR) and of its data block (at most 65,535). No field is judged. A primary value is 0 to 255: C
 * cuts a wider number down to that. Answers how many bytes were written; the rest of the slice stays, and all of it where the call is
 * refused. Refused: 14, 13. */
uint32_t hernganow_write_one(
    uint32_t kind, uint8_t major, uint8_t minor, uint8_t mission, uint8_t format,
    const uint8_t *secondary, size_t secondary_length,
    const uint8_t *value, size_t value_length,
    uint8_t *out, size_t out_length,
    uint8_t *answer, size_t answer_length);

/* The header fields of the record that the slice begins with, which has to be of the wanted kind: 1 telemetry, 2 RSR. Answers the kind,
 * the record's length, the primary block's four numbers, the fields, the stream key; then, of telemetry, the received time in its three
 * parts, of RSR, the day count of its year and day. HERNGANOW_AT_TELEMETRY_UPLINK may be none; HERNGANOW_AT_RSR_EXPECTED is signed; bands
 * are the ASCII codes of their letters; HERNGANOW_AT_TELEMETRY_RECEIVED and HERNGANOW_AT_RSR_FREQUENCY are the field's eight bytes as
 * they stand, as one number. Refused: 1 to 11, 15 (also where wanted is neither 1 nor 2), 12, in this order; but for 15,
 * HERNGANOW_AT_FAULT is the offset of the wrong field from the record's start (1 and 6: how many bytes there were). */
uint32_t hernganow_read_headers(
    const uint8_t *record, size_t record_length,
    uint32_t wanted,
    uint8_t *answer, size_t answer_length);

/* The gain multiplier of the first record of the slice, which must be RSR, for an edition: 1 old, 2 new. Answers the multiplier's four bytes, which
 * are those of a float, as one number; none in edition 1.
 * Refused: as read headers for kind 2, with the same HERNGANOW_AT_FAULT; 44. */
uint32_t hernganow_gain(
    const uint8_t *record, size_t record_length,
    uint32_t edition,
    uint8_t *answer, size_t answer_length);

/* The same, for the edition that the settings sheet has for the record's mission on the record's day.
 * Refused: as read headers for kind 2, with the same HERNGANOW_AT_FAULT; 43, 47. */
uint32_t hernganow_agreed_gain(
    const uint8_t *settings, size_t settings_length,
    const uint8_t *record, size_t record_length,
    uint8_t *answer, size_t answer_length);

/* ---- Streams: records back to back */

/* The record at a place of the stream, counted in bytes from its start. Answers what read one answers of the record, and at
 * HERNGANOW_AT_STEP_NEXT the place past it; at or past the stream's end each number of a record is a none, and the place stays. Refused:
 * read one's 1 to 11, with HERNGANOW_AT_FAULT from the record's start; the place stays. */
uint32_t hernganow_step(
    const uint8_t *stream, size_t stream_length,
    uint64_t place,
    uint8_t *answer, size_t answer_length);

/* Walks over the whole records from the stream's start. Answers how many there are, the place where the walk stops, why it stops there (0
 * at the stream's end, else the refusal of the record there, 1 to 11) and the number that goes with it: for 1 and 6 how many bytes there
 * were, else the offset of the wrong field from the stream's start. */
uint32_t hernganow_walk(const uint8_t *stream, size_t stream_length, uint8_t *answer, size_t answer_length);

/* Walks as hernganow_walk does, and writes each record's place, length, kind and record number at the same index of the four lists. The
 * shortest list counts: where it is full and another whole record stands, the walk stops with 16. What lies behind the count stays. */
uint32_t hernganow_list_numbers(
    const uint8_t *stream, size_t stream_length,
    uint64_t *places, size_t places_length,
    uint64_t *lengths, size_t lengths_length,
    uint64_t *kinds, size_t kinds_length,
    uint64_t *numbers, size_t numbers_length,
    uint8_t *answer, size_t answer_length);

/* The most whole records that a stream of so many bytes can hold, and the most where all are RSR. Lists of that length are never full. */
uint32_t hernganow_most_records(uint64_t bytes, uint8_t *answer, size_t answer_length);

uint32_t hernganow_most_rsr_records(uint64_t bytes, uint8_t *answer, size_t answer_length);

/* ---- Samples: a list's length is how many numbers it has */

/* Unpacks the samples of the first record of the slice, which must be RSR, to the start of the list: the in-phase number and the quadrature number
 * in turn. Code k stands for 2k + 1, so each number is odd. A list of 8 numbers for each byte of the record is long enough. Answers how many numbers
 * were written. The rest of the list is unchanged; a refusal leaves all of it unchanged.
 * Refused: as read headers for kind 2, with the same HERNGANOW_AT_FAULT; 19, 34, 35. */
uint32_t hernganow_unpack(
    const uint8_t *record, size_t record_length,
    int32_t *list, size_t list_length,
    uint8_t *answer, size_t answer_length);

/* Packs samples, in the order that unpacking gives, of a size in bits and a rate in thousands a second, into a data part at the start of
 * the slice. Answers how many bytes were written; the rest of the slice stays, and all of it where the call is refused.
 * Refused: 19, 34, 37, 35. */
uint32_t hernganow_pack(
    uint32_t size, uint32_t rate,
    const int32_t *samples, size_t samples_length,
    uint8_t *out, size_t out_length,
    uint8_t *answer, size_t answer_length);

/* ---- Medium band tapes: a record has HERNGANOW_TAPE_RECORD bytes, HERNGANOW_TAPE_WORDS header words of 16 bits and
 * HERNGANOW_TAPE_SAMPLES samples of a byte */

/* The fields of a record; docs/INTERFACE.md says what each is, flags are 0 or 1. They are more than an answer has numbers:
 * hernganow_tape_read answers where the record comes from, its time tag and the recorder (HERNGANOW_AT_TAPE_FIRST to _TRACK_SYNCED),
 * hernganow_tape_reduction how it was reduced and how many samples it has (HERNGANOW_AT_TAPE_PLAYBACK to _COUNT, which is none where it
 * is not known). Where the time tag is not valid each field is a none. Refused, both alike: 50, 51, 52, 53, 54. */
uint32_t hernganow_tape_read(const uint8_t *record, size_t record_length, uint8_t *answer, size_t answer_length);

uint32_t hernganow_tape_reduction(const uint8_t *record, size_t record_length, uint8_t *answer, size_t answer_length);

/* The header words of a record, in a list of HERNGANOW_TAPE_WORDS; all of it stays where the call is refused. Refused: 50, 51, 52, 53, 54. */
uint32_t hernganow_tape_words(
    const uint8_t *record, size_t record_length,
    uint16_t *list, size_t list_length,
    uint8_t *answer, size_t answer_length);

/* Where the samples lie in the record. Answers the offset and the length: both 0 where hernganow_tape_read refuses the record. */
uint32_t hernganow_tape_samples(const uint8_t *record, size_t record_length, uint8_t *answer, size_t answer_length);

/* Writes the record of these header words and samples; the slice `out` is HERNGANOW_TAPE_RECORD bytes, and stays as it was where the call is refused.
 * Refused: 50, 51, 52, 53, 54. */
uint32_t hernganow_tape_write(
    const uint16_t *words, size_t words_length,
    const uint8_t *samples, size_t samples_length,
    uint8_t *out, size_t out_length,
    uint8_t *answer, size_t answer_length);

/* ---- Stream keys */

/* The key of a telemetry stream. Answers the key. Refused: 22. */
uint32_t hernganow_telemetry_key(
    uint32_t spacecraft, uint32_t source, uint32_t equipment, uint32_t stream,
    uint8_t *answer, size_t answer_length);

/* The key of an RSR stream. Answers the key. Refused: 22. */
uint32_t hernganow_rsr_key(
    uint32_t spacecraft, uint32_t station, uint32_t receiver, uint32_t subchannel,
    uint8_t *answer, size_t answer_length);

/* The parts of a key. Answers the kind (1 telemetry, 2 RSR) and the four numbers, in the order of the call that makes the key. Refused: 22. */
uint32_t hernganow_parts(uint64_t key, uint8_t *answer, size_t answer_length);

/* Whether a key is one that a stream can have. Answers 1 or 0. */
uint32_t hernganow_key_valid(uint64_t key, uint8_t *answer, size_t answer_length);

/* ---- Dates */

/* The count of days from 1 January 1900, which is 0, to a day of a year, which counts from 1. Answers the count: none where they are no
 * date of the years 1900 to 3000. Year and day are 0 to 65,535: C cuts a wider number down to that. */
uint32_t hernganow_day_count(uint16_t year, uint16_t day, uint8_t *answer, size_t answer_length);

/* The date of a count of days from 1 January 1900. Answers the year and the day of the year. Refused: 33. */
uint32_t hernganow_date(uint32_t count, uint8_t *answer, size_t answer_length);

/* ---- The ledger sheet */

/* Makes the slice a fresh sheet, whatever it held. Refused: 20, for the length only. */
uint32_t hernganow_fresh(uint8_t *sheet, size_t sheet_length, uint8_t *answer, size_t answer_length);

/* Enrols a stream in the lowest free row, with no ticks. Answers the row. Refused: 20, 22, 32, 23, 24. */
uint32_t hernganow_enrol(
    uint8_t *sheet, size_t sheet_length,
    uint64_t key, uint32_t first,
    uint8_t *answer, size_t answer_length);

/* Finds a stream. Answers its row. Refused: 20, 22, 25. */
uint32_t hernganow_find(
    const uint8_t *sheet, size_t sheet_length,
    uint64_t key,
    uint8_t *answer, size_t answer_length);

/* Opens a row at a desk. Refused: 20, 21, 25, 26. */
uint32_t hernganow_open(
    uint8_t *sheet, size_t sheet_length,
    uint32_t desk, uint32_t row,
    uint8_t *answer, size_t answer_length);

/* Ticks a number in the desk's worked copy. Refused: 20, 21, 27, 28, 29. */
uint32_t hernganow_tick(
    uint8_t *sheet, size_t sheet_length,
    uint32_t desk, uint32_t number,
    uint8_t *answer, size_t answer_length);

/* Unticks a number in the desk's worked copy. Refused: 20, 21, 27, 28, 30. */
uint32_t hernganow_untick(
    uint8_t *sheet, size_t sheet_length,
    uint32_t desk, uint32_t number,
    uint8_t *answer, size_t answer_length);

/* Saves the desk's worked copy, and closes the desk. Refused: 20, 21, 27, 31. 31 closes the desk too: open the row again and tick again. */
uint32_t hernganow_save(
    uint8_t *sheet, size_t sheet_length,
    uint32_t desk,
    uint8_t *answer, size_t answer_length);

/* Closes the desk without saving. Refused: 20, 21, 27. */
uint32_t hernganow_drop(
    uint8_t *sheet, size_t sheet_length,
    uint32_t desk,
    uint8_t *answer, size_t answer_length);

/* Strikes a row: its place is free again. Refused: 20, 25, 36. */
uint32_t hernganow_strike(
    uint8_t *sheet, size_t sheet_length,
    uint32_t row,
    uint8_t *answer, size_t answer_length);

/* Reports on a row. Answers how many numbers are ticked, how many are missing, and the number at the
 * lowest missing position, or none. Refused: 20, 25. */
uint32_t hernganow_row_report(
    const uint8_t *sheet, size_t sheet_length,
    uint32_t row,
    uint8_t *answer, size_t answer_length);

/* Finds the first gap. Answers the number and its row, or none: both all ones. Refused: 20. */
uint32_t hernganow_first_gap(
    const uint8_t *sheet, size_t sheet_length,
    uint8_t *answer, size_t answer_length);

/* Whether the slice is a ledger sheet. Answers 1 or 0. */
uint32_t hernganow_is_sheet(const uint8_t *sheet, size_t sheet_length, uint8_t *answer, size_t answer_length);

/* The stream of a row. Answers its key and its first number. Refused: 20, 25. */
uint32_t hernganow_row(
    const uint8_t *sheet, size_t sheet_length,
    uint32_t row,
    uint8_t *answer, size_t answer_length);

/* The state of a desk. Answers its row, and 1 if a save would be stale now, else 0; both are HERNGANOW_NONE if the desk is closed. Refused: 20, 21. */
uint32_t hernganow_desk(
    const uint8_t *sheet, size_t sheet_length,
    uint32_t desk,
    uint8_t *answer, size_t answer_length);

/* What a desk has not saved. Answers how many ticks and how many unticks. Refused: 20, 21, 27. */
uint32_t hernganow_unsaved(
    const uint8_t *sheet, size_t sheet_length,
    uint32_t desk,
    uint8_t *answer, size_t answer_length);

/* Writes the missing numbers of a row to the start of the list, in the order of their positions. The rest of the list is unchanged; a refusal leaves
 * all of it unchanged. A list of 1,023 numbers is always long enough. Answers how many are missing. Refused: 20, 25, 60. */
uint32_t hernganow_missing_numbers(
    const uint8_t *sheet, size_t sheet_length,
    uint32_t row,
    uint32_t *list, size_t list_length,
    uint8_t *answer, size_t answer_length);

/* Receives a stream at a desk that has no row open. For each whole record the desk finds its row, opens it, ticks the record's number and saves. It
 * writes the record's outcome into the list: 0 ticked, 12 a field is out of range, 25 no row has its key, 28 outside the row, 29 ticked already. The
 * desk is closed at the end. Answers how many records it handled, where the walk stopped, why (0 at the stream's end, 16 if the list is full, else the
 * refusal of the record there) with its second number, and how many records were ticked. Refused: 20, 21, 26. */
uint32_t hernganow_receive(
    uint8_t *sheet, size_t sheet_length,
    uint32_t desk,
    const uint8_t *stream, size_t stream_length,
    uint32_t *list, size_t list_length,
    uint8_t *answer, size_t answer_length);

/* Makes a new sheet in the slice from an old one of 6,776 bytes. Rows keep their places, and open desks stay open.
 * Refused: 20, if the old sheet is not right or the slice does not have HERNGANOW_SHEET bytes. */
uint32_t hernganow_convert(
    const uint8_t *old, size_t old_length,
    uint8_t *sheet, size_t sheet_length,
    uint8_t *answer, size_t answer_length);

/* ---- Traces */

/* Makes the slice a fresh sheet, whatever it held, and replays the calls of a trace over it, up to the first whose answer differs from the trace's.
 * Answers that entry, counted from 0, the number that its call answered, and enrol's row or 0. If no answer differs, all three are HERNGANOW_NONE. The
 * sheet is left as after that entry's call, or after the last call. docs/INTERFACE.md has the layout of a trace.
 * Refused: 20, if the slice does not have HERNGANOW_SHEET bytes; 40, if the trace is not well-formed. A refusal leaves the slice unchanged. */
uint32_t hernganow_replay(
    const uint8_t *trace, size_t trace_length,
    uint8_t *sheet, size_t sheet_length,
    uint8_t *answer, size_t answer_length);

/* Replays the trace over the sheet as it is. A long log can be replayed in pieces with it. Answers as replay does.
 * Refused: 20, if the slice is not a ledger sheet; 40. */
uint32_t hernganow_replay_on(
    const uint8_t *trace, size_t trace_length,
    uint8_t *sheet, size_t sheet_length,
    uint8_t *answer, size_t answer_length);

/* ---- The season */

/* Reports on up to 16 sheets, one after another, in all. Answers how many sheets there are, how many numbers are ticked, how many are missing, how
 * many of a million of both are missing, rounded down (0 if both are 0), and the first gap: the sheet, counted from 0, its row, the number; or all
 * three HERNGANOW_NONE. For the counts of one sheet, lend that sheet alone.
 * Refused: 42 for the length, 20 if a sheet is not right, 41. */
uint32_t hernganow_season(const uint8_t *sheets, size_t sheets_length, uint8_t *answer, size_t answer_length);

/* ---- Mission agreements: a settings sheet has HERNGANOW_SETTINGS bytes */

/* Makes the slice an empty settings sheet, whatever it held. Refused: 43, for the length only. */
uint32_t hernganow_settings_make_empty(uint8_t *settings, size_t settings_length, uint8_t *answer, size_t answer_length);

/* Whether the slice is a settings sheet. Answers 1 or 0. */
uint32_t hernganow_is_settings(const uint8_t *settings, size_t settings_length, uint8_t *answer, size_t answer_length);

/* Adds a setting: from the first day on, the mission has this edition (1 old, 2 new) and frame length. The day is a day count as in hernganow_date. A
 * mission is 0 to 255; C cuts a larger number down to 8 bits. Refused: 43, 44, 45, 46. */
uint32_t hernganow_settings_add(
    uint8_t *settings, size_t settings_length,
    uint8_t mission, uint32_t edition, uint32_t day, uint32_t frame,
    uint8_t *answer, size_t answer_length);

/* The setting of a mission on a day: the one with the latest first day on or before it. Answers its edition, first day and frame length.
 * Refused: 43, 47. */
uint32_t hernganow_settings_ask(
    const uint8_t *settings, size_t settings_length,
    uint8_t mission, uint32_t day,
    uint8_t *answer, size_t answer_length);

#ifdef __cplusplus
}
#endif

#endif
