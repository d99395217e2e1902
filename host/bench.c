/* What a call through C costs, compared with the library's own call. Times both in turn on the same inputs, and prints the least time of several
 * passes, in nanoseconds. The library's calls are those of crates/bench, which compute one number from an answer. */
#define _XOPEN_SOURCE 700
#include <hernganow.h>

#include <stdio.h>
#include <stdlib.h>
#include <time.h>

#define PASSES 40
#define CALLS 2000

uint64_t bench_walk(const uint8_t *stream, size_t length);
uint64_t bench_read_headers(const uint8_t *record, size_t length, uint32_t wanted);
uint64_t bench_date_of(uint32_t count);
uint64_t bench_tick(uint8_t *sheet, size_t length, uint32_t desk, uint32_t number);
uint64_t bench_untick(uint8_t *sheet, size_t length, uint32_t desk, uint32_t number);
uint64_t bench_report(const uint8_t *sheet, size_t length, uint32_t row);
uint64_t bench_replay(const uint8_t *trace, size_t trace_length, uint8_t *sheet, size_t length);
uint64_t bench_unpack(const uint8_t *record, size_t length, int32_t *list, size_t list_length);
uint64_t bench_pack(uint32_t size, uint32_t rate, const int32_t *samples, size_t count, uint8_t *out, size_t length);
uint64_t bench_telemetry_key(uint32_t spacecraft, uint32_t source, uint32_t equipment, uint32_t stream);
uint64_t bench_settings_ask(const uint8_t *settings, size_t length, uint8_t mission, uint32_t day);
uint64_t bench_settings_add(uint8_t *settings, size_t length, uint8_t mission, uint32_t edition, uint32_t day, uint32_t frame);
uint64_t bench_gain(const uint8_t *record, size_t length, uint32_t edition);
uint64_t bench_convert(const uint8_t *old, size_t old_length, uint8_t *sheet, size_t length);
uint64_t bench_season(const uint8_t *sheets, size_t length);

static uint8_t stream[65536], sheet[HERNGANOW_SHEET], answer[HERNGANOW_ANSWER];
static size_t length;
static size_t rsr; /* where the first RSR record stands */
static uint8_t settings[HERNGANOW_SETTINGS], old[8192], tone[65536], made[HERNGANOW_SHEET], packed[65536];
static size_t old_length, tone_length;
static int32_t list[131072];

/* Four calls: enrol key 5 from 1 on, open its row at desk 0, tick 1, save. */
static const uint8_t trace[] = {
    0, 0, 0, 76, 0, 0, 0, 4, 0, 0, 0, 12,
    1, 0, 0, 0, 0, 0, 0, 1, 0, 0, 0, 0, 0, 0, 0, 5,
    2, 0, 0, 0, 0, 0, 0, 0, 0, 0, 0, 0, 0, 0, 0, 0,
    3, 0, 0, 0, 0, 0, 0, 1, 0, 0, 0, 0, 0, 0, 0, 0,
    5, 0, 0, 0, 0, 0, 0, 0, 0, 0, 0, 0, 0, 0, 0, 0,
};

/* Samples of 8 bits, 100,000 per second. */
enum { SIZE = 8, RATE = 100, SAMPLES = 64 };

/* How many settings there are, and of how many missions. */
enum { SETTINGS = 32, MISSIONS = 8 };
static volatile uint64_t sink;

static void telemetry_library(uint32_t i) { (void)i; sink = bench_read_headers(stream, length, 1); }
static void telemetry_c(uint32_t i) { (void)i; sink = hernganow_read_headers(stream, length, 1, answer, sizeof answer); }
static void rsr_library(uint32_t i) { (void)i; sink = bench_read_headers(stream + rsr, length - rsr, 2); }
static void rsr_c(uint32_t i) { (void)i; sink = hernganow_read_headers(stream + rsr, length - rsr, 2, answer, sizeof answer); }
static void date_library(uint32_t i) { sink = bench_date_of(200 * i); }
static void date_c(uint32_t i) { sink = hernganow_date(200 * i, answer, sizeof answer); }
static void tick_library(uint32_t i) { sink = i % 2 ? bench_untick(sheet, sizeof sheet, 0, 7) : bench_tick(sheet, sizeof sheet, 0, 7); }
static void tick_c(uint32_t i)
{
    sink = i % 2 ? hernganow_untick(sheet, sizeof sheet, 0, 7, answer, sizeof answer) : hernganow_tick(sheet, sizeof sheet, 0, 7, answer, sizeof answer);
}
static void report_library(uint32_t i) { (void)i; sink = bench_report(sheet, sizeof sheet, 0); }
static void report_c(uint32_t i) { (void)i; sink = hernganow_row_report(sheet, sizeof sheet, 0, answer, sizeof answer); }

static void key_library(uint32_t i) { sink = bench_telemetry_key(i % 256, 1, 2, 3); }
static void key_c(uint32_t i) { sink = hernganow_telemetry_key(i % 256, 1, 2, 3, answer, sizeof answer); }
static void ask_library(uint32_t i) { sink = bench_settings_ask(settings, sizeof settings, i % MISSIONS, 1000); }
static void ask_c(uint32_t i) { sink = hernganow_settings_ask(settings, sizeof settings, i % MISSIONS, 1000, answer, sizeof answer); }
static void add_library(uint32_t i) { sink = bench_settings_add(settings, sizeof settings, i % MISSIONS, 1, i % MISSIONS, 1); }
static void add_c(uint32_t i) { sink = hernganow_settings_add(settings, sizeof settings, i % MISSIONS, 1, i % MISSIONS, 1, answer, sizeof answer); }
static void gain_library(uint32_t i) { (void)i; sink = bench_gain(stream + rsr, length - rsr, 2); }
static void gain_c(uint32_t i) { (void)i; sink = hernganow_gain(stream + rsr, length - rsr, 2, answer, sizeof answer); }
static void unpack_library(uint32_t i) { (void)i; sink = bench_unpack(tone, tone_length, list, sizeof list / sizeof *list); }
static void unpack_c(uint32_t i) { (void)i; sink = hernganow_unpack(tone, tone_length, list, sizeof list / sizeof *list, answer, sizeof answer); }
static void pack_library(uint32_t i) { (void)i; sink = bench_pack(SIZE, RATE, list, SAMPLES, packed, sizeof packed); }
static void pack_c(uint32_t i) { (void)i; sink = hernganow_pack(SIZE, RATE, list, SAMPLES, packed, sizeof packed, answer, sizeof answer); }
static void season_library(uint32_t i) { (void)i; sink = bench_season(sheet, sizeof sheet); }
static void season_c(uint32_t i) { (void)i; sink = hernganow_season(sheet, sizeof sheet, answer, sizeof answer); }
static void replay_library(uint32_t i) { (void)i; sink = bench_replay(trace, sizeof trace, made, sizeof made); }
static void replay_c(uint32_t i) { (void)i; sink = hernganow_replay(trace, sizeof trace, made, sizeof made, answer, sizeof answer); }
static void convert_library(uint32_t i) { (void)i; sink = bench_convert(old, old_length, made, sizeof made); }
static void convert_c(uint32_t i) { (void)i; sink = hernganow_convert(old, old_length, made, sizeof made, answer, sizeof answer); }

static void walk_library(uint32_t i) { (void)i; sink = bench_walk(stream, length); }

/* Record by record, as a host walks. */
static void walk_c(uint32_t i)
{
    (void)i;
    size_t place = 0;
    while (place < length && !hernganow_read_one(stream + place, length - place, answer, sizeof answer))
        place += (size_t)hernganow_number(answer, HERNGANOW_AT_SIZE);
    sink = place;
}

static double pass(void (*call)(uint32_t))
{
    struct timespec begun, ended;
    clock_gettime(CLOCK_MONOTONIC, &begun);
    for (uint32_t i = 0; i < CALLS; i++)
        call(i);
    clock_gettime(CLOCK_MONOTONIC, &ended);
    return (1e9 * (double)(ended.tv_sec - begun.tv_sec) + (double)(ended.tv_nsec - begun.tv_nsec)) / CALLS;
}

static void compare(const char *name, void (*library)(uint32_t), void (*c)(uint32_t))
{
    double least[2] = {1e9, 1e9};
    for (int i = 0; i < PASSES; i++) {
        double taken[2] = {pass(library), pass(c)};
        for (int side = 0; side < 2; side++)
            if (taken[side] < least[side])
                least[side] = taken[side];
    }
    printf("%-28s %7.1f %7.1f %+6.1f\n", name, least[0], least[1], least[1] - least[0]);
}

/* Reads the file's bytes, as many as there is room for. */
static size_t read_file(const char *path, uint8_t *bytes, size_t room)
{
    FILE *file = fopen(path, "rb");
    if (!file) {
        perror(path);
        exit(2);
    }
    size_t count = fread(bytes, 1, room, file);
    fclose(file);
    return count;
}

/* Ends the program if a call that is timed is refused. */
static void accepted(const char *name, uint32_t refused)
{
    if (refused) {
        fprintf(stderr, "%s: refused %u\n", name, (unsigned)refused);
        exit(1);
    }
}

static void set_up(void)
{
    while (rsr < length && !hernganow_read_headers(stream + rsr, length - rsr, 1, answer, sizeof answer))
        rsr += (size_t)hernganow_number(answer, HERNGANOW_AT_SIZE);
    hernganow_fresh(sheet, sizeof sheet, answer, sizeof answer);
    for (uint32_t row = 0; row < 32; row++)
        hernganow_enrol(sheet, sizeof sheet, row, 1, answer, sizeof answer);
    for (uint32_t desk = 0; desk < 8; desk++)
        hernganow_open(sheet, sizeof sheet, desk, desk, answer, sizeof answer);
    hernganow_settings_make_empty(settings, sizeof settings, answer, sizeof answer);
    for (uint32_t i = 0; i < SETTINGS; i++)
        accepted("settings, add", hernganow_settings_add(settings, sizeof settings, (uint8_t)(i % MISSIONS), 1 + i % 2, i, 1, answer, sizeof answer));
    accepted("settings, ask", hernganow_settings_ask(settings, sizeof settings, 0, 1000, answer, sizeof answer));
    accepted("gain", hernganow_gain(stream + rsr, length - rsr, 2, answer, sizeof answer));
    accepted("unpack", hernganow_unpack(tone, tone_length, list, sizeof list / sizeof *list, answer, sizeof answer));
    for (size_t i = 0; i < SAMPLES; i++)
        list[i] = 1;
    accepted("pack", hernganow_pack(SIZE, RATE, list, SAMPLES, packed, sizeof packed, answer, sizeof answer));
    accepted("season", hernganow_season(sheet, sizeof sheet, answer, sizeof answer));
    accepted("replay", hernganow_replay(trace, sizeof trace, made, sizeof made, answer, sizeof answer));
    accepted("convert", hernganow_convert(old, old_length, made, sizeof made, answer, sizeof answer));
}

static const char usage[] =
    "usage: bench STREAM OLD RECORD\n"
    "Times calls through C beside the library's: on the first record of each kind in STREAM (up to 64 KB), the sheet OLD of the old layout,\n"
    "and the samples of RECORD.\n";

int main(int count, char **words)
{
    if (count != 4) {
        fputs(usage, stderr);
        return 2;
    }
    length = read_file(words[1], stream, sizeof stream);
    old_length = read_file(words[2], old, sizeof old);
    tone_length = read_file(words[3], tone, sizeof tone);
    set_up();
    printf("%-28s %7s %7s %6s\n", "ns a call", "library", "C", "more");
    compare("walk, by read one in C", walk_library, walk_c);
    compare("read headers, telemetry", telemetry_library, telemetry_c);
    compare("read headers, RSR", rsr_library, rsr_c);
    compare("date", date_library, date_c);
    compare("telemetry key", key_library, key_c);
    compare("gain", gain_library, gain_c);
    compare("unpack, record of 4,520 bytes", unpack_library, unpack_c);
    compare("pack, 64 samples of 8 bits", pack_library, pack_c);
    compare("tick or untick", tick_library, tick_c);
    compare("row report", report_library, report_c);
    compare("season of a sheet", season_library, season_c);
    compare("replay of four calls", replay_library, replay_c);
    compare("convert", convert_library, convert_c);
    compare("settings, ask", ask_library, ask_c);
    compare("settings, add: already there", add_library, add_c);
    return 0;
}
