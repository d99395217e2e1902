#define _XOPEN_SOURCE 700
#include "words.h"

#include <hernganow.h>

#include <errno.h>
#include <inttypes.h>
#include <stdarg.h>
#include <stdlib.h>
#include <string.h>
#include <time.h>

void (*end_command)(void) __attribute__((noreturn));

/* Prints one line, also if a database's message has more. */
void cannot(const char *form, ...)
{
    char text[6000];
    va_list list;
    va_start(list, form);
    vsnprintf(text, sizeof text, form, list);
    va_end(list);
    for (char *c = text; *c; c++)
        if ((unsigned char)*c < ' ')
            *c = ' ';
    fprintf(stderr, "ledger: %s\n", text);
    end_command();
}

/* What to do next, as a command of this program. */
static const char *next_step(uint32_t number)
{
    switch (number) {
    case HERNGANOW_REFUSED_NOT_SHEET: return "`audit FILE` writes the sheet that the log makes, and `import` begins a ledger with it";
    case HERNGANOW_REFUSED_NO_DESK: return "use desks 0 to 7";
    case HERNGANOW_REFUSED_BAD_KEY: return "telemetry goes up to 1023 255 65535 255, rsr to 255 255 255 255";
    case HERNGANOW_REFUSED_FIRST_NUMBER: return "use the number of the first record that the row is to hold";
    case HERNGANOW_REFUSED_ALREADY_ENROLLED: return "`rows` shows it";
    case HERNGANOW_REFUSED_LEDGER_FULL: return "strike one first";
    case HERNGANOW_REFUSED_NO_ROW: return "`rows` shows those there are";
    case HERNGANOW_REFUSED_DESK_OPEN: return "save or drop it first";
    case HERNGANOW_REFUSED_DESK_CLOSED: return "open one first";
    case HERNGANOW_REFUSED_OUTSIDE_ROW: return "nothing of this command was kept";
    case HERNGANOW_REFUSED_STALE: return "your ticks were not kept, open it again";
    case HERNGANOW_REFUSED_ROW_OPEN: return "save or drop it there first; `desks` shows who";
    case HERNGANOW_REFUSED_KEY_IN_TWO_SHEETS: return "strike one of them";
    case HERNGANOW_REFUSED_SEASON_LENGTH: return "name 16 ledgers at most";
    default: return NULL;
    }
}

/* What the refusal means: the library's own text. */
static const char *text_of(uint32_t number)
{
    static uint8_t text[HERNGANOW_TEXT];
    uint8_t answer[HERNGANOW_ANSWER];
    hernganow_refusal_text(number, text, sizeof text, answer, sizeof answer);
    return (const char *)text;
}

const char *refusal_words(uint32_t number)
{
    static char words[512];
    const char *next = next_step(number);
    snprintf(words, sizeof words, "refused %" PRIu32 ": %s%s%s", number, text_of(number), next ? "; " : "", next ? next : "");
    return words;
}

const char *shown(const char *place)
{
    const char *name = strstr(place, "://") ? strrchr(place, '@') : NULL;
    return name ? name + 1 : place;
}

static uint32_t read_digits(const char *word, char **end, const char *what)
{
    errno = 0;
    uintmax_t number = strtoumax(word, end, 10);
    if (word[0] < '0' || word[0] > '9' || errno || number > UINT32_MAX)
        cannot("'%s' is no %s; nothing was done", word, what);
    return (uint32_t)number;
}

uint32_t read_number(const char *word, const char *what)
{
    char *end;
    uint32_t number = read_digits(word, &end, what);
    if (*end)
        cannot("'%s' is no %s; nothing was done", word, what);
    return number;
}

struct run read_run(const char *word)
{
    char *end;
    struct run run;
    run.from = run.to = read_digits(word, &end, "record number, nor a run as in 3-7");
    if (*end == '-')
        run.to = read_digits(end + 1, &end, "record number");
    if (*end)
        cannot("'%s' is no record number, nor a run as in 3-7; nothing was done", word);
    return run;
}

static char *next_text(void)
{
    static char texts[4][96];
    static unsigned next;
    return texts[next++ % 4];
}

const char *stream_words(uint64_t key)
{
    char *text = next_text();
    uint8_t answer[HERNGANOW_ANSWER];
    uint64_t part[4];
    if (hernganow_parts(key, answer, sizeof answer)) {
        snprintf(text, 96, "key %" PRIu64, key);
        return text;
    }
    for (int i = 0; i < 4; i++)
        part[i] = hernganow_number(answer, HERNGANOW_AT_PARTS_SPACECRAFT + i);
    int rsr = hernganow_number(answer, HERNGANOW_AT_PARTS_KIND) == KIND_RSR;
    snprintf(text, 96, "%s %" PRIu64 " %" PRIu64 " %" PRIu64 " %" PRIu64, rsr ? "rsr" : "telemetry", part[0], part[1], part[2], part[3]);
    return text;
}

const char *moment_words(int64_t at)
{
    char *text = next_text();
    time_t seconds = (time_t)at;
    struct tm parts;
    if (!localtime_r(&seconds, &parts) || !strftime(text, 96, "%Y-%m-%d %H:%M:%S", &parts))
        strcpy(text, "-");
    return text;
}

uint64_t numbers_of(uint64_t key)
{
    uint8_t answer[HERNGANOW_ANSWER];
    int rsr = !hernganow_parts(key, answer, sizeof answer) && hernganow_number(answer, HERNGANOW_AT_PARTS_KIND) == KIND_RSR;
    return rsr ? (uint64_t)1 << 16 : (uint64_t)1 << 32;
}

void print_runs(FILE *to, const uint32_t *list, size_t count, uint64_t key)
{
    uint64_t numbers = numbers_of(key);
    for (size_t i = 0, end; i < count; i = end + 1) {
        for (end = i; end + 1 < count && list[end + 1] == (list[end] + (uint64_t)1) % numbers; end++)
            ;
        fprintf(to, i ? " %" PRIu32 : "%" PRIu32, list[i]);
        if (end > i)
            fprintf(to, "-%" PRIu32, list[end]);
    }
}

const char *plural(uint64_t count)
{
    return count == 1 ? "" : "s";
}
