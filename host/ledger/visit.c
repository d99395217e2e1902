#define _XOPEN_SOURCE 700
#include "visit.h"

#include "files.h"
#include "rules.h"

#include <errno.h>
#include <stdarg.h>
#include <stdlib.h>
#include <string.h>
#include <time.h>

char **words;
int count;
const char *place;
const struct store *store;
struct book book;
uint8_t answer[HERNGANOW_ANSWER];
char who[NAME];
FILE *said, *denied;

static char *said_text, *denied_text;
static size_t said_size, denied_size;
static const char *opened; /* the ledger that is open */
static int begun, changed;
static uint8_t before[HERNGANOW_SHEET]; /* the sheet as it was read */
static uint8_t calls[MOST_CALLS * ENTRY];
static struct line line;

uint64_t answered(int at)
{
    return hernganow_number(answer, (enum hernganow_at)at);
}

/* ---- Output */

void say(const char *form, ...)
{
    va_list list;
    va_start(list, form);
    vfprintf(said, form, list);
    va_end(list);
}

int refuse(uint32_t number)
{
    fprintf(denied, "%s\n", refusal_words(number));
    return REFUSED;
}

static void start_line(void)
{
    line = (struct line){.desk = NO_DESK, .calls = calls};
    memcpy(line.who, who, sizeof who);
}

void start_saying(void)
{
    start_line();
    said = open_memstream(&said_text, &said_size);
    denied = open_memstream(&denied_text, &denied_size);
    if (!said || !denied)
        cannot("no memory");
}

/* If standard output cannot be written, the program ends: nobody would see what else it does. */
static void tell(void)
{
    fflush(said);
    fflush(denied);
    if (fwrite(said_text, 1, said_size, stdout) != said_size || fflush(stdout)) {
        fprintf(stderr, "ledger: standard output: %s; the command was done\n", strerror(errno));
        exit(CANNOT);
    }
    fwrite(denied_text, 1, denied_size, stderr);
    rewind(said);
    rewind(denied);
}

/* ---- The transaction */

void begin_any(enum aim aim)
{
    start_line();
    changed = 0;
    begun = aim != CREATE;
    if (begun)
        store->begin(aim, &book);
    memcpy(before, book.sheet, sizeof before);
}

int is_sheet(void)
{
    hernganow_is_sheet(SHEET, ANSWER);
    return answered(HERNGANOW_AT_IS_SHEET) != 0;
}

void begin(enum aim aim)
{
    begin_any(aim);
    if (!is_sheet())
        cannot("%s: %s", shown(opened), refusal_words(HERNGANOW_REFUSED_NOT_SHEET));
}

uint64_t this_visit(void)
{
    return book.visits + 1;
}

static void append_line(void)
{
    line.visit = ++book.visits;
    store->append(&line);
    start_line();
    changed = 1;
}

void finish(void)
{
    if (!SAY_AFTER_COMMIT)
        tell();
    if (line.size || line.desk != NO_DESK)
        append_line();
    if (begun && changed)
        store->commit(&book);
    else if (begun)
        store->end();
    begun = changed = 0;
    tell();
}

void abandon(void)
{
    begun = changed = 0;
    start_line();
    unmap_files();
    close_ledger();
    rewind(said);
    rewind(denied);
}

void open_ledger(const char *name, enum aim aim)
{
    close_ledger();
    opened = name;
    store = strncmp(name, "postgresql://", 13) && strncmp(name, "postgres://", 11) ? &sqlite_store : &postgres_store;
    store->open(name, aim);
}

void close_ledger(void)
{
    if (store)
        store->close();
    store = NULL;
}

/* ---- Calls */

static void put(uint8_t *bytes, size_t size, uint64_t number)
{
    for (; size; number >>= 8)
        bytes[--size] = (uint8_t)number;
}

const uint8_t *note(struct call c, uint32_t refused)
{
    /* If an entry has no room for the desk or the row, there is no such desk or row, and the call does nothing. */
    if (c.desk > UINT8_MAX || c.row > UINT8_MAX)
        return NULL;
    if (line.size == sizeof calls)
        append_line();
    uint8_t *entry = calls + line.size;
    const uint8_t fields[] = {c.call, (uint8_t)c.desk, (uint8_t)c.row, (uint8_t)refused};
    memcpy(entry, fields, sizeof fields);
    put(entry + 4, 4, c.number);
    put(entry + 8, 8, c.key);
    line.size += ENTRY;
    return entry;
}

uint32_t play(uint8_t *sheet, uint8_t *trace, size_t size)
{
    put(trace, 4, TRACE_HEAD + size);
    put(trace + 4, 4, size / ENTRY);
    put(trace + 8, 4, TRACE_HEAD);
    return hernganow_replay_on(trace, TRACE_HEAD + size, sheet, HERNGANOW_SHEET, ANSWER);
}

static uint32_t call_on_sheet(const struct call *c)
{
    switch (c->call) {
    case ENROL: return hernganow_enrol(SHEET, c->key, c->number, ANSWER);
    case OPEN: return hernganow_open(SHEET, c->desk, c->row, ANSWER);
    case TICK: return hernganow_tick(SHEET, c->desk, c->number, ANSWER);
    case UNTICK: return hernganow_untick(SHEET, c->desk, c->number, ANSWER);
    case SAVE: return hernganow_save(SHEET, c->desk, ANSWER);
    case DROP: return hernganow_drop(SHEET, c->desk, ANSWER);
    default: return hernganow_strike(SHEET, c->row, ANSWER);
    }
}

uint32_t make(struct call c)
{
    uint32_t refused = call_on_sheet(&c);
    if (c.call == ENROL && !refused)
        c.row = (uint32_t)answered(HERNGANOW_AT_ROW);
    note(c, refused);
    return refused;
}

void take_back(void)
{
    memcpy(book.sheet, before, sizeof before);
    line.size = 0;
}

/* ---- Desks */

uint64_t desk_row(uint32_t desk)
{
    return hernganow_desk(SHEET, desk, ANSWER) ? HERNGANOW_NONE : answered(HERNGANOW_AT_DESK_ROW);
}

int is_held(uint32_t desk)
{
    if (!HEED_HOLDERS || desk_row(desk) == HERNGANOW_NONE)
        return 0;
    const struct holder *holder = &book.holders[desk];
    if (!holder->who[0] || !strcmp(holder->who, who))
        return 0;
    fprintf(denied, "refused: %s has had desk %" PRIu32 " open since %s; use another desk, or `take %" PRIu32 "`\n", holder->who, desk,
            moment_words(holder->since), desk);
    return 1;
}

void set_holder(uint32_t desk, const char *name)
{
    struct holder *holder = &book.holders[desk];
    *holder = (struct holder){.since = *name ? (int64_t)time(NULL) : 0, .visit = *name ? this_visit() : 0};
    snprintf(holder->who, sizeof holder->who, "%s", name);
    line.desk = (int)desk;
    memcpy(line.holder, holder->who, sizeof line.holder);
}
