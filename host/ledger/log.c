/* Shows the log, and replays it. */
#define _XOPEN_SOURCE 700
#include "files.h"
#include "visit.h"

#include <stdlib.h>
#include <string.h>

static uint64_t big_endian(const uint8_t *bytes, size_t size)
{
    uint64_t number = 0;
    while (size--)
        number = number << 8 | *bytes++;
    return number;
}

/* ---- Calls as text */

static const char *const names[] = {"?", "enrol", "open", "tick", "untick", "save", "drop", "strike"};

struct entry {
    uint8_t call, desk, row, answer;
    uint32_t number;
    uint64_t key;
};

static struct entry entry_at(const uint8_t *b)
{
    return (struct entry){b[0] <= STRIKE ? b[0] : 0, b[1], b[2], b[3], (uint32_t)big_endian(b + 4, 4), big_endian(b + 8, 8)};
}

static int is_mark(const struct entry *e)
{
    return e->call == TICK || e->call == UNTICK;
}

static void print_entry(FILE *to, const struct entry *e, uint32_t last)
{
    fprintf(to, " %s", names[e->call]);
    if (e->call == ENROL)
        fprintf(to, " %s %" PRIu32, stream_words(e->key), e->number);
    if ((e->call == ENROL && !e->answer) || e->call == OPEN || e->call == STRIKE)
        fprintf(to, "%s row %u", e->call == ENROL ? " as" : "", e->row);
    if (is_mark(e))
        fprintf(to, last == e->number ? " %" PRIu32 : " %" PRIu32 "-%" PRIu32, e->number, last);
    if (e->answer)
        fprintf(to, " (refused %u)", e->answer);
}

/* The end of the run of ticks or unticks that begins at an entry. */
static size_t run_end(const uint8_t *calls, size_t size, size_t at)
{
    struct entry e = entry_at(calls + at);
    size_t end = at + ENTRY;
    while (is_mark(&e) && end < size) {
        struct entry next = entry_at(calls + end);
        if (next.call != e.call || next.answer != e.answer || next.desk != e.desk || next.number != e.number + (end - at) / ENTRY)
            break;
        end += ENTRY;
    }
    return end;
}

enum { MOST_SHOWN = 9 };

void print_calls(FILE *to, const uint8_t *calls, size_t size)
{
    int shown = 0;
    size -= size % ENTRY;
    for (size_t at = 0, end; at < size; at = end) {
        struct entry e = entry_at(calls + at);
        end = run_end(calls, size, at);
        if (shown++ == MOST_SHOWN) {
            fprintf(to, ", and %zu calls more", (size - at) / ENTRY);
            return;
        }
        fprintf(to, "%s", at ? "," : "");
        if (!at && e.call != ENROL && e.call != STRIKE)
            fprintf(to, " desk %u:", e.desk);
        print_entry(to, &e, e.number + (uint32_t)((end - at) / ENTRY) - 1);
    }
}

void print_marks(FILE *to, const uint8_t *calls, size_t size, uint32_t desk)
{
    size -= size % ENTRY;
    for (size_t at = 0, end; at < size; at = end) {
        struct entry e = entry_at(calls + at);
        end = run_end(calls, size, at);
        if (is_mark(&e) && e.desk == desk && !e.answer)
            print_entry(to, &e, e.number + (uint32_t)((end - at) / ENTRY) - 1);
    }
}

/* ---- The log */

static void say_line(const struct line *line)
{
    say("%5" PRIu64 "  %s  %-20s", line->visit, moment_words(line->at), line->who);
    print_calls(said, line->calls, line->size);
    if (line->desk != NO_DESK && !line->size)
        say(" take desk %d", line->desk);
    say("\n");
}

int do_log(void)
{
    uint32_t wanted = count ? read_number(words[0], "number of visits") : 10;
    begin_any(READ);
    store->log(book.visits > wanted ? book.visits - wanted + 1 : 1, say_line);
    return DONE;
}

/* ---- The audit: the log's lines are traces, replayed one after the other over the base */

static struct {
    uint8_t sheet[HERNGANOW_SHEET], trace[TRACE_HEAD + MOST_CALLS * ENTRY];
    char holders[DESKS][NAME];
    uint64_t lines, calls;
    int broken; /* said already */
} audit;

static uint32_t replay_line(const struct line *line)
{
    if (line->size)
        memcpy(audit.trace + TRACE_HEAD, line->calls, line->size);
    return play(audit.sheet, audit.trace, line->size);
}

static void say_broken(const struct line *line)
{
    audit.broken = 1;
    say("NOT the same: visit %" PRIu64 ", %s, %s", line->visit, moment_words(line->at), line->who);
}

static void audit_line(const struct line *line)
{
    if (audit.broken)
        return;
    if (line->visit != audit.lines + 1) {
        audit.broken = 1;
        say("NOT the same: visit %" PRIu64 " is not in the log\n", audit.lines + 1);
        return;
    }
    uint32_t refused = line->size > MOST_CALLS * ENTRY ? HERNGANOW_REFUSED_NOT_TRACE : replay_line(line);
    uint64_t wrong = refused ? 0 : answered(HERNGANOW_AT_ENTRY), number = answered(HERNGANOW_AT_ENTRY_NUMBER);
    if (refused) {
        say_broken(line);
        say(": %s\n", refusal_words(refused));
    } else if (wrong != HERNGANOW_NONE) {
        struct entry e = entry_at(line->calls + wrong * ENTRY);
        say_broken(line);
        say(", call %" PRIu64 ", desk %u:", wrong + 1, e.desk);
        print_entry(said, &e, e.number);
        say("; played again it answers %" PRIu64 "\n", number);
    }
    if (line->desk >= 0 && line->desk < DESKS)
        snprintf(audit.holders[line->desk], NAME, "%s", line->holder);
    audit.lines = line->visit;
    audit.calls += line->size / ENTRY;
}

/* Compares the log's end with what is stored: the last visit, the holders and the sheet. */
static void audit_end(void)
{
    size_t at = 0;
    while (at < sizeof book.sheet && audit.sheet[at] == book.sheet[at])
        at++;
    if (audit.lines != book.visits) {
        audit.broken = 1;
        say("NOT the same: visit %" PRIu64 " of %" PRIu64 " is not in the log\n", audit.lines + 1, book.visits);
        return;
    }
    for (int desk = 0; desk < DESKS && !audit.broken; desk++)
        if (strcmp(audit.holders[desk], book.holders[desk].who)) {
            audit.broken = 1;
            say("NOT the same: the log says that desk %d is held by '%s', the ledger '%s'\n", desk, audit.holders[desk], book.holders[desk].who);
        }
    if (at < sizeof book.sheet && !audit.broken) {
        audit.broken = 1;
        say("NOT the same: all %" PRIu64 " calls answer as written, but the sheet is another from byte %zu on; `audit FILE` writes the log's\n",
            audit.calls, at);
    }
}

int do_audit(void)
{
    uint8_t fresh[HERNGANOW_SHEET];
    memset(&audit, 0, sizeof audit);
    begin_any(READ);
    store->base(audit.sheet);
    hernganow_fresh(fresh, sizeof fresh, ANSWER);
    const char *from = memcmp(fresh, audit.sheet, sizeof fresh) ? "the imported sheet" : "a fresh one";
    store->log(1, audit_line);
    if (!audit.broken)
        audit_end();
    if (!audit.broken)
        say("same: %" PRIu64 " calls make this sheet from %s; last visit %" PRIu64 "\n", audit.calls, from, book.visits);
    if (count)
        write_sheet(words[0], audit.sheet);
    return audit.broken ? REFUSED : DONE;
}
