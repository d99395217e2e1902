/* A ledger in its own file. Many processes of one machine may use it. The file must not be on a network disk. */
#define _XOPEN_SOURCE 700
#include "rules.h"
#include "store.h"
#include "words.h"

#include <errno.h>
#include <inttypes.h>
#include <sqlite3.h>
#include <stdlib.h>
#include <string.h>
#include <sys/stat.h>
#include <time.h>
#include <unistd.h>

/* Marks the file as a ledger: 'HGL2'. */
enum { MARK = 0x48474C32 };

static sqlite3 *base;
static const char *path;
static struct stat opened; /* the file, as it was opened */

static const char tables[] =
    "CREATE TABLE ledger (one INTEGER PRIMARY KEY CHECK (one = 1), base BLOB NOT NULL, sheet BLOB NOT NULL, holders TEXT NOT NULL,"
    " visits INTEGER NOT NULL, CHECK (length(base) = 6968 AND length(sheet) = 6968)) STRICT;"
    "CREATE TABLE log (visit INTEGER PRIMARY KEY, at INTEGER NOT NULL, who TEXT NOT NULL, desk INTEGER NOT NULL, holder TEXT NOT NULL,"
    " calls BLOB NOT NULL, CHECK (desk BETWEEN -1 AND 7 AND length(calls) % 16 = 0 AND length(calls) <= 64000)) STRICT;";

/* ---- Errors */

/* Ends the command with the reason. SQLite undoes what was begun, at the latest when the file is next opened. */
static void fail(void)
{
    int code = sqlite3_errcode(base) & 0xff, system = sqlite3_system_errno(base);
    const char *reason = code == SQLITE_IOERR && system ? strerror(system) : sqlite3_errmsg(base);
    switch (system == ENOSPC ? SQLITE_FULL : code) {
    case SQLITE_BUSY: cannot("%s: busy, others wrote for %d seconds; nothing was done, try again", path, WAIT_SECONDS);
    case SQLITE_FULL: cannot("%s: the disk is full; nothing of this command was kept, make room and try again", path);
    case SQLITE_READONLY: cannot("%s: the file, or its folder, may not be written; nothing was done", path);
    case SQLITE_NOTADB: cannot("%s: not a ledger, and no database; a plain sheet is taken in with `ledger NEW import %s`", path, path);
    case SQLITE_CORRUPT: cannot("%s: the database file is damaged (%s); nothing was done, put back a copy", path, reason);
    case SQLITE_CONSTRAINT: cannot("%s: the log has this visit already, so another wrote without the lock; nothing was kept, try again", path);
    case SQLITE_CANTOPEN:
        cannot("%s: cannot be opened: %s", path, system == ENOENT ? "its folder is not there, or may not be written" : strerror(system));
    default: cannot("%s: %s; nothing of this command was kept", path, reason);
    }
}

static void run(const char *text)
{
    if (sqlite3_exec(base, text, NULL, NULL, NULL) != SQLITE_OK)
        fail();
}

static sqlite3_stmt *prepare(const char *text)
{
    sqlite3_stmt *statement;
    if (sqlite3_prepare_v2(base, text, -1, &statement, NULL) != SQLITE_OK)
        fail();
    return statement;
}

/* Whether there is another line. */
static int step(sqlite3_stmt *statement)
{
    int code = sqlite3_step(statement);
    if (code != SQLITE_ROW && code != SQLITE_DONE)
        fail();
    return code == SQLITE_ROW;
}

static void run_once(sqlite3_stmt *statement)
{
    step(statement);
    sqlite3_finalize(statement);
}

static int64_t one_number(const char *text)
{
    sqlite3_stmt *statement = prepare(text);
    int64_t number = step(statement) ? sqlite3_column_int64(statement, 0) : 0;
    sqlite3_finalize(statement);
    return number;
}

/* ---- Opening */

/* Waits a few milliseconds for another process to commit. SQLite's own waits grow to a tenth of a second, so that a late desk might never get its turn. */
static int wait_turn(void *context, int tries)
{
    static time_t since;
    (void)context;
    if (!tries)
        since = time(NULL);
    struct timespec pause = {0, 500000 + 500000 * (((long)tries * 7 + getpid()) % 8)};
    nanosleep(&pause, NULL);
    return time(NULL) - since <= WAIT_SECONDS;
}

static int open_as(const char *name, int flags)
{
    int code = sqlite3_open_v2(name, &base, flags, NULL);
    sqlite3_busy_handler(base, wait_turn, NULL);
    sqlite3_extended_result_codes(base, 1);
    return code == SQLITE_OK ? sqlite3_exec(base, "SELECT count(*) FROM sqlite_schema", NULL, NULL, NULL) : code;
}

/* In WAL mode even readers write next to the file. A reader that may not write reads the file as it is, if nobody is changing it. */
static int open_immutable(void)
{
    char name[4200];
    struct stat log;
    snprintf(name, sizeof name, "%s-wal", path);
    if (!stat(name, &log) && log.st_size)
        return SQLITE_READONLY;
    snprintf(name, sizeof name, "file:%s?immutable=1", path);
    sqlite3_close(base);
    return open_as(name, SQLITE_OPEN_READONLY | SQLITE_OPEN_URI);
}

/* Checks that the name still stands for the opened file, and that the file has no other name: SQLite keeps its log next to the name. */
static void check_name(void)
{
    struct stat now;
    if (stat(path, &now) || now.st_dev != opened.st_dev || now.st_ino != opened.st_ino)
        cannot("%s: the file was moved away or replaced; nothing was done", path);
    if (now.st_nlink > 1)
        cannot("%s: the file has %lu names (hard links), and a ledger may have one; nothing was done", path, (unsigned long)now.st_nlink);
}

/* Whether SQLite takes the name for a file, and not for a database in memory or a URI. */
static int is_file_name(const char *name)
{
    return *name && *name != ':' && !strpbrk(name, "?#%") && strncmp(name, "file:", 5) && strlen(name) <= 4000;
}

static void open_file(const char *name, enum aim aim)
{
    path = name;
    if (!is_file_name(name))
        cannot("'%s' is no name for a ledger's file", name);
    int there = !stat(name, &opened);
    if (there && !S_ISREG(opened.st_mode))
        cannot("%s: %s, not a file; nothing was done", name, S_ISDIR(opened.st_mode) ? "a directory" : "a device");
    if (!there && aim != CREATE)
        cannot("%s: there is no ledger; begin one with `ledger %s new`", name, name);
    if (there)
        check_name();
    int code = open_as(name, SQLITE_OPEN_READWRITE | (aim == CREATE ? SQLITE_OPEN_CREATE : 0)) & 0xff;
    if (aim == READ && (code == SQLITE_CANTOPEN || code == SQLITE_READONLY || code == SQLITE_IOERR))
        code = open_immutable();
    if (code)
        fail();
    if (aim != CREATE && one_number("PRAGMA application_id") != MARK)
        cannot("%s: not a ledger, but %s; nothing was done", name,
               one_number("SELECT count(*) FROM sqlite_schema") ? "another program's database" : "an empty file");
    /* Some builds of SQLite sync less in WAL mode. */
    if (aim != CREATE)
        run(SQLITE_SYNCHRONOUS);
}

static void close_file(void)
{
    sqlite3_stmt *statement;
    while (base && (statement = sqlite3_next_stmt(base, NULL)))
        sqlite3_finalize(statement);
    sqlite3_close(base);
    base = NULL;
}

/* ---- The ledger */

static void put_book(const char *text, const struct book *book)
{
    char holders[HOLDERS];
    holders_write(book->holders, holders);
    sqlite3_stmt *statement = prepare(text);
    sqlite3_bind_blob(statement, 1, book->sheet, sizeof book->sheet, SQLITE_STATIC);
    sqlite3_bind_text(statement, 2, holders, -1, SQLITE_STATIC);
    sqlite3_bind_int64(statement, 3, (int64_t)book->visits);
    run_once(statement);
}

static int create(const struct book *book)
{
    char mark[64];
    /* Changes nothing in a database that is no ledger's. */
    if (one_number("SELECT count(*) FROM sqlite_schema"))
        return 0;
    run("PRAGMA journal_mode = WAL");
    run(SQLITE_SYNCHRONOUS);
    run("BEGIN IMMEDIATE");
    if (one_number("SELECT count(*) FROM sqlite_schema")) {
        run("ROLLBACK");
        return 0;
    }
    run(tables);
    snprintf(mark, sizeof mark, "PRAGMA application_id = %d", MARK);
    run(mark);
    put_book("INSERT INTO ledger VALUES (1, ?1, ?1, ?2, ?3)", book);
    run("COMMIT");
    stat(path, &opened);
    return 1;
}

static void begin(enum aim aim, struct book *book)
{
    check_name();
    run(aim == WRITE ? SQLITE_BEGIN : "BEGIN");
    sqlite3_stmt *statement = prepare("SELECT sheet, holders, visits FROM ledger");
    if (!step(statement))
        cannot("%s: the ledger's sheet is gone; put back a copy", path);
    take_sheet(book->sheet, sqlite3_column_blob(statement, 0), (size_t)sqlite3_column_bytes(statement, 0));
    holders_read(book->holders, (const char *)sqlite3_column_text(statement, 1));
    book->visits = (uint64_t)sqlite3_column_int64(statement, 2);
    sqlite3_finalize(statement);
}

static void append(const struct line *line)
{
    sqlite3_stmt *statement = prepare("INSERT INTO log VALUES (?, ?, ?, ?, ?, ?)");
    sqlite3_bind_int64(statement, 1, (int64_t)line->visit);
    sqlite3_bind_int64(statement, 2, (int64_t)time(NULL));
    sqlite3_bind_text(statement, 3, line->who, -1, SQLITE_STATIC);
    sqlite3_bind_int(statement, 4, line->desk);
    sqlite3_bind_text(statement, 5, line->holder, -1, SQLITE_STATIC);
    sqlite3_bind_blob(statement, 6, line->calls, (int)line->size, SQLITE_STATIC);
    run_once(statement);
}

static void commit(const struct book *book)
{
    put_book("UPDATE ledger SET sheet = ?1, holders = ?2, visits = ?3", book);
    run("COMMIT");
}

static void end(void)
{
    run("ROLLBACK");
}

static void read_base(uint8_t *sheet)
{
    sqlite3_stmt *statement = prepare("SELECT base FROM ledger");
    step(statement);
    take_sheet(sheet, sqlite3_column_blob(statement, 0), (size_t)sqlite3_column_bytes(statement, 0));
    sqlite3_finalize(statement);
}

/* A column's text. A damaged file may have none. */
static void get_text(char text[NAME], sqlite3_stmt *statement, int column)
{
    const char *found = (const char *)sqlite3_column_text(statement, column);
    snprintf(text, NAME, "%s", found ? found : "");
}

static void read_log(uint64_t visit, void (*each)(const struct line *))
{
    sqlite3_stmt *statement = prepare("SELECT visit, at, who, desk, holder, calls FROM log WHERE visit >= ? ORDER BY visit");
    sqlite3_bind_int64(statement, 1, (int64_t)visit);
    while (step(statement)) {
        struct line line = {.visit = (uint64_t)sqlite3_column_int64(statement, 0), .at = sqlite3_column_int64(statement, 1),
                            .desk = sqlite3_column_int(statement, 3), .calls = sqlite3_column_blob(statement, 5),
                            .size = (size_t)sqlite3_column_bytes(statement, 5)};
        get_text(line.who, statement, 2);
        get_text(line.holder, statement, 4);
        each(&line);
    }
    sqlite3_finalize(statement);
}

const struct store sqlite_store = {open_file, close_file, create, begin, append, commit, end, read_base, read_log};
