/* A ledger in a PostgreSQL database, which may have several, for desks at several machines: postgresql://[USER@]HOST[:PORT]/DATABASE#LEDGER */
#define _XOPEN_SOURCE 700
#include "rules.h"
#include "store.h"
#include "words.h"

#include <inttypes.h>
#include <stdlib.h>
#include <string.h>

#ifdef NO_POSTGRES

static void open_base(const char *place, enum aim aim)
{
    (void)aim;
    cannot("%s: this build has no PostgreSQL; install libpq-dev and build it again (`make clean all`)", shown(place));
}

static void close_base(void)
{
}

const struct store postgres_store = {.open = open_base, .close = close_base};

#else

#include <libpq-fe.h>

static PGconn *base;
static PGresult *result;  /* the last one */
static const char *shown_place, *name;

/* Desks that make the first ledger at the same time wait for each other. IF NOT EXISTS alone does not protect them. */
static const char tables[] =
    "SELECT pg_advisory_xact_lock(1212632114);"
    "CREATE SCHEMA IF NOT EXISTS hernganow;"
    "CREATE TABLE IF NOT EXISTS hernganow.ledger (name text PRIMARY KEY, base bytea NOT NULL, sheet bytea NOT NULL, holders text NOT NULL,"
    " visits bigint NOT NULL, CHECK (length(base) = 6968 AND length(sheet) = 6968));"
    "ALTER TABLE hernganow.ledger ALTER base SET STORAGE EXTERNAL, ALTER sheet SET STORAGE EXTERNAL;"
    "CREATE TABLE IF NOT EXISTS hernganow.log (ledger text NOT NULL REFERENCES hernganow.ledger, visit bigint NOT NULL,"
    " at bigint NOT NULL DEFAULT extract(epoch FROM clock_timestamp())::bigint, role text NOT NULL DEFAULT session_user, who text NOT NULL,"
    " desk int NOT NULL, holder text NOT NULL, calls bytea NOT NULL, PRIMARY KEY (ledger, visit),"
    " CHECK (desk BETWEEN -1 AND 7 AND length(calls) % 16 = 0 AND length(calls) <= 64000))";

/* A commit is on the server's disk when the server answers, whatever the server's or the role's own setting is. A desk that loses its connection keeps
   the ledger's lock for a few seconds at most. */
static const char settings[] =
    POSTGRES_SYNCHRONOUS ";SET lock_timeout = '10s';SET idle_in_transaction_session_timeout = '30s';SET tcp_keepalives_idle = 5;"
    "SET tcp_keepalives_interval = 3;SET tcp_keepalives_count = 3;SET tcp_user_timeout = 15000;SET client_min_messages = error;"
    "SET bytea_output = hex;SET default_transaction_isolation = 'read committed';SET search_path = pg_catalog";

/* ---- Errors */

static int is_state(const char *wanted)
{
    const char *state = result ? PQresultErrorField(result, PG_DIAG_SQLSTATE) : NULL;
    return state && !strcmp(state, wanted);
}

static void fail(void)
{
    if (PQstatus(base) == CONNECTION_BAD)
        cannot("%s: the connection to the server is lost; nothing of this command was kept, try again", shown_place);
    if (is_state("55P03"))
        cannot("%s: busy, others wrote for %d seconds; nothing was done, try again", shown_place, WAIT_SECONDS);
    if (is_state("3F000") || is_state("42P01"))
        cannot("%s: there is no ledger in this database; begin one with `new`", shown_place);
    if (is_state("42501"))
        cannot("%s: you may not do this in the database: %s", shown_place, PQresultErrorField(result, PG_DIAG_MESSAGE_PRIMARY));
    if (is_state("53100"))
        cannot("%s: the server's disk is full; nothing of this command was kept", shown_place);
    if (is_state("23505"))
        cannot("%s: the log has this visit already, so another wrote without the lock; nothing was kept, try again", shown_place);
    cannot("%s: %s; nothing of this command was kept", shown_place, PQerrorMessage(base));
}

/* Keeps one result at a time. The next result, or the end of the connection, frees it. */
static ExecStatusType took(PGresult *next)
{
    PQclear(result);
    result = next;
    return PQresultStatus(result);
}

static void run(const char *text)
{
    ExecStatusType status = took(PQexec(base, text));
    if (status != PGRES_COMMAND_OK && status != PGRES_TUPLES_OK)
        fail();
}

/* A statement with the ledger's name as $1 and up to seven more values; a value with a size is bytes. */
struct value {
    const char *at;
    int size;
};

static void ask(const char *text, int count, const struct value *values)
{
    const char *at[8] = {name};
    int sizes[8] = {0}, forms[8] = {0};
    for (int i = 0; i < count; i++) {
        at[i + 1] = values[i].at;
        sizes[i + 1] = values[i].size;
        forms[i + 1] = values[i].size >= 0;
    }
    ExecStatusType status = took(PQexecParams(base, text, count + 1, NULL, at, sizes, forms, 0));
    if (status != PGRES_COMMAND_OK && status != PGRES_TUPLES_OK)
        fail();
}

/* Only a failure here leaves open whether the command was kept. COMMIT of a failed transaction answers ROLLBACK. */
static void run_commit(void)
{
    ExecStatusType status = took(PQexec(base, "COMMIT"));
    if (status == PGRES_COMMAND_OK && !strcmp(PQcmdStatus(result), "COMMIT"))
        return;
    if (PQstatus(base) == CONNECTION_BAD)
        cannot("%s: the connection was lost at the end of this command: it is not known whether it was kept; look with `log 1`", shown_place);
    cannot("%s: the server undid this command; nothing was kept, try again", shown_place);
}

/* ---- Opening */

static void open_base(const char *place, enum aim aim)
{
    (void)aim;
    char uri[2048];
    const char *mark = strchr(place, '#');
    shown_place = shown(place);
    if (!mark || !mark[1] || strspn(mark + 1, "abcdefghijklmnopqrstuvwxyzABCDEFGHIJKLMNOPQRSTUVWXYZ0123456789._-") != strlen(mark + 1))
        cannot("%s: say which ledger of the database, as in postgresql://host/base#night (letters, digits, . _ -)", shown_place);
    if ((size_t)snprintf(uri, sizeof uri, "%.*s", (int)(mark - place), place) >= sizeof uri)
        cannot("%s: the address is too long", shown_place);
    /* The message does not show a wrong address, which may contain a password. */
    PQconninfoOption *parts = PQconninfoParse(uri, NULL);
    if (!parts)
        cannot("%s: not an address as postgresql://HOST:PORT/DATABASE#NAME", shown_place);
    PQconninfoFree(parts);
    name = mark + 1;
    /* The address may change the settings that stand before it. The program gives up a server that does not answer for some seconds. */
    static const char *const keys[] = {"connect_timeout", "keepalives_idle", "keepalives_interval", "keepalives_count", "tcp_user_timeout",
                                       "fallback_application_name", "dbname", NULL};
    const char *const values[] = {"10", "5", "3", "3", "15000", "hernganow-ledger", uri, NULL};
    base = PQconnectdbParams(keys, values, 1);
    if (PQstatus(base) != CONNECTION_OK)
        cannot("%s: no connection: %s", shown_place, PQerrorMessage(base));
    run(settings);
}

static void close_base(void)
{
    PQclear(result);
    PQfinish(base);
    result = NULL;
    base = NULL;
}

/* ---- The ledger */

static void put_book(const char *text, const struct book *book)
{
    char holders[HOLDERS], visits[24];
    holders_write(book->holders, holders);
    snprintf(visits, sizeof visits, "%" PRIu64, book->visits);
    const struct value values[] = {{(const char *)book->sheet, sizeof book->sheet}, {holders, -1}, {visits, -1}};
    ask(text, 3, values);
    if (strcmp(PQcmdTuples(result), "1"))
        cannot("%s: the ledger is gone; nothing was kept", shown_place);
}

static int create(const struct book *book)
{
    run("BEGIN ISOLATION LEVEL READ COMMITTED");
    run(tables);
    ask("SELECT 1 FROM hernganow.ledger WHERE name = $1", 0, NULL);
    if (PQntuples(result)) {
        run("ROLLBACK");
        return 0;
    }
    put_book("INSERT INTO hernganow.ledger (name, base, sheet, holders, visits) VALUES ($1, $2, $2, $3, $4)", book);
    run_commit();
    return 1;
}

static void get_sheet(uint8_t *sheet)
{
    size_t size = 0;
    unsigned char *bytes = PQunescapeBytea((const unsigned char *)PQgetvalue(result, 0, 0), &size);
    take_sheet(sheet, bytes, size);
    PQfreemem(bytes);
}

static void begin(enum aim aim, struct book *book)
{
    /* FOR UPDATE waits, and then reads what the transaction before stored; it does so only at READ COMMITTED. Readers need one state of the sheet and
       the log: REPEATABLE READ. */
    run(aim == WRITE ? "BEGIN ISOLATION LEVEL READ COMMITTED" : "BEGIN ISOLATION LEVEL REPEATABLE READ READ ONLY");
    ask(aim == WRITE ? "SELECT sheet, holders, visits FROM hernganow.ledger WHERE name = $1" POSTGRES_LOCK
                     : "SELECT sheet, holders, visits FROM hernganow.ledger WHERE name = $1", 0, NULL);
    if (PQntuples(result) != 1)
        cannot("%s: there is no ledger of this name; begin one with `new`", shown_place);
    get_sheet(book->sheet);
    holders_read(book->holders, PQgetvalue(result, 0, 1));
    book->visits = strtoull(PQgetvalue(result, 0, 2), NULL, 10);
}

static void append(const struct line *line)
{
    char visit[24], desk[12];
    snprintf(visit, sizeof visit, "%" PRIu64, line->visit);
    snprintf(desk, sizeof desk, "%d", line->desk);
    const struct value values[] = {{visit, -1}, {line->who, -1}, {desk, -1}, {line->holder, -1}, {(const char *)line->calls, (int)line->size}};
    ask("INSERT INTO hernganow.log (ledger, visit, who, desk, holder, calls) VALUES ($1, $2, $3, $4, $5, $6)", 5, values);
}

static void commit(const struct book *book)
{
    put_book("UPDATE hernganow.ledger SET sheet = $2, holders = $3, visits = $4 WHERE name = $1", book);
    run_commit();
}

static void end(void)
{
    run("ROLLBACK");
}

static void read_base(uint8_t *sheet)
{
    ask("SELECT base FROM hernganow.ledger WHERE name = $1", 0, NULL);
    get_sheet(sheet);
}

static void take_line(void (*each)(const struct line *))
{
    size_t size = 0;
    unsigned char *calls = PQunescapeBytea((const unsigned char *)PQgetvalue(result, 0, 5), &size);
    struct line line = {.visit = strtoull(PQgetvalue(result, 0, 0), NULL, 10), .at = strtoll(PQgetvalue(result, 0, 1), NULL, 10),
                        .desk = atoi(PQgetvalue(result, 0, 3)), .size = size, .calls = calls};
    snprintf(line.who, sizeof line.who, "%s", PQgetvalue(result, 0, 2));
    snprintf(line.holder, sizeof line.holder, "%s", PQgetvalue(result, 0, 4));
    each(&line);
    PQfreemem(calls);
}

static void read_log(uint64_t visit, void (*each)(const struct line *))
{
    char from[24];
    const char *values[] = {name, from};
    snprintf(from, sizeof from, "%" PRIu64, visit);
    /* Reads line by line, because a long log might not fit into memory. */
    if (!PQsendQueryParams(base, "SELECT visit, at, who, desk, holder, calls FROM hernganow.log WHERE ledger = $1 AND visit >= $2 ORDER BY visit", 2, NULL,
                           values, NULL, NULL, 0) || !PQsetSingleRowMode(base))
        fail();
    for (PGresult *next; (next = PQgetResult(base));)
        switch (took(next)) {
        case PGRES_SINGLE_TUPLE: take_line(each); break;
        case PGRES_TUPLES_OK: break;
        default: fail();
        }
}

const struct store postgres_store = {open_base, close_base, create, begin, append, commit, end, read_base, read_log};

#endif
