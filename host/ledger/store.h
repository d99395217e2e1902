/* A ledger in a database: SQLite (a path) or PostgreSQL (a URI). A command is one transaction: begin reads the sheet and locks it, append adds lines
   to the log, commit stores the sheet. One ledger is open at a time. An error ends the command (`cannot` in words.h). */
#ifndef STORE_H
#define STORE_H

#include <hernganow.h>

enum { DESKS = 8, ROWS = 32, POSITIONS = 1024, NAME = 96, WAIT_SECONDS = 10 };

/* A line of the log: up to 4,000 calls as entries of a trace; and the desk, if any, whose holder changed. */
enum { ENTRY = 16, MOST_CALLS = 4000, NO_DESK = -1 };

struct line {
    uint64_t visit; /* from 1, without gaps */
    int64_t at;     /* seconds from 1970; the store sets it */
    char who[NAME];
    int desk;
    char holder[NAME]; /* nobody: empty */
    size_t size;       /* in bytes */
    const uint8_t *calls;
};

/* Who has a desk's row open, since when, and in which visit. An empty name is nobody. */
struct holder {
    char who[NAME];
    int64_t since;
    uint64_t visit;
};

/* What a transaction reads and stores. */
struct book {
    uint8_t sheet[HERNGANOW_SHEET];
    struct holder holders[DESKS];
    uint64_t visits; /* how many lines the log has */
};

enum aim { READ, WRITE, CREATE };

struct store {
    void (*open)(const char *place, enum aim aim);
    void (*close)(void);
    /* Makes the ledger. Its sheet is also the base, from which the log starts. Returns 0 if there is a ledger already. */
    int (*create)(const struct book *book);
    /* READ sees one state of the ledger until end. WRITE keeps others from writing until commit or end. */
    void (*begin)(enum aim aim, struct book *book);
    void (*append)(const struct line *line);
    void (*commit)(const struct book *book);
    void (*end)(void);
    /* After begin: the base; and the log's lines from a visit on, in order. */
    void (*base)(uint8_t *sheet);
    void (*log)(uint64_t visit, void (*each)(const struct line *line));
};

extern const struct store sqlite_store, postgres_store;

/* The holders as one text, with a line for each desk; and back. */
enum { HOLDERS = DESKS * (NAME + 48) };
void holders_write(const struct holder *holders, char text[HOLDERS]);
void holders_read(struct holder *holders, const char *text);

/* Takes bytes that are no sheet as zeros, which every call refuses with 20. */
void take_sheet(uint8_t *sheet, const void *bytes, size_t size);

#endif
