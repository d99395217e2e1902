/* One command: a transaction of proved calls. The program says nothing before the transaction is kept, so nobody hears of a save that a lost disk or
   server then undoes. */
#ifndef VISIT_H
#define VISIT_H

#include <hernganow.h>
#include "store.h"
#include "words.h"

#include <inttypes.h>

enum status { DONE, REFUSED, CANNOT };

/* The most words that a command takes. */
enum { MOST_WORDS = 9999 };

/* The command's words after its name; the ledger; what the transaction reads and stores; the last call's answer; the person's name. */
extern char **words;
extern int count;
extern const char *place;
extern const struct store *store;
extern struct book book;
extern uint8_t answer[HERNGANOW_ANSWER];
extern char who[NAME];
#define SHEET book.sheet, sizeof book.sheet
#define ANSWER answer, sizeof answer
uint64_t answered(int at);

/* Open and close the ledger. Closing undoes what was begun and not kept. */
void open_ledger(const char *name, enum aim aim);
void close_ledger(void);

/* Reads the ledger. A damaged sheet ends the command; begin_any accepts it. */
void begin(enum aim aim);
void begin_any(enum aim aim);
/* Whether the book's sheet is a right sheet. */
int is_sheet(void);
/* Ends the transaction. Keeps it if a call was made or a desk has another holder. Then writes what the command says. */
void finish(void);
/* Forgets the command's output and calls, because it cannot work. */
void abandon(void);

/* To standard output, and to standard error. */
extern FILE *said, *denied;
void start_saying(void);
void say(const char *form, ...) __attribute__((format(printf, 1, 2)));
int refuse(uint32_t number);

/* The calls of a trace. */
enum { ENROL = 1, OPEN, TICK, UNTICK, SAVE, DROP, STRIKE };
struct call {
    uint8_t call;
    uint32_t desk, row, number;
    uint64_t key;
};
/* Makes a call on the sheet and notes it with its answer; notes a call that a receive made, and returns the log's entry of it; takes back the calls of
   this command, so that the sheet is as before. */
uint32_t make(struct call call);
const uint8_t *note(struct call call, uint32_t refused);
void take_back(void);

/* Replays calls on a sheet: a trace with so many bytes of entries behind its head, which is written here. Returns 0 or the refusal. */
enum { TRACE_HEAD = 12 };
uint32_t play(uint8_t *sheet, uint8_t *trace, size_t size);

/* The visit in which the next call is noted. */
uint64_t this_visit(void);

/* Calls as text, as the log shows them: all calls of a line, or a desk's ticks and unticks. */
void print_calls(FILE *to, const uint8_t *calls, size_t size);
void print_marks(FILE *to, const uint8_t *calls, size_t size, uint32_t desk);

/* A desk's row, or HERNGANOW_NONE if it has none open; whether another person has it open, which the program refuses; sets its holder to this person,
   or to nobody. */
uint64_t desk_row(uint32_t desk);
int is_held(uint32_t desk);
void set_holder(uint32_t desk, const char *name);

int do_new(void), do_import(void), do_export(void), do_enrol(void), do_strike(void), do_rows(void), do_row(void), do_missing(void), do_map(void);
int do_desks(void), do_open(void), do_tick(void), do_untick(void), do_save(void), do_drop(void), do_mark(void), do_take(void);
int do_receive(void), do_log(void), do_audit(void), do_season(void);

#endif
