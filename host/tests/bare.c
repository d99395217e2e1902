/* The transaction of a command without a proved call: reads and locks the sheet, adds a line to the log, and stores the same sheet, as often as asked.
   The benchmarks compare the ledger program's commands with it. */
#define _XOPEN_SOURCE 700
#include "../ledger/store.h"
#include "../ledger/words.h"

#include <stdlib.h>
#include <string.h>

static void __attribute__((noreturn)) end_program(void)
{
    exit(2);
}

int main(int argc, char **argv)
{
    end_command = end_program;
    if (argc != 3)
        cannot("bare LEDGER COMMANDS");
    static struct book book;
    static uint8_t calls[ENTRY] = {3};
    const struct store *store = strncmp(argv[1], "postgresql://", 13) ? &sqlite_store : &postgres_store;
    store->open(argv[1], WRITE);
    for (long i = atol(argv[2]); i > 0; i--) {
        store->begin(WRITE, &book);
        struct line line = {.visit = ++book.visits, .who = "bare", .desk = NO_DESK, .size = sizeof calls, .calls = calls};
        store->append(&line);
        store->commit(&book);
    }
    store->close();
    return 0;
}
