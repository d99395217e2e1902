/* The words that a person types and reads. */
#ifndef WORDS_H
#define WORDS_H

#include <hernganow.h>

#include <stdio.h>

/* The kinds of records and of keys. */
enum { KIND_TELEMETRY = 1, KIND_RSR = 2 };

/* Says why a command cannot work, and ends it with status 2. A session goes on with the next line. */
void cannot(const char *form, ...) __attribute__((format(printf, 1, 2), noreturn));
/* What ends a command; main sets it: it ends the program, or the line. */
extern void (*end_command)(void) __attribute__((noreturn));

/* A refusal in words, with its number and what to do next; valid until the next call. */
const char *refusal_words(uint32_t number);

/* A ledger's place, without the user and password of a URI. */
const char *shown(const char *place);

/* A decimal number. Anything else ends the command. */
uint32_t read_number(const char *word, const char *what);

/* Record numbers as a person writes them: 12, or 3-7. A run may pass the stream's highest number. */
struct run {
    uint32_t from, to;
};
struct run read_run(const char *word);

/* A stream by its parts, and a time. Valid until the fourth call from now. */
const char *stream_words(uint64_t key);
const char *moment_words(int64_t at);

/* How many record numbers a key's stream has. */
uint64_t numbers_of(uint64_t key);

/* Prints numbers of a stream as runs. */
void print_runs(FILE *to, const uint32_t *list, size_t count, uint64_t key);

/* "s", or "" for one. */
const char *plural(uint64_t count);

#endif
