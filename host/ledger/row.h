/* A row, as the proved calls report it. */
#ifndef ROW_H
#define ROW_H

#include "visit.h"

enum state { NOT_YET, TICKED, MISSING };

struct row {
    uint32_t index;
    uint64_t key, numbers; /* how many numbers its stream counts */
    uint32_t first, ticked, missing;
    uint32_t gaps[POSITIONS]; /* the missing numbers */
};

/* Reads a row of the sheet; returns 0 or the refusal. */
uint32_t read_row(uint32_t index, struct row *row);
uint32_t number_at(const struct row *row, uint32_t position);
/* The state of each position: up to the highest tick ticked or missing, above it not yet received. */
void row_states(const struct row *row, uint8_t states[POSITIONS]);

/* "row 3, telemetry 177 43 2 1, numbers 1-1024"; "12 ticked, 2 missing: 5 9" */
void say_row(const struct row *row);
void say_counts(const struct row *row);

/* Reads the next row from *index on; 0 if there is no other. */
int each_row(uint32_t *index, struct row *row);

/* Whether the command's next word is this option. If so, removes it. */
int has_option(const char *option);

/* Pictures of a row: one line or 16 lines in the terminal; or an SVG. */
void print_strip(FILE *to, const struct row *row);
void print_grid(FILE *to, const struct row *row);
void print_svg(FILE *to, const struct row *rows, size_t number);

#endif
