/* Pictures of rows. */
#define _XOPEN_SOURCE 700
#include "row.h"

#include <stdlib.h>
#include <string.h>
#include <unistd.h>

enum { ACROSS = 64, BLOCK = 16 };

/* Prints a block, in red if a person should look at it. */
static void print_block(FILE *to, const char *block, int red)
{
    int colours = isatty(1) && !getenv("NO_COLOR");
    fprintf(to, red && colours ? "\033[31m%s\033[0m" : "%s", block);
}

void print_grid(FILE *to, const struct row *row)
{
    static const char *const blocks[] = {"·", "█", "░"};
    uint8_t states[POSITIONS];
    row_states(row, states);
    for (uint32_t i = 0; i < POSITIONS; i++) {
        if (i % ACROSS == 0)
            fprintf(to, "%10" PRIu32 "  ", number_at(row, i));
        print_block(to, blocks[states[i]], states[i] == MISSING);
        if (i % ACROSS == ACROSS - 1)
            fputc('\n', to);
    }
}

void print_strip(FILE *to, const struct row *row)
{
    uint8_t states[POSITIONS];
    row_states(row, states);
    for (uint32_t i = 0; i < POSITIONS; i += BLOCK) {
        uint32_t in[3] = {0};
        for (uint32_t p = i; p < i + BLOCK; p++)
            in[states[p]]++;
        const char *block = in[MISSING] > BLOCK / 2 ? "░" : in[MISSING] > 1 ? "▒" : in[MISSING] ? "▓" : in[TICKED] ? "█" : "·";
        print_block(to, block, in[MISSING] > 0);
    }
}

/* ---- SVG: a row is a grid of 128 by 8 squares under a line of text. */

enum { WIDE = 128, SQUARE = 7, HEAD = 22, MARGIN = 12, ROW_HIGH = HEAD + POSITIONS / WIDE * SQUARE + 10, LEGEND = 26 };

/* Prints one rectangle for each run of equal squares in a line. */
static void print_squares(FILE *to, const uint8_t states[POSITIONS], int top)
{
    static const char *const classes[] = {"n", "t", "m"};
    for (uint32_t i = 0, end; i < POSITIONS; i = end) {
        for (end = i + 1; end % WIDE && states[end] == states[i]; end++)
            ;
        fprintf(to, "<rect class=\"%s\" x=\"%d\" y=\"%d\" width=\"%d\" height=\"%d\"/>\n", classes[states[i]], MARGIN + (int)(i % WIDE) * SQUARE,
                top + (int)(i / WIDE) * SQUARE, (int)(end - i) * SQUARE - 1, SQUARE - 1);
    }
}

static void print_legend(FILE *to, int top)
{
    static const char *const names[] = {"ticked", "missing", "not yet there"}, *const classes[] = {"t", "m", "n"};
    for (int i = 0; i < 3; i++) {
        int left = MARGIN + 110 * i;
        fprintf(to, "<rect class=\"%s\" x=\"%d\" y=\"%d\" width=\"10\" height=\"10\"/><text x=\"%d\" y=\"%d\">%s</text>\n", classes[i], left, top,
                left + 16, top + 10, names[i]);
    }
}

void print_svg(FILE *to, const struct row *rows, size_t number)
{
    int width = 2 * MARGIN + WIDE * SQUARE, height = LEGEND + MARGIN + ROW_HIGH * (int)number;
    fprintf(to, "<svg xmlns=\"http://www.w3.org/2000/svg\" width=\"%d\" height=\"%d\" viewBox=\"0 0 %d %d\">\n", width, height, width, height);
    fputs("<style>text{font:13px sans-serif;fill:#222}.t{fill:#2b6a99}.m{fill:#d62728}.n{fill:#e6e6e6}</style>\n"
          "<rect width=\"100%\" height=\"100%\" fill=\"#fff\"/>\n", to);
    print_legend(to, MARGIN);
    for (size_t i = 0; i < number; i++) {
        const struct row *row = &rows[i];
        uint8_t states[POSITIONS];
        int top = LEGEND + MARGIN + ROW_HIGH * (int)i;
        row_states(row, states);
        fprintf(to, "<text x=\"%d\" y=\"%d\">row %" PRIu32 ", %s, numbers %" PRIu32 "-%" PRIu32 ": %" PRIu32 " ticked, %" PRIu32 " missing</text>\n", MARGIN,
                top + 15, row->index, stream_words(row->key), row->first, number_at(row, POSITIONS - 1), row->ticked, row->missing);
        print_squares(to, states, top + HEAD);
    }
    fputs("</svg>\n", to);
}
