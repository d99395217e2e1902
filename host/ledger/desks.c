/* Commands on desks: a person makes a visit. */
#define _XOPEN_SOURCE 700
#include "row.h"

#include <string.h>

static uint32_t desk_word(void)
{
    return read_number(words[0], "desk");
}

/* ---- Unsaved work */

static void say_unsaved(uint32_t desk)
{
    hernganow_unsaved(SHEET, desk, ANSWER);
    uint64_t ticks = answered(HERNGANOW_AT_UNSAVED_TICKS), unticks = answered(HERNGANOW_AT_UNSAVED_UNTICKS);
    say("%" PRIu64 " tick%s and %" PRIu64 " untick%s", ticks, plural(ticks), unticks, plural(unticks));
}

static uint32_t at_desk;

static void say_marks_of(const struct line *line)
{
    print_marks(said, line->calls, line->size, at_desk);
}

/* Prints what the desk ticked and unticked since it opened its row, from the log, as words that a person can type again. */
static void say_marks(uint32_t desk)
{
    at_desk = desk;
    if (book.holders[desk].visit)
        store->log(book.holders[desk].visit, say_marks_of);
}

static void say_desk(uint32_t desk)
{
    const struct holder *holder = &book.holders[desk];
    uint64_t row = desk_row(desk);
    if (row == HERNGANOW_NONE) {
        say("desk %" PRIu32 ": free\n", desk);
        return;
    }
    int stale = answered(HERNGANOW_AT_DESK_STALE) != 0;
    hernganow_row(SHEET, (uint32_t)row, ANSWER);
    say("desk %" PRIu32 ": row %" PRIu64 ", %s, ", desk, row, stream_words(answered(HERNGANOW_AT_ROW_KEY)));
    if (holder->who[0])
        say("%s since %s, not saved: ", holder->who, moment_words(holder->since));
    else
        say("open since before the import, not saved: ");
    say_unsaved(desk);
    say("%s\n", stale ? "; STALE, a save will be refused" : "");
}

int do_desks(void)
{
    begin(READ);
    for (uint32_t desk = 0; desk < DESKS; desk++)
        say_desk(desk);
    return DONE;
}

int do_take(void)
{
    uint32_t desk = desk_word();
    begin(WRITE);
    uint32_t refused = hernganow_unsaved(SHEET, desk, ANSWER);
    if (refused)
        return refuse(refused);
    say("desk %" PRIu32 " is taken over from %s\n", desk, book.holders[desk].who[0] ? book.holders[desk].who : "nobody");
    uint64_t opened = book.holders[desk].visit;
    set_holder(desk, who);
    /* The unsaved work still belongs to the visit that opened the row. */
    book.holders[desk].visit = opened;
    say_desk(desk);
    return DONE;
}

/* ---- Ticks */

/* How many numbers a command ticked and unticked, and how many were so already; and its last call, which may be refused. */
struct tally {
    uint64_t ticked, unticked, already;
    struct call last;
};

/* Ticks or unticks a run of numbers at a desk. A number that is so already is not an error. */
static uint32_t mark_run(uint32_t desk, uint8_t call, struct run run, uint64_t numbers, struct tally *tally)
{
    for (uint64_t number = run.from;; number = (number + 1) % numbers) {
        tally->last = (struct call){.call = call, .desk = desk, .number = (uint32_t)number};
        uint32_t refused = make(tally->last);
        if (refused && refused != HERNGANOW_REFUSED_ALREADY_TICKED && refused != HERNGANOW_REFUSED_NOT_TICKED)
            return refused;
        tally->already += refused != 0;
        tally->ticked += !refused && call == TICK;
        tally->unticked += !refused && call == UNTICK;
        /* A command is one line of the log. A row has 1,024 numbers. */
        if (tally->ticked + tally->unticked + tally->already > MOST_CALLS - 3)
            cannot("more numbers than a command takes; nothing was done");
        if (number == run.to)
            return 0;
    }
}

/* The runs from a word of the command on. In a mark, a word may begin with + or -, which says whether to tick or untick from there on. */
static uint32_t mark_words(uint32_t desk, int from, uint8_t call, int signs, struct tally *tally)
{
    uint64_t row = desk_row(desk), numbers = (uint64_t)1 << 32;
    if (row != HERNGANOW_NONE && !hernganow_row(SHEET, (uint32_t)row, ANSWER))
        numbers = numbers_of(answered(HERNGANOW_AT_ROW_KEY));
    for (int i = from; i < count; i++) {
        const char *word = words[i];
        if (signs && (*word == '+' || *word == '-'))
            call = *word++ == '+' ? TICK : UNTICK;
        if (!*word && signs)
            continue;
        uint32_t refused = mark_run(desk, call, read_run(word), numbers, tally);
        if (refused)
            return refused;
    }
    return 0;
}

static void say_tally(const struct tally *tally)
{
    const char *comma = "";
    if (tally->ticked || !(tally->unticked + tally->already))
        say("%" PRIu64 " ticked", tally->ticked), comma = ", ";
    if (tally->unticked)
        say("%s%" PRIu64 " unticked", comma, tally->unticked), comma = ", ";
    if (tally->already)
        say("%s%" PRIu64 " so already", comma, tally->already);
}

/* If a number is refused as outside, prints the row that it is not in. */
static void say_outside(uint64_t index, uint32_t number, uint32_t refused)
{
    static struct row row;
    if (refused != HERNGANOW_REFUSED_OUTSIDE_ROW || read_row((uint32_t)index, &row))
        return;
    say("number %" PRIu32 " is not in ", number);
    say_row(&row);
    say("\n");
}

static int mark_desk(uint8_t call)
{
    uint32_t desk = desk_word();
    struct tally tally = {0};
    begin(WRITE);
    if (is_held(desk))
        return REFUSED;
    uint64_t row = desk_row(desk);
    uint32_t refused = mark_words(desk, 1, call, 0, &tally);
    if (refused) {
        /* The log keeps only the refused call: the sheet as it was refuses it too. */
        take_back();
        make(tally.last);
        say_outside(row, tally.last.number, refused);
        return refuse(refused);
    }
    say("desk %" PRIu32 ", row %" PRIu64 ": ", desk, row);
    say_tally(&tally);
    say("; not saved: ");
    say_unsaved(desk);
    say("\n");
    return DONE;
}

int do_tick(void)
{
    return mark_desk(TICK);
}

int do_untick(void)
{
    return mark_desk(UNTICK);
}

/* ---- Open, save, drop, and all at once */

int do_open(void)
{
    uint32_t desk = desk_word(), index = read_number(words[1], "row");
    static struct row row;
    begin(WRITE);
    if (is_held(desk))
        return REFUSED;
    uint32_t refused = make((struct call){.call = OPEN, .desk = desk, .row = index});
    if (refused)
        return refuse(refused);
    set_holder(desk, who);
    read_row(index, &row);
    say("desk %" PRIu32 ": open ", desk);
    say_row(&row);
    say("; ");
    say_counts(&row);
    say("\n");
    return DONE;
}

static void say_row_counts(uint32_t index)
{
    static struct row row;
    read_row(index, &row);
    say("; the row has ");
    say_counts(&row);
    say("\n");
}

/* Prints what a save or a drop did. It prints work that was not kept as words that a person can type again. */
static void say_left(uint32_t desk, uint32_t row, int saved, uint64_t ticks, uint64_t unticks)
{
    if (saved) {
        say("desk %" PRIu32 ": saved row %" PRIu32 ", visit %" PRIu64 ": %" PRIu64 " ticked, %" PRIu64 " unticked", desk, row, this_visit(), ticks, unticks);
    } else {
        say("desk %" PRIu32 ": row %" PRIu32 " is closed; not kept:", desk, row);
        say_marks(desk);
        say("%s", ticks + unticks ? "" : " nothing");
    }
    say_row_counts(row);
}

static int leave(uint8_t call)
{
    uint32_t desk = desk_word();
    begin(WRITE);
    if (is_held(desk))
        return REFUSED;
    uint64_t row = desk_row(desk), unsaved[2] = {0};
    if (!hernganow_unsaved(SHEET, desk, ANSWER)) {
        unsaved[0] = answered(HERNGANOW_AT_UNSAVED_TICKS);
        unsaved[1] = answered(HERNGANOW_AT_UNSAVED_UNTICKS);
    }
    uint32_t refused = make((struct call){.call = call, .desk = desk});
    if (refused && refused != HERNGANOW_REFUSED_STALE)
        return refuse(refused);
    say_left(desk, (uint32_t)row, call == SAVE && !refused, unsaved[0], unsaved[1]);
    set_holder(desk, "");
    return refused ? refuse(refused) : DONE;
}

int do_save(void)
{
    return leave(SAVE);
}

int do_drop(void)
{
    return leave(DROP);
}

/* If a number is refused, the desk is dropped. The log keeps only the open, the refused call and the drop. */
static int drop_mark(uint32_t desk, uint32_t row, const struct tally *tally, uint32_t refused)
{
    take_back();
    make((struct call){.call = OPEN, .desk = desk, .row = row});
    make(tally->last);
    make((struct call){.call = DROP, .desk = desk});
    say_outside(row, tally->last.number, refused);
    return refuse(refused);
}

int do_mark(void)
{
    uint32_t desk = desk_word(), row = read_number(words[1], "row");
    struct tally tally = {0};
    begin(WRITE);
    if (is_held(desk))
        return REFUSED;
    uint32_t refused = make((struct call){.call = OPEN, .desk = desk, .row = row});
    if (refused)
        return refuse(refused);
    refused = mark_words(desk, 2, TICK, 1, &tally);
    if (refused)
        return drop_mark(desk, row, &tally, refused);
    make((struct call){.call = SAVE, .desk = desk});
    say("desk %" PRIu32 ": saved row %" PRIu32 ", visit %" PRIu64 ": ", desk, row, this_visit());
    say_tally(&tally);
    say_row_counts(row);
    return DONE;
}
