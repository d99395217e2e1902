/* The ledger program: a receipt ledger for a person at a terminal, or for a script. */
#define _XOPEN_SOURCE 700
#include "visit.h"

#include <pwd.h>
#include <setjmp.h>
#include <signal.h>
#include <stdlib.h>
#include <string.h>
#include <unistd.h>

static const struct command {
    const char *name, *takes, *does;
    int least, most;
    enum aim aim;
    int (*run)(void);
} commands[] = {
    {"new", "", "begin a fresh ledger", 0, 0, CREATE, do_new},
    {"import", "FILE", "begin a ledger with a plain sheet; an old one is converted", 1, 1, CREATE, do_import},
    {"export", "FILE", "write the sheet to a new file, which `season` reads", 1, 1, READ, do_export},
    {"enrol", "KIND A B C D FIRST", "give a stream a row, from its first number on:\n"
     "                                   telemetry SPACECRAFT SOURCE EQUIPMENT STREAM FIRST\n"
     "                                   rsr SPACECRAFT STATION RECEIVER SUBCHANNEL FIRST", 6, 6, WRITE, do_enrol},
    {"strike", "ROW", "give a row back; its ticks are gone", 1, 1, WRITE, do_strike},
    {"rows", "", "the streams, a line for each", 0, 0, READ, do_rows},
    {"row", "ROW", "all about one", 1, 1, READ, do_row},
    {"desks", "", "who works on what, and what is not saved", 0, 0, READ, do_desks},
    {"receive", "DESK STREAM..", "streams come in: tick off all their records", 2, MOST_WORDS, WRITE, do_receive},
    {"mark", "DESK ROW [+RUNS] [-RUNS]", "open, tick, untick and save at once, as in +3-7 12 -9", 2, MOST_WORDS, WRITE, do_mark},
    {"open", "DESK ROW", "open a row at a desk", 2, 2, WRITE, do_open},
    {"tick", "DESK RUNS", "tick numbers, as in 3-7 12", 2, MOST_WORDS, WRITE, do_tick},
    {"untick", "DESK RUNS", "take ticks away", 2, MOST_WORDS, WRITE, do_untick},
    {"save", "DESK", "keep what the desk ticked, and close the row", 1, 1, WRITE, do_save},
    {"drop", "DESK", "forget what the desk ticked, and close the row", 1, 1, WRITE, do_drop},
    {"take", "DESK", "take over a desk that another has open", 1, 1, WRITE, do_take},
    {"missing", "[--csv] [ROW]", "the order list: all missing numbers", 0, 2, READ, do_missing},
    {"map", "[--svg] [ROW]", "a picture of what is ticked, missing and not yet there", 0, 2, READ, do_map},
    {"log", "[N]", "the last N visits (10): who, when, what", 0, 1, READ, do_log},
    {"audit", "[FILE]", "play the log again: does it make the sheet? (into FILE)", 0, 1, READ, do_audit},
    {"season", "[LEDGER..]", "the gaps of this ledger and others", 0, MOST_WORDS, READ, do_season},
};
enum { COMMANDS = sizeof commands / sizeof *commands };

static void print_use(FILE *to, const struct command *c)
{
    fprintf(to, "  %-7s %-25s%s\n", c->name, c->takes, c->does);
}

static int usage(FILE *to)
{
    fputs("usage: ledger LEDGER COMMAND ..   LEDGER is a file, or postgresql://HOST/DATABASE#NAME\n"
          "       ledger LEDGER              a session: a command on each line of standard input, each kept on its own\n\n", to);
    for (size_t i = 0; i < COMMANDS; i++)
        print_use(to, &commands[i]);
    fputs("\nExit status: 0 done, 1 refused, 2 cannot work; of a session the worst of its lines. A desk is yours from open to save or drop:\n"
          "your user, machine and terminal session (and the session of this program), or what HERNGANOW_WHO says.\n", to);
    return to == stdout ? DONE : CANNOT;
}

/* ---- One command */

static const struct command *find_command(const char *name)
{
    for (size_t i = 0; i < COMMANDS; i++)
        if (!strcmp(name, commands[i].name))
            return &commands[i];
    cannot("'%s' is no command; `--help` lists them", name);
}

static int run(char **line, int length)
{
    if (!strcmp(line[0], "--help") || !strcmp(line[0], "help"))
        return usage(stdout);
    const struct command *c = find_command(line[0]);
    words = line + 1;
    count = length - 1;
    if (count && !strcmp(words[count - 1], "--help")) {
        print_use(stdout, c);
        return DONE;
    }
    if (count < c->least || count > c->most)
        cannot("say `%s%s%s`, to %s", c->name, *c->takes ? " " : "", c->takes, c->does);
    if (!store || c->aim == CREATE)
        open_ledger(place, c->aim);
    int status = c->run();
    finish();
    return status;
}

/* ---- Sessions */

static jmp_buf line_end;

static void __attribute__((noreturn)) end_line(void)
{
    longjmp(line_end, 1);
}

static void __attribute__((noreturn)) end_program(void)
{
    exit(CANNOT);
}

/* Cuts a line into words. A word in double quotes may contain blanks. */
static int cut(char *text, char **parts, int room)
{
    int found = 0;
    for (;;) {
        text += strspn(text, " \t\r\n");
        if (!*text || *text == '#' || found == room)
            return found;
        const char *ends = *text == '"' ? "\"" : " \t\r\n";
        text += *text == '"';
        parts[found++] = text;
        text += strcspn(text, ends);
        if (*text)
            *text++ = 0;
    }
}

/* Runs a line and returns its status. A command that cannot work ends the line, but not the session. */
static int run_line(char **parts, int length)
{
    if (!setjmp(line_end))
        return run(parts, length);
    abandon();
    return CANNOT;
}

static int run_session(void)
{
    static char *parts[MOST_WORDS + 1];
    static char *text;
    static size_t room;
    static int worst;
    end_command = end_line;
    for (;;) {
        if (isatty(0))
            fputs("ledger> ", stdout);
        if (fflush(stdout))
            end_program();
        if (getline(&text, &room, stdin) < 0) {
            fputs(isatty(0) ? "\n" : "", stdout);
            break;
        }
        int length = cut(text, parts, MOST_WORDS + 1);
        if (length && (!strcmp(parts[0], "quit") || !strcmp(parts[0], "exit")))
            break;
        int status = length ? run_line(parts, length) : DONE;
        worst = status > worst ? status : worst;
    }
    free(text);
    return worst;
}

/* ---- The program */

/* USER@MACHINE/TERMINAL-SESSION as one word; a session also has its process, so that two sessions at one terminal have two names. */
static void set_who(int session)
{
    char host[40] = "", process[24] = "";
    const char *named = getenv("HERNGANOW_WHO");
    const struct passwd *user = getpwuid(getuid());
    gethostname(host, sizeof host - 1);
    if (session)
        snprintf(process, sizeof process, ".%ld", (long)getpid());
    if (named && *named)
        snprintf(who, sizeof who, "%.60s", named);
    else
        snprintf(who, sizeof who, "%.20s@%s/%ld%s", user ? user->pw_name : "unknown", host, (long)getsid(0), process);
    for (char *c = who; *c; c++)
        if (*c <= ' ' || *c > '~' || !strcmp(who, "-"))
            *c = '_';
}

static int run_program(int argc, char **argv)
{
    if (argc < 2 || !strcmp(argv[1], "--help") || !strcmp(argv[1], "help"))
        return usage(argc < 2 ? stderr : stdout);
    place = argv[1];
    set_who(argc == 2);
    start_saying();
    int status = argc > 2 ? run(argv + 2, argc - 2) : run_session();
    close_ledger();
    return status;
}

/* Another program cut a stream short while this one read it. The database undoes what was begun, as after a kill. */
static void end_cut_short(int number)
{
    static const char text[] = "ledger: a file was cut short while it was read; nothing of this command was kept, try again when the file is whole\n";
    ssize_t written = write(STDERR_FILENO, text, sizeof text - 1);
    (void)number;
    (void)written;
    _exit(CANNOT);
}

int main(int argc, char **argv)
{
    end_command = end_program;
    /* A failed write is an error that the program reports; it must not end the program. */
    signal(SIGPIPE, SIG_IGN);
    signal(SIGXFSZ, SIG_IGN);
    signal(SIGBUS, end_cut_short);
    int status = run_program(argc, argv);
    if (fflush(stdout)) {
        fputs("ledger: standard output cannot be written\n", stderr);
        return CANNOT;
    }
    return status;
}
