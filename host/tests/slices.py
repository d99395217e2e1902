"""Writes a C program that tries every slice of every call that the header declares. usage: slices.py HEADER > FILE.c

Each slice in turn has every length from 0 to some hundreds, and those about the lengths that records, sheets and settings have. It stands right before
a page that cannot be touched, or right behind one, so that a byte read or written outside ends the program. With length 0 its pointer is null too,
which has to make no difference. The other slices are what a right call would be given. The program prints how many calls it made, and how deep in
the stack they went.
"""
import re
import sys

CALL = re.compile(r"^uint32_t (hernganow_\w+)\(([^)]*)\);", re.M)
SLICE = re.compile(r"(const )?(\w+) \*(\w+), size_t \3_length")
NUMBER = re.compile(r"(u?int\d+_t) (\w+)")

BEFORE = r"""/* Written by host/tests/slices.py from the header. */
#define _GNU_SOURCE
#include <hernganow.h>

#include <pthread.h>
#include <stdio.h>
#include <stdlib.h>
#include <string.h>
#include <sys/mman.h>

enum { PAGE = 4096, ROOM = 64 * PAGE, SLICES = 8, STACK = 1 << 20, PAINT = 0xA5 };

/* Each slice has a room of its own between two pages that cannot be touched. */
static uint8_t *rooms[SLICES];
static uint64_t calls;

struct slice {
    void *at;
    size_t length; /* in elements */
};

/* What slices are filled with: bytes of a file, again and again where there are not enough. */
static uint8_t *contents[8];
static size_t sizes[8];
static int number_of_contents;

static void make_rooms(void)
{
    for (int i = 0; i < SLICES; i++) {
        uint8_t *all = mmap(NULL, ROOM + 2 * PAGE, PROT_NONE, MAP_PRIVATE | MAP_ANONYMOUS, -1, 0);
        if (all == MAP_FAILED || mprotect(all + PAGE, ROOM, PROT_READ | PROT_WRITE)) {
            perror("mmap");
            exit(2);
        }
        rooms[i] = all + PAGE;
    }
}

static void read_content(const char *path)
{
    FILE *file = fopen(path, "rb");
    uint8_t *bytes = calloc(1, ROOM);
    if (!file || !bytes) {
        perror(path);
        exit(2);
    }
    contents[number_of_contents] = bytes;
    sizes[number_of_contents++] = fread(bytes, 1, ROOM, file);
    fclose(file);
}

/* A slice at the end of its room or at its start, with a content. */
static struct slice lend(int room, size_t length, size_t width, int at_end, int content)
{
    struct slice slice = {rooms[room] + (at_end ? ROOM - length * width : 0), length};
    for (size_t done = 0; done < length * width; done += sizes[content]) {
        size_t left = length * width - done;
        memcpy((uint8_t *)slice.at + done, contents[content], left < sizes[content] ? left : sizes[content]);
    }
    return slice;
}

static void fail(const char *call, const char *slice, size_t length, const char *why)
{
    fprintf(stderr, "%s: %s of length %zu: %s\n", call, slice, length, why);
    exit(1);
}

/* An answer's first number is what is returned, but of 38, which writes nothing. */
static void judge(const char *call, const char *slice, size_t length, uint32_t returned, const struct slice *answer)
{
    calls++;
    if (answer->length != HERNGANOW_ANSWER) {
        if (returned != HERNGANOW_REFUSED_ANSWER_LENGTH)
            fail(call, slice, length, "not refused with 38");
        return;
    }
    if (returned == HERNGANOW_REFUSED_ANSWER_LENGTH || hernganow_number((const uint8_t *)answer->at, HERNGANOW_AT_REFUSAL) != returned)
        fail(call, slice, length, "the answer's first number is not what is returned");
}

static const size_t about[] = {0, 12, 20, 34, 120, 256, 260, 784, 1023, 1024, 2260, 5056, 6776, 6968, 13936, 64012, 65536, 65795, 111488};
enum { SMALL = 130, AROUND = 2 };

/* The lengths to try, one after the other, up to the room's; 0 when they are done. */
static int next_length(size_t *length, size_t width)
{
    size_t next = *length + 1;
    if (next > SMALL) {
        size_t found = SIZE_MAX;
        for (size_t i = 0; i < sizeof about / sizeof *about; i++)
            for (size_t n = about[i] > AROUND ? about[i] - AROUND : 0; n <= about[i] + AROUND; n++)
                if (n >= next && n < found)
                    found = n;
        next = found;
    }
    *length = next;
    return next <= ROOM / width && next <= 120000;
}
"""

AFTER = r"""
static void *try_all(void *unused)
{
    (void)unused;
    for (size_t i = 0; i < sizeof tries / sizeof *tries; i++)
        tries[i]();
    return NULL;
}

/* How many bytes of a painted stack were written. */
static size_t depth(const uint8_t *stack)
{
    size_t clean = 0;
    while (clean < STACK && stack[clean] == PAINT)
        clean++;
    return STACK - clean;
}

static void *do_nothing(void *unused)
{
    return unused;
}

static size_t stack_of(void *(*work)(void *))
{
    uint8_t *stack = aligned_alloc(PAGE, STACK);
    pthread_attr_t attributes;
    pthread_t thread;
    if (!stack)
        exit(2);
    memset(stack, PAINT, STACK);
    pthread_attr_init(&attributes);
    if (pthread_attr_setstack(&attributes, stack, STACK) || pthread_create(&thread, &attributes, work, NULL) || pthread_join(thread, NULL)) {
        fputs("no thread\n", stderr);
        exit(2);
    }
    size_t found = depth(stack);
    free(stack);
    return found;
}

int main(int count, char **words)
{
    if (count < 2 || count > 9) {
        fputs("usage: slices CONTENT..\n", stderr);
        return 2;
    }
    for (int i = 1; i < count; i++)
        read_content(words[i]);
    make_rooms();
    size_t bare = stack_of(do_nothing), used = stack_of(try_all);
    printf("%zu calls tried, %llu times; at most %zu bytes of stack, of which a thread that does nothing has %zu\n", sizeof tries / sizeof *tries,
           (unsigned long long)calls, used, bare);
    return used > bare + HERNGANOW_STACK;
}
"""


def read_calls(header):
    text = re.sub(r"/\*.*?\*/", "", header, flags=re.S)
    for name, parameters in CALL.findall(text):
        parameters = " ".join(parameters.split())
        found = []
        while parameters:
            match = SLICE.match(parameters) or NUMBER.match(parameters)
            if not match:
                sys.exit(f"slices.py: {name} is declared in a form that is not read here: {parameters}")
            found.append(match.groups())
            parameters = parameters[match.end():].lstrip(", ")
        yield name, found


def usual_length(name):
    """What a right call would be given; of other slices some thousand elements."""
    return {"answer": "HERNGANOW_ANSWER", "sheet": "HERNGANOW_SHEET", "settings": "HERNGANOW_SETTINGS", "old": "6776", "sheets": "2 * HERNGANOW_SHEET",
            "words": "28", "samples": "5000"}.get(name, "3000")


def try_of(name, parameters):
    slices = [p for p in parameters if len(p) == 3]
    lines = [f"static void try_{name}(void)", "{"]
    for turn, (_, kind, tried) in enumerate(slices):
        for_lent = []
        for room, (const, width, called) in enumerate(slices):
            length = "length" if room == turn else usual_length(called)
            for_lent.append(f"            struct slice {called} = lend({room}, {length}, sizeof({width}), at_end, content);")
        arguments, null = [], []
        for p in parameters:
            if len(p) == 3:
                pointer = f"({p[0] or ''}{p[1]} *){p[2]}.at, {p[2]}.length"
                arguments.append(pointer)
                null.append("NULL, 0" if p[2] == tried else pointer)
            else:
                arguments.append(f"({p[0]})number")
                null.append(f"({p[0]})number")
        compared = "" if tried == "answer" else f"""
            if (!length) {{
                uint8_t kept[HERNGANOW_ANSWER];
                memcpy(kept, answer.at, sizeof kept);
                {chr(10).join(line.strip() for line in for_lent if ' answer = ' not in line and f' {tried} = ' not in line).replace("struct slice ", "").replace(chr(10), chr(10) + " " * 16)}
                returned = {name}({', '.join(null)});
                judge("{name}", "{tried}, null,", length, returned, &answer);
                if (memcmp(kept, answer.at, sizeof kept))
                    fail("{name}", "{tried}", length, "a null pointer makes a difference");
            }}"""
        if tried == "answer":
            compared = f"""
            if (!length)
                judge("{name}", "answer, null,", length, {name}({', '.join(null)}), &answer);"""
        lines.append(f"""    for (size_t length = 0, more = 1; more; more = (size_t)next_length(&length, sizeof({kind})))
        for (int variant = 0; variant < 6 * number_of_contents; variant++) {{
            int content = variant % number_of_contents, at_end = variant / number_of_contents % 2;
            uint64_t number = (uint64_t)(variant / number_of_contents / 2);
            number = number == 2 ? 258 : number;""")
        lines += for_lent
        lines.append(f"""            uint32_t returned = {name}({', '.join(arguments)});
            judge("{name}", "{tried}", length, returned, &answer);{compared}
        }}""")
    lines.append("}\n")
    return "\n".join(lines)


def main():
    if len(sys.argv) != 2:
        sys.exit(__doc__)
    with open(sys.argv[1]) as file:
        calls = list(read_calls(file.read()))
    if not calls:
        sys.exit("slices.py: the header declares no call")
    print(BEFORE)
    for call in calls:
        print(try_of(*call))
    names = ",\n    ".join(f"try_{name}" for name, _ in calls)
    print(f"static void (*const tries[])(void) = {{\n    {names}}};")
    print(AFTER)


main()
