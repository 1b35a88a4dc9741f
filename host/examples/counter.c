/* Runs the label program of a sheet at the counter, on the keys that are typed as its arguments, and prints the label.
 *
 *   counter [--limit N] [--every N] SHEET [KEY...]
 *
 * A key is a number, decimal or with 0x in front; each word that the program reads takes one. What the program writes goes to standard output,
 * and a line with the answer to standard error. Exit status: 0 the program ended with 0; 1 any other answer; 2 wrong usage, or no sheet.
 * With --every the program stops after each N instructions and hands over to the display: what it has written since goes out at once, and a line
 * on standard error tells the instructions run, the keys taken and the bytes written so far. Label and answer are those of a run without it.
 * Of a sheet (docs/SHEETS.md) memory, code and data count; its states, rounds and tape belong to the search. */
#include <ctype.h>
#include <errno.h>
#include <inttypes.h>
#include <stdio.h>
#include <stdlib.h>
#include <string.h>

#include "../tavvinur.h"

enum { FIELDS = 16, MEMORY = 6, CODE_ADDRESS = 8, CODE = 9, CODE_LENGTH = 10, DATA_ADDRESS = 11, DATA = 12, DATA_LENGTH = 13 };
enum { LIMIT_REACHED = 22 };
enum { MOST_SHEET = 1 << 24, MOST_MEMORY = 1 << 20, MOST_LOG = 1 << 16, LABEL = 1 << 20 };

static void stop(const char *what, const char *which)
{
    fprintf(stderr, "counter: %s%s\n", what, which);
    exit(2);
}

static void *room(size_t bytes)
{
    void *p = calloc(bytes ? bytes : 1, 1);
    if (!p)
        stop("no memory", "");
    return p;
}

static uint64_t number_of(const char *text, uint64_t least, uint64_t most)
{
    char *end;
    int base = text[0] == '0' && (text[1] == 'x' || text[1] == 'X') ? 16 : 10;
    errno = 0;
    uint64_t number = strtoull(text, &end, base);
    if (!isdigit((unsigned char)*text) || *end || errno || number < least || number > most)
        stop("no number, or one that is too large or too small: ", text);
    return number;
}

/* --- the sheet --- */

typedef struct {
    uint8_t *bytes;
    size_t length;
} sheet;

static sheet read_sheet(const char *name)
{
    sheet s = {room(MOST_SHEET), 0};
    FILE *file = fopen(name, "rb");
    if (!file)
        stop("cannot be opened: ", name);
    s.length = fread(s.bytes, 1, MOST_SHEET, file);
    if (ferror(file))
        stop("cannot be read: ", name);
    fclose(file);
    if (s.length < 8 * FIELDS)
        stop("no sheet: ", name);
    return s;
}

static uint64_t field(sheet s, int n)
{
    uint64_t word = 0;
    for (int i = 7; i >= 0; i--)
        word = word << 8 | s.bytes[8 * n + i];
    return word;
}

/* The bytes at an offset that are as many as a field says. */
static const uint8_t *part(sheet s, int offset, int length)
{
    uint64_t start = field(s, offset), count = field(s, length);
    if (start > s.length || count > s.length - start)
        stop("no sheet: code or data end past its end", "");
    return s.bytes + start;
}

/* --- the run --- */

/* One row: an executor. */
typedef struct {
    uint64_t memory, log;
    uint64_t *words;
    size_t words_length;
    uint8_t *marks;
    size_t marks_length;
} executor;

static executor make_executor(sheet s, size_t keys)
{
    executor e = {.memory = field(s, MEMORY), .log = keys}; /* so that the log is never full */
    if (e.memory == UINT64_MAX)
        e.memory = MOST_MEMORY;
    /* what the library refuses anyway gets no row */
    if (e.memory <= MOST_MEMORY && e.log <= MOST_LOG) {
        e.words_length = tavvinur_row_words(e.memory, e.log);
        e.marks_length = tavvinur_row_marks(e.memory);
    }
    e.words = room(e.words_length * sizeof *e.words);
    e.marks = room(e.marks_length);
    return e;
}

/* The keys that are typed, and the label that comes of them. */
typedef struct {
    uint64_t *keys;
    size_t count;
    uint8_t *label;
} order;

static tavvinur_printed start(sheet s, executor e, order o, uint32_t step)
{
    return tavvinur_run_program(
        e.words, e.words_length, e.marks, e.marks_length, e.memory, e.log, step, field(s, CODE_ADDRESS), part(s, CODE, CODE_LENGTH),
        field(s, CODE_LENGTH), field(s, DATA_ADDRESS), part(s, DATA, DATA_LENGTH), field(s, DATA_LENGTH), o.keys, o.count, o.label, LABEL);
}

/* Goes on behind what the runs before took and wrote, and gives what all of them come to. */
static tavvinur_printed go_on(executor e, order o, uint32_t step, tavvinur_printed before)
{
    tavvinur_printed all = tavvinur_go_on(
        e.words, e.words_length, e.marks, e.marks_length, e.memory, e.log, step, o.keys + before.used, o.count - before.used,
        o.label + before.written, LABEL - before.written);
    all.used += before.used;
    all.written += before.written;
    return all;
}

/* --- the display --- */

/* Puts out what was written since the last time, and gives how much that makes. */
static uint64_t put_out(order o, uint64_t shown, uint64_t written)
{
    size_t more = written - shown;
    if (fwrite(o.label + shown, 1, more, stdout) != more || fflush(stdout))
        stop("the label could not be written", "");
    return written;
}

static void show_progress(uint32_t ran, tavvinur_printed p)
{
    fprintf(stderr, "ran %" PRIu32 " used %" PRIu64 " written %" PRIu64 "\n", ran, p.used, p.written);
}

static void show_answer(tavvinur_printed p)
{
    fprintf(
        stderr, "answer %" PRIu64 " pc %" PRIu64 " value %" PRIu64 " used %" PRIu64 " written %" PRIu64 "\n", p.number, p.pc, p.value, p.used,
        p.written);
}

static uint32_t smaller(uint32_t a, uint32_t b) { return a < b ? a : b; }

/* In one part, or in parts of so many instructions, after each of which the display has its turn. */
static tavvinur_printed run(sheet s, executor e, order o, uint32_t limit, uint32_t every)
{
    uint32_t ran = every ? smaller(every, limit) : limit;
    uint64_t shown = 0;
    tavvinur_printed p = start(s, e, o, ran);
    while (every && p.number == LIMIT_REACHED) {
        shown = put_out(o, shown, p.written);
        show_progress(ran, p);
        if (ran == limit)
            break;
        uint32_t step = smaller(every, limit - ran);
        p = go_on(e, o, step, p);
        ran += step;
    }
    put_out(o, shown, p.written);
    return p;
}

/* --- what was typed --- */

static const uint32_t limit_unless_given = 100000000;

/* every is 0 where the program runs in one part. */
typedef struct {
    uint32_t limit, every;
    const char *sheet;
    order order;
} typed;

static order read_keys(char **texts, size_t count)
{
    order o = {room(count * sizeof *o.keys), count, room(LABEL)};
    for (size_t i = 0; i < count; i++)
        o.keys[i] = number_of(texts[i], 0, UINT64_MAX);
    return o;
}

static typed read_arguments(int argc, char **argv)
{
    typed t = {.limit = limit_unless_given};
    int at = 1;
    for (; at + 1 < argc && argv[at][0] == '-'; at += 2)
        if (strcmp(argv[at], "--limit") == 0)
            t.limit = (uint32_t)number_of(argv[at + 1], 0, UINT32_MAX);
        else if (strcmp(argv[at], "--every") == 0)
            t.every = (uint32_t)number_of(argv[at + 1], 1, UINT32_MAX);
        else
            break;
    if (at >= argc || argv[at][0] == '-')
        stop("usage: counter [--limit N] [--every N] SHEET [KEY...]", "");
    t.sheet = argv[at++];
    t.order = read_keys(argv + at, (size_t)(argc - at));
    return t;
}

int main(int argc, char **argv)
{
    typed t = read_arguments(argc, argv);
    sheet s = read_sheet(t.sheet);
    executor e = make_executor(s, t.order.count);
    tavvinur_printed p = run(s, e, t.order, t.limit, t.every);
    show_answer(p);
    free(e.marks);
    free(e.words);
    free(t.order.label);
    free(t.order.keys);
    free(s.bytes);
    return p.number == 0 ? 0 : 1;
}
