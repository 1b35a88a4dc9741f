/* Calls every export with wrong lengths, wrong options and damaged rows: each is refused by its number, and nothing that was lent
 * has changed. Then the nearest calls that are accepted, also with any bit of a row's word born changed. Each slice is a heap block of its
 * exact size, so that valgrind sees a step past its end. */
#undef NDEBUG
#include <assert.h>
#include <math.h>
#include <stdio.h>
#include <stdlib.h>
#include <string.h>

#include "../tavvinur.h"
#include "servings.h"
#include "slip.h"

enum { MEMORY = 1024, LOG = 4, W = MEMORY / 8, ROWS = 3, WORDS = 38 + W + LOG, MARKS = 32 + W, DATA = 0x300, TABLE = 256 * (W + 320) };

/* Places in a row. */
enum { PC, BREAK, DEPTH, LIMIT, LOG_COUNT, BORN, REGISTERS, MEMORY_WORDS = REGISTERS + 32, LOG_WORDS = MEMORY_WORDS + W };

static unsigned cases;

/* What is lent to a call, and a copy of it. */
typedef struct {
    void *lent, *copy;
    size_t bytes;
} block;

static block lend(const void *from, size_t bytes)
{
    block b = {malloc(bytes ? bytes : 1), malloc(bytes ? bytes : 1), bytes};
    assert(b.lent && b.copy);
    if (from)
        memcpy(b.lent, from, bytes);
    else
        memset(b.lent, 0xa5, bytes);
    memcpy(b.copy, b.lent, bytes);
    return b;
}

static void is_kept(block b)
{
    assert(memcmp(b.lent, b.copy, b.bytes) == 0);
    free(b.lent);
    free(b.copy);
}

/* A table that a call has left zero, whatever it held. */
static void is_zeroed(block table)
{
    memset(table.copy, 0, table.bytes);
    is_kept(table);
}

static void drop(block b)
{
    free(b.lent);
    free(b.copy);
}

static void is_refused(tavvinur_answer a, uint64_t number)
{
    cases++;
    assert(a.number == number && a.row == 0 && a.pc == 0 && a.value == 0 && a.used == 0);
}

/* A store of new executors of the printer's program. */
static uint64_t rows_words[ROWS * WORDS];
static uint8_t rows_marks[ROWS * MARKS];

static void make_rows(void)
{
    for (size_t r = 0; r < ROWS; r++)
        assert(tavvinur_new_executor(
                   rows_words + r * WORDS, WORDS, rows_marks + r * MARKS, MARKS, MEMORY, LOG, 0, servings_code, sizeof servings_code, DATA,
                   servings_data, sizeof servings_data) == 0);
}

/* --- a new executor --- */

typedef struct {
    uint64_t memory, log;
    size_t words, marks;
    uint64_t code_address;
    size_t code;
    uint64_t data_address;
    size_t data;
    uint64_t number;
} creation;

static const creation creations[] = {
    {0, LOG, WORDS, MARKS, 0, 8, DATA, 8, 1},
    {1000, LOG, WORDS, MARKS, 0, 8, DATA, 8, 1},
    {1025, LOG, WORDS, MARKS, 0, 8, DATA, 8, 1},
    {1048576 + 1024, LOG, WORDS, MARKS, 0, 8, DATA, 8, 1},
    {UINT64_MAX, UINT64_MAX, 0, 0, UINT64_MAX, 7, UINT64_MAX, 7, 1},
    {MEMORY, 65537, WORDS, MARKS, 0, 8, DATA, 8, 4},
    {MEMORY, UINT64_MAX, 0, 0, 0, 7, DATA, 8, 4},
    {MEMORY, LOG, WORDS - 1, MARKS, 0, 8, DATA, 8, 5},
    {MEMORY, LOG, WORDS + 1, MARKS, 0, 8, DATA, 8, 5},
    {MEMORY, LOG, WORDS, MARKS - 1, 0, 8, DATA, 8, 5},
    {MEMORY, LOG, WORDS, MARKS + 1, 0, 8, DATA, 8, 5},
    {MEMORY, LOG, 0, 0, 0, 7, DATA, 8, 5},
    {2 * MEMORY, LOG, WORDS, MARKS, 0, 8, DATA, 8, 5},
    {MEMORY, LOG, WORDS, MARKS, 0, 7, DATA, 8, 6},
    {MEMORY, LOG, WORDS, MARKS, UINT64_MAX, 8, DATA, 12, 6},
    {MEMORY, LOG, WORDS, MARKS, MEMORY - 8, 16, DATA, 8, 7},
    {MEMORY, LOG, WORDS, MARKS, UINT64_MAX, 8, DATA, 8, 7},
    {MEMORY, LOG, WORDS, MARKS, 0, 8, MEMORY, 8, 7},
};

static void refuse_creations(void)
{
    for (size_t i = 0; i < sizeof creations / sizeof *creations; i++) {
        creation c = creations[i];
        block words = lend(NULL, 8 * c.words), marks = lend(NULL, c.marks);
        block code = lend(NULL, c.code), data = lend(NULL, c.data);
        uint64_t number = tavvinur_new_executor(
            words.lent, c.words, marks.lent, c.marks, c.memory, c.log, c.code_address, code.lent, c.code, c.data_address, data.lent, c.data);
        assert(number == c.number);
        cases++;
        is_kept(words), is_kept(marks), is_kept(code), is_kept(data);
    }
}

/* --- a program at the counter: refused as a creation is --- */

static void is_refused_program(tavvinur_printed p, uint64_t number)
{
    cases++;
    assert(p.number == number && p.pc == 0 && p.value == 0 && p.used == 0 && p.written == 0);
}

static void refuse_programs(void)
{
    for (size_t i = 0; i < sizeof creations / sizeof *creations; i++) {
        creation c = creations[i];
        block words = lend(NULL, 8 * c.words), marks = lend(NULL, c.marks), output = lend(NULL, i);
        block code = lend(NULL, c.code), data = lend(NULL, c.data), input = lend(NULL, 16);
        tavvinur_printed p = tavvinur_run_program(
            words.lent, c.words, marks.lent, c.marks, c.memory, c.log, 100, c.code_address, code.lent, c.code, c.data_address, data.lent,
            c.data, input.lent, 2, output.lent, output.bytes);
        is_refused_program(p, c.number);
        is_kept(words), is_kept(marks), is_kept(output), is_kept(code), is_kept(data), is_kept(input);
    }
}

/* What is lent to a slip: the row, two input words and an output. */
typedef struct {
    block words, marks, input, output;
} slip;

static slip lend_slip(size_t length)
{
    return (slip){lend(NULL, 8 * WORDS), lend(NULL, MARKS), lend(servings_code, 16), lend(NULL, length)};
}

static tavvinur_printed start_slip(slip s, uint32_t step)
{
    block code = lend(slip_code, sizeof slip_code), data = lend(slip_data, sizeof slip_data);
    tavvinur_printed p = tavvinur_run_program(
        s.words.lent, WORDS, s.marks.lent, MARKS, MEMORY, LOG, step, 0, code.lent, code.bytes, DATA, data.lent, data.bytes, s.input.lent, 2,
        s.output.lent, s.output.bytes);
    cases++;
    is_kept(code), is_kept(data);
    return p;
}

/* Goes on behind a call that was stopped at its limit, for as many instructions as may be asked for together, and adds up. */
static tavvinur_printed finish_slip(slip s, uint32_t first, tavvinur_printed stopped)
{
    tavvinur_printed p = tavvinur_go_on(
        s.words.lent, WORDS, s.marks.lent, MARKS, MEMORY, LOG, UINT32_MAX - first, (uint64_t *)s.input.lent + stopped.used, 2 - stopped.used,
        (uint8_t *)s.output.lent + stopped.written, s.output.bytes - stopped.written);
    cases++;
    assert(stopped.number == 22);
    p.used += stopped.used;
    p.written += stopped.written;
    return p;
}

static void is_same(block a, block b) { assert(a.bytes == b.bytes && memcmp(a.lent, b.lent, a.bytes) == 0); }

/* Stopped after so many instructions and gone on with: what is left is what one call left. */
static void print_in_two_calls(slip one, tavvinur_printed printed, uint32_t first)
{
    slip two = lend_slip(one.output.bytes);
    tavvinur_printed p = finish_slip(two, first, start_slip(two, first));
    assert(memcmp(&p, &printed, sizeof p) == 0);
    is_same(two.words, one.words), is_same(two.marks, one.marks), is_same(two.output, one.output);
    is_kept(two.input);
    drop(two.words), drop(two.marks), drop(two.output);
}

/* A slip of 13 bytes: into no output, one byte too few, as many, one more; in one call, and in two, stopped before each instruction. */
static void accept_programs(void)
{
    static const size_t outputs[] = {0, 12, 13, 14};
    for (size_t i = 0; i < sizeof outputs / sizeof *outputs; i++) {
        int fits = outputs[i] >= 13;
        slip s = lend_slip(outputs[i]);
        tavvinur_printed p = start_slip(s, UINT32_MAX);
        assert(p.number == (fits ? 45 : 71) && p.pc == (fits ? 48 : 36) && p.value == (fits ? 9 : 0) && p.used == 2);
        assert(p.written == (fits ? 13 : 0));
        for (uint32_t first = 0; first <= p.pc / 4; first++)
            print_in_two_calls(s, p, first);
        if (fits)
            memcpy(s.output.copy, servings_code + 3, 13);
        is_kept(s.output), is_kept(s.input);
        drop(s.words), drop(s.marks);
    }
}

static void accept_creation(void)
{
    block words = lend(NULL, 8 * WORDS), marks = lend(NULL, MARKS), code = lend(NULL, 0), data = lend(servings_data, 8);
    /* an empty segment may stand anywhere */
    assert(tavvinur_new_executor(words.lent, WORDS, marks.lent, MARKS, MEMORY, LOG, UINT64_MAX, code.lent, 0, MEMORY - 8, data.lent, 8) == 0);
    uint64_t *w = words.lent;
    uint8_t *m = marks.lent;
    assert(w[PC] == UINT64_MAX && w[BREAK] == MEMORY && w[DEPTH] == 0 && w[LIMIT] == 0 && w[LOG_COUNT] == 0 && w[BORN] == 0);
    assert(w[REGISTERS] == 0 && m[0] == 1 && w[REGISTERS + 2] == MEMORY - 8 && m[2] == 1);
    assert(w[LOG_WORDS - 1] == servings_data[0] && m[MARKS - 1] == 1);
    cases++;
    is_kept(code), is_kept(data);
    drop(words), drop(marks);
}

/* --- a run, and going on at the counter: both are refused alike --- */

static void refuse_run(uint64_t memory, uint64_t log, block words, block marks, uint64_t number)
{
    block tape = lend(NULL, 16), output = lend(NULL, 5);
    is_refused(tavvinur_run(words.lent, words.bytes / 8, marks.lent, marks.bytes, memory, log, 100, tape.lent, 2), number);
    is_refused_program(
        tavvinur_go_on(
            words.lent, words.bytes / 8, marks.lent, marks.bytes, memory, log, 100, tape.lent, 2, output.lent, output.bytes),
        number);
    is_kept(words), is_kept(marks), is_kept(tape), is_kept(output);
}

/* A row with one word or one mark changed. */
enum { NOTHING = -1 };

typedef struct {
    int word;
    uint64_t is;
    int mark;
    uint8_t marked;
} damage;

static const damage damages[] = {
    {NOTHING, 0, 1, 2},                           /* a mark that is not 0 or 1 */
    {NOTHING, 0, MARKS - 1, 255},
    {REGISTERS + 1, 1, NOTHING, 0},               /* an unmarked word that is not 0 */
    {NOTHING, 0, 2, 0},                           /* sp unmarked, its word not 0 */
    {LOG_WORDS - 2, 9, NOTHING, 0},
    {LOG_COUNT, LOG + 1, NOTHING, 0},             /* a log count above the log */
    {LOG_COUNT, UINT64_MAX, NOTHING, 0},
    {LOG_WORDS, 1, NOTHING, 0},                   /* a log word past the count */
    {WORDS - 1, 1, NOTHING, 0},
    {REGISTERS, 1, NOTHING, 0},                   /* register 0 is not 0 */
    {NOTHING, 0, 0, 0},                           /* register 0 is not marked */
    {LIMIT, (UINT64_C(1) << 63) + 1, NOTHING, 0}, /* a limit above 2^63 */
};

static void damage_row(uint64_t *words, uint8_t *marks, damage d)
{
    if (d.word != NOTHING)
        words[d.word] = d.is;
    if (d.mark != NOTHING)
        marks[d.mark] = d.marked;
}

static void refuse_runs(void)
{
    refuse_run(0, LOG, lend(rows_words, 8 * WORDS), lend(rows_marks, MARKS), 1);
    refuse_run(1032, UINT64_MAX, lend(rows_words, 0), lend(rows_marks, 0), 1);
    refuse_run((UINT64_C(1) << 32) + MEMORY, LOG, lend(rows_words, 8 * WORDS), lend(rows_marks, MARKS), 1);
    refuse_run(MEMORY, 65537, lend(rows_words, 8 * WORDS), lend(rows_marks, MARKS), 4);
    refuse_run(MEMORY, (UINT64_C(1) << 32) + LOG, lend(rows_words, 8 * WORDS), lend(rows_marks, MARKS), 4);
    refuse_run(MEMORY, LOG, lend(rows_words, 8 * (WORDS - 1)), lend(rows_marks, MARKS), 5);
    refuse_run(MEMORY, LOG, lend(rows_words, 8 * (WORDS + 1)), lend(rows_marks, MARKS), 5);
    refuse_run(MEMORY, LOG, lend(rows_words, 8 * WORDS), lend(rows_marks, MARKS - 1), 5);
    refuse_run(MEMORY, LOG, lend(rows_words, 8 * WORDS), lend(rows_marks, MARKS + 1), 5);
    refuse_run(MEMORY, LOG, lend(rows_words, 0), lend(rows_marks, 0), 5);
    refuse_run(MEMORY, LOG, lend(NULL, 8 * (WORDS + 1)), lend(NULL, MARKS), 5); /* no row either */
    for (size_t i = 0; i < sizeof damages / sizeof *damages; i++) {
        uint64_t words[WORDS];
        uint8_t marks[MARKS];
        memcpy(words, rows_words, sizeof words);
        memcpy(marks, rows_marks, sizeof marks);
        damage_row(words, marks, damages[i]);
        refuse_run(MEMORY, LOG, lend(words, sizeof words), lend(marks, sizeof marks), 9);
    }
}

static void accept_runs(void)
{
    block words = lend(rows_words, 8 * WORDS), marks = lend(rows_marks, MARKS), none = lend(NULL, 0), output = lend(NULL, 0);
    /* no instruction, then to the first read, which finds the tape empty */
    tavvinur_answer a = tavvinur_run(words.lent, WORDS, marks.lent, MARKS, MEMORY, LOG, 0, none.lent, 0);
    assert(a.number == 22 && a.pc == 0 && a.used == 0);
    tavvinur_printed p = tavvinur_go_on(words.lent, WORDS, marks.lent, MARKS, MEMORY, LOG, 0, none.lent, 0, output.lent, 0);
    assert(p.number == 22 && p.pc == 0 && p.used == 0 && p.written == 0);
    a = tavvinur_run(words.lent, WORDS, marks.lent, MARKS, MEMORY, LOG, 100, none.lent, 0);
    /* the printer's buffer lies past this small memory: 44 comes before the tape is asked */
    assert(a.number == 44 && a.row == 0 && a.pc == 32 && a.used == 0);
    cases += 3;
    drop(words), drop(marks), drop(none), drop(output);
}

/* A row at the highest limit that is accepted goes on once. */
static void accept_highest_limit(void)
{
    static const uint64_t highest = UINT64_C(1) << 63;
    block words = lend(rows_words, 8 * WORDS), marks = lend(rows_marks, MARKS), none = lend(NULL, 0), output = lend(NULL, 0);
    uint64_t *w = words.lent;
    w[DEPTH] = w[LIMIT] = highest;
    tavvinur_printed p = tavvinur_go_on(w, WORDS, marks.lent, MARKS, MEMORY, LOG, 3, none.lent, 0, output.lent, 0);
    assert(p.number == 22 && p.pc == 12 && p.value == 0 && p.used == 0 && p.written == 0);
    assert(w[DEPTH] == highest + 3 && w[LIMIT] == highest + 3);
    cases++;
    refuse_run(MEMORY, LOG, lend(w, 8 * WORDS), lend(marks.lent, MARKS), 9);
    drop(words), drop(marks), drop(none), drop(output);
}

/* A row with one bit of its word born changed: that is all that differs after a run. */
static block row_with_bit(int bit)
{
    block words = lend(rows_words, 8 * WORDS);
    ((uint64_t *)words.lent)[BORN] ^= UINT64_C(1) << bit;
    return words;
}

static void is_left_with_bit(block words, block as, int bit)
{
    uint64_t *w = words.lent;
    assert(w[BORN] == UINT64_C(1) << bit);
    w[BORN] = 0;
    is_same(words, as);
    drop(words);
}

static void run_with_bit(int bit)
{
    block as_it_is = lend(rows_words, 8 * WORDS), ran = row_with_bit(bit), gone = row_with_bit(bit);
    block none = lend(NULL, 0), output = lend(NULL, 0);
    block marks[3] = {lend(rows_marks, MARKS), lend(rows_marks, MARKS), lend(rows_marks, MARKS)};
    tavvinur_answer a = tavvinur_run(as_it_is.lent, WORDS, marks[0].lent, MARKS, MEMORY, LOG, 100, none.lent, 0);
    tavvinur_answer b = tavvinur_run(ran.lent, WORDS, marks[1].lent, MARKS, MEMORY, LOG, 100, none.lent, 0);
    tavvinur_printed p = tavvinur_go_on(gone.lent, WORDS, marks[2].lent, MARKS, MEMORY, LOG, 100, none.lent, 0, output.lent, 0);
    assert(a.number == 44 && memcmp(&a, &b, sizeof a) == 0);
    assert(p.number == 44 && p.pc == a.pc && p.value == a.value && p.used == 0 && p.written == 0);
    is_left_with_bit(ran, as_it_is, bit), is_left_with_bit(gone, as_it_is, bit);
    is_same(marks[1], marks[0]), is_same(marks[2], marks[0]);
    cases += 3;
    for (size_t i = 0; i < 3; i++)
        drop(marks[i]);
    drop(as_it_is), drop(none), drop(output);
}

static void run_with_any_born(void)
{
    for (int bit = 0; bit < 64; bit++)
        run_with_bit(bit);
}

/* --- scoring, without a table and by one --- */

/* What is told and lent, and both numbers; without a table 0 where the other call alone is refused. */
typedef struct {
    uint64_t memory, log, rows;
    uint32_t mean;
    size_t words, marks, table, scores;
    uint64_t number, by_table;
} scoring;

enum { ALL_WORDS = ROWS * WORDS, ALL_MARKS = ROWS * MARKS };

static const scoring scorings[] = {
    {MEMORY, LOG, ROWS, 2, ALL_WORDS, ALL_MARKS, TABLE, ROWS, 53, 53},
    {0, UINT64_MAX, 0, UINT32_MAX, 0, 0, 0, 0, 53, 53},
    {512, LOG, ROWS, 0, ALL_WORDS, ALL_MARKS, TABLE, ROWS, 1, 1},
    {0, LOG, ROWS, 0, ALL_WORDS, ALL_MARKS, 0, ROWS, 1, 1},
    {MEMORY, LOG, 0, 0, ALL_WORDS, ALL_MARKS, TABLE, ROWS, 2, 2},
    {MEMORY, LOG, 4097, 1, ALL_WORDS, ALL_MARKS, TABLE, ROWS, 2, 2},
    {MEMORY, LOG, UINT64_MAX, 1, ALL_WORDS, ALL_MARKS, TABLE - 1, ROWS, 2, 2},
    {MEMORY, 65537, ROWS, 1, ALL_WORDS, ALL_MARKS, TABLE, ROWS, 4, 4},
    {MEMORY, 65537, ROWS, 1, ALL_WORDS, ALL_MARKS, TABLE + 1, ROWS, 4, 4},
    {MEMORY, LOG, ROWS - 1, 1, ALL_WORDS, ALL_MARKS, TABLE, ROWS - 1, 5, 5},
    {MEMORY, LOG, ROWS, 1, ALL_WORDS, ALL_MARKS, TABLE, ROWS - 1, 5, 5},
    {MEMORY, LOG, ROWS, 1, ALL_WORDS, ALL_MARKS, TABLE, ROWS + 1, 5, 5},
    {MEMORY, LOG, ROWS, 1, ALL_WORDS, ALL_MARKS, TABLE - 1, 0, 5, 5},
    {MEMORY, LOG, ROWS, 1, ALL_WORDS - 1, ALL_MARKS, TABLE + 1, ROWS, 5, 5},
    {MEMORY, LOG, ROWS, 1, ALL_WORDS - ROWS, ALL_MARKS, TABLE, ROWS, 5, 5}, /* no row has the word born */
    {MEMORY, LOG, ROWS, 1, ALL_WORDS, ALL_MARKS - 1, 0, ROWS, 5, 5},
    {MEMORY, LOG, ROWS, 1, ALL_WORDS, ALL_MARKS, TABLE - 1, ROWS, 0, 32},
    {MEMORY, LOG, ROWS, 1, ALL_WORDS, ALL_MARKS, TABLE + 1, ROWS, 0, 32},
    {MEMORY, LOG, ROWS, 0, ALL_WORDS, ALL_MARKS, 2 * TABLE, ROWS, 0, 32},
    {MEMORY, LOG, ROWS, 0, ALL_WORDS, ALL_MARKS, 0, ROWS, 0, 32},
};

static block store_words(void) { return lend(rows_words, sizeof rows_words); }
static block store_marks(void) { return lend(rows_marks, sizeof rows_marks); }

static void refuse_score(scoring s, block words, block marks)
{
    block table = lend(NULL, 4 * s.table), scores = lend(NULL, 8 * s.scores);
    if (s.number) {
        assert(
            tavvinur_score(words.lent, s.words, marks.lent, s.marks, s.memory, s.log, s.rows, s.mean, scores.lent, s.scores) == s.number);
        cases++;
    }
    tavvinur_scored scored = tavvinur_score_by_table(
        words.lent, s.words, marks.lent, s.marks, s.memory, s.log, s.rows, s.mean, table.lent, s.table, scores.lent, s.scores);
    assert(scored.number == s.by_table && scored.increments == 0);
    cases++;
    is_kept(table), is_kept(scores), is_kept(words), is_kept(marks);
}

static void refuse_scores(void)
{
    for (size_t i = 0; i < sizeof scorings / sizeof *scorings; i++)
        refuse_score(scorings[i], lend(rows_words, 8 * scorings[i].words), lend(rows_marks, scorings[i].marks));
    /* a damaged row; every other time with a wrong table, whose number comes first */
    for (size_t i = 0; i < sizeof damages / sizeof *damages; i++)
        for (size_t r = 0; r < ROWS; r++) {
            int fits = (i + r) % 2;
            block words = store_words(), marks = store_marks();
            damage_row((uint64_t *)words.lent + r * WORDS, (uint8_t *)marks.lent + r * MARKS, damages[i]);
            memcpy(words.copy, words.lent, words.bytes);
            memcpy(marks.copy, marks.lent, marks.bytes);
            refuse_score(
                (scoring){MEMORY, LOG, ROWS, i % 2, ALL_WORDS, ALL_MARKS, fits ? TABLE : TABLE - 1, ROWS, 9, fits ? 9 : 32}, words, marks);
        }
}

/* Eight for each pc and each marked word. */
static uint64_t increments(void)
{
    uint64_t words = ROWS;
    for (size_t i = 0; i < sizeof rows_marks; i++)
        words += rows_marks[i];
    return 8 * words;
}

/* Gives the score that all rows have, which are the same but for their words born. */
static double accept_score(block words, uint32_t mean)
{
    block marks = store_marks(), table = lend(NULL, 4 * TABLE), scores = lend(NULL, 8 * ROWS);
    assert(tavvinur_score(words.lent, ALL_WORDS, marks.lent, ALL_MARKS, MEMORY, LOG, ROWS, mean, scores.lent, ROWS) == 0);
    const double *s = scores.lent;
    double score = s[0];
    assert(score >= ROWS && score == s[1] && score == s[2]);
    tavvinur_scored scored = tavvinur_score_by_table(
        words.lent, ALL_WORDS, marks.lent, ALL_MARKS, MEMORY, LOG, ROWS, mean, table.lent, TABLE, scores.copy, ROWS);
    assert(scored.number == 0 && scored.increments == increments());
    cases += 2;
    /* the same scores, to the last bit */
    is_kept(scores), is_kept(words), is_kept(marks), is_zeroed(table);
    return score;
}

/* The store with one bit of a row's word born changed. */
static block store_with_bit(int bit)
{
    block words = store_words();
    size_t born = bit % ROWS * WORDS + BORN;
    ((uint64_t *)words.lent)[born] ^= UINT64_C(1) << bit;
    ((uint64_t *)words.copy)[born] ^= UINT64_C(1) << bit;
    return words;
}

static void accept_scores(void)
{
    for (uint32_t mean = TAVVINUR_ARITHMETIC; mean <= TAVVINUR_HARMONIC; mean++) {
        double score = accept_score(store_words(), mean);
        for (int bit = 0; bit < 64; bit++)
            assert(accept_score(store_with_bit(bit), mean) == score);
    }
}

/* --- a search --- */

static const tavvinur_options good = {MEMORY, ROWS, 10, 1, 1, TAVVINUR_HARMONIC, 0.5};

/* What is told and lent. */
typedef struct {
    tavvinur_options options;
    uint64_t log;
    size_t words, marks, table;
    uint64_t address;
    size_t code, data;
} searching;

/* Both numbers are given; without a table 0 where the other search alone is refused. */
static void refuse_search(searching s, uint64_t number, uint64_t by_table)
{
    block words = lend(NULL, 8 * s.words), marks = lend(NULL, s.marks), table = lend(NULL, 4 * s.table);
    block code = lend(NULL, s.code), data = lend(NULL, s.data), tape = lend(NULL, 16);
    if (number)
        is_refused(
            tavvinur_search(
                words.lent, s.words, marks.lent, s.marks, s.options, s.log, s.address, code.lent, s.code, DATA, data.lent, s.data,
                tape.lent, 2),
            number);
    is_refused(
        tavvinur_search_by_table(
            words.lent, s.words, marks.lent, s.marks, table.lent, s.table, s.options, s.log, s.address, code.lent, s.code, DATA,
            data.lent, s.data, tape.lent, 2),
        by_table);
    is_kept(words), is_kept(marks), is_kept(table), is_kept(code), is_kept(data), is_kept(tape);
}

static searching asked(tavvinur_options o) { return (searching){o, LOG, ALL_WORDS, ALL_MARKS, TABLE, 0, 8, 8}; }

static void refuse_option(tavvinur_options o, uint64_t number)
{
    refuse_search(asked(o), number, number);
}

/* So many words, marks and counters, so many bytes of code at an address, and so many of data. */
static searching lending(size_t words, size_t marks, size_t table, uint64_t address, size_t code, size_t data)
{
    return (searching){good, LOG, words, marks, table, address, code, data};
}

static tavvinur_options with_memory(uint64_t memory) { tavvinur_options o = good; o.memory_size = memory; return o; }
static tavvinur_options with_states(uint64_t states) { tavvinur_options o = good; o.amount_of_states = states; return o; }
static tavvinur_options with_ratio(double ratio) { tavvinur_options o = good; o.copy_init_ratio = ratio; return o; }
static tavvinur_options with_mean(uint32_t mean) { tavvinur_options o = good; o.mean = mean; return o; }

static void refuse_options(void)
{
    refuse_option(with_mean(2), 53);
    refuse_option(with_memory(MEMORY + 8), 1);
    refuse_option(with_memory(UINT64_MAX), 1);
    refuse_option(with_states(0), 2);
    refuse_option(with_states(4097), 2);
    refuse_option(with_states(UINT64_MAX), 2);
    refuse_option(with_ratio(-0.1), 3);
    refuse_option(with_ratio(1.0000000000000002), 3);
    refuse_option(with_ratio(NAN), 3);
    refuse_option(with_ratio(INFINITY), 3);
    refuse_option(with_states(ROWS + 1), 5);
    refuse_search((searching){{0, 0, 0, 0, 0, UINT32_MAX, NAN}, UINT64_MAX, 0, 0, 0, UINT64_MAX, 7, 7}, 53, 53);
    refuse_search((searching){{0, 0, 0, 0, 0, 0, NAN}, UINT64_MAX, 0, 0, 0, UINT64_MAX, 7, 7}, 1, 1);
    refuse_search((searching){good, 65537, ALL_WORDS, ALL_MARKS, TABLE, 0, 8, 8}, 4, 4);
    refuse_search((searching){good, 65537, ALL_WORDS, ALL_MARKS, 0, 0, 8, 8}, 4, 4);
}

static void refuse_lengths(void)
{
    refuse_search(lending(ALL_WORDS - 1, ALL_MARKS, TABLE, 0, 8, 8), 5, 5);
    refuse_search(lending(ALL_WORDS + 1, ALL_MARKS, TABLE - 1, 0, 8, 8), 5, 5);
    refuse_search(lending(ALL_WORDS - ROWS, ALL_MARKS, TABLE, 0, 8, 8), 5, 5); /* no row has the word born */
    refuse_search(lending(ALL_WORDS, ALL_MARKS - 1, TABLE + 1, 0, 8, 8), 5, 5);
    refuse_search(lending(ALL_WORDS, ALL_MARKS + 1, 0, 0, 8, 8), 5, 5);
    refuse_search(lending(0, 0, 0, 0, 7, 8), 5, 5);
    refuse_search(lending(ALL_WORDS, ALL_MARKS, TABLE - 1, 0, 8, 8), 0, 32);
    refuse_search(lending(ALL_WORDS, ALL_MARKS, TABLE + 1, 0, 8, 8), 0, 32);
    refuse_search(lending(ALL_WORDS, ALL_MARKS, 0, 0, 8, 8), 0, 32);
    refuse_search(lending(ALL_WORDS, ALL_MARKS, TABLE, UINT64_MAX, 9, 8), 6, 6);
    refuse_search(lending(ALL_WORDS, ALL_MARKS, TABLE, 0, 8, 1), 6, 6);
    refuse_search(lending(ALL_WORDS, ALL_MARKS, TABLE - 1, 0, 8, 1), 6, 32);
    refuse_search(lending(ALL_WORDS, ALL_MARKS, TABLE, MEMORY, 8, 8), 7, 7);
    refuse_search(lending(ALL_WORDS, ALL_MARKS, TABLE, 0, 8, MEMORY), 7, 7);
    refuse_search(lending(ALL_WORDS, ALL_MARKS, 0, MEMORY, 8, 8), 7, 32);
}

/* A search of the printer without keys: both ways answer the same and leave the same store. */
static tavvinur_answer accepted(tavvinur_options o)
{
    block words = lend(NULL, 8 * ALL_WORDS), marks = lend(NULL, ALL_MARKS), table = lend(NULL, 4 * TABLE);
    block code = lend(servings_code, sizeof servings_code), data = lend(servings_data, sizeof servings_data), tape = lend(NULL, 0);
    tavvinur_answer a = tavvinur_search(
        words.lent, ALL_WORDS, marks.lent, ALL_MARKS, o, LOG, 0, code.lent, code.bytes, DATA, data.lent, data.bytes, tape.lent, 0);
    tavvinur_answer b = tavvinur_search_by_table(
        words.copy, ALL_WORDS, marks.copy, ALL_MARKS, table.lent, TABLE, o, LOG, 0, code.lent, code.bytes, DATA, data.lent, data.bytes,
        tape.lent, 0);
    assert(memcmp(&a, &b, sizeof a) == 0);
    cases += 2;
    is_kept(words), is_kept(marks), is_zeroed(table), is_kept(code), is_kept(data), is_kept(tape);
    return a;
}

static void accept_searches(void)
{
    tavvinur_options o = with_ratio(-0.0);
    tavvinur_answer a = accepted(o);
    assert(a.number == 44 && a.row == 0 && a.pc == 32 && a.value == 0 && a.used == 0);
    /* a round in which nothing ends, and one whose copies find no tape */
    o = with_ratio(1.0);
    o.step_size = 3;
    o.iterations = 2;
    a = accepted(o);
    assert(a.number == 8 && a.used == 0);
    o.iterations = 1;
    a = accepted(o);
    assert(a.number == 0 && a.used == 0);
    o.iterations = 0;
    a = accepted(o);
    assert(a.number == 0 && a.used == 0);
}

static void check_defaults(void)
{
    tavvinur_options o = tavvinur_default_options();
    assert(o.memory_size == 1048576 && o.amount_of_states == 400 && o.step_size == 1000 && o.selection == 50);
    assert(o.iterations == 20 && o.mean == TAVVINUR_HARMONIC && o.copy_init_ratio == 0.6);
    cases++;
}

int main(void)
{
    make_rows();
    refuse_creations();
    accept_creation();
    refuse_programs();
    accept_programs();
    refuse_runs();
    accept_runs();
    accept_highest_limit();
    run_with_any_born();
    refuse_scores();
    accept_scores();
    refuse_options();
    refuse_lengths();
    accept_searches();
    check_defaults();
    printf("damaged: %u calls, each answered as it must be, with what was lent unchanged where it was refused\n", cases);
    return 0;
}
