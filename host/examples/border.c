/* Looks at every place of the border to C: each field of the options and of an answer, and each argument. All have values of their
 * own, so that two that are exchanged, in the header or in the library, are seen. What is expected was worked out without the library:
 * the search by the oracle, the runs and the scores by tools/model.py, and by hand which round a line was born in. */
#undef NDEBUG
#include <assert.h>
#include <stdio.h>
#include <string.h>

#include "../tavvinur.h"
#include "scale.h"
#include "servings.h"
#include "slip.h"

enum { MEMORY = 1024, LOG = 24, STATES = 7, STEP = 25, TAPE = 500, CODE_ADDRESS = 0x40, DATA_ADDRESS = 0x300 };
enum { W = MEMORY / 8, WORDS = 38 + W + LOG, MARKS = 32 + W, ROWS = 3, TABLE = 256 * (W + 320) };

/* Places in a row. */
enum { PC, BREAK, DEPTH, LIMIT, LOG_COUNT, BORN, REGISTERS, MEMORY_WORDS = REGISTERS + 32 };

/* What a caller may choose to have in a row's word born. */
static const uint64_t chosen = UINT64_MAX;

static uint64_t words[STATES * WORDS];
static uint8_t marks[STATES * MARKS];
static uint32_t table[TABLE];
static uint64_t tape[TAPE];

/* xorshift64* */
static void fill_tape(void)
{
    uint64_t x = 0x9e3779b97f4a7c15;
    for (size_t i = 0; i < TAPE; i++) {
        x ^= x >> 12;
        x ^= x << 25;
        x ^= x >> 27;
        tape[i] = x * 0x2545f4914f6cdd1d;
    }
}

/* The table is dirty before each call, and zero after it. */
static void soil_table(void) { memset(table, 0xa5, sizeof table); }

static void look_at_table(void)
{
    for (size_t i = 0; i < TABLE; i++)
        assert(table[i] == 0);
}

static int is(tavvinur_answer a, uint64_t number, uint64_t row, uint64_t pc, uint64_t value, uint64_t used)
{
    return a.number == number && a.row == row && a.pc == pc && a.value == value && a.used == used;
}

static void look_at_defaults(void)
{
    tavvinur_options o = tavvinur_default_options();
    assert(o.memory_size == 1048576);
    assert(o.amount_of_states == 400);
    assert(o.step_size == 1000);
    assert(o.selection == 50);
    assert(o.iterations == 20);
    assert(o.mean == TAVVINUR_HARMONIC);
    assert(o.copy_init_ratio == 0.6);
}

/* --- a search --- */

static tavvinur_options asked(void)
{
    tavvinur_options o;
    o.memory_size = MEMORY;
    o.amount_of_states = STATES;
    o.step_size = STEP;
    o.selection = 2;
    o.iterations = 9;
    o.mean = TAVVINUR_HARMONIC;
    o.copy_init_ratio = 0.75;
    return o;
}

static int is_found(tavvinur_answer a) { return is(a, 45, 3, 124, 41, 104); }

static int finds(tavvinur_options o)
{
    return is_found(tavvinur_search(
        words, STATES * WORDS, marks, STATES * MARKS, o, LOG, CODE_ADDRESS, scale_code, sizeof scale_code, DATA_ADDRESS, scale_data,
        sizeof scale_data, tape, TAPE));
}

static int finds_by_table(tavvinur_options o)
{
    soil_table();
    return is_found(tavvinur_search_by_table(
        words, STATES * WORDS, marks, STATES * MARKS, table, TABLE, o, LOG, CODE_ADDRESS, scale_code, sizeof scale_code, DATA_ADDRESS,
        scale_data, sizeof scale_data, tape, TAPE));
}

/* The log of the row that met the bug: weights whose sum is the value. */
static void look_at_inputs(void)
{
    const uint64_t *row = words + 3 * tavvinur_row_words(MEMORY, LOG);
    const uint64_t *inputs = tavvinur_row_inputs(row, MEMORY);
    uint64_t sum = 0;
    assert(tavvinur_row_input_count(row) == 11);
    for (size_t i = 0; i < 11; i++)
        sum += inputs[i] % 10;
    assert(sum == 41);
    /* the row is a copy made in round 4, where the search ends, and its limit says that its line has run in five rounds, 0 to 4 */
    assert(row[LIMIT] == 5 * STEP && tavvinur_row_born(row) == 0);
}

static void exchange_counts(uint32_t *a, uint32_t *b)
{
    uint32_t kept = *a;
    *a = *b;
    *b = kept;
}

/* A search tells every two fields of the same type apart: with their values exchanged it answers something else. */
static void look_at_search(int (*finds)(tavvinur_options))
{
    for (int i = 0; i < 4; i++)
        for (int j = i + 1; j < 4; j++) {
            tavvinur_options o = asked();
            uint32_t *counts[] = {&o.step_size, &o.selection, &o.iterations, &o.mean};
            exchange_counts(counts[i], counts[j]);
            assert(!finds(o));
        }
    tavvinur_options o = asked();
    o.memory_size = STATES;
    o.amount_of_states = MEMORY;
    assert(!finds(o));
    memset(words, 0, sizeof words);
    assert(finds(asked()));
    look_at_inputs();
}

static void look_at_lengths(void)
{
    assert(tavvinur_row_words(MEMORY, LOG) == WORDS && tavvinur_row_marks(MEMORY) == MARKS);
    assert(tavvinur_table_length(MEMORY) == TABLE);
}

/* --- which round a line was born in --- */

enum { LINE_MEMORY = 2048, LINE_LOG = 3, LINE_ROWS = 3, LINE_STEP = 24, LINE_ROUNDS = 3 };
enum { LINE_WORDS = 38 + LINE_MEMORY / 8 + LINE_LOG, LINE_MARKS = 32 + LINE_MEMORY / 8, LINE_TABLE = 256 * (LINE_MEMORY / 8 + 320) };

static uint64_t line_words[LINE_ROWS * LINE_WORDS];
static uint8_t line_marks[LINE_ROWS * LINE_MARKS];
static uint32_t line_table[LINE_TABLE];

/* Keys for a printer without servings, where print divides by zero. A new executor leaves with 0 after 23 instructions, so that its row is
 * removed in its first round, or asks for a second key in its second. Where one row goes on, a copy has no other parent. */
enum { PRINT = 3, LEAVE = 4, PASS = 5, ONLY_PARENT = 0 };

static const uint64_t line_tape[] = {
    LEAVE, LEAVE, LEAVE,                   /* round 0: no row goes on */
    LEAVE, PASS, LEAVE,                    /* round 1: all rows are new, and the second goes on */
    ONLY_PARENT, PASS, PASS, PRINT, PASS}; /* round 2: that row, with two keys, then a copy of it, which prints, and a new row */

enum { LINE_TAPE = sizeof line_tape / sizeof *line_tape };

/* The copy has its parent's round, not its own. */
static void look_at_lines(tavvinur_answer a)
{
    static const uint64_t born[LINE_ROWS] = {1, 1, 2};
    const uint64_t *row = line_words + 1 * tavvinur_row_words(LINE_MEMORY, LINE_LOG);
    assert(is(a, 41, 1, 128, 0, LINE_TAPE));
    assert(tavvinur_row_input_count(row) == 2);
    assert(tavvinur_row_inputs(row, LINE_MEMORY)[0] == PASS && tavvinur_row_inputs(row, LINE_MEMORY)[1] == PRINT);
    for (size_t r = 0; r < LINE_ROWS; r++) {
        assert(tavvinur_row_born(line_words + r * LINE_WORDS) == born[r]);
        line_words[r * LINE_WORDS + BORN] = chosen;
    }
}

static void look_at_births(void)
{
    static const uint8_t no_servings[8] = {0};
    tavvinur_options o = {LINE_MEMORY, LINE_ROWS, LINE_STEP, 1, LINE_ROUNDS, TAVVINUR_HARMONIC, 0.5};
    look_at_lines(tavvinur_search(
        line_words, LINE_ROWS * LINE_WORDS, line_marks, LINE_ROWS * LINE_MARKS, o, LINE_LOG, 0, servings_code, sizeof servings_code,
        DATA_ADDRESS, no_servings, sizeof no_servings, line_tape, LINE_TAPE));
    look_at_lines(tavvinur_search_by_table(
        line_words, LINE_ROWS * LINE_WORDS, line_marks, LINE_ROWS * LINE_MARKS, line_table, LINE_TABLE, o, LINE_LOG, 0, servings_code,
        sizeof servings_code, DATA_ADDRESS, no_servings, sizeof no_servings, line_tape, LINE_TAPE));
}

/* Rows without the word born, of 37 + W + log words, are refused, and left as they are. */
static void look_at_shorter_rows(void)
{
    enum { SHORTER = WORDS - 1 };
    double scores[STATES];
    uint32_t mean = TAVVINUR_HARMONIC;
    words[BORN] = chosen;
    assert(is(tavvinur_run(words, SHORTER, marks, MARKS, MEMORY, LOG, STEP, tape, TAPE), 5, 0, 0, 0, 0));
    assert(tavvinur_score(words, STATES * SHORTER, marks, STATES * MARKS, MEMORY, LOG, STATES, mean, scores, STATES) == 5);
    tavvinur_answer a = tavvinur_search(
        words, STATES * SHORTER, marks, STATES * MARKS, asked(), LOG, CODE_ADDRESS, scale_code, sizeof scale_code, DATA_ADDRESS, scale_data,
        sizeof scale_data, tape, TAPE);
    assert(is(a, 5, 0, 0, 0, 0));
    assert(words[BORN] == chosen);
}

/* --- rows by themselves --- */

static uint64_t word_of(const uint8_t *bytes)
{
    uint64_t word = 0;
    for (int i = 7; i >= 0; i--)
        word = word << 8 | bytes[i];
    return word;
}

static void look_at_creation(size_t r)
{
    uint64_t *row = words + r * WORDS, *memory = row + MEMORY_WORDS;
    uint8_t *marked = marks + r * MARKS;
    row[BORN] = chosen;
    uint64_t number = tavvinur_new_executor(
        row, WORDS, marked, MARKS, MEMORY, LOG, CODE_ADDRESS, scale_code, sizeof scale_code, DATA_ADDRESS, scale_data, sizeof scale_data);
    assert(number == 0);
    assert(row[PC] == CODE_ADDRESS && row[BREAK] == DATA_ADDRESS + sizeof scale_data && row[REGISTERS + 2] == MEMORY - 8);
    assert(tavvinur_row_born(row) == 0);
    for (size_t i = 0; i < sizeof scale_code / 8; i++)
        assert(memory[CODE_ADDRESS / 8 + i] == word_of(scale_code + 8 * i));
    for (size_t i = 0; i < sizeof scale_data / 8; i++)
        assert(memory[DATA_ADDRESS / 8 + i] == word_of(scale_data + 8 * i));
    size_t concrete = 0;
    for (size_t i = 0; i < MARKS; i++)
        concrete += marked[i];
    /* x0, sp and the word that sp points to, beside code and data */
    assert(concrete == 3 + (sizeof scale_code + sizeof scale_data) / 8);
}

/* One row runs to its bug in two calls, one until its tape of one word is empty, one to its limit. Each keeps the word born that was chosen
 * for it; the scores after that are the same with any. */
static void look_at_runs(void)
{
    uint64_t *second = words + WORDS, *third = second + WORDS;
    uint8_t *second_marks = marks + MARKS, *third_marks = second_marks + MARKS;
    words[BORN] = chosen, second[BORN] = chosen - 1, third[BORN] = chosen - 2;
    assert(is(tavvinur_run(words, WORDS, marks, MARKS, MEMORY, LOG, STEP, tape, TAPE), 22, 0, 84, 0, 2));
    assert(is(tavvinur_run(words, WORDS, marks, MARKS, MEMORY, LOG, 1000, tape + 2, TAPE - 2), 45, 0, 124, 43, 8));
    assert(tavvinur_row_input_count(words) == 10 && tavvinur_row_inputs(words, MEMORY)[9] == tape[9]);
    assert(is(tavvinur_run(second, WORDS, second_marks, MARKS, MEMORY, LOG, STEP, tape + 20, 1), 24, 0, 92, 0, 1));
    assert(is(tavvinur_run(third, WORDS, third_marks, MARKS, MEMORY, LOG, 10, tape + 20, TAPE - 20), 22, 0, 104, 0, 1));
    assert(words[BORN] == chosen && second[BORN] == chosen - 1 && third[BORN] == chosen - 2);
}

/* --- a program at the counter --- */

enum { SLIP_LIMIT = 100, SLIP_INPUT = 3, SLIP_OUTPUT = 20, SLIP_BYTES = 13, UNTOUCHED = 0xa5 };

static int is_printed(tavvinur_printed p, uint64_t number, uint64_t pc, uint64_t value, uint64_t used, uint64_t written)
{
    return p.number == number && p.pc == pc && p.value == value && p.used == used && p.written == written;
}

/* The slip of two weights out of three, in the first row; the output is longer than the slip. */
static tavvinur_printed print_slip(uint32_t step, uint8_t *output)
{
    memset(output, UNTOUCHED, SLIP_OUTPUT);
    return tavvinur_run_program(
        words, WORDS, marks, MARKS, MEMORY, LOG, step, CODE_ADDRESS, slip_code, sizeof slip_code, DATA_ADDRESS, slip_data, sizeof slip_data,
        tape, SLIP_INPUT, output, SLIP_OUTPUT);
}

static int is_whole_slip(tavvinur_printed p) { return is_printed(p, 45, 112, 9, 2, SLIP_BYTES); }

static void look_at_slip(const uint8_t *output)
{
    assert(memcmp(output, (uint8_t *)tape + 3, SLIP_BYTES) == 0);
    for (size_t i = SLIP_BYTES; i < SLIP_OUTPUT; i++)
        assert(output[i] == UNTOUCHED);
    assert(words[DEPTH] == 13 && words[LIMIT] == SLIP_LIMIT);
    assert(tavvinur_row_input_count(words) == 2 && tavvinur_row_inputs(words, MEMORY)[1] == tape[1]);
}

static void look_at_program(void)
{
    uint8_t output[SLIP_OUTPUT];
    assert(is_whole_slip(print_slip(SLIP_LIMIT, output)));
    look_at_slip(output);
    assert(tavvinur_row_born(words) == 0);
}

/* --- stop and go on --- */

static uint64_t one_words[WORDS];
static uint8_t one_marks[MARKS];

static void keep_row(void)
{
    memcpy(one_words, words, sizeof one_words);
    memcpy(one_marks, marks, sizeof one_marks);
}

static void look_at_kept_row(void)
{
    assert(memcmp(one_words, words, sizeof one_words) == 0 && memcmp(one_marks, marks, sizeof one_marks) == 0);
}

/* The slip in two calls, of which the second reads and prints: row, label and counts are those of one call. So is the row of a run that goes
 * on, which prints nothing. */
static void look_at_going_on(void)
{
    enum { FIRST = 3, SECOND = SLIP_LIMIT - FIRST };
    uint8_t output[SLIP_OUTPUT];
    assert(is_printed(print_slip(FIRST, output), 22, CODE_ADDRESS + 4 * FIRST, 0, 0, 0));
    keep_row();
    assert(is(tavvinur_run(one_words, WORDS, one_marks, MARKS, MEMORY, LOG, SECOND, tape, SLIP_INPUT), 45, 0, 112, 9, 2));
    assert(is_whole_slip(tavvinur_go_on(words, WORDS, marks, MARKS, MEMORY, LOG, SECOND, tape, SLIP_INPUT, output, SLIP_OUTPUT)));
    look_at_slip(output);
    look_at_kept_row();
    assert(is_whole_slip(print_slip(SLIP_LIMIT, output)));
    look_at_kept_row();
}

/* Weights in two calls, the second on what is left of the tape; the word born that was chosen between them stays. */
static void look_at_the_rest(void)
{
    uint8_t output[1] = {UNTOUCHED};
    tavvinur_printed p = tavvinur_run_program(
        words, WORDS, marks, MARKS, MEMORY, LOG, STEP, CODE_ADDRESS, scale_code, sizeof scale_code, DATA_ADDRESS, scale_data,
        sizeof scale_data, tape, TAPE, output, 1);
    assert(is_printed(p, 22, 84, 0, 2, 0));
    words[BORN] = chosen;
    p = tavvinur_go_on(words, WORDS, marks, MARKS, MEMORY, LOG, 1000, tape + 2, TAPE - 2, output, 1);
    assert(is_printed(p, 45, 124, 43, 8, 0) && output[0] == UNTOUCHED);
    assert(words[LIMIT] == STEP + 1000 && tavvinur_row_born(words) == chosen);
    assert(tavvinur_row_input_count(words) == 10 && memcmp(tavvinur_row_inputs(words, MEMORY), tape, 10 * sizeof *tape) == 0);
}

static uint64_t bits_of(double score)
{
    uint64_t bits;
    memcpy(&bits, &score, sizeof bits);
    return bits;
}

static void look_at_scores(void)
{
    static const uint64_t expected[2][ROWS] = {
        {0x40107aaaaaaaaaab, 0x4010aaaaaaaaaaab, 0x4011321642c8590b},  /* 4.12, 4.17, 4.30 */
        {0x400835066f9f2bd8, 0x400a0e0fb7362d6f, 0x400b7712899c25b6}}; /* 3.03, 3.26, 3.43 */
    for (uint32_t mean = TAVVINUR_ARITHMETIC; mean <= TAVVINUR_HARMONIC; mean++) {
        double scores[ROWS], by_table[ROWS];
        assert(tavvinur_score(words, ROWS * WORDS, marks, ROWS * MARKS, MEMORY, LOG, ROWS, mean, scores, ROWS) == 0);
        soil_table();
        tavvinur_scored scored = tavvinur_score_by_table(
            words, ROWS * WORDS, marks, ROWS * MARKS, MEMORY, LOG, ROWS, mean, table, TABLE, by_table, ROWS);
        assert(scored.number == 0 && scored.increments == 568);
        look_at_table();
        for (size_t r = 0; r < ROWS; r++)
            assert(bits_of(scores[r]) == expected[mean][r] && bits_of(by_table[r]) == expected[mean][r]);
    }
}

int main(void)
{
    fill_tape();
    look_at_defaults();
    look_at_lengths();
    look_at_search(finds);
    look_at_search(finds_by_table);
    look_at_table();
    look_at_births();
    look_at_shorter_rows();
    for (size_t r = 0; r < ROWS; r++)
        look_at_creation(r);
    look_at_runs();
    look_at_scores();
    look_at_program();
    look_at_going_on();
    look_at_the_rest();
    puts("border: every field and argument is where the header says");
    return 0;
}
