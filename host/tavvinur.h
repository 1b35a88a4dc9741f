/* Tavvinur for C: the rarity search over RISC-U programs, a label program at the counter, and one executor by itself. Link
 * crates/tavvinur/out/libtavvinur.a.
 *
 * Every function is proved to equal its definition (crates/tavvinur/specs, docs/HOSTS.md), on refused calls too: a refused
 * call changes nothing of what is lent. Numbers and lengths may be any: the functions check them. The caller answers only for this:
 *  - a pointer is aligned for its type, is not null, and points to as many elements as its length says (all of them initialised;
 *    an empty slice may point to anything that is not null and is aligned);
 *  - what a call may write (no const) overlaps nothing else that is lent to that call;
 *  - nobody else writes what is lent, or reads what a call may write, until the call returns;
 *  - the calling thread computes with doubles as a C program does from its start: it rounds to nearest (fegetround() is
 *    FE_TONEAREST), and MXCSR has neither denormals-are-zero set nor an exception unmasked. Rounding otherwise gives other scores,
 *    so that a search may keep other rows.
 * All memory is the caller's. The library allocates nothing, keeps no pointer and no state between calls, writes only what is lent
 * without const, and calls nothing but memcpy and memset. Calls on different memory may run at once. A search takes 210 KiB of
 * stack, a scoring 110 KiB, a run 4 KiB, of a program or of a row, the others less than 1 KiB.
 *
 * A row, with W = memory / 8: 38 + W + log words and 32 + W marks.
 *   words: pc, break, depth, limit, log count, born, 32 registers, W memory words, log words
 *   marks: one byte for each register and memory word, 1 concrete, 0 uninitialised (whose word is 0)
 *   born: the round of the search, counted from 0, in which the row's first ancestor was created anew; a copy takes over its parent's.
 *     An executor created outside a search has 0. In a row lent to a run or a scoring it may be any number, which is left as it was.
 * A store of n rows has exactly n times as many words and marks, row after row.
 *
 * A table to count in: 256 * (W + 320) counters of 32 bits, 459 KB with 1 KiB of memory and 135 MB with 1 MiB. It may hold anything. A call that
 * is not refused leaves all of it 0, whatever the call answers; one that is refused leaves it as it was. What is 0 is not written: of a table
 * fresh from the system (calloc) the pages in which nothing is counted stay unmapped, and take no memory.
 *
 * Numbers of answers (docs/NUMBERS.md has all numbers, those of sheets too):
 *   0  run, run_program, go_on: ended by exit with 0; search: nothing found; new_executor, score: done
 *   1  memory is no multiple of 1024 from 1024 to 1048576        5  lent lengths are not exact
 *   2  states or rows are not from 1 to 4096                    32  the table's length is not exact (tested after 5)
 *   3  the ratio is not from 0 to 1                              6  a length of code or data is no multiple of 8
 *   4  log is above 65536                                        7  code or data ends past memory
 *  53  the mean is above 1 (tested first)                        9  a row that no executor can have
 *   8  search: fewer tape words left than copies to make        20  not supported; the value is the reason, 1 to 13
 *  21  no instruction                                           31  scores cannot be ordered
 *  22  run, run_program, go_on: the limit is reached, and the row can be run on
 *  23  pc past memory        24  tape empty        25  log full
 *  71  run_program, go_on: a write call needs more output than is left; none of its bytes is copied
 *  41  division by zero      42  uninitialised use; value 1: an operand, 2: a write call
 *  43  unaligned address, which is the value     45  exit with the value, above 0
 *  44  address out of range; a buffer of a read or write call may end with memory, but not past it
 */
#ifndef TAVVINUR_H
#define TAVVINUR_H

#include <stddef.h>
#include <stdint.h>

#ifdef __cplusplus
extern "C" {
#endif

enum { TAVVINUR_ARITHMETIC = 0, TAVVINUR_HARMONIC = 1 };

typedef struct {
    uint64_t memory_size;      /* bytes of a state's memory */
    uint64_t amount_of_states; /* rows of the store */
    uint32_t step_size;        /* instructions that each state runs in a round */
    uint32_t selection;        /* how many of the rarest states are kept after a round */
    uint32_t iterations;       /* rounds */
    uint32_t mean;             /* TAVVINUR_ARITHMETIC or TAVVINUR_HARMONIC */
    double copy_init_ratio;    /* the part of the missing states that is copied from kept ones, the others being new */
} tavvinur_options;

/* What has no use is 0. */
typedef struct {
    uint64_t number;
    uint64_t row;   /* of a bug or an error; 0 from tavvinur_run */
    uint64_t pc;    /* before the instruction */
    uint64_t value;
    uint64_t used;  /* tape words taken */
} tavvinur_answer;

/* The same of a program that was run at the counter, or went on there. */
typedef struct {
    uint64_t number;
    uint64_t pc;
    uint64_t value;
    uint64_t used;    /* input words taken */
    uint64_t written; /* bytes at the front of the output */
} tavvinur_printed;

/* Of a scoring in a table. */
typedef struct {
    uint64_t number;
    uint64_t increments; /* how often a counter went up: 8 for each marked word and each pc of the rows; 0 where refused */
} tavvinur_scored;

/* 400 states of 1 MiB, 1000 instructions, 50 kept, 20 rounds, ratio 0.6, harmonic: the Rust's, but for the states, 3000 there. */
tavvinur_options tavvinur_default_options(void);

/* Makes a new executor of a program in a lent row, whatever the row held. Answers 0, or 1, 4, 5, 6, 7.
 * Code and data come to memory from the word address / 8 on; the executor starts at the code's address. */
uint64_t tavvinur_new_executor(
    uint64_t *words, size_t words_length, uint8_t *marks, size_t marks_length, uint64_t memory, uint64_t log, uint64_t code_address,
    const uint8_t *code, size_t code_length, uint64_t data_address, const uint8_t *data, size_t data_length);

/* Runs a lent row for at most step instructions more. Its reads take words of the tape, from its front in each call, and log them. */
tavvinur_answer tavvinur_run(
    uint64_t *words, size_t words_length, uint8_t *marks, size_t marks_length, uint64_t memory, uint64_t log, uint32_t step,
    const uint64_t *tape, size_t tape_length);

/* Loads a label program into a lent row, whatever the row held, and runs it to its end or for at most step instructions. Refused by 1, 4,
 * 5, 6, 7, as a new executor. Each draw of a read call takes one input word; a log of as many words as the input is never full (25).
 * A write call copies its bytes to the output, behind those of the writes before it; the other bytes of the output are untouched.
 * Unless the answer is 71, row, number, pc, value and used are those of tavvinur_new_executor and one tavvinur_run. */
tavvinur_printed tavvinur_run_program(
    uint64_t *words, size_t words_length, uint8_t *marks, size_t marks_length, uint64_t memory, uint64_t log, uint32_t step,
    uint64_t code_address, const uint8_t *code, size_t code_length, uint64_t data_address, const uint8_t *data, size_t data_length,
    const uint64_t *input, size_t input_length, uint8_t *output, size_t output_length);

/* Goes on with a row that tavvinur_run_program, or a call of this function, has left with 22, for at most step instructions more. Refused by 1,
 * 4, 5, 9, as a run of the row. Its input is what the call before left of the input, from used on, its output what it left of the output, from
 * written on. The word born stays as it was lent. Unless the answer is 71, row, number, pc, value and used are those of tavvinur_run on the row.
 * Two calls are one: a call of a instructions that answers 22, and then this one of b, leave what one call of a + b leaves, with used and
 * written added, where a + b <= 2^32 - 1 and the row's limit is at most 2^63 between them. If the first answers anything else, 71 too, so does
 * the one call, whose row then has a limit that is b higher: nothing goes on after that. The same is so of tavvinur_run, with the rest of the
 * tape. */
tavvinur_printed tavvinur_go_on(
    uint64_t *words, size_t words_length, uint8_t *marks, size_t marks_length, uint64_t memory, uint64_t log, uint32_t step,
    const uint64_t *input, size_t input_length, uint8_t *output, size_t output_length);

/* Scores the rows of a store among themselves, one score a row, the lowest being the rarest. Answers 0, or 53, 1, 2, 4, 5, 9, 31;
 * scores are written only at 0. */
uint64_t tavvinur_score(
    const uint64_t *words, size_t words_length, const uint8_t *marks, size_t marks_length, uint64_t memory, uint64_t log, uint64_t rows,
    uint32_t mean, double *scores, size_t scores_length);

/* The same scores, counted in a lent table: it takes time with the words that are marked, not with pairs of rows. Answers 0, or 53, 1, 2, 4, 5,
 * 32, 9, 31. The increments are at most 8 * (33 + W) for each row. */
tavvinur_scored tavvinur_score_by_table(
    const uint64_t *words, size_t words_length, const uint8_t *marks, size_t marks_length, uint64_t memory, uint64_t log, uint64_t rows,
    uint32_t mean, uint32_t *table, size_t table_length, double *scores, size_t scores_length);

/* Searches a program for bugs. An accepted call zeroes the store first; nothing of it need be set up. */
tavvinur_answer tavvinur_search(
    uint64_t *words, size_t words_length, uint8_t *marks, size_t marks_length, tavvinur_options options, uint64_t log,
    uint64_t code_address, const uint8_t *code, size_t code_length, uint64_t data_address, const uint8_t *data, size_t data_length,
    const uint64_t *tape, size_t tape_length);

/* The same search, which counts in a lent table: its answers are those of the other, and 32. */
tavvinur_answer tavvinur_search_by_table(
    uint64_t *words, size_t words_length, uint8_t *marks, size_t marks_length, uint32_t *table, size_t table_length,
    tavvinur_options options, uint64_t log, uint64_t code_address, const uint8_t *code, size_t code_length, uint64_t data_address,
    const uint8_t *data, size_t data_length, const uint64_t *tape, size_t tape_length);

/* The counters of a table, for rows of so much memory. */
static inline size_t tavvinur_table_length(uint64_t memory) { return (size_t)(256 * (memory / 8 + 320)); }

/* The words and marks of one row. */
static inline size_t tavvinur_row_words(uint64_t memory, uint64_t log) { return (size_t)(38 + memory / 8 + log); }
static inline size_t tavvinur_row_marks(uint64_t memory) { return (size_t)(32 + memory / 8); }

/* The words that a row has read, in order, as many as the log count in its word 4; for a row that the library left. Those of a bug's
 * row are the keys that lead there. */
static inline const uint64_t *tavvinur_row_inputs(const uint64_t *row, uint64_t memory) { return row + 38 + memory / 8; }
static inline size_t tavvinur_row_input_count(const uint64_t *row) { return (size_t)row[4]; }

/* How old a row's line is: the round, counted from 0, in which its first ancestor was created anew. */
static inline uint64_t tavvinur_row_born(const uint64_t *row) { return row[5]; }

#ifdef __cplusplus
}
#endif

#endif
