/* Searches the printer's program (servings.s) in 300 states of 64 KiB, or as many as its argument says. A search has no callback, so
 * progress comes from searches of growing rounds on the same tape: each goes through the rounds of the one before and then on, and
 * a line tells what it came to. Of a find, `born` is the round in which its line was created anew. */
#include <inttypes.h>
#include <stdio.h>
#include <stdlib.h>

#include "../tavvinur.h"
#include "servings.h"

enum { MEMORY = 65536, LOG = 256, TAPE = 1 << 16, MOST_ROUNDS = 16, DATA_ADDRESS = 0x300 };

/* xorshift64*; any source of words does. */
static void fill_tape(uint64_t *tape, size_t length)
{
    uint64_t x = 0x9e3779b97f4a7c15;
    for (size_t i = 0; i < length; i++) {
        x ^= x >> 12;
        x ^= x << 25;
        x ^= x >> 27;
        tape[i] = x * 0x2545f4914f6cdd1d;
    }
}

static void print_answer(tavvinur_answer a, const uint64_t *words)
{
    printf("answer %" PRIu64 " row %" PRIu64 " pc %" PRIu64 " value %" PRIu64 "\n", a.number, a.row, a.pc, a.value);
    if (41 <= a.number && a.number <= 45) {
        const uint64_t *row = words + a.row * tavvinur_row_words(MEMORY, LOG);
        const uint64_t *inputs = tavvinur_row_inputs(row, MEMORY);
        printf("born %" PRIu64 "\n", tavvinur_row_born(row));
        for (size_t i = 0; i < tavvinur_row_input_count(row); i++)
            printf("input %" PRIu64 " (key %" PRIu64 ")\n", inputs[i], inputs[i] % 8);
    }
    printf("used %" PRIu64 "\n", a.used);
}

int main(int argc, char **argv)
{
    size_t states = argc > 1 ? strtoul(argv[1], NULL, 10) : 300;
    size_t words_length = states * tavvinur_row_words(MEMORY, LOG);
    size_t marks_length = states * tavvinur_row_marks(MEMORY);
    size_t table_length = tavvinur_table_length(MEMORY);
    uint64_t *words = calloc(words_length, sizeof *words);
    uint8_t *marks = calloc(marks_length, 1);
    uint32_t *table = calloc(table_length, sizeof *table);
    uint64_t *tape = malloc(TAPE * sizeof *tape);
    if (!words || !marks || !table || !tape) {
        fprintf(stderr, "no memory\n");
        return 2;
    }
    fill_tape(tape, TAPE);

    tavvinur_options options = tavvinur_default_options();
    options.memory_size = MEMORY;
    options.amount_of_states = states;
    options.step_size = 60;
    options.selection = (uint32_t)states / 10;

    tavvinur_answer answer = {0};
    for (uint32_t rounds = 1; rounds <= MOST_ROUNDS && answer.number == 0; rounds *= 2) {
        options.iterations = rounds;
        answer = tavvinur_search_by_table(
            words, words_length, marks, marks_length, table, table_length, options, LOG, 0, servings_code, sizeof servings_code,
            DATA_ADDRESS, servings_data, sizeof servings_data, tape, TAPE);
        printf("rounds %" PRIu32 ": answer %" PRIu64 ", %" PRIu64 " words used\n", rounds, answer.number, answer.used);
        fflush(stdout);
    }
    print_answer(answer, words);

    free(tape);
    free(table);
    free(marks);
    free(words);
    return answer.number == 0 || answer.number == 41 ? 0 : 1;
}
