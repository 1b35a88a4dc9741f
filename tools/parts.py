"""Runs and orders in parts, by the model: each part goes on with what the part before it left of row, tape and output. Together they have to
come to what one call comes to.
"""
import collections
import itertools

from lists import need
from model import LIMIT, LIMIT_REACHED, REFUSALS, Printed, go_on, run_entry, run_program

# How many instructions a part has where the replaying programs make a run in parts. After so many of a size, one has all that are left.
PART_SIZES, MOST_OF_A_SIZE = (1, 7, 1000), 1000
IN_PARTS = "in parts of {}, {} and {} instructions".format(*PART_SIZES)


def part_lengths(step, size):
    """How many instructions each part has; the last has none."""
    left = step
    for n in itertools.count():
        part = min(size, left) if n < MOST_OF_A_SIZE else left
        left -= part
        yield part
        if part == 0:
            return


def in_parts(words, lengths, call):
    """What the parts come to together, and how many there were; `call` makes the part of this number and length after so many words and bytes.
    The row has the limit of one call then."""
    lengths, used, written = list(lengths), 0, 0
    for n, length in enumerate(lengths):
        answer = call(n, length, used, written)
        used, written = used + answer.used, written + answer.written
        if answer.number != LIMIT_REACHED:
            break
    if answer.number not in REFUSALS:
        words[LIMIT] += sum(lengths[n + 1 :])
    return answer._replace(used=used, written=written), n + 1


def run_in_parts(words, marks, memory, log, lengths, tape):
    def call(n, length, used, written):
        return Printed(*run_entry(words, marks, memory, log, length, tape[used:]), 0)

    return in_parts(words, lengths, call)


def print_in_parts(words, marks, memory, log, lengths, segments, tape, output):
    """An order in parts: the first loads the program."""

    def call(n, length, used, written):
        if n == 0:
            return run_program(words, marks, memory, log, length, segments, tape, output)
        rest = output[written:]
        answer = go_on(words, marks, memory, log, length, tape[used:], rest)
        output[written:] = rest
        return answer

    return in_parts(words, lengths, call)


# What the parts of a size come to, and how many there were.
Parted = collections.namedtuple("Parted", "size answer count")


def played_in_parts(name, step, play):
    """What each size of parts comes to. `play` makes a call in parts of these lengths, and has its answer, the number of parts and what is left. A
    part is refused where the one before it left too large a limit; all others have to come to what one call does."""
    whole, _, left = play([step])
    for size in PART_SIZES:
        answer, count, left_in_parts = play(part_lengths(step, size))
        if count == 1 or answer.number not in REFUSALS:
            need((answer, left_in_parts) == (whole, left), f"{name} in parts of {size} comes to something else")
        yield Parted(size, answer, count)


def need_in_parts(parted, must_occur, kind_of):
    """Each of these kinds of answers, and no other, is come to after more than one part, in each size."""
    for size in PART_SIZES:
        answers = [p.answer for p in parted if p.size == size and p.count > 1]
        kinds = set(map(kind_of, answers))
        for wanted in must_occur:
            need(wanted in kinds, f"answer {wanted} is never come to in parts of {size}")
        need(kinds == set(must_occur), f"in parts of {size} an answer that no part gives")
        numbers = collections.Counter(answer.number for answer in answers)
        print(f"in parts of {size}: " + ", ".join(f"{number} {numbers[number]} times" for number in sorted(numbers)))
    calls = sum(p.count for p in parted) + len(parted) // len(PART_SIZES)
    print(f"{calls} calls, in one and in parts")
