"""What the tools that make lists share: lines of numbers, lines that are wrong on purpose, the digest, and the command line."""
import argparse
import collections
import os
import sys

MASK = 2**64 - 1
CRATES = os.path.join(os.path.dirname(os.path.dirname(os.path.abspath(__file__))), "crates")

DIGEST_START, DIGEST_ROTATION, DIGEST_SHIFT = 0x9E3779B97F4A7C15, 23, 5
DIGEST = f"""it starts at {DIGEST_START:#x}, and each number is put in by xor; then the digest is
rotated left by {DIGEST_ROTATION} bits and multiplied by 33, in 64 bits. Each step can be undone, so that no single change goes unnoticed."""


def fail(message):
    sys.exit(os.path.basename(sys.argv[0]) + ": " + message)


def need(condition, message):
    if not condition:
        fail(message)


def digest(words, marks):
    h = DIGEST_START
    for number in words + marks:
        h ^= number
        h = (h << DIGEST_ROTATION | h >> 64 - DIGEST_ROTATION) & MASK
        h = h + (h << DIGEST_SHIFT) & MASK
    return h


def words_of(content):
    return [int.from_bytes(content[at : at + 8], "little") for at in range(0, len(content), 8)]


def line_of(name, numbers):
    return " ".join([name] + [f"{n:x}" for n in numbers]) + "\n"


def check_names(names):
    need(len(set(names)) == len(names), "two cases have one name")


def need_often(what, given, must_occur, least):
    """Each of these numbers occurs often enough."""
    numbers = collections.Counter(given)
    print(f"{what}: " + ", ".join(f"{number} {numbers[number]} times" for number in sorted(numbers)))
    for wanted in must_occur:
        need(numbers[wanted] >= least, f"{what}: {wanted} occurs {numbers[wanted]} times")


def need_each(call, given, must_occur, least):
    """Each number that the call gives, and no other, occurs often enough."""
    need_often(call, given, must_occur, least)
    need(set(given) == set(must_occur), f"{call}: a number that the call does not give")


# Rounds in which lines of bugs must have been begun, in the lists of whole searches.
ROUNDS_OF_BUGS = range(4)


# --- lent tables ---

# As many counters as 2048 bytes of memory want, what stands in each before a call, and lengths that are wrong, by memory: 1024 bytes want 114,688.
MOST_COUNTERS, JUNK_COUNTER = 147_456, 7
WRONG_TABLES = {1024: [0, 1, 448, 81_920, 114_560, 114_687, 114_689, 147_456], 2048: [0, 114_688, 147_455]}

# --- lines that are wrong on purpose ---

# What such a line begins with. The program that replays the list must find that it disagrees.
WRONG = "!"
WRONG_LINES = f"""A line that begins with {WRONG} is wrong on purpose: what follows is a line of the list with one thing in it changed, which its name
tells. The program that replays the list must find that it disagrees."""


def is_right(line):
    return not line.startswith(WRONG)


def numbers_of(line):
    return [int(text, 16) for text in line.split()[1:]]


def first_of(lines, fits):
    """The numbers of the first line that fits."""
    found = next((numbers for numbers in map(numbers_of, lines) if fits(numbers)), None)
    need(found is not None, "no line fits a wrong one")
    return found


def wrong_line(name, numbers, changes):
    """The line of these numbers with other numbers in some columns."""
    changed = [changes.get(column, number) for column, number in enumerate(numbers)]
    need(changed != numbers, f"nothing is wrong with {name}")
    return WRONG + line_of(name, changed)


def with_one_more(name, numbers, column):
    return wrong_line(name, numbers, {column: numbers[column] + 1 & MASK})


def malformed_lines(numbers):
    """Lines that are not as a line is written, or have a number too few or too many."""
    yield WRONG + line_of("cut-short", numbers[:-1])
    yield WRONG + line_of("a-number-more", [*numbers, 0])
    texts = [f"{number:x}" for number in numbers]
    lettered = next(column for column, text in enumerate(texts) if not text.isdecimal())
    for name, text in (
        ("no-digit", texts[lettered] + "g"),
        ("capital-digits", texts[lettered].upper()),
        ("no-number", " " + texts[lettered]),
        ("seventeen-digits", texts[lettered].zfill(17)),
    ):
        yield WRONG + " ".join([name, *texts[:lettered], text, *texts[lettered + 1 :]]) + "\n"
    yield WRONG + line_of("", numbers)


# --- the command line ---


def parser_of(description, crate, seed):
    """The options that all these tools have."""
    parser = argparse.ArgumentParser(description=description, formatter_class=argparse.RawDescriptionHelpFormatter)
    stored = os.path.join(CRATES, crate, "data", "cases")
    parser.add_argument("--out", default=stored, metavar="FILE", help=f"the list (crates/{crate}/data/cases)")
    parser.add_argument("--seed", type=int, default=seed, help=f"of the choices ({seed})")
    parser.add_argument("--check", action="store_true", help="write nothing; say whether the stored list is this one")
    parser.add_argument("--wrong", action="store_true", help="take the right lines from the stored list, and make the wrong ones from them")
    return parser


def with_wrong(right, wrong_lines):
    """The text of a list: the right lines, and those that are wrong on purpose."""
    wrong = list(wrong_lines(right.splitlines(keepends=True)))
    need(len(set(wrong)) == len(wrong), "two lines are wrong in the same way")
    print(f"{len(wrong)} lines that are wrong on purpose")
    return right + "".join(wrong)


def stored_right(path):
    with open(path) as stored:
        return "".join(filter(is_right, stored))


def finish(options, make_right, wrong_lines):
    """Makes the list, and writes it or compares it with the stored one."""
    right = stored_right(options.out) if options.wrong else make_right(options.seed)
    text = with_wrong(right, wrong_lines)
    if options.check:
        with open(options.out) as stored:
            need(stored.read() == text, "the stored list is another")
        print("the stored list is the same")
        return
    os.makedirs(os.path.dirname(options.out), exist_ok=True)
    with open(options.out, "w") as out:
        out.write(text)
