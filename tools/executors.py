"""Cases of one executor, for the lists of label programs and of orders: what is lent, programs made around single instructions,
what is refused, and random programs with their data and tapes.
"""
import collections

from model import NOT_SUPPORTED, UNINITIALISED, row_sizes
from programs import assemble_texts, label_programs, padded, random_word

# The arrays that every case is replayed on, and what stands in them before the first call.
WORDS, MARKS = 304, 288
JUNK, JUNK_MARK = 0x6E757473, 7

# The most that the replaying programs take.
MOST_NUMBERS, MOST_BYTES, MOST_LOG = 192, 512, 8
MOST_LIST_BYTES = 500_000

Lent = collections.namedtuple("Lent", "memory log words marks")


def exactly(memory, log):
    return Lent(memory, log, *row_sizes(memory, log))


# --- label programs ---

DATA_ADDRESS = 0x300


def label_options(folder, *programs):
    """Name, code, data and options of each case of the label programs."""
    for program, code, data, cases in label_programs(folder, *programs):
        for n, given in enumerate(cases):
            one = {key: values[0] for key, values in given.items() if key not in ("tape", "runs")}
            segments = (one.get("code", 0), code), (one.get("data", DATA_ADDRESS), data)
            yield f"{program}-{n + 1}", *segments, {"memory": 1024, "log": MOST_LOG, "tape": [], **given, **one}


# --- sequences ---

# Where a made sequence finds the numbers that it loads into registers; they are the case's data.
TABLE_AT = 0x280
GENERAL_CODE = 0x40


class Made:
    """A sequence of instructions; the case around it can be made once its code is assembled."""

    def __init__(self, name, texts, address=GENERAL_CODE, **rest):
        self.name, self.texts, self.address, self.rest = name, texts, address, rest


def assembled(folder, case, sequences):
    """The cases of many sequences, assembled together."""
    codes = assemble_texts(folder, [made.texts for made in sequences])
    return [case(made.name, (made.address, padded(code)), **made.rest) for made, code in zip(sequences, codes)]


def with_registers(name, values, texts, **rest):
    """Registers are loaded from a table first, those with None left uninitialised; then come the texts."""
    table = [value for value in values.values() if value is not None]
    named = [register for register, value in values.items() if value is not None]
    loads = [f"ld x{register}, {TABLE_AT + 8 * n}(x0)" for n, register in enumerate(named)]
    content = b"".join(value.to_bytes(8, "little") for value in table)
    return Made(name, loads + texts, data=(TABLE_AT, content), **rest)


# --- buffers at memory's end ---

MEMORIES_WITH_ENDS = (1024, 2048)


def buffers_at_the_end(memory):
    """Buffers from the first byte of the last word to one byte past memory, with sizes that end a byte before memory's end, there and a byte past it."""
    for buffer in range(memory - 8, memory + 2):
        for size in sorted({0, *range(max(0, memory - 1 - buffer), memory + 2 - buffer)}):
            yield buffer, size


# --- random cases ---


def random_given(rng):
    """Data, tape and log of a random case."""
    content = b"".join(random_word(rng).to_bytes(8, "little") for _ in range(rng.randrange(5)))
    return {
        "data": (rng.choice([0x280, 0x205, 0x3E0, 0x200]), content),
        "tape": [random_word(rng) for _ in range(rng.randrange(7))],
        "log": rng.choice([0, 1, 2, 3, 8, 8, 8, 8]),
    }


# Of random cases a few of each kind are taken: how they end, and how far they come.
MOST_OF_A_KIND = 4
CANDIDATES = 2500


def kind_of_answer(answer):
    return answer.number, answer.value if answer.number in (NOT_SUPPORTED, UNINITIALISED) else None


def chosen(cases, kind_of):
    taken = collections.Counter()
    for c in cases:
        kind = kind_of(c)
        taken[kind] += 1
        if taken[kind] <= MOST_OF_A_KIND:
            yield c


# --- what is refused ---

# Sizes that are refused, and some just inside: memory, log, lent words, lent marks. 174 and 160 are right for 1024 and 8.
SIZES_LENT = [
    (0, 8, 174, 160),
    (512, 8, 174, 160),
    (1023, 8, 174, 160),
    (1025, 8, 174, 160),
    (1032, 8, 175, 161),
    (1_049_600, 8, 174, 160),
    (1_048_577, 8, 174, 160),
    (2**64 - 1024, 8, 174, 160),
    (2**64 - 1, 65_537, 0, 0),
    (0, 65_537, 0, 0),
    (1_048_576, 8, 174, 160),
    (1024, 65_537, 174, 160),
    (1024, 2**64 - 1, 174, 160),
    (1024, 65_536, 174, 160),
    (1_048_576, 65_537, 0, 0),
    (1024, 8, 173, 160),
    (1024, 8, 175, 160),
    (1024, 8, 174, 159),
    (1024, 8, 174, 161),
    (1024, 8, 0, 160),
    (1024, 8, 174, 0),
    (1024, 8, 0, 0),
    (1024, 8, 302, 288),
    (2048, 8, 174, 160),
    (1024, 7, 174, 160),
    (1024, 0, 166, 160),
    (1024, 8, 166, 160),
]

# Code address and length, data address and length.
SEGMENTS = [
    (0, 7, 0, 0),
    (0, 1, 0, 0),
    (0, 9, 0, 0),
    (0, 12, 0, 8),
    (0, 8, 0, 4),
    (0, 8, 0, 15),
    (0x3F8, 12, 0x3F8, 12),
    (0x400, 7, 0, 8),
    (0x400, 8, 0, 7),
    (2**64 - 1, 16, 0, 1),
    (0x3F8, 8, 0, 0),
    (0x3FF, 8, 0, 0),
    (0x3F9, 16, 0, 0),
    (0x3F8, 16, 0, 0),
    (0x3F0, 16, 0, 0),
    (0x3F7, 16, 0, 0),
    (0x400, 8, 0, 0),
    (0x400, 0, 0, 0),
    (2**64 - 1, 0, 2**64 - 1, 0),
    (2**64 - 1, 8, 0, 0),
    (2**64 - 8, 8, 0, 0),
    (2**63, 8, 0, 0),
    (0, 16, 0x400, 8),
    (0, 16, 0x3F8, 8),
    (0, 16, 0x3FF, 8),
    (0, 16, 0x3F9, 8),
    (0, 16, 0x3F8, 16),
    (0, 16, 0x3F0, 16),
    (0, 16, 2**64 - 1, 8),
    (0, 16, 2**64 - 8, 16),
    (0, 0, 0, 0),
    (0, 0, 0x10, 8),
    (0, 512, 0x200, 512),
    (8, 512, 0x200, 512),
    (0, 512, 0x208, 512),
]


def segment_pairs(code):
    """Code and data for each of these, of the bytes of this code over and over."""
    content = code * (MOST_BYTES // len(code))
    for code_address, code_length, data_address, data_length in SEGMENTS:
        yield (code_address, content[:code_length]), (data_address, content[::-1][:data_length])
