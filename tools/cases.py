"""Searches for the lists and comparisons: options, programs, data and tapes, made by hand or drawn."""
import collections
import itertools
import struct

from model import ARITHMETIC, FIELD_BYTES, FIELDS, HARMONIC, Options, bits_of, rounded, row_sizes, table_length
from programs import LEAVE, assemble_texts, label_programs, padded, random_texts, random_word

Case = collections.namedtuple("Case", "name options words marks table code data tape")


def exact_sizes(options):
    """As many words, marks and counters of a table as the options ask for."""
    row_words, row_marks = row_sizes(options.memory, options.log)
    return options.states * row_words, options.states * row_marks, table_length(options.memory)


def case(name, options, code, data=(0, b""), tape=(), lent=None):
    """As much is lent as the options ask for, if nothing else is said."""
    return Case(name, options, *(lent or exact_sizes(options)), code, data, list(tape))


# --- programs that read keys ---

KEYS_AT = 0x200
BLOCK = 6

# What a key can send an executor to, in at most five instructions; afterwards it reads the next key.
QUIET = [
    [],
    ["addi s1, s1, 1"],
    ["addi s1, s1, 1", "mul s2, s1, s0"],
    ["sd s0, 0x208(x0)"],
    ["sd s1, 0x210(x0)", "addi s1, s1, 3"],
    ["sub s3, s1, s0", "sd s3, -8(sp)"],
    ["ld t3, 0x240(x0)", "sd t3, 0x208(x0)"],
    ["li a7, BRK", "li a0, 0x3f0", "ecall", "mv s4, a0"],
    ["li a7, WRITE", "li a0, 1", "li a1, 0x200", "li a2, 8", "ecall"],
    ["li a2, 3", "li a0, 0", "ecall"],
    ["li a1, 0x20c", "li a0, 0", "ecall"],
    ["lui s5, 0x80000", "addi s5, s5, -1"],
    ["sltu s6, s0, s1", "sd s6, 0x218(x0)"],
]
LOUD = [
    LEAVE,
    ["li a7, EXIT", "mv a0, s0", "ecall"],
    ["li a7, EXIT", "li a0, 7", "ecall"],
    ["li a7, EXIT", "mv a0, t5", "ecall"],
    ["divu t3, s0, x0"],
    ["remu t3, s0, s1"],
    ["add t3, t4, s0"],
    ["ld t3, 1(s0)"],
    ["ld t3, -8(x0)"],
    ["sd s0, 0(s2)"],
    ["li a7, 999", "ecall"],
    ["li a7, WRITE", "li a0, 1", "li a1, 0x230", "ecall"],
    [".word 0"],
    ["jalr x0, 1024(x0)"],
    ["jalr x0, 2(x0)"],
    ["ld t3, 0(t4)"],
    ["sd s0, 0x18(x0)"],
]
START = ["li s1, 0", "li s2, 0", "sd x0, 0x208(x0)"]


def block_texts(blocks, size, keys_at=KEYS_AT):
    """Reads a key of so many bytes, takes it modulo the number of blocks, and goes to that block, which goes back to reading."""
    reading = ["li a7, READ", "li a0, 0", f"li a1, {keys_at:#x}", f"li a2, {size}", "ecall"]
    going = [f"ld s0, {keys_at:#x}(x0)", f"li t0, {len(blocks)}", "remu s0, s0, t0", f"li t0, {4 * BLOCK}"]
    going += ["mul t0, t0, s0", "jal t1, .+4", "add t0, t0, t1", "jalr x0, 8(t0)"]
    start = START + ([f"sd x0, {keys_at:#x}(x0)"] if size % 8 else [])
    texts = start + reading + going
    for block in blocks:
        texts += [*block, *["nop"] * (BLOCK - 1 - len(block))]
        texts.append(f"jal x0, .-{4 * (len(texts) - len(start))}")
    return texts


def key_texts(rng, loud, more=()):
    """Loud blocks are as frequent as is said; more of them can be given."""
    blocks = [rng.choice([*LOUD, *more] if rng.random() < loud else QUIET) for _ in range(rng.randrange(2, 7))]
    return block_texts(blocks, 8 if rng.randrange(8) else rng.choice([1, 3, 9, 16]))


RATIOS = [0.0, -0.0, 0.5, 0.6, 1.0, 0.25, 0.1, 1 / 3, 5e-324, 1e-17, 0.49999999999999994, 0.9999999999999999, 0.05, 0.75]
STEPS = [0, 1, 2, 5, 13, 16, 20, 21, 22, 30, 40, 60, 100]


def random_options(rng):
    states = rng.choice([1, 2, 3, 4, 5, 6, 8, 8, 12])
    selection = rng.choice([0, 1, 1, 2, 2, 3, 3, 4, 5, states, states + 1, 2**32 - 1])
    memory = rng.choice([1024, 1024, 1024, 2048])
    ratio = rng.choice(RATIOS) if rng.randrange(3) else rng.random()
    mean = rng.choice([ARITHMETIC, HARMONIC])
    log = rng.choice([16, 16, 16, 8, 4, 2, 1, 0])
    return Options(states, rng.choice(STEPS), selection, rng.randrange(7), ratio, mean, memory, log)


def random_tape(rng):
    """Small keys, most of them; the length is random too, so that some tapes run short."""
    length = rng.choice([0, 1, 3, 8, 20, 40, 60, 80, 100])
    widths = rng.choice([[2], [3], [4, 8], [3, 3, 3, 64]])
    return [rng.getrandbits(rng.choice(widths)) for _ in range(length)]


def random_data(rng):
    content = b"".join(random_word(rng).to_bytes(8, "little") for _ in range(rng.randrange(3)))
    return rng.choice([0x280, 0x245, 0x3E0, 0x240]), content


def key_cases(rng, folder, count):
    """Programs that read keys, each with a few searches: quiet, with one loud block now and then, and loud."""
    programs = [key_texts(rng, rng.choice([0, 0, 0.1, 0.2, 0.4])) for _ in range(count)]
    for n, code in enumerate(assemble_texts(folder, programs)):
        address = rng.choice([0, 0, 0, 0x40, 0x44])
        yield case(f"keys-{n + 1}", random_options(rng), (address, padded(code)), random_data(rng), random_tape(rng))


def mixed_cases(rng, folder, count):
    programs = [random_texts(rng) for _ in range(count)]
    for n, code in enumerate(assemble_texts(folder, programs)):
        address = rng.choice([0x40, 0x40, 0x44, 0])
        yield case(f"mixed-{n + 1}", random_options(rng), (address, padded(code)), random_data(rng), random_tape(rng))


def label_cases(rng, folder, count):
    """Each label program with tapes made of those of its cases."""
    for name, code, data, cases in label_programs(folder):
        for n in range(count):
            given = rng.choice(cases)
            options = random_options(rng)._replace(memory=given.get("memory", [1024])[0])
            options = options._replace(step=rng.choice([*given["runs"], options.step]), log=rng.choice([8, 16]))
            tape = [word for _ in range(8) for word in rng.choice(cases).get("tape", [])]
            segments = (given.get("code", [0])[0], code), (given.get("data", [0x300])[0], data)
            yield case(f"{name}-{n + 1}", options, *segments, tape[: rng.choice([20, 60, 100])])


def random_cases(rng, folder, count):
    """Random searches of all kinds; the oracle is asked about these too."""
    labels = label_cases(rng, folder, count // 200 + 1)
    return [*key_cases(rng, folder, count), *mixed_cases(rng, folder, count // 4), *labels]


# --- searches made by hand ---

# Blocks of the program below, by key; with this step an executor takes one key a round.
PICK = {
    "count": ["addi s1, s1, 1"],
    "store": ["sd s0, 0x208(x0)"],
    "call": ["li a7, 999", "ecall"],
    "word": [".word 0"],
    "zero": ["divu t3, s0, x0"],
    "exit": LEAVE,
    "code": ["li a7, EXIT", "li a0, 7", "ecall"],
}
KEYS = {name: key for key, name in enumerate(PICK)}
ONE_KEY = 19


def pick_texts(keys_at=KEYS_AT):
    return block_texts(list(PICK.values()), 8, keys_at)


# The last word of the memory that these searches have.
LAST_WORD = 0x3F8


def picked(name, keys, **given):
    """A search whose executors take these keys, by row and round."""
    tape = [KEYS[key] if isinstance(key, str) else key for key in keys]
    return name, Options(**{**dict(zip(Options._fields, (3, ONE_KEY, 3, 1, 0.0, HARMONIC, 1024, 16))), **given}), tape


def pick_searches():
    """Outcomes of two rows among quiet ones, in either order; then what exits leave, ties, and short tapes."""
    ends = ["count", "call", "word", "zero", "exit", "code"]
    for first in ends:
        for second in ends:
            yield picked(f"{first}-then-{second}", [first, "store", second])
    for mean in (ARITHMETIC, HARMONIC):
        name = "harmonic" if mean else "arithmetic"
        for n, keys in enumerate([(7, 14, 21, 28), (7, 7, 14, 14), (8, 1, 8, 1), (14, 7, 7, 7), (1, 1, 1, 8), (0, 0, 0, 0)]):
            for selection in (1, 2, 3):
                given = dict(states=4, selection=selection, rounds=2, ratio=0.5, mean=mean)
                yield picked(f"{name}-ties-{n + 1}-{selection}", [*keys, 5, 2**64 - 1, 9, 1, 2], **given)
    for n, keys in enumerate([["exit"] * 3, ["exit", "count", "exit"], ["count", "exit", "store"], ["store", "store", "exit"]]):
        for ratio in (0.0, 0.5, 1.0):
            yield picked(f"exits-{n + 1}-{ratio}", [*keys, 7, 8, 1, 0, 7, 14], rounds=2, ratio=ratio)
    for n, length in enumerate([3, 4, 5, 6, 7, 8]):
        tape = ["count", "store", "count", *range(5)][:length]
        yield picked(f"tape-short-{n + 1}", tape, selection=1, rounds=2, ratio=1.0)
        yield picked(f"tape-short-half-{n + 1}", tape, selection=1, rounds=2, ratio=0.5)
    for log in range(4):
        yield picked(f"log-of-{log}", [7, 8, 7, 8, 7, 8, 7, 8, 7, 8], rounds=3, log=log)
    yield picked("late-bug-after-rounds", [7, 8, 7, "call", "word", "zero"], rounds=2)
    yield picked("bug-in-last-row", ["call", "call", "code"])
    yield picked("no-rounds", [7, 8, 7], rounds=0)
    yield picked("no-steps", [7, 8, 7], step=0, rounds=3)
    yield picked("none-selected", [7, 8, 7, 8, 7, 8], selection=0, rounds=2, ratio=1.0)


# States, selection and ratio: missing times ratio just below, at and just above halves, and where the product is rounded.
COPIES = [
    (2, 1, 0.49999999999999994),
    (2, 1, 0.5),
    (2, 1, 0.5000000000000001),
    (4, 1, 0.5),
    (4, 1, 0.49999999999999994),
    (4, 1, 0.16666666666666666),
    (4, 1, 0.16666666666666669),
    (4, 1, 0.8333333333333334),
    (4, 1, 0.8333333333333333),
    (6, 1, 0.1),
    (6, 1, 0.09999999999999999),
    (6, 1, 0.3),
    (6, 1, 0.7),
    (6, 1, 0.6999999999999998),
    (8, 1, 0.6),
    (8, 1, 0.5),
    (8, 1, 0.07142857142857142),
    (8, 3, 0.1),
    (8, 3, 0.9),
    (8, 7, 0.6),
    (8, 8, 1.0),
    (8, 2**32 - 1, 1.0),
    (12, 1, 0.6),
    (12, 2, 0.95),
    (12, 2, 0.9999999999999999),
    (12, 5, -0.0),
    (12, 5, 0.0),
    (12, 5, 5e-324),
    (12, 5, 2.2250738585072014e-308),
    (12, 5, 1.0),
]


def copy_searches():
    """A program without keys, whose used count is the number of copies; the tape says which rows are copied."""
    for n, (states, selection, ratio) in enumerate(COPIES):
        options = Options(states, 3, selection, 3, ratio, HARMONIC if n % 2 else ARITHMETIC, 1024, 2)
        yield f"copies-{n + 1}", options, [2**64 - 1 - 7 * i for i in range(40)]


# Keys of the rows by round. What exits is created anew in the next round, or is a copy of what is left, so that lines are begun in several
# rounds; where all exit, the next round is all new.
HISTORIES = {
    "all-anew-twice": [["exit"] * 3, ["exit"] * 3],
    "anew-then-kept": [["exit"] * 3, ["count"] * 3],
    "kept-then-anew": [["count"] * 3, ["exit"] * 3],
    "one-left-each-round": [["count", "exit", "exit"], ["exit", "count", "exit"]],
    "two-left-each-round": [["count", "exit", "store"], ["count", "store", "exit"], ["exit", "count", "store"]],
    "anew-then-one-left": [["exit"] * 3, ["store", "exit", "exit"], ["exit", "count", "exit"]],
    "left-of-two-rounds": [["count", "exit", "exit", "exit"], ["exit", "count", "exit", "store"]],
}
# Keys of three rows in the last round: a bug of each in turn, an error, and neither. Other rows go on.
LAST_KEYS = {
    "bug-in-row-0": ["code", "count", "store"],
    "bug-in-row-1": ["count", "zero", "code"],
    "bug-in-row-2": ["exit", "call", "code"],
    "error-in-row-1": ["count", "call", "exit"],
    "nothing": ["count", "exit", "store"],
}


def some_are_left(keys):
    return 0 < keys.count("exit") < len(keys)


def aged_tape(rounds, ratio):
    """The keys of these rounds, and before each the words by which copies are drawn where some rows are left."""
    tape, copies = [], 0
    for keys in rounds:
        tape += [2**64 - 1 - len(tape)] * copies + keys
        copies = rounded(keys.count("exit") * ratio) if some_are_left(keys) else 0
    return tape


def aged_searches():
    """Lines begun in the first round and in later ones, copies of copies among them, with what the last round meets in each row."""
    for history, rounds in HISTORIES.items():
        ratios = (0.0, 0.5, 1.0) if any(map(some_are_left, rounds)) else (1.0,)
        for ratio, (last, keys) in itertools.product(ratios, LAST_KEYS.items()):
            states = len(rounds[0])
            tape = aged_tape([*rounds, keys + ["count"] * (states - len(keys))], ratio)
            yield picked(f"{history}-{ratio}-{last}", tape, states=states, selection=states, rounds=len(rounds) + 1, ratio=ratio)


WHOLE = [0x05D00893, 0x00300513, 0x00000073, 0x00000073]

# Goes on for ever, and reads nothing.
TURNING = ["li s0, 0", "addi s0, s0, 1", "jal x0, .-4", "nop"]


# Of the searches above one in so many again, with a program whose keys are read to memory's end.
PICKS_TO_ONE_AT_THE_END = 6


def hand_cases(pick, turning, pick_at_the_end):
    """Cases made by hand, over the programs of pick_texts and TURNING."""
    whole = b"".join(word.to_bytes(4, "little") for word in WHOLE)
    yield case("whole-case", Options(1, 10, 1, 1, 0.0, HARMONIC, 1024, 4), (0, whole))
    for name, options, tape in pick_searches():
        yield case(name, options, (0, pick), tape=tape)
    for name, options, tape in list(pick_searches())[::PICKS_TO_ONE_AT_THE_END]:
        yield case(f"{name}-at-the-end", options, (0, pick_at_the_end), tape=tape)
    for name, options, tape in aged_searches():
        yield case(name, options, (0, pick), tape=tape)
    for name, options, tape in copy_searches():
        yield case(name, options, (0, turning), tape=tape)


def hand_programs(folder):
    return [padded(code) for code in assemble_texts(folder, [pick_texts(), TURNING, pick_texts(LAST_WORD)])]


# --- sheets ---


def fields_for(c, code_at, data_at, tape_at):
    """The sixteen fields of a sheet with the parts at these offsets."""
    o, (code_address, code), (data_address, data) = c.options, c.code, c.data
    fields = [*o._replace(ratio=bits_of(o.ratio)), code_address, code_at, len(code), data_address, data_at, len(data)]
    return [*fields, tape_at, len(c.tape)]


def sheet_of(c):
    """The fields, then code, data and tape."""
    code, data = c.code[1], c.data[1]
    data_at = FIELD_BYTES + len(code)
    fields = fields_for(c, FIELD_BYTES, data_at, data_at + len(data))
    return struct.pack(f"<{FIELDS}Q", *fields) + code + data + struct.pack(f"<{len(c.tape)}Q", *c.tape)


def with_fields(sheet, given):
    """The sheet with these values in these fields."""
    fields = list(struct.unpack(f"<{FIELDS}Q", sheet[:FIELD_BYTES]))
    for at, value in given.items():
        fields[at] = value
    return struct.pack(f"<{FIELDS}Q", *fields) + sheet[FIELD_BYTES:]
