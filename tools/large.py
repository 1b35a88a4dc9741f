"""Searches of a size that only hosts ask for, drawn by a seed: up to 400 states, most with 64 KiB and less, a few with 1 MiB. Some leave
the number of states to the default, and a few leave all that can be left: they are of the default size.

They are drawn in blocks, each by a seed of its own, so that workers can draw them side by side.
"""
import random
import struct
import tempfile

from cases import LOUD, QUIET, RATIOS, block_texts, case, random_data, sheet_of, with_fields
from drawn import SHEETS_TO_ONE_ENDING, drawn_cases, ending_texts
from model import ARITHMETIC, DEFAULTS, HARMONIC, MASK, Options
from programs import assemble_texts, padded, telling

BLOCK = 50

# Blocks for a key: a stack that grows, reads of many words; and, for memories that have room, stores that go on with every key.
LONG = [
    ["sd s1, 0(sp)", "addi s1, s1, 1"],
    ["addi sp, sp, -8", "sd s0, 0(sp)"],
    ["li a2, 64", "li a0, 0", "ecall"],
    ["li a1, 0x240", "li a2, 21", "li a0, 0", "ecall"],
]
FAR = [
    ["li t3, 8", "mul t3, t3, s1", "sd s0, 0x400(t3)", "addi s1, s1, 1"],
    ["li t3, 1016", "mul t3, t3, s1", "sd s1, 0x400(t3)", "addi s1, s1, 1"],
    ["lui t3, 15", "sd s0, 0(t3)"],
]
ROOM = 65_536

MEMORIES = [1024, 2048, 4096, 16_384, 65_536, 65_536]
LARGEST, MOST_OF_LARGEST = 1_048_576, 12

# What is refused by a host's search, one thing at a time.
REFUSED = [
    dict(states=0),
    dict(states=4097),
    dict(memory=65_000),
    dict(memory=2 * LARGEST),
    dict(log=65_537),
    dict(ratio=1.5),
    dict(ratio=float("nan")),
]


def large_options(rng):
    """One in six has up to some hundred states, and one in six as many as are the default."""
    few, more, many = (9, 33), (33, 129), (129, DEFAULTS["states"])
    states = rng.choice([*(rng.randrange(*span) for span in (few, few, more, more, many)), DEFAULTS["states"]])
    memory = rng.choice(MEMORIES)
    if rng.randrange(40) == 0:
        states, memory = rng.randrange(2, MOST_OF_LARGEST + 1), LARGEST
    ratio = rng.choice(RATIOS) if rng.randrange(3) == 0 else rng.random()
    selection = rng.choice([1, states // 10, states // 4, states // 2, states - 1, states, 2**32 - 1])
    # fewer rounds of many states
    rounds = rng.randrange(1, 7 if states < 129 else 4)
    step = rng.choice([19, 40, 60, 100, 200, 400])
    return Options(states, step, selection, rounds, ratio, rng.choice([ARITHMETIC, HARMONIC]), memory, rng.choice([64, 256, 512]))


def large_texts(rng, memory, loudness=(0, 0, 0.05, 0.1)):
    """A program that reads keys; half of them are never loud, so that their rounds go on."""
    loud = rng.choice(loudness)
    told = [telling("s1"), ["ld a0, 0x208(x0)", *telling("a0")]]
    quiet = [*QUIET, *LONG, *LONG, *(FAR * 4 if memory >= ROOM else [])]
    blocks = [rng.choice([*LOUD, *told] if rng.random() < loud else quiet) for _ in range(rng.randrange(3, 9))]
    return block_texts(blocks, 8 if rng.randrange(8) else rng.choice([3, 9, 16]))


def large_sheets(rng, folder, count):
    """Where a search has as many states as are the default, its sheet does not say so: field 0 is all ones."""
    drawn_options = [large_options(rng) for _ in range(count)]
    texts = [large_texts(rng, options.memory) if rng.randrange(SHEETS_TO_ONE_ENDING) else ending_texts(rng) for options in drawn_options]
    for options, code in zip(drawn_options, assemble_texts(folder, texts)):
        if rng.randrange(20) == 0:
            options = options._replace(**rng.choice(REFUSED))
        # a key takes about twenty instructions, and some blocks read more; one tape in ten is too short
        length = options.states * options.rounds * (options.step // 4 + 2) if options.states < 4097 else 0
        tape = [rng.getrandbits(rng.choice([3, 8, 64])) for _ in range(length if rng.randrange(10) else length // 20)]
        sheet = sheet_of(case("large", options, (0, padded(code)), random_data(rng), tape))
        yield with_fields(sheet, {0: MASK}) if options.states == DEFAULTS["states"] else sheet


# --- the default size ---

# One block of sheets in so many has a search of the default size, which takes some seconds.
BLOCKS_TO_A_DEFAULT, SECONDS = 10, 600
# More log words, and more tape words for each instruction, than the programs read.
LOG_OF_DEFAULT, INSTRUCTIONS_A_WORD = 10_000, 2


def default_sheet(rng, folder):
    """All ones in the fields that have a default; the program is never loud, so that most such searches have all their rounds."""
    code, = assemble_texts(folder, [large_texts(rng, LARGEST, loudness=[0])])
    instructions = DEFAULTS["states"] * DEFAULTS["rounds"] * DEFAULTS["step"]
    words = instructions // INSTRUCTIONS_A_WORD
    tape = struct.unpack(f"<{words}Q", rng.randbytes(8 * words))
    sheet = sheet_of(case("default", Options(**DEFAULTS, log=LOG_OF_DEFAULT), (0, padded(code)), random_data(rng), tape))
    return with_fields(sheet, {at: MASK for at, _ in enumerate(DEFAULTS)})


def large_block(seed, block, count=BLOCK):
    """The sheets of one block of a seed; one in five is of the bench program's size, and some blocks have one of the default size."""
    rng = random.Random(f"large {seed} {block}")
    of_default = (block + 1) % BLOCKS_TO_A_DEFAULT == 0
    with tempfile.TemporaryDirectory() as folder:
        yield from large_sheets(rng, folder, count - count // 5 - of_default)
        yield from map(sheet_of, drawn_cases(rng, folder, count // 5))
        if of_default:
            yield default_sheet(rng, folder)
