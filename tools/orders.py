"""Orders drawn by a seed, as sheets of one state and one round: what the counter runner runs, and the search can be asked about.

Short and long, of the bench program's size and of hosts'. They are drawn in blocks, each by a seed of its own.
"""
import random
import struct
import tempfile

from cases import case, random_data, random_tape
from drawn import DAMAGES, MOST_STEPS, SHEETS_TO_ONE_ENDING, drawn_codes, ending_codes, is_short, label_case, laid
from large import LARGEST, large_texts
from model import FIELD_BYTES, HARMONIC, Header, Options, bits_of
from programs import PRINTED_AT, assemble_texts, padded, printing_texts, random_arithmetic, random_write

BLOCK = 250

SHORT_STEPS = [0, 1, 2, 5, 13, 20, 40, 60]
LONG_STEPS = [100, 300, 1000, 5000, MOST_STEPS]
PRINTED_BYTES = 64
MEMORIES = [1024, 1024, 1024, 2048, 4096, 65_536]


def order_options(rng, **given):
    memory = LARGEST if rng.randrange(200) == 0 else rng.choice(MEMORIES)
    options = Options(1, rng.choice(SHORT_STEPS + LONG_STEPS), 1, 1, 0.0, HARMONIC, memory, rng.choice([0, 1, 3, 16, 64, 512, 1024]))
    return options._replace(**given)


def order_tape(rng, options):
    """Of any length, or long enough: a key takes about twenty instructions, and some blocks read more."""
    length = options.step // 4 + 2
    return [rng.getrandbits(rng.choice([3, 8, 64])) for _ in range(length)] if rng.randrange(2) else random_tape(rng)


def turning_texts(rng):
    """Writes for ever."""
    texts = [text for _ in range(rng.randrange(1, 5)) for text in rng.choice([random_write, random_write, random_arithmetic])(rng)]
    return [*texts, f"jal x0, .-{4 * len(texts)}"]


def long_order(rng):
    """Options, program and data of an order that reads keys, of one that prints, or of one that prints for ever."""
    options, kind = order_options(rng), rng.randrange(4)
    if kind < 2:
        return options, large_texts(rng, options.memory), random_data(rng)
    texts = printing_texts(rng) if kind == 2 else turning_texts(rng)
    return options._replace(step=rng.choice(LONG_STEPS)), texts, (PRINTED_AT, rng.randbytes(PRINTED_BYTES))


def order_cases(rng, folder, count):
    ending = count // SHEETS_TO_ONE_ENDING
    for code in drawn_codes(rng, folder, count // 2 - ending) + ending_codes(rng, folder, ending):
        options = order_options(rng)
        yield case("short", options, code, random_data(rng), order_tape(rng, options))
    long_orders = [long_order(rng) for _ in range(count - count // 2 - count // 10)]
    codes = assemble_texts(folder, [texts for _, texts, _ in long_orders])
    for (options, _, data), code in zip(long_orders, codes):
        yield case("long", options, (rng.choice([0, 0, 0x40]), padded(code)), data, order_tape(rng, options))
    for _ in range(count // 10):
        c = label_case(rng)
        yield c._replace(options=order_options(rng, step=c.options.step))


ONE_STATE = dict(states=1, selection=1, rounds=1, ratio=bits_of(0.0))


def as_order(sheet):
    """The sheet with one state, of which one is kept after one round; the counter does not look at these fields."""
    if len(sheet) < FIELD_BYTES:
        return sheet
    fields = Header(*struct.unpack_from(f"<{len(Header._fields)}Q", sheet))._replace(**ONE_STATE)
    return struct.pack(f"<{len(fields)}Q", *fields) + sheet[FIELD_BYTES:]


def order_block(seed, block, count=BLOCK):
    """The sheets of one block of a seed: a third of them are damaged, and a few are random."""
    rng = random.Random(f"orders {seed} {block}")
    with tempfile.TemporaryDirectory() as folder:
        cases = list(order_cases(rng, folder, count))
    for c in cases:
        sheet = as_order(laid(rng, c))
        if rng.randrange(3) == 0:
            damaged = as_order(rng.choice(DAMAGES)(rng, sheet))
            sheet = damaged if is_short(damaged, bench=False) else sheet
        if is_short(sheet, bench=False):
            yield sheet
