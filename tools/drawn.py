"""Sheets drawn by a seed: searches of all kinds, laid out in many ways, with corners in every field, damaged, and random.

They are drawn in blocks, each by a seed of its own, so that workers can draw them side by side. No drawn sheet has a long
search: what may take long is put to the model first, with bounds.
"""
import random
import struct
import tempfile

from cases import RATIOS, case, fields_for, key_texts, random_data, random_options, random_tape
from model import ARITHMETIC, FIELD_BYTES, FIELDS, HARMONIC, LIMIT_REACHED, MASK, MOST_LOG, MOST_SHEET_BYTES, MOST_STATES
from model import Executor, Options, Search, bits_of, read_sheet, search_of
from programs import LEAVE, assemble_texts, call_near_sp, label_programs, padded, random_access, random_arithmetic, random_texts, random_word, telling, varied_texts

BLOCK = 500

# --- searches ---


def bench_options(rng):
    """Options within the bench program's limits, most of them."""
    o = random_options(rng)
    states = min(o.states, MOST_STATES)
    log = rng.choice([o.log, o.log, 32, 63, MOST_LOG])
    return o._replace(states=states, selection=min(o.selection, 2**32 - 1), memory=1024, log=log)


# Blocks that print what an executor has counted, stored and read.
TELLING = [telling("s1"), telling("s2"), telling("a0"), ["ld a0, 0x208(x0)", *telling("a0")], ["addi t3, s1, 1", "mul t3, t3, s0", *telling("t3")]]


def deep_options(rng):
    """Many rounds of about one key each, in which some of the states are kept."""
    ratio = rng.choice(RATIOS) if rng.randrange(3) else rng.random()
    mean = rng.choice([ARITHMETIC, HARMONIC])
    return Options(rng.randrange(5, 9), rng.randrange(17, 24), rng.randrange(2, 6), rng.randrange(4, 13), ratio, mean, 1024, MOST_LOG)


def deep_cases(rng, folder, count):
    """Programs that read keys and seldom tell, so that what was kept and copied decides what is told."""
    texts = [key_texts(rng, rng.choice([0.1, 0.2]), TELLING * 6) for _ in range(count)]
    for code in assemble_texts(folder, texts):
        tape = [rng.getrandbits(rng.choice([3, 3, 8])) for _ in range(rng.choice([150, 250]))]
        yield case("deep", deep_options(rng), (0, padded(code)), tape=tape)


def random_code(rng):
    """Words of the fourteen opcodes, and of none."""
    opcodes = [0x37, 0x6F, 0x67, 0x63, 0x13, 0x13, 0x03, 0x23, 0x33, 0x33, 0x33]
    words = [rng.getrandbits(32) & ~0x7F | rng.choice(opcodes) for _ in range(rng.randrange(2, 13))]
    # most funct3 and funct7 are those of the table
    words = [word & ~0xFE007000 | rng.choice([0, 0, 0x3000, 0x02005000, 0x40000000]) if rng.randrange(4) else word for word in words]
    return b"".join(rng.choice([word, word, word, word, 0x73, rng.getrandbits(32)]).to_bytes(4, "little") for word in words)


def drawn_codes(rng, folder, count):
    """Address and code of each of so many programs."""
    kinds = rng.choices(["keys", "mixed", "varied", "words"], [8, 3, 6, 1], k=count)
    addresses = [rng.choice([0, 0, 0x40, 0x44] if kind == "keys" else [0x40, 0x40, 0x44, 0, 8, 0x3C]) for kind in kinds]
    makers = {
        "keys": lambda address: key_texts(rng, rng.choice([0, 0.1, 0.2, 0.4]), TELLING * 6),
        "mixed": lambda address: random_texts(rng),
        "varied": lambda address: varied_texts(rng, address),
    }
    texts = [makers[kind](address) if kind in makers else [] for kind, address in zip(kinds, addresses)]
    codes = assemble_texts(folder, texts)
    return [(address, padded(code or random_code(rng))) for address, code in zip(addresses, codes)]


# Sizes of buffers, and where they end, counted from the stack pointer: memory ends eight bytes behind it.
SIZES, ENDS = [0, 1, 3, 7, 8, 9, 16, 21], [8, 8, 8, 8, 0, 7, 9, 15, 16]


def ending_texts(rng):
    """Reads and writes whose buffers end around memory's end, with something between; most tell what was left there or in a register."""
    texts = [f"sd x0, {-8 * n}(sp)" for n in range(1, rng.randrange(1, 4))]
    for _ in range(rng.randrange(1, 4)):
        size = rng.choice(SIZES)
        texts += call_near_sp(rng.choice(["READ", "READ", "WRITE"]), rng.choice(ENDS) - size, size)
        texts += rng.choice([random_access, random_arithmetic])(rng)
    return texts + rng.choice([["ld a0, 0(sp)", *telling("a0")], telling("a0"), telling("s0"), LEAVE])


def ending_codes(rng, folder, count):
    """Address and code of each of so many such programs."""
    codes = assemble_texts(folder, [ending_texts(rng) for _ in range(count)])
    return [(rng.choice([0, 0x40, 0x44]), padded(code)) for code in codes]


class Labels:
    """The label programs, assembled once."""

    known = None

    @classmethod
    def programs(cls):
        if cls.known is None:
            with tempfile.TemporaryDirectory() as folder:
                cls.known = list(label_programs(folder))
        return cls.known


def label_case(rng):
    _, code, data, cases = rng.choice(Labels.programs())
    given = rng.choice(cases)
    options = bench_options(rng)
    options = options._replace(step=rng.choice([*given["runs"], options.step]))
    tape = [word for _ in range(8) for word in rng.choice(cases).get("tape", [])]
    segments = (given.get("code", [0])[0], code), (given.get("data", [0x300])[0], data)
    return case("label", options, *segments, tape[: rng.choice([20, 60, 100])])


def drawn_cases(rng, folder, count):
    labels, deep = count // 10, count // 6
    for code in drawn_codes(rng, folder, count - labels - deep):
        yield case("drawn", bench_options(rng), code, random_data(rng), random_tape(rng))
    yield from deep_cases(rng, folder, deep)
    for _ in range(labels):
        yield label_case(rng)


# --- layouts ---


def plain(rng, c):
    data_at = FIELD_BYTES + len(c.code[1])
    return [FIELD_BYTES, data_at, data_at + len(c.data[1])]


def shuffled(rng, c):
    """The parts in any order with gaps between them."""
    lengths = [len(c.code[1]), len(c.data[1]), 8 * len(c.tape)]
    offsets, at = [0, 0, 0], FIELD_BYTES
    for part in rng.sample(range(3), 3):
        at += rng.choice([0, 0, 0, 1, 3, 8, rng.randrange(40)])
        offsets[part] = at
        at += lengths[part]
    return offsets


def overlapping(rng, c):
    """Any two parts may share bytes, also with the fields."""
    return [rng.randrange(FIELD_BYTES + 64) if rng.randrange(3) else at for at in plain(rng, c)]


def laid(rng, c):
    """A sheet of this search; where parts overlap the later one is whole."""
    offsets = rng.choice([plain, plain, plain, shuffled, shuffled, overlapping])(rng, c)
    parts = [c.code[1], c.data[1], struct.pack(f"<{len(c.tape)}Q", *c.tape)]
    end = max(at + len(part) for at, part in zip(offsets, parts))
    sheet = bytearray(rng.randbytes(max(end, FIELD_BYTES)))
    for at, part in zip(offsets, parts):
        sheet[at : at + len(part)] = part
    sheet[:FIELD_BYTES] = struct.pack(f"<{FIELDS}Q", *fields_for(c, *offsets))
    return bytes(sheet) + (rng.randbytes(rng.randrange(20)) if rng.randrange(4) == 0 else b"")


# --- corners ---

COUNTS = [0, 1, 2, 2**32 - 1, 2**32, 2**32 + 1, 2**63, MASK - 1, MASK]
NAN, INFINITY = 0x7FF8 << 48, 0x7FF0 << 48
SIGN = 2**63
CORNERS = [
    [0, 1, 7, 8, 9, 4096, 4097, 2**32 + 1, SIGN, MASK - 1, MASK],
    COUNTS,
    COUNTS,
    COUNTS,
    [SIGN, SIGN + 1, NAN, NAN + SIGN, INFINITY + 1, INFINITY, INFINITY + SIGN, bits_of(1.0) + 1, MASK - 1, MASK]
    + [bits_of(ratio) for ratio in [*RATIOS, 2.0, -1.0, -0.5]],
    [0, 1, 2, 3, 256, 2**32, SIGN, MASK - 1, MASK],
    [0, 1, 512, 1023, 1024, 1025, 2048, 2**20, 2**20 + 1024, 2**32 + 1024, SIGN, MASK - 1023, MASK],
    [0, 1, 63, 64, 65, 65_536, 65_537, 2**32, MASK - 1, MASK],
]
CODE, CODE_AT, DATA, DATA_AT, TAPE_AT, TAPE_WORDS = 8, 9, 11, 12, 14, 15
ADDRESSES = [0, 1, 4, 7, 8, 0x3F0, 0x3F7, 0x3F8, 0x3F9, 0x3FF, 0x400, 0x401, 2**32, SIGN, MASK - 7, MASK]


def near_end(sheet, fields, at):
    """Offsets or lengths that reach the end, and wrap at 2^64, with the length or offset that the sheet has."""
    if at == TAPE_WORDS:
        room, wrap = (len(sheet) - fields[TAPE_AT]) // 8, (2**64 - fields[TAPE_AT]) // 8
        corners = [room, room + 1, 2**61 - 1, 2**61, 2**61 + 1, wrap, 2**60, SIGN, MASK]
    else:
        taken = 8 * fields[TAPE_WORDS] if at == TAPE_AT else fields[at + 1] if at in (CODE_AT, DATA_AT) else fields[at - 1]
        room = len(sheet) - taken
        corners = [0, 1, 7, 8, 9, 127, 128, len(sheet), len(sheet) + 1, room - 8, room - 1, room, room + 1, room + 8]
        corners += [2**64 - taken, 2**64 - taken + 1, 2**64 - len(sheet), SIGN, MASK - 7, MASK]
    return [corner & MASK for corner in corners]


def cornered(rng, sheet):
    """One field, or a few, at a corner."""
    fields = list(struct.unpack(f"<{FIELDS}Q", sheet[:FIELD_BYTES]))
    for at in rng.sample(range(FIELDS), rng.choice([1, 1, 1, 2, 3])):
        if at < len(CORNERS):
            fields[at] = rng.choice(CORNERS[at])
        else:
            fields[at] = rng.choice(ADDRESSES if at in (CODE, DATA) else near_end(sheet, fields, at))
    return struct.pack(f"<{FIELDS}Q", *fields) + sheet[FIELD_BYTES:]


def flipped(rng, sheet):
    """One bit of the fields or of the rest is another; of a field most often one of the low bits."""
    at = rng.randrange(FIELD_BYTES) if rng.randrange(2) else rng.randrange(len(sheet))
    if at < FIELD_BYTES and rng.randrange(3):
        at -= at % 8
    return sheet[:at] + bytes([sheet[at] ^ 1 << rng.randrange(8)]) + sheet[at + 1 :]


def cut(rng, sheet):
    return sheet[: rng.choice([0, 1, 127, 128, 129, len(sheet) - 1, len(sheet) - 8, rng.randrange(len(sheet))])]


def lengthened(rng, sheet):
    """Up to the most bytes, and past them."""
    around = [MOST_SHEET_BYTES + more for more in (-1, 0, 1, 8192)]
    length = rng.choice([len(sheet) + 1, len(sheet) + 8, 4096, *around])
    longer = sheet + rng.randbytes(max(0, length - len(sheet)))
    return cornered(rng, longer) if rng.randrange(3) == 0 else longer


def random_sheet(rng, _):
    """Fields of any width, each at a corner now and then; offsets and lengths are small."""
    fields = [random_word(rng) if rng.randrange(3) else rng.randrange(300) for _ in range(FIELDS)]
    sheet = struct.pack(f"<{FIELDS}Q", *fields) + rng.randbytes(rng.choice([0, 8, 64, 200, 400]))
    for _ in range(3):
        sheet = cornered(rng, sheet)
    return sheet


DAMAGES = [cornered, cornered, cornered, flipped, flipped, cut, lengthened, random_sheet]

# --- long searches ---

MOST_STEPS, MOST_RUNS = 20_000, 200


class TooLong(Exception):
    pass


class Bounded(Search):
    """A search that gives up where it takes long."""

    runs = 0

    def run(self, row):
        self.runs += 1
        step = self.options.step
        answer = Executor(*row, self.options.memory, self.options.log, self.tape[self.used :]).run(min(step, MOST_STEPS))
        if self.runs > MOST_RUNS or step > MOST_STEPS and answer.number == LIMIT_REACHED:
            raise TooLong
        self.used += answer.used
        return answer


def is_short(sheet, bench=True):
    """Whether a sheet's search ends soon; the bench program's limits can be left out."""
    number, asked = read_sheet(sheet, bench)
    number = number or search_of(asked)[0]
    if number:
        return True
    o = asked.options
    if o.states * o.rounds <= MOST_RUNS and o.states * o.rounds * o.step <= MOST_STEPS:
        return True
    try:
        Bounded(*asked).search()
    except TooLong:
        return False
    return True


def drawn_block(seed, block, count=BLOCK):
    """The sheets of one block of a seed: a third of them are damaged, and a few are random."""
    rng = random.Random(f"{seed} {block}")
    with tempfile.TemporaryDirectory() as folder:
        cases = list(drawn_cases(rng, folder, count))
    for c in cases:
        sheet = laid(rng, c)
        if rng.randrange(3) == 0:
            damaged = rng.choice(DAMAGES)(rng, sheet)
            sheet = damaged if is_short(damaged) else sheet
        if is_short(sheet):
            yield sheet


# Of the sheets that are compared, one in so many has buffers around memory's end. Lists are drawn without these.
SHEETS_TO_ONE_ENDING = 50


def compared_block(seed, block, count=BLOCK):
    """As many sheets as a block has."""
    rng, ending = random.Random(f"ending {seed} {block}"), count // SHEETS_TO_ONE_ENDING
    yield from drawn_block(seed, block, count - ending)
    with tempfile.TemporaryDirectory() as folder:
        for code in ending_codes(rng, folder, ending):
            yield laid(rng, case("ending", bench_options(rng), code, random_data(rng), random_tape(rng)))
