"""A model of the scope paper: one executor on its row, the entries over one row, scoring, whole searches, and sheets; and of
document 02's run at the counter, in one call or in several, of its calls that count in a lent table, of its buffers that may end with
memory and of its rows that tell in which round their line was begun.

A second reading of the paper that shares nothing with the Rattle code. The tools that make the lists in crates/*/data ask it
what each case must come to; mksheet and explain have from it what a sheet is, what refuses it, and the instructions.
"""
import collections
import fractions
import math
import struct

MASK = 2**64 - 1

# --- one executor ---

PC, BREAK, DEPTH, LIMIT, LOG_COUNT, BORN, HEADER = range(7)
REGISTERS = 32
X0, SP, T0, T1, A0, A1, A2, A7 = 0, 2, 5, 6, 10, 11, 12, 17

# Answers. Bugs are 41 to 45; refusals of entries over one row 1, 4, 5, 6, 7 and 9.
CLEAN, NOT_SUPPORTED, INVALID, LIMIT_REACHED, PC_OUTSIDE, TAPE_EMPTY, LOG_FULL = 0, 20, 21, 22, 23, 24, 25
ZERO_DIVISOR, UNINITIALISED, UNALIGNED, OUT_OF_RANGE, EXIT_CODE = 41, 42, 43, 44, 45
INVALID_ROW = 9
REFUSALS = (1, 4, 5, 6, 7, INVALID_ROW)
BUGS = range(ZERO_DIVISOR, EXIT_CODE + 1)
ERRORS = (NOT_SUPPORTED, INVALID, PC_OUTSIDE, TAPE_EMPTY, LOG_FULL)
# An error where a write has an output, at the counter alone.
OUTPUT_FULL = 71
OPERAND, WRITE_CALL = 1, 2

BRK, READ, WRITE, EXIT = 214, 63, 64, 93

Answer = collections.namedtuple("Answer", "number pc value used")
Decoded = collections.namedtuple("Decoded", "form rd rs1 rs2 imm")


class End(Exception):
    def __init__(self, number, value=0):
        super().__init__(number, value)
        self.number, self.value = number, value


def bits(word, high, low):
    return word >> low & (1 << high - low + 1) - 1


def signed(value, width):
    """The 64-bit word of a number of so many bits, extended by its sign."""
    return (value - (1 << width) if value >> width - 1 else value) & MASK


# opcode, funct3, funct7; None where the field is not looked at
TABLE = {
    "lui": (0x37, None, None),
    "jal": (0x6F, None, None),
    "jalr": (0x67, 0, None),
    "beq": (0x63, 0, None),
    "addi": (0x13, 0, None),
    "ld": (0x03, 3, None),
    "sd": (0x23, 3, None),
    "add": (0x33, 0, 0),
    "sub": (0x33, 0, 0x20),
    "mul": (0x33, 0, 1),
    "sltu": (0x33, 3, 0),
    "divu": (0x33, 5, 1),
    "remu": (0x33, 7, 1),
}
ECALL = 0x00000073
FORMATS = dict(zip(TABLE, "UJIBIISRRRRRR"))

# Where the manual puts an immediate, by format: lowest bit, count of bits, place in the word.
IMMEDIATES = {
    "U": ((12, 20, 12),),
    "J": ((1, 10, 21), (11, 1, 20), (12, 8, 12), (20, 1, 31)),
    "I": ((0, 12, 20),),
    "B": ((1, 4, 8), (5, 6, 25), (11, 1, 7), (12, 1, 31)),
    "S": ((0, 5, 7), (5, 7, 25)),
    "R": (),
}


def immediate(form, word):
    """The manual's immediates are extended by their sign; lui's 20 bits are extended by zeros."""
    pieces = IMMEDIATES[FORMATS[form]]
    value = sum(bits(word, place + count - 1, place) << low for low, count, place in pieces)
    return value if form == "lui" or not pieces else signed(value, max(low + count for low, count, _ in pieces))


def decode(word):
    if word == ECALL:
        return Decoded("ecall", 0, 0, 0, 0)
    for form, (opcode, funct3, funct7) in TABLE.items():
        fits = bits(word, 6, 0) == opcode
        fits = fits and funct3 in (None, bits(word, 14, 12)) and funct7 in (None, bits(word, 31, 25))
        if fits:
            return Decoded(form, bits(word, 11, 7), bits(word, 19, 15), bits(word, 24, 20), immediate(form, word))
    raise End(INVALID)


class Executor:
    """One executor on its row and on what is left of the tape. None is an uninitialised value."""

    def __init__(self, words, marks, memory, log, tape):
        self.words, self.marks, self.tape, self.used = words, marks, tape, 0
        self.size, self.log_size = memory // 8, log
        # whether a buffer ended exactly where memory ends, which the Rust refuses
        self.met_the_end = False

    def slot(self, n):
        return self.words[HEADER + n] if self.marks[n] else None

    def set_slot(self, n, value):
        self.words[HEADER + n], self.marks[n] = (0, 0) if value is None else (value, 1)

    def register(self, n):
        return self.slot(n)

    def set_register(self, n, value):
        if n != X0:
            self.set_slot(n, value)

    def word(self, m):
        return self.slot(REGISTERS + m)

    def set_word(self, m, value):
        self.set_slot(REGISTERS + m, value)

    def run(self, step):
        self.words[LIMIT] += step
        while self.words[DEPTH] < self.words[LIMIT]:
            self.words[DEPTH] += 1
            pc = self.words[PC]
            try:
                self.execute(self.decoded(pc), pc)
            except End as end:
                return Answer(end.number, 0 if end.number == CLEAN else pc, end.value, self.used)
        return Answer(LIMIT_REACHED, self.words[PC], 0, self.used)

    def decoded(self, pc):
        return decode(self.fetch(pc))

    def fetch(self, pc):
        if pc // 8 >= self.size:
            raise End(PC_OUTSIDE)
        word = self.word(pc // 8)
        if word is None:
            raise End(NOT_SUPPORTED, 1)
        return bits(word, 31, 0) if pc % 8 == 0 else bits(word, 63, 32)

    def execute(self, d, pc):
        following = (pc + 4) & MASK
        if d.form == "ecall":
            # any ecall moves pc, whatever comes of it
            self.words[PC] = following
            self.call()
        elif d.form == "jalr":
            base = self.base(d.rs1, 13)
            self.set_register(d.rd, following)
            self.words[PC] = (base + d.imm) & MASK
        elif d.form == "jal":
            self.set_register(d.rd, following)
            self.words[PC] = (pc + d.imm) & MASK
        elif d.form == "beq":
            a, b = self.operands(d.rs1, d.rs2)
            self.words[PC] = (pc + d.imm) & MASK if a == b else following
        else:
            self.move_or_compute(d)
            self.words[PC] = following

    def move_or_compute(self, d):
        if d.form == "ld":
            self.set_register(d.rd, self.word(self.address(self.base(d.rs1, 11), d.imm)))
        elif d.form == "sd":
            self.set_word(self.address(self.base(d.rs1, 12), d.imm), self.register(d.rs2))
        elif d.form == "lui":
            self.set_register(d.rd, d.imm)
        elif d.form == "addi":
            self.set_register(d.rd, (self.operands(d.rs1)[0] + d.imm) & MASK)
        else:
            self.set_register(d.rd, self.computed(d))

    def computed(self, d):
        divides = d.form in ("divu", "remu")
        if divides and self.register(d.rs2) == 0:
            raise End(ZERO_DIVISOR)
        a, b = self.operands(d.rs1, d.rs2)
        if divides:
            return a // b if d.form == "divu" else a % b
        return {"add": a + b, "sub": a - b, "mul": a * b, "sltu": int(a < b)}[d.form] & MASK

    def operands(self, *registers):
        values = [self.register(n) for n in registers]
        if None in values:
            raise End(UNINITIALISED, OPERAND)
        return values

    def base(self, n, reason):
        value = self.register(n)
        if value is None:
            raise End(NOT_SUPPORTED, reason)
        return value

    def address(self, base, imm):
        """The memory word of an address, which is aligned and inside."""
        address = (base + imm) & MASK
        if address % 8:
            raise End(UNALIGNED, address)
        if address // 8 >= self.size:
            raise End(OUT_OF_RANGE)
        return address // 8

    def call(self):
        called = {BRK: self.call_brk, READ: self.call_read, WRITE: self.call_write, EXIT: self.call_exit}
        number = self.register(A7)
        if number not in called:
            raise End(NOT_SUPPORTED, 10)
        called[number]()

    def call_brk(self):
        value = self.base(A0, 2)
        if value < self.words[BREAK] or value // 8 >= self.size:
            self.set_register(A0, self.words[BREAK])
        else:
            self.words[BREAK] = value

    def buffer(self, descriptor, reasons):
        """Buffer and size of a read or a write, tested."""
        if self.register(A0) != descriptor:
            raise End(NOT_SUPPORTED, reasons[0])
        buffer, size = self.base(A1, reasons[1]), self.base(A2, reasons[2])
        if buffer // 8 >= self.size or buffer + size > 8 * self.size:
            raise End(OUT_OF_RANGE)
        self.met_the_end |= buffer + size == 8 * self.size
        return buffer, size

    def call_read(self):
        buffer, size = self.buffer(0, (3, 4, 5))
        first, full, tail = buffer // 8, size // 8, size % 8
        for m in range(first, first + full):
            drawn = self.draw(8)
            self.set_word(m, drawn)
        old = self.word(first + full) if tail else None
        if old is not None:
            low = 2 ** (8 * tail)
            self.set_word(first + full, old - old % low + self.draw(tail))
        self.set_register(A0, size)

    def draw(self, count):
        """The low bytes of the next tape word, which are logged."""
        logged = self.words[LOG_COUNT]
        if logged >= self.log_size:
            raise End(LOG_FULL)
        if self.used >= len(self.tape):
            raise End(TAPE_EMPTY)
        drawn = self.tape[self.used] % 2 ** (8 * count)
        self.used += 1
        self.words[HEADER + REGISTERS + self.size + logged] = drawn
        self.words[LOG_COUNT] = logged + 1
        return drawn

    def call_write(self):
        buffer, size = self.buffer(1, (6, 7, 8))
        first, count = buffer // 8, (size + buffer % 8 + 7) // 8
        if any(self.word(m) is None for m in range(first, first + count)):
            raise End(UNINITIALISED, WRITE_CALL)
        self.put_out(buffer, size)
        self.set_register(A0, size)

    def put_out(self, buffer, size):
        """A write's bytes go nowhere."""

    def call_exit(self):
        value = self.base(A0, 9)
        raise End(EXIT_CODE, value) if value else End(CLEAN)


# --- what entries refuse, and new rows ---

# The most that they accept; memory in bytes, states and rows to score, words of a log.
ENTRY_MEMORY, ENTRY_STATES, ENTRY_LOG = 1_048_576, 4096, 65_536


def row_sizes(memory, log):
    """The words and marks of one row."""
    return HEADER + REGISTERS + memory // 8 + log, REGISTERS + memory // 8


def sizes_refused(memory, log, words, marks, rows=1, ratio=0.0):
    """Numbers 1 to 5; rows and ratio are those of entries that are told them."""
    if memory % 1024 or not 1024 <= memory <= ENTRY_MEMORY:
        return 1
    if not 1 <= rows <= ENTRY_STATES:
        return 2
    if not 0 <= ratio <= 1:
        return 3
    if log > ENTRY_LOG:
        return 4
    row_words, row_marks = row_sizes(memory, log)
    return 0 if (words, marks) == (rows * row_words, rows * row_marks) else 5


TABLE_REFUSED = 32


def table_length(memory):
    """The counters of a lent table, one for each byte value of each cell."""
    return 256 * (memory // 8 + 320)


def table_refused(memory, table):
    """Number 32; a call that is lent no table (None) has no such test."""
    return 0 if table in (None, table_length(memory)) else TABLE_REFUSED


def segments_refused(memory, segments):
    if any(len(content) % 8 for _, content in segments):
        return 6
    if any(content and address // 8 + len(content) // 8 > memory // 8 for address, content in segments):
        return 7
    return 0


def row_refused(words, marks, log):
    slots = words[HEADER : HEADER + len(marks)]
    bad = any(mark not in (0, 1) or mark == 0 and word != 0 for word, mark in zip(slots, marks))
    bad = bad or words[LOG_COUNT] > log or any(words[len(words) - log + words[LOG_COUNT] :])
    return INVALID_ROW if bad or (slots[0], marks[0]) != (0, 1) or words[LIMIT] > 2**63 else 0


def new_row(memory, log, segments, born=0):
    """Words and marks of a new executor, created in this round of a search, 0 outside one; code comes before data in the segments."""
    words, marks = ([0] * size for size in row_sizes(memory, log))
    made = Executor(words, marks, memory, log, [])
    made.set_slot(SP, memory - 8)
    made.set_slot(X0, 0)
    made.set_word((memory - 8) // 8, 0)
    for address, content in segments:
        for at in range(0, len(content), 8):
            made.set_word(address // 8 + at // 8, int.from_bytes(content[at : at + 8], "little"))
    (code, _), (data, content) = segments
    words[PC], words[BREAK], words[BORN] = code, data + len(content), born
    return words, marks


def run_entry(words, marks, memory, log, step, tape):
    """The answer of a run of a lent row; words and marks are changed to what is left of them."""
    number = sizes_refused(memory, log, len(words), len(marks)) or row_refused(words, marks, log)
    return Answer(number, 0, 0, 0) if number else Executor(words, marks, memory, log, tape).run(step)


# --- a run at the counter ---

Printed = collections.namedtuple("Printed", "number pc value used written")


class Printer(Executor):
    """An executor whose writes go to an output: from the buffer's exact byte on, and whole or not at all."""

    def __init__(self, words, marks, memory, log, tape, output):
        super().__init__(words, marks, memory, log, tape)
        self.output, self.written = output, 0

    def put_out(self, buffer, size):
        if size > len(self.output) - self.written:
            raise End(OUTPUT_FULL)
        for address in range(buffer, buffer + size):
            self.output[self.written] = self.word(address // 8).to_bytes(8, "little")[address % 8]
            self.written += 1


def run_program(words, marks, memory, log, step, segments, tape, output):
    """The answer to an order; words, marks and output are changed to what is left of them."""
    number = sizes_refused(memory, log, len(words), len(marks)) or segments_refused(memory, segments)
    if number:
        return Printed(number, 0, 0, 0, 0)
    words[:], marks[:] = new_row(memory, log, segments)
    return served(words, marks, memory, log, step, tape, output)


def go_on(words, marks, memory, log, step, tape, output):
    """The answer of a call that goes on with a lent row, on what is left of the order and in what is left of the output."""
    number = sizes_refused(memory, log, len(words), len(marks)) or row_refused(words, marks, log)
    return Printed(number, 0, 0, 0, 0) if number else served(words, marks, memory, log, step, tape, output)


def served(words, marks, memory, log, step, tape, output):
    printer = Printer(words, marks, memory, log, tape, output)
    return Printed(*printer.run(step), printer.written)


# --- scoring ---

ARITHMETIC, HARMONIC = range(2)


def cells(words, marks):
    """The cell and the value of each byte of the concrete words of a row: pc, registers, memory, lowest byte first."""
    places = [(0, words[PC])]
    for n, mark in enumerate(marks):
        if mark:
            places.append((8 + n if n < REGISTERS else 264 + n - REGISTERS, words[HEADER + n]))
    return [(first + 8 * b, bits(word, 8 * b + 7, 8 * b)) for first, word in places for b in range(8)]


def counters_of(rows):
    """How often each cell has each byte value over all these rows."""
    return collections.Counter(cell for row in rows for cell in cells(*row))


def mean_of(counters, mean):
    """One rounding an operation; Python's own sum of floats would round otherwise."""
    if mean == ARITHMETIC:
        return float(sum(counters)) / float(len(counters))
    total = 0.0
    for counter in counters:
        total += 1.0 / float(counter)
    return float(len(counters)) / total


def scores_of(rows, mean):
    """Number 31 is not met: counters are at least 1, so that each score is a number."""
    counters = counters_of(rows)
    return [mean_of([counters[cell] for cell in cells(*row)], mean) for row in rows]


def rows_of(words, marks, memory, log):
    row_words, row_marks = row_sizes(memory, log)
    count = len(marks) // row_marks
    return [(words[r * row_words :][:row_words], marks[r * row_marks :][:row_marks]) for r in range(count)]


def increments_of(rows):
    """How often counting these rows adds one to a counter."""
    return sum(counters_of(rows).values())


def score_entry(words, marks, memory, log, count, mean, lent_scores, table=None):
    """The number, and the scores if it is 0; to the call by table so many counters are lent."""
    number = sizes_refused(memory, log, len(words), len(marks), count)
    number = number or (5 if lent_scores != count else 0) or table_refused(memory, table)
    if number:
        return number, []
    rows = rows_of(words, marks, memory, log)
    if any(row_refused(*row, log) for row in rows):
        return 9, []
    return 0, scores_of(rows, mean)


# --- searches ---

TAPE_SHORT = 8
OPTION_FIELDS = "states step selection rounds ratio mean memory log"
Options = collections.namedtuple("Options", OPTION_FIELDS)
Found = collections.namedtuple("Found", "number row pc value used")


def rounded(x):
    """The nearest whole number, halves up, from the float's exact fraction."""
    return math.floor(fractions.Fraction(x) + fractions.Fraction(1, 2))


def rarest(rows, mean, selection):
    """The rows with the lowest scores in rising order, equals in row order; Python's sort is stable."""
    scores = scores_of(rows, mean)
    order = sorted(range(len(rows)), key=lambda r: scores[r])
    return [rows[r] for r in order[:selection]]


class Search:
    """The rows of an accepted call that are not zero, and how far the tape is taken."""

    def __init__(self, options, segments, tape):
        self.options, self.segments, self.tape = options, segments, tape
        self.rows, self.used = [], 0
        # of the last round
        self.answers = []
        # whether a buffer of any row of any round ended exactly where memory ends
        self.met_the_end = False

    def found(self, number, row=0, pc=0, value=0):
        return Found(number, row, pc, value, self.used)

    def search(self):
        for current in range(self.options.rounds):
            if not self.fill(current):
                return self.found(TAPE_SHORT)
            self.answers = [self.run(row) for row in self.rows]
            ended = first_bug_or_error(self.answers)
            if ended is not None:
                number, pc, value, _ = self.answers[ended]
                return self.found(number, ended, pc, value)
            running = [row for row, answer in zip(self.rows, self.answers) if answer.number == LIMIT_REACHED]
            self.rows = rarest(running, self.options.mean, self.options.selection)
        return self.found(0)

    def fill(self, current):
        """Copies of kept rows, then executors created anew in this round; nothing is done where the tape has too few words for the copies. A
        copy has all its parent's words, so also the round in which its line was begun."""
        o, kept = self.options, len(self.rows)
        missing = o.states - kept
        copies = rounded(float(missing) * o.ratio) if kept else 0
        if len(self.tape) - self.used < copies:
            return False
        for word in self.tape[self.used :][:copies]:
            words, marks = self.rows[word % kept]
            self.rows.append((list(words), list(marks)))
        self.used += copies
        self.rows += [new_row(o.memory, o.log, self.segments, current) for _ in range(missing - copies)]
        return True

    def run(self, row):
        executor = Executor(*row, self.options.memory, self.options.log, self.tape[self.used :])
        answer = executor.run(self.options.step)
        self.used += answer.used
        self.met_the_end |= executor.met_the_end
        return answer

    def told(self, found):
        """Of the row of a bug: the one round in which its line was begun, and the words that it has logged; an error tells neither."""
        if found.number not in BUGS:
            return [], []
        words, log = self.rows[found.row][0], self.options.log
        return [words[BORN]], words[len(words) - log :][: words[LOG_COUNT]]

    def store(self):
        """All words and all marks."""
        row_words, row_marks = row_sizes(self.options.memory, self.options.log)
        zero = [([0] * row_words, [0] * row_marks)] * (self.options.states - len(self.rows))
        rows = self.rows + zero
        return [word for words, _ in rows for word in words], [mark for _, marks in rows for mark in marks]


def first_bug_or_error(answers):
    """The row of the first bug, else of the first error; 22 is no error."""
    bugs = [row for row, answer in enumerate(answers) if answer.number in BUGS]
    errors = [row for row, answer in enumerate(answers) if answer.number in ERRORS]
    return (bugs + errors + [None])[0]


def search_refused(options, segments, words, marks, table=None):
    """The number; to the search by table so many counters are lent."""
    o = options
    number = sizes_refused(o.memory, o.log, words, marks, o.states, o.ratio) or table_refused(o.memory, table)
    return number or segments_refused(o.memory, segments)


def search_entry(words, marks, options, segments, tape):
    """The answer, and the words and marks that are left."""
    number = search_refused(options, segments, len(words), len(marks))
    if number:
        return Found(number, 0, 0, 0, 0), words, marks
    search = Search(options, segments, tape)
    found = search.search()
    return found, *search.store()


# --- sheets ---

PART_FIELDS = "code_address code_offset code_length data_address data_offset data_length tape_offset tape_words"
Header = collections.namedtuple("Header", f"{OPTION_FIELDS} {PART_FIELDS}")
FIELDS = len(Header._fields)
FIELD_BYTES = 8 * FIELDS
MOST_SHEET_BYTES, MOST_STATES, MOST_MEMORY, MOST_LOG = 61_440, 8, 1024, 64
SHEET_LENGTH, PART_PAST, MEAN_PAST, VALUE_PAST = 51, 52, 53, 54
MOST_COUNT = 2**32 - 1

Asked = collections.namedtuple("Asked", "options segments tape")


def bits_of(ratio):
    return struct.unpack("<Q", struct.pack("<d", ratio))[0]


def float_of(word):
    return struct.unpack("<d", struct.pack("<Q", word))[0]


# what all ones in the first fields stand for
DEFAULTS = dict(states=400, step=1000, selection=50, rounds=20, ratio=bits_of(0.6), mean=HARMONIC, memory=1_048_576)


def fields_of(sheet):
    """The sixteen fields, with defaults put in."""
    header = Header(*struct.unpack(f"<{FIELDS}Q", sheet[:FIELD_BYTES]))
    return header._replace(**{name: default for name, default in DEFAULTS.items() if getattr(header, name) == MASK})


def parts_of(header):
    """Where each part of a sheet stands: its offset and its bytes."""
    code, data = (header.code_offset, header.code_length), (header.data_offset, header.data_length)
    return {"code": code, "data": data, "tape": (header.tape_offset, 8 * header.tape_words)}


def parts_past(sheet, header):
    """The parts that reach past the sheet."""
    return [name for name, (offset, length) in parts_of(header).items() if offset + length > len(sheet)]


def values_past(header, bench):
    """The fields above what they may have, and the most of each."""
    most = dict.fromkeys(("step", "selection", "rounds"), MOST_COUNT)
    most |= dict(states=MOST_STATES, memory=MOST_MEMORY, log=MOST_LOG) if bench else {}
    return [(name, limit) for name, limit in most.items() if getattr(header, name) > limit]


def read_sheet(sheet, bench=True):
    """The number that refuses a sheet, else 0, and what the sheet asks for; the bench program's limits can be left out."""
    if len(sheet) < FIELD_BYTES or bench and len(sheet) > MOST_SHEET_BYTES:
        return SHEET_LENGTH, None
    header = fields_of(sheet)
    if parts_past(sheet, header):
        return PART_PAST, None
    if header.mean > HARMONIC:
        return MEAN_PAST, None
    if values_past(header, bench):
        return VALUE_PAST, None
    code, data, tape = (sheet[offset : offset + length] for offset, length in parts_of(header).values())
    options = Options(*header[: len(Options._fields)])._replace(ratio=float_of(header.ratio))
    segments = [(header.code_address, code), (header.data_address, data)]
    return 0, Asked(options, segments, list(struct.unpack(f"<{header.tape_words}Q", tape)))


def lines_of(found, born=(), inputs=()):
    """The printed lines of an answer, with what is told of a bug's row."""
    lines = ["answer {} row {} pc {} value {}".format(*found), *(f"born {current}" for current in born)]
    lines += [*(f"input {word}" for word in inputs), f"used {found.used}"]
    return "".join(line + "\n" for line in lines)


def search_of(asked):
    """The number that the search entry refuses with, else 0, and the search; the lent lengths are exact."""
    o = asked.options
    sizes = [o.states * size for size in row_sizes(o.memory, o.log)]
    number = search_refused(o, asked.segments, *sizes)
    return number, None if number else Search(*asked)


def fnv1a(content):
    h = 0xCBF29CE484222325
    for byte in content:
        h = (h ^ byte) * 0x100000001B3 & MASK
    return h


def words_digest(words):
    return f"{fnv1a(struct.pack(f'<{len(words)}Q', *words)):016x}"


def without_borns(words, rows):
    """The words of so many rows but for the round that each tells."""
    row_words = len(words) // rows
    return [word for at, word in enumerate(words) if at % row_words != BORN]


def store_lines(words, marks, rows):
    """Digests of what a call leaves, for hosts: of all words but the rounds that the rows tell, of the marks, and of these rounds."""
    borns = words[BORN :: len(words) // rows]
    lines = f"words {words_digest(without_borns(words, rows))}\nmarks {fnv1a(bytes(marks)):016x}\n"
    return lines + f"borns {words_digest(borns)}\n"


def printed(sheet, bench=True):
    """What the bench program prints for a sheet; without its limits, what a host prints, digests included."""
    number, asked = read_sheet(sheet, bench)
    search = None
    if not number:
        number, search = search_of(asked)
    if number:
        return lines_of(Found(number, 0, 0, 0, 0))
    found = search.search()
    return lines_of(found, *search.told(found)) + ("" if bench else store_lines(*search.store(), asked.options.states))


# The output that a host lends where it runs a sheet at the counter, and what stands in it before.
ORDER_OUTPUT, ORDER_BYTE = 1024, 0xEE


def order_lines(answer):
    return "answer {} pc {} value {}\nused {}\nwritten {}\n".format(*answer)


def printed_order(sheet):
    """What a host prints for a sheet's program, tape, step, memory and log at the counter: the answer, and digests of row and output."""
    number, asked = read_sheet(sheet, bench=False)
    if number:
        return order_lines(Printed(number, 0, 0, 0, 0))
    o, output = asked.options, bytearray([ORDER_BYTE]) * ORDER_OUTPUT
    # what is refused for its sizes needs no row
    sizes = row_sizes(o.memory, o.log) if o.memory <= ENTRY_MEMORY and o.log <= ENTRY_LOG else (0, 0)
    words, marks = ([0] * size for size in sizes)
    answer = run_program(words, marks, o.memory, o.log, o.step, asked.segments, asked.tape, output)
    if answer.number in REFUSALS:
        return order_lines(answer)
    return order_lines(answer) + store_lines(words, marks, rows=1) + f"output {fnv1a(output):016x}\n"
