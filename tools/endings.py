"""What ends a run, for the lists of label programs and of orders: instructions and calls that do not go on, by themselves and at the end of
programs that are long enough for several parts of a thousand instructions.
"""
from programs import LEAVE, telling, write

# --- what comes before an output is looked at ---

# Where the orders made by hand have their text, and a word that nothing was written to.
TEXT_AT, UNWRITTEN = 0x300, 0x240
TEXT = TEXT_AT, bytes(range(0x61, 0x61 + 32))

# a0, a1 and a2 of a write; None for what is uninitialised.
ARGUMENTS = {
    "descriptor-missing": (None, TEXT_AT, 8),
    "descriptor-of-a-read": (0, TEXT_AT, 8),
    "descriptor-2": (2, None, None),
    "buffer-missing": (1, None, 8),
    "buffer-and-size-missing": (1, None, None),
    "size-missing": (1, TEXT_AT, None),
    "size-missing-past-memory": (1, 0x400, None),
    "buffer-past-memory": (1, 0x400, 8),
    "buffer-far-past-memory": (1, -8, 8),
    "size-to-the-end": (1, TEXT_AT, 0x100),
    "size-past-memory": (1, TEXT_AT, 0x101),
    "size-all-ones": (1, TEXT_AT, -1),
    "word-unwritten": (1, UNWRITTEN, 8),
    "word-of-nothing-unwritten": (1, UNWRITTEN + 1, 0),
    "nothing-from-an-unwritten-word": (1, UNWRITTEN, 0),
    "last-word-unwritten": (1, TEXT_AT + 24, 9),
    "last-byte-unwritten": (1, TEXT_AT + 31, 2),
    "first-word-unwritten": (1, TEXT_AT - 1, 8),
}


def call_with(arguments):
    loads = [f"ld a{n}, {UNWRITTEN}(x0)" if value is None else f"li a{n}, {value}" for n, value in enumerate(arguments)]
    return ["li a7, WRITE", *loads, "ecall"]


# --- what ends a run ---

READING = ["li a7, READ", "li a0, 0", "li a1, 0x200", "li a2, 16", "ecall"]
MISSING = f"ld t4, {UNWRITTEN}(x0)"
ENDS = {
    "zero-divisor": ["remu t3, a2, x0"],
    "operand-missing": [MISSING, "add t3, t4, a2"],
    "unaligned": [f"ld t3, {TEXT_AT + 1}(x0)"],
    "load-past-memory": ["ld t3, 0x400(x0)"],
    "store-past-memory": ["sd t3, -8(x0)"],
    "exit-code": telling("a2"),
    "exit-code-missing": ["li a7, EXIT", f"ld a0, {UNWRITTEN}(x0)", "ecall"],
    "no-instruction": [".word 0"],
    "pc-past-memory": ["jalr x0, 0x400(x0)"],
    "pc-in-an-unwritten-word": [f"jalr x0, {UNWRITTEN}(x0)"],
    "tape-empty": READING,
    "base-of-ld-missing": [MISSING, "ld t3, 0(t4)"],
    "base-of-sd-missing": [MISSING, "sd t3, 0(t4)"],
    "base-of-jalr-missing": [MISSING, "jalr x0, 0(t4)"],
    "no-such-call": ["li a7, 999", "ecall"],
    "break-missing": ["li a7, BRK", f"ld a0, {UNWRITTEN}(x0)", "ecall"],
    "read-of-another-descriptor": ["li a7, READ", "li a0, 1", "ecall"],
    "read-buffer-missing": ["li a7, READ", "li a0, 0", f"ld a1, {UNWRITTEN}(x0)", "ecall"],
    "read-size-missing": ["li a7, READ", "li a0, 0", f"ld a2, {UNWRITTEN}(x0)", "ecall"],
    "read-past-memory": ["li a7, READ", "li a0, 0", "li a1, 0x400", "ecall"],
    "goes-on-for-ever": ["addi s1, x0, 1", "addi s1, s1, 1", "jal x0, .-4"],
}

# --- programs of some thousand instructions ---

KEYED = [0x1112131415161718, 0x2122232425262728, 2**64 - 1, 0x4142434445464748, 0, 0x6162636465666768]

# Turns for 1,200 instructions.
PAUSE = ["li t0, 400", "addi t0, t0, -1", "beq t0, x0, .+8", "jal x0, .-8"]


def reading(buffer, size):
    return ["li a7, READ", "li a0, 0", f"li a1, {buffer}", f"li a2, {size}", "ecall"]


# Two words are read and nine bytes written; then two words, the second for a tail, of which twelve bytes are written. What follows comes in
# the third part of a thousand instructions, and each of these in one before it.
FIRST_CALLS = [*reading(0x200, 16), *write(0x203, 9), *PAUSE]
SECOND_CALLS = ["sd x0, 0x228(x0)", *reading(0x220, 13), *write(0x221, 12), *PAUSE]
LONG = [*FIRST_CALLS, *SECOND_CALLS]
# Their words, how many bytes are written by the first and by both, and how many instructions any of the programs below may take.
LONG_WORDS, LONG_WRITES, LONG_STEP = 4, (9, 21), 5000

LONG_ENDS = {**ENDS, "clean": LEAVE}
LONG_ENDS |= {name: call_with(ARGUMENTS[name]) for name in ("descriptor-2", "buffer-missing", "size-missing", "word-unwritten")}
