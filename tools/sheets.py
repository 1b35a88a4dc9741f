"""Why a sheet is refused, in words, and how its instructions are written and encoded, for the tools that make and explain sheets.
What a sheet is, what refuses it and what the instructions are, tools/model.py says."""
import model
from model import ECALL, ENTRY_LOG, ENTRY_MEMORY, ENTRY_STATES, FIELD_BYTES, FORMATS, IMMEDIATES, MOST_SHEET_BYTES, TABLE
from model import MEAN_PAST, PART_PAST, SHEET_LENGTH


def refusal(sheet, host=False):
    """The number by which the bench program, or a host, refuses a sheet and what is wrong with it, or None."""
    number, asked = model.read_sheet(sheet, not host)
    if not number:
        number, _ = model.search_of(asked)
        return (number, wrong_search(number, asked)) if number else None
    return number, wrong_sheet(number, sheet, host)


def wrong_sheet(number, sheet, host):
    """What is wrong with a sheet that asks for no search."""
    if number == SHEET_LENGTH:
        short = len(sheet) < FIELD_BYTES
        return f"{len(sheet)} bytes are " + (f"no header of {FIELD_BYTES}" if short else f"more than {MOST_SHEET_BYTES}")
    header = model.fields_of(sheet)
    if number == PART_PAST:
        name = model.parts_past(sheet, header)[0]
        return f"the {name} ends at byte {sum(model.parts_of(header)[name])} of a sheet of {len(sheet)}"
    if number == MEAN_PAST:
        return f"mean {header.mean}, which is neither 0 nor 1"
    name, most = model.values_past(header, not host)[0]
    return f"{name} {getattr(header, name)}, the most is {most}"


def wrong_search(number, asked):
    """What is wrong with the search that is asked for."""
    o = asked.options
    for name, segment in zip(("code", "data"), asked.segments):
        if model.segments_refused(o.memory, [segment]) == number:
            address, content = segment
            why = ", no multiple of 8" if number == 6 else f" at address {address}, memory {o.memory}"
            return f"{len(content)} bytes of {name}{why}"
    return {
        1: f"memory {o.memory}, which is no multiple of 1024 from 1024 to {ENTRY_MEMORY}",
        2: f"states {o.states}, not from 1 to {ENTRY_STATES}",
        3: f"ratio {o.ratio}, not from 0 to 1",
        4: f"log {o.log}, the most is {ENTRY_LOG}",
    }[number]


# ---- instructions: format, the bits that are fixed, operands as they are written. A target is written as an address.
WRITTEN = {
    "lui": "rd,imm",
    "jal": "rd,target",
    "jalr": "rd,imm(rs1)",
    "beq": "rs1,rs2,target",
    "ld": "rd,imm(rs1)",
    "sd": "rs2,imm(rs1)",
    "addi": "rd,rs1,imm",
    **dict.fromkeys(("add", "sub", "mul", "sltu", "divu", "remu"), "rd,rs1,rs2"),
}
PLACES = {"rd": 7, "rs1": 15, "rs2": 20}


def fixed_bits(name):
    opcode, funct3, funct7 = TABLE[name]
    return opcode | (funct3 or 0) << 12 | (funct7 or 0) << 25


INSTRUCTIONS = {name: (FORMATS[name], fixed_bits(name), written) for name, written in WRITTEN.items()} | {"ecall": ("", ECALL, "")}

NAMES = ("zero ra sp gp tp t0 t1 t2 s0 s1 a0 a1 a2 a3 a4 a5 a6 a7 "
         "s2 s3 s4 s5 s6 s7 s8 s9 s10 s11 t3 t4 t5 t6").split()

# The lowest of the 20 bits that are written for lui, in the immediate that it gives.
LUI_LOW = 12


def span(form):
    """The immediates that are written for a format: the least, the most, and the step between them."""
    width = max(low + count for low, count, _ in IMMEDIATES[form])
    if form == "U":
        return 0, 2**(width - LUI_LOW) - 1, 1
    step = 2**min(low for low, _, _ in IMMEDIATES[form])
    return -2**(width - 1), 2**(width - 1) - step, step


def encode(name, operands):
    """The word of an instruction; its operands are numbers by the names rd, rs1, rs2 and imm."""
    form, word, _ = INSTRUCTIONS[name]
    for operand, place in PLACES.items():
        word |= operands.get(operand, 0) << place
    value = operands.get("imm", 0) << (LUI_LOW if form == "U" else 0)
    for low, count, place in IMMEDIATES.get(form, ()):
        word |= (value >> low & 2**count - 1) << place
    return word


def decode(word):
    """The name and the operands of an instruction word, or None where no instruction fits."""
    try:
        name, *registers, value = model.decode(word)
    except model.End:
        return None
    form, _, written = INSTRUCTIONS[name]
    operands = {operand: number for operand, number in zip(PLACES, registers) if operand in written}
    if IMMEDIATES.get(form):
        operands["imm"] = value >> LUI_LOW if form == "U" else value - 2**64 if value >> 63 else value
    return name, operands


# ---- the other instructions of RV64IM, by their GNU names: the bits that are fixed, and what to write instead

LOW_BITS, HALVES = "remu by 2^k keeps the low k bits", "ld of the whole word, then divu and remu by powers of two"
DISJOINT, SIGNED = "add, where no bit is set in both", "add 2^63 to both numbers, then sltu"
NO_SIGN = "where no number is negative"
INSTEAD = {
    "auipc": "li of a label",
    "bne": "beq over a j", "bltu": "sltu, then beq", "bgeu": "sltu, then beq", "blt": SIGNED + " and beq", "bge": SIGNED + " and beq",
    **dict.fromkeys(("lb", "lh", "lw", "lbu", "lhu", "lwu"), HALVES),
    **dict.fromkeys(("sb", "sh", "sw"), "sd of the whole word"),
    "slt": SIGNED, "slti": SIGNED, "sltiu": "li, then sltu",
    **dict.fromkeys(("and", "andi"), LOW_BITS),
    **dict.fromkeys(("or", "ori", "xor", "xori"), DISJOINT),
    **dict.fromkeys(("sll", "slli", "sllw", "slliw"), "mul by a power of two"),
    **dict.fromkeys(("srl", "srli", "srlw", "srliw"), "divu by a power of two"),
    **dict.fromkeys(("sra", "srai", "sraw", "sraiw"), "divu by a power of two, " + NO_SIGN),
    **dict.fromkeys(("div", "divw"), "divu, " + NO_SIGN), **dict.fromkeys(("rem", "remw"), "remu, " + NO_SIGN),
    **dict.fromkeys(("mulh", "mulhsu", "mulhu"), "nothing: mul has the low 64 bits alone"),
    **{name + "w": name + ", of 64 bits" for name in ("addi", "add", "sub", "mul", "divu", "remu")},
    **dict.fromkeys(("fence", "fence.i"), "nothing: an executor has its memory for itself"),
    "ebreak": "the call exit with a number above zero",
}
# By opcode: the names by funct3, - for those that have none.
BY_FUNCT3 = {
    0x03: "lb lh lw - lbu lhu lwu -", 0x0F: "fence fence.i - - - - - -", 0x13: "- - slti sltiu xori - ori andi",
    0x17: "auipc " * 8, 0x1B: "addiw - - - - - - -", 0x23: "sb sh sw - - - - -", 0x63: "- bne - - blt bge bltu bgeu",
}
# By opcode and funct7. The shifts of 64 bits have six bits for the number, the lowest of them in funct7.
BY_FUNCT7 = {
    (0x13, 0): "- slli - - - srli - -", (0x13, 1): "- slli - - - srli - -",
    (0x13, 0x20): "- - - - - srai - -", (0x13, 0x21): "- - - - - srai - -",
    (0x1B, 0): "- slliw - - - srliw - -", (0x1B, 0x20): "- - - - - sraiw - -",
    (0x33, 0): "- sll slt - xor srl or and", (0x33, 0x20): "- - - - - sra - -", (0x33, 1): "- mulh mulhsu mulhu div - rem -",
    (0x3B, 0): "addw sllw - - - srlw - -", (0x3B, 0x20): "subw - - - - sraw - -", (0x3B, 1): "mulw - - - divw divuw remw remuw",
}
EBREAK = 0x00100073


def other_name(word):
    """The GNU name of a word that is an instruction of RV64IM and none of the fourteen, or None."""
    opcode, funct3, funct7 = word & 0x7F, word >> 12 & 7, word >> 25
    for names in (BY_FUNCT3.get(opcode), BY_FUNCT7.get((opcode, funct7))):
        if names and names.split()[funct3] != "-":
            return names.split()[funct3]
    return "ebreak" if word == EBREAK else None
