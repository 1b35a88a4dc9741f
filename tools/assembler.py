"""The assembler of tools/mksheet: RISC-U in text, as `tools/mksheet --help` describes it."""
import collections
import re

from commands import Mistake
from sheets import INSTEAD, INSTRUCTIONS, NAMES, encode, span

# What an instruction, a number or a piece of a text of the source came to: where, in how many bytes, its bits, and the line with
# its number.
Place = collections.namedtuple("Place", "address size word at line")

REGISTERS = {name: number for number, name in enumerate(NAMES)} | {f"x{number}": number for number in range(32)} | {"fp": 8}
SHORT = {
    "mv": ("rd,rs", "addi {},{},0"),
    "nop": ("", "addi x0,x0,0"),
    "j": ("target", "jal x0,{}"),
    "ret": ("", "jalr x0,0(ra)"),
    "beqz": ("rs,target", "beq {},x0,{}"),
}
DATA = {".word": 4, ".dword": 8}
TEXT = r'"(?:[^"\\]|\\.)*"'
ESCAPES = {r"\n": "\n", r"\\": "\\", r"\"": '"'}
DIGITS = r"(?:0[xX][0-9a-fA-F]{1,99}|[0-9]{1,99})"
NUMBER = "[-+]?" + DIGITS
NAME = r"[A-Za-z_.$][\w.$]*"


def literal(text):
    """A decimal number, also with zeros in front, or one that begins with 0x."""
    return int(text, 16 if "x" in text.lower() else 10)


def value_of(text, names):
    """A number, a name, or a name with a number added; None where the name is not known."""
    if re.fullmatch(NUMBER, text):
        return literal(text)
    found = re.fullmatch(rf"({NAME})(?:\s*([-+])\s*({DIGITS}))?", text)
    if not found:
        raise Mistake(f"'{text}' is neither a number nor a name")
    name, sign, added = found.groups()
    return names[name] + literal((sign or "") + (added or "0")) if name in names else None


def known(text, names):
    value = value_of(text, names)
    if value is None:
        raise Mistake(f"unknown label '{text}'")
    return value


def within(what, value, least, most, step=1):
    if not least <= value <= most:
        raise Mistake(f"{what} {value} is out of range: {least} to {most}")
    if value % step:
        raise Mistake(f"{what} {value} is no multiple of {step}")
    return value


def split(mnemonic, written, text):
    """The operands of a line, as many as are written for its mnemonic."""
    operands = [operand.strip() for operand in text.split(",")] if text else []
    wanted = written.split(",") if written else []
    if len(operands) != len(wanted) or "" in operands:
        raise Mistake(f"expected {mnemonic} {written}".rstrip())
    return operands


def load_immediate(rd, value):
    """li, with a lui that is extended by zeros."""
    if -2048 <= value < 2048:
        return [f"addi {rd},x0,{value}"]
    if value < 0:
        return load_immediate(rd, -value) + [f"sub {rd},x0,{rd}"]
    low = (value + 2048) % 4096 - 2048
    high = (value - low) >> 12
    # the top 2048 numbers lie just below 2^32, which is twice 2^31
    lines = [f"lui {rd},{high}"] if high < 2**20 else [f"lui {rd},{2**19}", f"add {rd},{rd},{rd}"]
    return lines + ([f"addi {rd},{rd},{low}"] if low else [])


def expand(mnemonic, text, names):
    """The instructions that a line stands for."""
    if mnemonic in INSTRUCTIONS:
        return [f"{mnemonic} {text}"]
    if mnemonic in SHORT:
        written, lines = SHORT[mnemonic]
        return [lines.format(*split(mnemonic, written, text))]
    if mnemonic == "li":
        rd, number = split("li", "rd,number", text)
        register(rd)
        value = value_of(number, names)
        if value is None:  # a label further down
            return [f"addi {rd},x0,{number}"]
        return load_immediate(rd, within("number", value, 1 - 2**32, 2**32 - 1))
    instead = f" (instead: {INSTEAD[mnemonic]})" if mnemonic in INSTEAD else ""
    there_are = f"{' '.join(INSTRUCTIONS)}, and for short li {' '.join(SHORT)}"
    raise Mistake(f"unknown instruction '{mnemonic}'{instead}; there are {there_are}")


def register(text):
    if text not in REGISTERS:
        raise Mistake(f"unknown register '{text}'")
    return REGISTERS[text]


def instruction(line, address, names):
    """The word of one of the fourteen instructions."""
    mnemonic, _, text = line.partition(" ")
    form, _, written = INSTRUCTIONS[mnemonic]
    operands = {}
    for name, operand in zip(written.split(","), split(mnemonic, written, text)):
        if name == "imm(rs1)":
            based = re.fullmatch(r"(.*?)\s*\(\s*(\w+)\s*\)", operand)
            if not based:
                raise Mistake(f"expected {mnemonic} {written}")
            operands["rs1"] = register(based[2])
            name, operand = "imm", based[1] or "0"
        if name == "imm":
            operands["imm"] = within("immediate", known(operand, names), *span(form))
        elif name == "target":
            operands["imm"] = within("distance to the target", known(operand, names) - address, *span(form))
        else:
            operands[name] = register(operand)
    return encode(mnemonic, operands)


def define(names, label, value):
    if label in names:
        raise Mistake(f"duplicate label '{label}'")
    if not re.fullmatch(NAME, label) or label == ".":
        raise Mistake(f"'{label}' is no name")
    names[label] = value


def unescaped(escape):
    if escape not in ESCAPES:
        raise Mistake(f"unknown escape '{escape}'; there are {' '.join(ESCAPES)}")
    return ESCAPES[escape]


def characters(text):
    """The bytes of .ascii: texts in quotes, with commas between them."""
    if not re.fullmatch(rf"{TEXT}(?:\s*,\s*{TEXT})*", text):
        raise Mistake('expected .ascii "text"')
    texts = [quoted[1:-1] for quoted in re.findall(TEXT, text)]
    return re.sub(r"\\.", lambda escape: unescaped(escape[0]), "".join(texts)).encode()


def pieces(content):
    """Bytes as pairs of size and bytes, a word at a time."""
    return [(len(piece), piece) for piece in (content[at:at + 8] for at in range(0, len(content), 8))]


def check_place(what, address, size):
    if address % size:
        raise Mistake(f"{what} at address {address}, no multiple of {size}: put .balign 8 before it")


def items_of(line, address, names):
    """What a line stands for, as pairs of size and what stands there; its labels and its .equ become names."""
    text = re.match(rf"(?:{TEXT}|[^#;])*", line)[0].strip()  # without its comment
    while ":" in text.partition('"')[0]:
        label, _, text = (piece.strip() for piece in text.partition(":"))
        define(names, label, address)
    mnemonic, *rest = text.split(None, 1) or [""]
    rest = "".join(rest)
    here = {**names, ".": address}
    if mnemonic == ".equ":
        constant, number = split(".equ", "NAME,NUMBER", rest)
        define(names, constant, known(number, here))
        return []
    if mnemonic == ".balign":
        if rest != "8":
            raise Mistake("expected .balign 8")
        nop = [(4, "addi x0,x0,0")] if -address % 8 >= 4 else []
        return pieces(bytes(-address % 4)) + nop
    if mnemonic == ".ascii":
        return pieces(characters(rest))
    if mnemonic in DATA:
        size = DATA[mnemonic]
        check_place(mnemonic, address, size)
        return [(size, (mnemonic, number.strip())) for number in rest.split(",")]
    instructions = expand(mnemonic, rest, here) if mnemonic else []
    if instructions:
        check_place(mnemonic, address, 4)
    return [(4, made) for made in instructions]


def word_of(made, size, address, names):
    """The bits of an instruction, of a piece of a text or of a number of the data."""
    if isinstance(made, bytes):
        return int.from_bytes(made, "little")
    here = {**names, ".": address}
    if isinstance(made, str):
        return instruction(made, address, here)
    mnemonic, number = made
    return within(mnemonic, known(number, here), -2**(8 * size - 1), 2**(8 * size) - 1) % 2**(8 * size)


def assemble(name, source, address):
    """The code of a source that is loaded at an address, and the places of its lines."""
    address = address // 8 * 8  # it is loaded from a whole word on
    names, items = {}, []
    lines = source.splitlines()
    at = 0
    try:
        # First where everything stands, then what it is: a label may stand further down.
        for at, line in enumerate(lines, 1):
            for size, made in items_of(line, address, names):
                items.append((at, address, size, made))
                address += size
        places = []
        for at, address, size, made in items:
            places.append(Place(address, size, word_of(made, size, address, names), at, lines[at - 1].strip()))
    except Mistake as mistake:
        raise Mistake(f"{name}:{at}: {mistake}") from None
    if not places:
        raise Mistake(f"{name}: no instruction")
    return b"".join(place.word.to_bytes(place.size, "little") for place in places), places
