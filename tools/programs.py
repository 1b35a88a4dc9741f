"""Programs for the lists, in RISC-V assembly: the label programs in labels.d, and random ones.

Needs Debian's binutils-riscv64-linux-gnu.
"""
import os
import shutil
import subprocess

from commands import need_to_run
from lists import need
from model import A0, A1, A2, BRK, EXIT, READ, SP, T0, T1, WRITE, X0

TOOLS = os.path.dirname(os.path.abspath(__file__))
PROGRAMS = os.path.join(TOOLS, "labels.d")

AS, LD, OBJCOPY = ("riscv64-linux-gnu-" + tool for tool in ("as", "ld", "objcopy"))
PACKAGE = "binutils-riscv64-linux-gnu"

# --- the GNU tools ---

SYMBOLS = {"BRK": BRK, "READ": READ, "WRITE": WRITE, "EXIT": EXIT}
SYMBOLS |= {key: n + 1 for n, key in enumerate(["PEANUT", "ALMOND", "MILK", "EGG", "SESAME", "SOY"])}


def need_tools():
    for tool in (AS, LD, OBJCOPY):
        need_to_run(shutil.which(tool), f"{tool} is missing: install Debian's package {PACKAGE}")


def run_tool(*command):
    done = subprocess.run(command, capture_output=True, text=True)
    need(done.returncode == 0, f"{command[0]} failed:\n{done.stderr}")


def assemble(folder, text):
    """The bytes of the sections .text and .data."""
    source, linked = os.path.join(folder, "program.s"), os.path.join(folder, "program")
    with open(source, "w") as out:
        out.write(".option norelax\n" + text)
    symbols = [f"--defsym={name}={value}" for name, value in SYMBOLS.items()]
    run_tool(AS, "-march=rv64im", *symbols, "-o", linked + ".o", source)
    run_tool(LD, "--no-relax", "-e", "0", "-Ttext=0", "-Tdata=0x100000", "-o", linked, linked + ".o")
    return [section(linked, name) for name in (".text", ".data")]


def section(linked, name):
    binary = linked + name
    run_tool(OBJCOPY, "-O", "binary", "-j", name, linked, binary)
    with open(binary, "rb") as made:
        return made.read()


def padded(content):
    return content + bytes(-len(content) % 8)


def assemble_texts(folder, sequences):
    """The code of each of many sequences, assembled together: each text is one instruction."""
    texts = [text for sequence in sequences for text in sequence]
    code, _ = assemble(folder, ".text\n" + "".join(text + "\n" for text in texts))
    need(len(code) == 4 * len(texts), "the assembler did not make one word of each text")
    at = 0
    for sequence in sequences:
        length = 4 * len(sequence)
        yield code[at : at + length]
        at += length


# --- label programs ---

DIRECTIVE = "#:"


def numbers_of(text):
    return [int(number, 0) for number in text.split(",")]


def options_of(line):
    """The options of a line `#:`, each a list of numbers."""
    given = dict(option.split("=") for option in line.removeprefix(DIRECTIVE).split())
    known = {"tape", "runs", "memory", "log", "code", "data", "output"}
    need(set(given) <= known, f"no such option in '{line}'")
    return {key: numbers_of(text) for key, text in given.items()}


def label_programs(folder, programs=PROGRAMS):
    """Name, code, data and the options of each of its cases, for each of these programs."""
    for file in sorted(os.listdir(programs)):
        with open(os.path.join(programs, file)) as source:
            text = source.read()
        code, data = (padded(content) for content in assemble(folder, text))
        lines = [line for line in text.splitlines() if line.startswith(DIRECTIVE)]
        yield file.removesuffix(".s"), code, data, [options_of(line) for line in lines]


# --- random programs ---

LEAVE = ["li a7, EXIT", "li a0, 0", "ecall"]
OPERATIONS = ["add", "sub", "mul", "sltu", "divu", "remu"]
POOL = [X0, SP, T0, T1, 8, 9, A0, A1, A2]
NEAR_END = [0x3D8, 0x3E0, 0x3E8, 0x3F0, 0x3F1, 0x3F7, 0x3F8, 0x3F9, 0x3FF, 0x400]
PLACES = NEAR_END + [0, 0x40, 0x48, 0x200, 0x205, 0x280, 0x288]
SIZES = [0, 1, 2, 3, 5, 7, 8, 9, 12, 15, 16, 17, 24, 25]


def call_near_sp(call, offset, size):
    """READ or WRITE of a buffer so many bytes behind the stack pointer, at which memory's last word stands at first."""
    return [f"li a7, {call}", f"li a0, {int(call == 'WRITE')}", f"addi a1, sp, {offset}", f"li a2, {size}", "ecall"]


def random_word(rng):
    """Of a random width, so that small numbers are met too."""
    return rng.getrandbits(rng.randrange(1, 65))


def random_call(rng):
    """One of the four calls with arguments near memory's end; now and then an argument is left as it is."""
    number = rng.choice([BRK, READ, READ, READ, WRITE, WRITE, EXIT, 1])
    usual = {READ: 0, WRITE: 1}.get(number, rng.choice(PLACES))
    texts = [
        f"li a7, {number}",
        f"li a0, {rng.choice([usual] * 9 + [rng.choice(PLACES)])}",
        f"li a1, {rng.choice(PLACES)}",
        f"li a2, {rng.choice(SIZES)}",
    ]
    return [text for text in texts if rng.randrange(12)] + ["ecall"]


def random_access(rng):
    base, offset = rng.choice([(SP, 8 * rng.randrange(-4, 2)), (X0, 8 * rng.randrange(80, 129)), (T0, 0)])
    if rng.randrange(8) == 0:
        offset += rng.randrange(1, 8)
    form = rng.choice(["ld", "sd"])
    return [f"{form} x{rng.choice(POOL)}, {offset}(x{base})"]


def random_jump(rng):
    distance = rng.choice([8, 8, 8, 12, 16, -8, -16, rng.randrange(-32, 32, 2)])
    a, b = rng.choice(POOL), rng.choice(POOL)
    choices = [f"beq x{a}, x{b}, .{distance:+}", f"jal x{rng.choice(POOL)}, .{distance:+}"]
    choices.append(f"jalr x{rng.choice(POOL)}, {rng.randrange(0x40, 0x90)}(x0)")
    return [rng.choice(choices)]


def random_arithmetic(rng):
    d, a, b = (rng.choice(POOL) for _ in range(3))
    texts = [f"{form} x{d}, x{a}, x{b}" for form in OPERATIONS]
    texts += [f"addi x{d}, x{a}, {rng.choice([1, -1, 8, -8, rng.randrange(-2048, 2048)])}"] * 3
    texts += [f"lui x{d}, {rng.choice([0x80000, 0xFFFFF, 1, rng.getrandbits(20)])}"]
    return [rng.choice(texts)]


def telling(register):
    """Leaves with a register's value, which is then printed."""
    return ["li a7, EXIT", f"mv a0, {register}", "ecall"]


def random_texts(rng):
    texts = [f"li x{n}, {rng.choice(PLACES + SIZES)}" for n in POOL[2:] if rng.randrange(5)]
    for _ in range(rng.randrange(3, 12)):
        kinds = [random_call, random_access, random_access, random_jump, random_arithmetic, random_arithmetic]
        texts += rng.choice(kinds)(rng)
    return texts + (LEAVE if rng.randrange(3) else [])


# --- random programs that loop and that change their own code ---


def random_loop(rng):
    """A body so many times over; the body may spoil the count."""
    body = [text for _ in range(rng.randrange(1, 4)) for text in rng.choice([random_access, random_arithmetic, random_call])(rng)]
    back = 4 * (len(body) + 2)
    return [f"li s0, {rng.choice([1, 2, 3, 5, 9])}", *body, "addi s0, s0, -1", "beq s0, x0, .+8", f"jal x0, .-{back}"]


def random_patch(rng, address):
    """A word of the code is written anew: moved, changed by one bit, cleared, filled with two calls, or made uninitialised."""
    source, target = (address // 8 * 8 + 8 * rng.randrange(16) for _ in range(2))
    changes = [[], ["addi t0, t0, 128"], ["li t0, 0"], ["li t0, 115"], ["add t0, t0, t0"], ["lui t0, 16", "sub t0, t0, s1"]]
    return [f"ld t0, {source}(x0)", *rng.choice(changes), f"sd {rng.choice(['t0', 't0', 't0', 't3'])}, {target}(x0)"]


def varied_texts(rng, address):
    """Straight parts, jumps, loops and patches, for code at this address; most tell a register at the end."""
    texts = [f"li x{n}, {rng.choice(PLACES + SIZES)}" for n in POOL[2:] if rng.randrange(6)]
    for _ in range(rng.randrange(2, 7)):
        kinds = [random_call, random_access, random_jump, random_arithmetic, random_loop, lambda r: random_patch(r, address)]
        texts += rng.choice(kinds)(rng)
    return texts + rng.choice([telling(f"x{rng.choice(POOL)}")] * 4 + [LEAVE, []])


# --- random programs that write ---


def write(buffer, size):
    return ["li a7, WRITE", "li a0, 1", f"li a1, {buffer}", f"li a2, {size}", "ecall"]


PRINTED_AT = 0x280


def printed_data(rng):
    return PRINTED_AT, b"".join(random_word(rng).to_bytes(8, "little") for _ in range(rng.randrange(3, 8)))


def random_write(rng):
    """Most often from such data, now and then from anywhere."""
    buffer = rng.choice([PRINTED_AT + rng.randrange(40)] * 8 + [rng.choice(PLACES)])
    return write(buffer, rng.choice(SIZES))


def printing_texts(rng):
    """Writes with something else after each of them."""
    texts = [f"li x{n}, {rng.choice(PLACES + SIZES)}" for n in POOL[2:] if rng.randrange(5)]
    for _ in range(rng.randrange(1, 5)):
        kinds = [random_call, random_access, random_jump, random_arithmetic, random_arithmetic, random_loop]
        texts += random_write(rng) + rng.choice(kinds)(rng)
    return texts + rng.choice([LEAVE, LEAVE, random_write(rng) + LEAVE, telling("a0"), []])
