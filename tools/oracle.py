"""The oracle (oracle/): the Rust, src/engine/rarity_simulation.rs of cksystemsgroup/monster, with four stand-ins, as a program."""
import os
import re
import subprocess

from commands import need_to_run
from lists import CRATES
from model import BUGS, HEADER

ORACLE = os.path.join(os.path.dirname(CRATES), "oracle", "target", "release", "oracle")

# Its exit status for a sheet that is outside the comparison, and what it says where that is so for a buffer that ends where memory ends.
OUTSIDE, BUFFER_AT_END = 3, b"buffer ends with memory"
SECONDS = 60

# The Rust does not know in which round a row's line was begun, so its rows have a word less before their registers. Of what is printed it
# has not the second line where the first tells of a bug, nor the last of the digests of a store.
RUST_HEADER = HEADER - 1
BORN_LINE = re.compile(rf"\A(answer (?:{'|'.join(map(str, BUGS))}) .*\n)born \d+\n")
BORNS_LINE = re.compile(r"(?<=\n)borns [0-9a-f]{16}\n\Z")


def known_to_the_rust(printed):
    """What is printed, without these two lines; where they stand otherwise they are left."""
    return BORNS_LINE.sub("", BORN_LINE.sub(r"\1", printed))


def is_bug(printed):
    return printed.startswith(tuple(f"answer {number} " for number in BUGS))


def with_rounds(rust, sheet, model):
    """What has to be printed where the Rust prints this: what the model does, which has to be the same but for these two lines."""
    modelled = model(sheet)
    return modelled if known_to_the_rust(modelled) == rust else rust


def need_oracle():
    need_to_run(os.path.exists(ORACLE), "the oracle is not built: cargo build --release in oracle/")


def run_on(command, sheet, seconds=SECONDS):
    return subprocess.run(command, input=sheet, capture_output=True, timeout=seconds)


def told(done):
    return done.stdout if done.returncode == 0 else f"exit status {done.returncode}\n".encode()


def told_by(command, sheet, seconds=SECONDS):
    """What a command prints for a sheet, or why it prints nothing."""
    try:
        return told(run_on(command, sheet, seconds))
    except subprocess.TimeoutExpired:
        return b"nothing in time\n"


def ask(sheet, *options):
    return run_on([ORACLE, *options], sheet)


def met_the_end(done):
    """Whether the oracle left a sheet out since a buffer ends exactly where memory ends."""
    return done.returncode == OUTSIDE and BUFFER_AT_END in done.stderr
