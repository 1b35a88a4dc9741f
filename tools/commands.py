"""What the tools that a user calls share: exit statuses, and reads and writes whose failure is told.

Exit statuses: 0 done; 1 a mistake in the input, or a file that could not be read or written; 2 wrong usage, or something is
missing that is needed to run.
"""
import argparse
import os
import stat
import sys

MISTAKE, CANNOT_RUN = 1, 2
EXIT_STATUSES = "exit status: 0 done; 1 a mistake in the input, or a file that could not be read or written; 2 wrong usage"


class Mistake(Exception):
    """What is wrong with the input, in words for the user."""


class WrongUsage(Exception):
    """What is wrong with the command line."""


class Parser(argparse.ArgumentParser):
    def error(self, message):
        raise WrongUsage(f"{message} (--help says more)")

    def print_help(self, file=None):
        write_output(self.format_help().encode())


def leave(status, message):
    print(f"{os.path.basename(sys.argv[0])}: {message}", file=sys.stderr)
    sys.exit(status)


def need_to_run(condition, message):
    if not condition:
        leave(CANNOT_RUN, message)


def run(main):
    """Runs a tool; what goes wrong is told in a line."""
    try:
        main()
    except Mistake as mistake:
        leave(MISTAKE, mistake)
    except WrongUsage as wrong:
        leave(CANNOT_RUN, wrong)


def read_file(name):
    try:
        with open(name, "rb") as file:
            return file.read()
    except (OSError, ValueError) as error:  # a name with a zero byte is a ValueError
        raise Mistake(f"{name}: {getattr(error, 'strerror', error)}") from None


def read_input():
    try:
        with open(0, "rb", closefd=False) as file:
            return file.read()
    except OSError as error:
        raise Mistake(f"standard input: {error.strerror}") from None


def write_output(content):
    """Past Python's own buffer, which would be written once more when the tool ends."""
    try:
        while content:
            content = content[os.write(1, content):]
    except OSError as error:
        raise Mistake(f"standard output: {error.strerror}") from None


def write_file(name, content):
    """Whole or not at all: beside the file, and then moved there. What is no file, such as a device, is written as it is."""
    try:
        if name.startswith("/dev/") or os.path.exists(name) and not os.path.isfile(name):
            with open(name, "wb") as file:
                file.write(content)
        else:
            replace_file(os.path.realpath(name), content)
    except (OSError, ValueError) as error:
        raise Mistake(f"{name}: {getattr(error, 'strerror', error)}") from None


def replace_file(name, content):
    aside = f"{name}.{os.getpid()}.aside"
    try:
        with open(aside, "xb") as file:
            file.write(content)
        if os.path.exists(name):
            os.chmod(aside, stat.S_IMODE(os.stat(name).st_mode))
        os.replace(aside, name)
    except BaseException:
        if os.path.exists(aside):
            os.remove(aside)
        raise
