"""How the tools end: one status for each meaning, as README.md's table of statuses has them, and never with a traceback."""

import argparse
import os
import re
import signal
import sys

DONE, NOT_AS_ASKED, NO_SCENARIO, NOT_READ, NOT_WRITTEN, NO_MEMORY = range(6)
# What the disks have is no journal, or a damaged one; an audit says no; and the program isn't there.
NO_JOURNAL, NOT_LEGAL, NO_PROGRAM = 7, 8, 9


class End(Exception):
    """The tool ends here: with this status, and this text on standard error."""

    def __init__(self, status, text):
        super().__init__(text)
        self.status = status


class Parser(argparse.ArgumentParser):
    """The words of a tool, whose help is its module's text. Wrong words end it as they end the program."""

    def __init__(self, text, **more):
        super().__init__(description=text, formatter_class=argparse.RawDescriptionHelpFormatter, **more)

    def error(self, message):
        raise End(NOT_AS_ASKED, f"{message}; --help tells the words")

    def _print_message(self, message, file=None):
        if message:
            write(message)


def number_to(most, least=0):
    """What reads a word that is a whole number, this at most."""
    def number(text):
        if not re.fullmatch("[0-9]{1,20}", text) or not least <= int(text) <= most:
            raise argparse.ArgumentTypeError(f"{text!r}: wants a whole number {f'from {least} ' if least else ''}to {most}")
        return int(text)

    return number


def name_of(path):
    return "standard input" if path in (None, "-") else path


def bytes_of(path):
    """What a file has, or standard input where none is named."""
    try:
        with open(0 if path in (None, "-") else path, "rb") as source:
            return source.read()
    except (OSError, ValueError) as fault:
        raise End(NOT_READ, f"{name_of(path)}: {getattr(fault, 'strerror', None) or fault}") from None


def text_of(path):
    """That as text, in UTF-8."""
    data = bytes_of(path)
    try:
        return data.decode()
    except UnicodeDecodeError as wrong:
        line = data[: wrong.start].count(b"\n") + 1
        raise End(NO_SCENARIO, f"{name_of(path)}, line {line}: wants text in UTF-8") from None


def write(text):
    """Writes to standard output. A reader that is gone wants to hear of nothing."""
    try:
        sys.stdout.write(text)
        sys.stdout.flush()
    except BrokenPipeError:
        raise End(NOT_WRITTEN, "") from None
    except (OSError, AttributeError) as fault:
        reason = getattr(fault, "strerror", None) or "it is closed"
        raise End(NOT_WRITTEN, f"standard output could not be written to its end: {reason}") from None


def write_file(path, text):
    try:
        with open(path, "w", encoding="utf-8") as file:
            file.write(text)
    except OSError as fault:
        raise End(NOT_WRITTEN, f"{path}: {fault.strerror}") from None


def say(text):
    """Writes a line to standard error, where that can be written."""
    try:
        print(text, file=sys.stderr, flush=True)
    except (OSError, AttributeError):
        pass


def leave(status):
    """Ends the process. What standard output still holds has been given up."""
    try:
        sys.stdout.flush()
    except (OSError, AttributeError, ValueError):
        os.dup2(os.open(os.devnull, os.O_WRONLY), 1)
    sys.exit(status)


def run(main):
    """Runs a tool, whose `main` gives its status or None."""
    name = os.path.basename(sys.argv[0])
    name = name[:-3] if name.endswith(".py") else name
    try:
        status = main() or DONE
    except End as end:
        status = end.status
        if str(end):
            say("\n".join(f"{name}: {line}" if at == 0 else line for at, line in enumerate(str(end).split("\n"))))
    except MemoryError:
        status = NO_MEMORY
        say(f"{name}: out of memory")
    except KeyboardInterrupt:
        signal.signal(signal.SIGINT, signal.SIG_DFL)
        os.kill(os.getpid(), signal.SIGINT)
    leave(status)
