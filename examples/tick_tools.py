"""What the tools of this folder share: how they read arguments, records and scripts, and how they end."""
import argparse
import csv
import os
import pathlib
import re
import signal
import sys

TOP = pathlib.Path(__file__).resolve().parent.parent
PROGRAM = pathlib.Path(os.environ.get("TICK") or TOP / "crates" / "tick_program" / "out" / "tick_program").absolute()
sys.path.append(str(TOP / "bench"))
csv.field_size_limit(sys.maxsize)


class Ended(Exception):
    """A tool cannot go on: why, and the status with which it ends."""

    def __init__(self, why, status=1):
        super().__init__(why, status)


class Arguments(argparse.ArgumentParser):
    """The arguments of a tool, which its head tells about. A wrong one is answered with one line."""

    def __init__(self, about):
        super().__init__(description=about, allow_abbrev=False)

    def format_help(self):
        return self.description

    def error(self, message):
        raise Ended(f"{message}; see --help", 2)


def run(main, closed_pipe_is_told=True):
    """Runs a tool to its end. What stops it is told in one line on standard error. An interrupt ends it quietly, and so does a closed pipe where it is not
    to be told."""
    if not closed_pipe_is_told:
        signal.signal(signal.SIGPIPE, signal.SIG_DFL)
    signal.signal(signal.SIGINT, signal.SIG_DFL)
    status, why = 1, None
    try:
        if sys.stdout is None:
            raise Ended("standard output is closed")
        sys.stdout.reconfigure(encoding="utf-8", errors="backslashreplace")
        status = main() or 0
        sys.stdout.flush()
    except Ended as ended:
        why, status = ended.args
    except BrokenPipeError:
        why = "standard output is a closed pipe"
    except OSError as failed:
        why = f"{failed.filename or 'standard input or output'}: {failed.strerror}"
    except UnicodeDecodeError:
        why = "the input is not UTF-8"
    except csv.Error as refused:
        why = f"the input is no table of records: {refused}"
    tell(why)
    os._exit(status)


def tell(why):
    """Writes a line, or none, on standard error, behind what was written before."""
    try:
        sys.stdout.flush()
    except (AttributeError, OSError):
        pass
    if why is not None and sys.stderr:
        print(f"{pathlib.Path(sys.argv[0]).name}: {why}", file=sys.stderr, flush=True)


def built(program=PROGRAM):
    """A program that is there."""
    if not os.access(program, os.X_OK) or program.is_dir():
        raise Ended(f"{program} is no program: build it by `rt run` in crates/tick_program, or name another by TICK in the environment")
    return program


def opened(file, errors="strict"):
    """A file of records, by its name, or by its number where it is open."""
    return open(file, encoding="utf-8-sig", errors=errors, newline="")


def records(lines):
    """The records of lines, each with the numbers of its first and its last line. An empty line is no record."""
    reader, before = csv.reader(lines), 0
    for fields in reader:
        if fields:
            yield before + 1, reader.line_num, fields
        before = reader.line_num


def records_of(file):
    """The records of a file, with their lines. It is UTF-8."""
    try:
        with opened(file) as lines:
            yield from records(lines)
    except (UnicodeDecodeError, csv.Error) as refused:
        raise Ended(f"{file}: {'the file is not UTF-8' if isinstance(refused, UnicodeDecodeError) else refused}") from None


def printed(fields):
    """A record as the program prints it."""
    texts = map(str, fields)
    return ",".join('"' + it.replace('"', '""') + '"' if re.search('[,"\r\n]', it) else it for it in texts)


def read_script(name):
    """What a script defines, as the reader of the rules in bench/expected has it."""
    from expected import script

    try:
        return script.read_script(pathlib.Path(name).read_bytes())
    except script.ScriptFault as refused:
        line, kind = refused.args
        raise Ended(f"{name}:{line}: the script is refused as {kind}") from None
