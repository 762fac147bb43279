"""The words of the command."""
import dataclasses
import os
import re

OPTIONS = {"workers": (1, 64), "callers": (0, 16), "snaps": (0, 64), "attempts": (0, 16), "every": (1, 100_000)}
DEFAULTS = {"workers": 1, "callers": 0, "snaps": 0, "attempts": 2, "every": 1}
BESIDE = ("workers", "callers", "snaps", "attempts")
# The options of each command, and the range of each of its positional words, or `None` where it is a text.
COMMANDS = {
    "run": (BESIDE, (None, None)),
    "demo": (BESIDE, ((0, 10_000),)),
    "watch": (("workers", "every"), (None, None, None, (0, 4_194_303), (1, 4_194_304))),
}


class NoCommand(Exception):
    """The words are of no command."""


@dataclasses.dataclass
class Command:
    """A command with its positional words, of which those with a range are numbers, and with all options."""

    name: str
    positional: list
    options: dict


def number(word, allowed):
    """The number that a word is, which is to be in a range."""
    least, most = allowed
    if not re.fullmatch(r"[0-9]{1,9}", word) or not least <= int(word) <= most:
        raise NoCommand
    return int(word)


def is_positional(word):
    """A word that does not begin with `-`, or is `-` alone."""
    return not word.startswith("-") or word == "-"


def taken_apart(words):
    """The positional words, and the pairs of the name and the value of an option."""
    positional, options, left = [], [], list(words)
    while left:
        word = left.pop(0)
        if is_positional(word):
            positional.append(word)
        elif word == "--":
            return positional + left, options
        elif not word.startswith("--"):
            raise NoCommand
        elif "=" in word:
            options.append(tuple(word[2:].split("=", 1)))
        elif left and is_positional(left[0]):
            options.append((word[2:], left.pop(0)))
        else:
            raise NoCommand
    return positional, options


def command(words):
    """The command of these words, which are bytes, or `None`."""
    try:
        name, *later = [word.decode() for word in words] or [""]
        if name not in COMMANDS:
            return None
        allowed, ranges = COMMANDS[name]
        positional, options = taken_apart(later)
        names = [option for option, _ in options]
        if len(positional) != len(ranges) or len(set(names)) != len(names) or not set(names) <= set(allowed):
            return None
        numbers = {option: number(value, OPTIONS[option]) for option, value in options}
        return Command(name, [number(word, it) if it else word for word, it in zip(positional, ranges)], DEFAULTS | numbers)
    except (NoCommand, UnicodeDecodeError):
        return None
